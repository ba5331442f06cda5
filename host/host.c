/* A bench host: answers some list files that it holds, and one that is refused. */
#include "analysis.h"

#include <stdio.h>
#include <string.h>

static void answer(const char *what, const char *text) {
    static uint8_t place[ANALYSIS_LEAST_ANSWER];
    uint64_t told = analyse_file((const uint8_t *)text, strlen(text), place, sizeof place);
    printf("%s\n", what);
    if (analysis_number(told) == 0)
        fwrite(place, 1, (size_t)told, stdout);
    else
        printf("refused: number %u, line %u, field %u\n", analysis_number(told), analysis_line(told), analysis_field(told));
}

int main(void) {
    answer("a misfit", "S,P,2,1\nM,1,2,0,0\nM,1,2,0,0\nM,1,2,0,1\nE,3\n");
    answer("generated", "S,B,1,3\nM,0\nM,0\nM,1\nM,1\nM,0\nM,1\nM,1\nE,7\n");
    answer("still running", "S,Y,1,1\nM,1\nE,1\n");
    answer("a bound that is insufficient", "S,B,2,1\nM,1,0,0,1\nE,1\n");
    answer("a code that is none of the ring's", "S,P,2,1\nM,1,2,0,101\nE,1\n");
    answer("words that wrap", "S,W,1,0\nE,0\n");
    return 0;
}
