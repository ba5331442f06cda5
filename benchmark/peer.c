/* The run of docs/runs.md in plain C. It reads and prints what the program timing does, and is timed beside it. */
#include <stdint.h>
#include <stdio.h>
#include <stdlib.h>
#include <string.h>

enum { SIZE = 4, BOUND = 64, COUNT = 2 * BOUND, COEFFICIENTS = COUNT + 2 };

/* The coefficients of a column, from the constant one on. */
typedef struct {
    uint32_t at[COEFFICIENTS][SIZE];
    int degree;
} Column;

typedef struct {
    int size, bound, count;
    uint32_t matrix[COUNT][SIZE][SIZE];
    Column generator[SIZE], auxiliary[SIZE];
} Run;

typedef enum { SHORT, RUNNING, SETTLED } Phase;

static uint32_t inverses[101];

static void fill_inverses(void) {
    for (uint32_t a = 1; a < 101; a++)
        for (uint32_t b = 1; b < 101; b++)
            if (a * b % 101 == 1) inverses[a] = b;
}

/* The ring is a constant wherever these are inlined. */
#define INLINE static inline __attribute__((always_inline))

/* total + a × b */
INLINE uint32_t plus_product(uint32_t ring, uint32_t total, uint32_t a, uint32_t b) {
    return ring == 2 ? total ^ (a & b) : (total + a * b) % 101;
}

INLINE uint32_t product(uint32_t ring, uint32_t a, uint32_t b) { return ring == 2 ? a & b : a * b % 101; }

INLINE uint32_t opposite(uint32_t ring, uint32_t a) { return ring == 2 || a == 0 ? a : 101 - a; }

INLINE uint32_t inverse(uint32_t ring, uint32_t a) { return ring == 2 ? a : inverses[a]; }

static void start(Run *run, int size, int bound) {
    run->size = size;
    run->bound = bound;
    run->count = 0;
    for (int j = 0; j < size; j++) {
        memset(&run->generator[j], 0, sizeof(Column));
        memset(&run->auxiliary[j], 0, sizeof(Column));
        run->generator[j].at[0][j] = 1;
        run->auxiliary[j].degree = 1;
    }
}

static int total_degree(const Run *run) {
    int total = 0;
    for (int j = 0; j < run->size; j++) total += run->generator[j].degree;
    return total;
}

static Phase phase(const Run *run) {
    int total = total_degree(run), greatest = 0, least = run->auxiliary[0].degree;
    for (int j = 0; j < run->size; j++) {
        if (run->generator[j].degree > greatest) greatest = run->generator[j].degree;
        if (run->auxiliary[j].degree < least) least = run->auxiliary[j].degree;
    }
    if (total > run->bound) return SHORT;
    return least + total > run->bound + greatest ? SETTLED : RUNNING;
}

/* Entry i of the column's discrepancy at the last place. The sum of at most 4 × 130 products of codes fits into
   32 bits, so that one remainder at the end suffices. */
INLINE uint32_t entry(uint32_t ring, int size, const Run *run, int i, const Column *column) {
    int last = column->degree < run->count ? column->degree : run->count;
    uint32_t total = 0;
    for (int k = 0; k <= last; k++) {
        const uint32_t *row = run->matrix[run->count - k][i], *f = column->at[k];
        for (int e = 0; e < size; e++) total = ring == 2 ? total ^ (row[e] & f[e]) : total + row[e] * f[e];
    }
    return ring == 2 ? total : total % 101;
}

/* The column loses c times the other, up to the other's degree. */
INLINE void lessen(uint32_t ring, int size, Column *column, uint32_t c, const Column *other) {
    uint32_t minus = opposite(ring, c);
    for (int k = 0; k <= other->degree; k++)
        for (int e = 0; e < size; e++) column->at[k][e] = plus_product(ring, column->at[k][e], minus, other->at[k][e]);
}

/* The column loses c times the other, which becomes what the column was; the degrees change places. */
INLINE void trade(uint32_t ring, int size, Column *column, uint32_t c, Column *other) {
    uint32_t minus = opposite(ring, c);
    int degree = other->degree;
    for (int k = 0; k <= degree; k++)
        for (int e = 0; e < size; e++) {
            uint32_t old = column->at[k][e];
            column->at[k][e] = plus_product(ring, old, minus, other->at[k][e]);
            other->at[k][e] = old;
        }
    other->degree = column->degree;
    column->degree = degree;
}

/* The other becomes a copy of the column; the degrees change places. */
static void copy(Column *column, Column *other) {
    int degree = other->degree;
    memcpy(other->at, column->at, (size_t)(degree + 1) * sizeof column->at[0]);
    other->degree = column->degree;
    column->degree = degree;
}

static void shift(Column *column) {
    memmove(column->at[1], column->at[0], (size_t)(column->degree + 1) * sizeof column->at[0]);
    memset(column->at[0], 0, sizeof column->at[0]);
    column->degree++;
}

INLINE void treat_row(uint32_t ring, int size, Run *run, int i, int *open) {
    Column *auxiliary = &run->auxiliary[i];
    uint32_t entries[SIZE] = {0};
    int best = -1;
    for (int j = 0; j < size; j++) {
        if (open[j]) entries[j] = entry(ring, size, run, i, &run->generator[j]);
        if (entries[j] != 0 && (best < 0 || run->generator[j].degree < run->generator[best].degree)) best = j;
    }
    if (best < 0) return;
    uint32_t pivot_entry = entry(ring, size, run, i, auxiliary);
    if (run->generator[best].degree < auxiliary->degree) {
        uint32_t auxiliary_entry = pivot_entry;
        pivot_entry = entries[best];
        entries[best] = 0;
        if (auxiliary_entry == 0) {
            copy(&run->generator[best], auxiliary);
            open[best] = 0;
        } else {
            uint32_t part = product(ring, pivot_entry, inverse(ring, auxiliary_entry));
            trade(ring, size, &run->generator[best], part, auxiliary);
        }
    }
    uint32_t inverted = inverse(ring, pivot_entry);
    for (int j = 0; j < size; j++)
        if (entries[j] != 0)
            lessen(ring, size, &run->generator[j], product(ring, entries[j], inverted), auxiliary);
}

INLINE void step(uint32_t ring, int size, Run *run, const uint32_t *codes) {
    int open[SIZE] = {1, 1, 1, 1};
    for (int i = 0; i < size; i++)
        for (int e = 0; e < size; e++) run->matrix[run->count][i][e] = codes[i * size + e];
    for (int i = 0; i < size; i++) treat_row(ring, size, run, i, open);
    for (int i = 0; i < size; i++) shift(&run->auxiliary[i]);
    run->count++;
}

static void step_binary(Run *run, const uint32_t *codes) { step(2, run->size, run, codes); }

static void step_mod101(Run *run, const uint32_t *codes) { step(101, run->size, run, codes); }

static int fail(const char *why) {
    fprintf(stderr, "%s\n", why);
    return 1;
}

int main(void) {
    static Run run;
    unsigned ring, size, bound, repeats;
    size_t length = 0, room = 4096;
    uint32_t *codes = malloc(room * sizeof *codes);
    if (codes == NULL) return fail("no memory");
    if (scanf("%u %u %u %u", &ring, &size, &bound, &repeats) != 4) return fail("a number is missing");
    for (uint32_t code; scanf("%u", &code) == 1; codes[length++] = code) {
        if (code >= ring) return fail("an entry is not a code");
        if (length < room) continue;
        uint32_t *more = realloc(codes, (room *= 2) * sizeof *codes);
        if (more == NULL) return fail("no memory");
        codes = more;
    }
    if (ring != 2 && ring != 101) return fail("the ring is neither 2 nor 101");
    if (size < 1 || size > SIZE) return fail("the size is not 1 to 4");
    if (bound > BOUND) return fail("the bound is above 64");
    if (length % (size * size) != 0) return fail("the last matrix is not whole");

    fill_inverses();
    start(&run, 1, 0);
    for (unsigned r = 0; r < repeats; r++) {
        start(&run, (int)size, (int)bound);
        for (size_t at = 0; at < length && phase(&run) == RUNNING; at += size * size) {
            if (ring == 2) step_binary(&run, codes + at);
            else step_mod101(&run, codes + at);
        }
    }

    static const char *const words[] = {"short", "running", "settled"};
    printf("%s %d %d", words[phase(&run)], run.count, total_degree(&run));
    for (unsigned j = 0; j < size; j++) printf(" %d", j < (unsigned)run.size ? run.generator[j].degree : 0);
    printf("\n");
    free(codes);
    return 0;
}
