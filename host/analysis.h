/* The analyser of list files, for a host that links libanalysis.a. */
#ifndef ANALYSIS_H
#define ANALYSIS_H

#include <stddef.h>
#include <stdint.h>

/* The least place for an answer, in bytes. Every answer goes into it. */
#define ANALYSIS_LEAST_ANSWER 2048

/* Reads a list file of file_length bytes and writes what was found into the answer's place, which has answer_length bytes.
   Answers the number of bytes written; or, where the file is refused, number * 2^32 + line * 2^8 + field, and then the place is as it was.
   Bytes behind those written are as they were. Nothing is kept between calls, and nothing is allocated; about 130 KiB of stack are used. */
uint64_t analyse_file(const uint8_t *file, size_t file_length, uint8_t *answer, size_t answer_length);

/* A refusal is told from a byte count by its number, which is not 0. */
static inline uint32_t analysis_number(uint64_t answer) { return (uint32_t)(answer >> 32); }

/* The line of a refusal, 0 for one of the whole file. */
static inline uint32_t analysis_line(uint64_t answer) { return (uint32_t)answer >> 8; }

/* The field of a refusal, 0 for one of the whole file. */
static inline uint32_t analysis_field(uint64_t answer) { return (uint32_t)answer & 255; }

#endif
