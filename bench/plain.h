/* A hand-written interpreter of checked tables, to measure against: see plain.c. */
#ifndef PLAIN_H
#define PLAIN_H

#include <stddef.h>
#include <stdint.h>

struct program {
    const uint32_t *statements;
    uint32_t count;
    uint32_t data_length;
};

enum { PLAIN_RUNNING, PLAIN_FINISHED, PLAIN_STOPPED };

struct run {
    uint32_t state, next, frame, used, top;
    uint32_t value; /* finished: the word; stopped: the number */
    uint32_t *stack;
    size_t stack_words;
    uint8_t *memory;
    size_t memory_bytes;
};

/* Begins a run of the function at a statement; its arguments are right. */
void plain_start(const struct program *p, struct run *r, uint32_t function, const uint32_t *arguments);

/* Takes up to `budget` steps and gives their count. Broken tables or records stop with 35. */
uint64_t plain_run(const struct program *p, struct run *r, uint64_t budget);

#endif
