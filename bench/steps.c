/*
 * Runs `bench` of a file of rules on the proved runner and on the hand-written interpreter of plain.c, and compares their
 * answers, counts, stacks and memories:
 *
 *     steps FILE N     prints the word, the steps, and nanoseconds a step of the runner, of the interpreter, and of the
 *                      interpreter without the tests for 35 (best of 3 or more, processor time)
 */
#define _POSIX_C_SOURCE 200809L
#include "plain.h"
#include "voodoo.h"

#include <stdio.h>
#include <stdlib.h>
#include <string.h>
#include <time.h>

enum { RUNS = 3 };

static uint8_t source[VOODOO_SOURCE_BYTES + 1];
static uint32_t tokens[VOODOO_TOKEN_WORDS];
static uint32_t statements[VOODOO_STATEMENT_WORDS];
static uint32_t labels[VOODOO_LABEL_WORDS];
static uint8_t names[VOODOO_NAME_BYTES];
static uint8_t data[VOODOO_DATA_BYTES];
static uint32_t checked[VOODOO_RESULT_WORDS];

static uint32_t record[VOODOO_RECORD_WORDS];
static uint32_t stack[2][VOODOO_STACK_WORDS];
static uint8_t memory[2][VOODOO_MEMORY_BYTES];
static uint32_t result[VOODOO_RESULT_WORDS];

static void fail(const char *what)
{
    fprintf(stderr, "bench: %s\n", what);
    exit(2);
}

static double seconds(void)
{
    struct timespec t;
    clock_gettime(CLOCK_PROCESS_CPUTIME_ID, &t);
    return (double)t.tv_sec + (double)t.tv_nsec / 1e9;
}

static void check(const char *path)
{
    FILE *file = fopen(path, "rb");
    if (file == NULL)
        fail(path);
    size_t size = fread(source, 1, sizeof source, file);
    fclose(file);
    if (voodoo_check(source, size, NULL, 0, NULL, 0, tokens, VOODOO_TOKEN_WORDS, statements, VOODOO_STATEMENT_WORDS, labels, VOODOO_LABEL_WORDS,
                     names, VOODOO_NAME_BYTES, data, VOODOO_DATA_BYTES, checked, VOODOO_RESULT_WORDS) != 0)
        fail("the rules are refused");
}

/* Seconds of one run, and its count. */
static double proved(uint32_t n, uint64_t *count)
{
    static const uint8_t name[] = {'b', 'e', 'n', 'c', 'h'};
    if (voodoo_start(statements, VOODOO_STATEMENT_WORDS, checked[VOODOO_STATEMENTS], labels, VOODOO_LABEL_WORDS,
                     checked[VOODOO_LABELS], names, VOODOO_NAME_BYTES, checked[VOODOO_DATA], data, VOODOO_DATA_BYTES, name,
                     sizeof name, &n, 1, record, VOODOO_RECORD_WORDS, stack[0], VOODOO_STACK_WORDS, memory[0],
                     VOODOO_MEMORY_BYTES, result, VOODOO_RESULT_WORDS) != 0)
        fail("the start is refused");
    double before = seconds();
    if (voodoo_run(statements, VOODOO_STATEMENT_WORDS, checked[VOODOO_STATEMENTS], labels, VOODOO_LABEL_WORDS,
                   checked[VOODOO_LABELS], names, VOODOO_NAME_BYTES, checked[VOODOO_DATA], UINT64_MAX, record,
                   VOODOO_RECORD_WORDS, stack[0], VOODOO_STACK_WORDS, memory[0], VOODOO_MEMORY_BYTES, result,
                   VOODOO_RESULT_WORDS) != 0)
        fail("the run stops");
    *count = voodoo_count(result);
    return seconds() - before;
}

typedef uint64_t plain_runner(const struct program *p, struct run *r, uint64_t budget);

/* plain.c without the tests for 35 */
plain_runner plain_run_untested;

static double plain(plain_runner *run, uint32_t function, uint32_t n, struct run *r, uint64_t *count)
{
    struct program p = {statements, checked[VOODOO_STATEMENTS], checked[VOODOO_DATA]};
    r->stack = stack[1];
    r->stack_words = VOODOO_STACK_WORDS;
    r->memory = memory[1];
    r->memory_bytes = VOODOO_MEMORY_BYTES;
    memcpy(memory[1], data, checked[VOODOO_DATA]);
    plain_start(&p, r, function, &n);
    double before = seconds();
    *count = run(&p, r, UINT64_MAX);
    return seconds() - before;
}

static uint32_t exported(void)
{
    for (uint32_t i = 0; i < checked[VOODOO_LABELS]; i++)
        if (labels[i * VOODOO_LABEL_ROW] == 4)
            return labels[i * VOODOO_LABEL_ROW + 1];
    fail("nothing is exported");
    return 0;
}

int main(int count, char **words)
{
    if (count != 3)
        fail("usage: steps FILE N");
    check(words[1]);
    uint32_t n = (uint32_t)strtoul(words[2], NULL, 10);
    double best[3] = {1e9, 1e9, 1e9};
    for (int i = 0; i < RUNS; i++) {
        for (int way = 1; way <= 2; way++) {
            uint64_t steps[2];
            struct run r;
            memset(memory, 0, sizeof memory);
            memset(stack, 0, sizeof stack);
            double a = proved(n, &steps[0]);
            double b = plain(way == 1 ? plain_run : plain_run_untested, exported(), n, &r, &steps[1]);
            if (steps[0] != steps[1] || r.state != PLAIN_FINISHED || r.value != result[VOODOO_WORD] ||
                memcmp(stack[0], stack[1], sizeof stack[0]) != 0 || memcmp(memory[0], memory[1], sizeof memory[0]) != 0)
                fail("the two differ");
            best[0] = a / (double)steps[0] < best[0] ? a / (double)steps[0] : best[0];
            best[way] = b / (double)steps[1] < best[way] ? b / (double)steps[1] : best[way];
        }
    }
    printf("%u %llu %.2f %.2f %.2f\n", (unsigned)result[VOODOO_WORD], (unsigned long long)voodoo_count(result), best[0] * 1e9,
           best[1] * 1e9, best[2] * 1e9);
    return 0;
}
