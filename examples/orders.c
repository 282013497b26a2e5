/*
 * Readings and orders (docs/HOST.md): runs the rule `plan` of examples/rules/orders.voo, supplies what is in each bath
 * and takes its orders. A call to an imported function pauses the run with its number and its arguments; the host does
 * what it asks and goes on with one word.
 *
 *     orders FILE
 */
#include "voodoo.h"

#include <inttypes.h>
#include <stdbool.h>
#include <stdio.h>
#include <string.h>

enum { BATH, ORDER, HOSTS };    /* numbers: places in the host's list */
enum { BATHS = 3, BUDGET = 1000, TURNS = 1000 };

static const uint32_t hosts[HOSTS * VOODOO_HOST_ROW] = {4, 1, 5, 2}; /* bytes of the name, arguments */
static const char host_names[HOSTS][VOODOO_NAME_ROW] = {"bath", "order"};

static const uint32_t levels[BATHS] = {480, 500, 120};

static uint8_t source[VOODOO_SOURCE_BYTES + 1];
static uint32_t tokens[VOODOO_TOKEN_WORDS], statements[VOODOO_STATEMENT_WORDS], labels[VOODOO_LABEL_WORDS];
static uint8_t names[VOODOO_NAME_BYTES], data[VOODOO_DATA_BYTES];
static uint32_t checked[VOODOO_RESULT_WORDS];
static uint32_t record[VOODOO_RECORD_WORDS], stack[VOODOO_STACK_WORDS], result[VOODOO_RESULT_WORDS];
static uint8_t memory[VOODOO_MEMORY_BYTES];

static bool check(const char *path)
{
    FILE *file = fopen(path, "rb");
    if (file == NULL)
        return false;
    size_t size = fread(source, 1, sizeof source, file);
    fclose(file);
    return voodoo_check(source, size, hosts, HOSTS * VOODOO_HOST_ROW, (const uint8_t *)host_names, sizeof host_names, tokens,
                        VOODOO_TOKEN_WORDS, statements, VOODOO_STATEMENT_WORDS, labels, VOODOO_LABEL_WORDS, names,
                        VOODOO_NAME_BYTES, data, VOODOO_DATA_BYTES, checked, VOODOO_RESULT_WORDS) == VOODOO_ACCEPTED;
}

static uint32_t start(const char *name, const uint32_t *arguments, size_t count)
{
    return voodoo_start(statements, VOODOO_STATEMENT_WORDS, checked[VOODOO_STATEMENTS], labels, VOODOO_LABEL_WORDS,
                        checked[VOODOO_LABELS], names, VOODOO_NAME_BYTES, checked[VOODOO_DATA], data, VOODOO_DATA_BYTES,
                        (const uint8_t *)name, strlen(name), arguments, count, record, VOODOO_RECORD_WORDS, stack,
                        VOODOO_STACK_WORDS, memory, VOODOO_MEMORY_BYTES, result, VOODOO_RESULT_WORDS);
}

static uint32_t run(void)
{
    return voodoo_run(statements, VOODOO_STATEMENT_WORDS, checked[VOODOO_STATEMENTS], labels, VOODOO_LABEL_WORDS,
                      checked[VOODOO_LABELS], names, VOODOO_NAME_BYTES, checked[VOODOO_DATA], BUDGET, record,
                      VOODOO_RECORD_WORDS, stack, VOODOO_STACK_WORDS, memory, VOODOO_MEMORY_BYTES, result,
                      VOODOO_RESULT_WORDS);
}

static uint32_t resume(uint32_t word)
{
    return voodoo_resume(statements, VOODOO_STATEMENT_WORDS, checked[VOODOO_STATEMENTS], labels, VOODOO_LABEL_WORDS,
                         checked[VOODOO_LABELS], names, VOODOO_NAME_BYTES, checked[VOODOO_DATA], word, record,
                         VOODOO_RECORD_WORDS, stack, VOODOO_STACK_WORDS, memory, VOODOO_MEMORY_BYTES, result,
                         VOODOO_RESULT_WORDS);
}

/* What the rule asks for: the number of an imported function, and its arguments. */
static uint32_t answer(uint32_t number, const uint32_t *arguments)
{
    uint32_t bath = arguments[0];
    if (number == ORDER) {
        printf("order %" PRIu32 " for bath %" PRIu32 "\n", arguments[1], bath);
        return 0;
    }
    uint32_t level = bath < BATHS ? levels[bath] : 0;
    printf("bath %" PRIu32 " holds %" PRIu32 "\n", bath, level);
    return level;
}

int main(int count, char **words)
{
    static const uint32_t arguments[] = {500};
    if (count != 2 || !check(words[1]) || start("plan", arguments, 1) != 0) {
        fputs("orders: no file of rules with the exported function `plan`\n", stderr);
        return 1;
    }
    uint32_t number = 0;
    for (int turn = 0; turn < TURNS && number == 0 && result[VOODOO_OUTCOME] != VOODOO_OUTCOME_FINISHED; turn++) {
        if (result[VOODOO_OUTCOME] == VOODOO_OUTCOME_PAUSED)
            number = resume(answer(result[VOODOO_WORD], record + VOODOO_ARGUMENTS));
        else
            number = run();
    }
    if (number != 0 || result[VOODOO_OUTCOME] != VOODOO_OUTCOME_FINISHED)
        return 1;
    printf("%" PRId32 " ordered\n", (int32_t)result[VOODOO_WORD]);
    return fflush(stdout) == 0 ? 0 : 1;
}
