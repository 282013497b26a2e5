/*
 * Keeps counts between starts (docs/HOST.md): takes 500 millilitres of reagent 0 three times by the rule `take` of
 * examples/rules/bath.voo and prints what each call gave. A start writes the data again, so the bytes of the exported
 * `stock` are saved behind each run and copied back behind the next start.
 *
 *     keep FILE
 */
#include "voodoo.h"

#include <inttypes.h>
#include <stdbool.h>
#include <stdio.h>
#include <string.h>

enum { STOCK_BYTES = 3 * 4, TIMES = 3, BUDGET = 100000 };

static uint8_t source[VOODOO_SOURCE_BYTES + 1];
static uint32_t tokens[VOODOO_TOKEN_WORDS], statements[VOODOO_STATEMENT_WORDS], labels[VOODOO_LABEL_WORDS];
static uint8_t names[VOODOO_NAME_BYTES], data[VOODOO_DATA_BYTES];
static uint32_t checked[VOODOO_RESULT_WORDS];
static uint32_t record[VOODOO_RECORD_WORDS], stack[VOODOO_STACK_WORDS], result[VOODOO_RESULT_WORDS];
static uint8_t memory[VOODOO_MEMORY_BYTES];

static bool check(const char *path)
{
    FILE *file = fopen(path, "rb");
    if (file == NULL)
        return false;
    size_t size = fread(source, 1, sizeof source, file);
    fclose(file);
    return voodoo_check(source, size, NULL, 0, NULL, 0, tokens, VOODOO_TOKEN_WORDS, statements, VOODOO_STATEMENT_WORDS,
                        labels, VOODOO_LABEL_WORDS, names, VOODOO_NAME_BYTES, data, VOODOO_DATA_BYTES, checked,
                        VOODOO_RESULT_WORDS) == VOODOO_ACCEPTED;
}

/* The exported data of that name: its first byte in memory. */
static bool find_data(const char *name, uint32_t *address)
{
    for (uint32_t i = 0; i < checked[VOODOO_LABELS]; i++) {
        const uint32_t *row = labels + i * VOODOO_LABEL_ROW; /* kind, address, 0, length of the name */
        if (row[0] == 2 && row[3] == strlen(name) && memcmp(names + i * VOODOO_NAME_ROW, name, row[3]) == 0) {
            *address = row[1];
            return true;
        }
    }
    return false;
}

static uint32_t start(const char *name, const uint32_t *arguments, size_t count)
{
    return voodoo_start(statements, VOODOO_STATEMENT_WORDS, checked[VOODOO_STATEMENTS], labels, VOODOO_LABEL_WORDS,
                        checked[VOODOO_LABELS], names, VOODOO_NAME_BYTES, checked[VOODOO_DATA], data, VOODOO_DATA_BYTES,
                        (const uint8_t *)name, strlen(name), arguments, count, record, VOODOO_RECORD_WORDS, stack,
                        VOODOO_STACK_WORDS, memory, VOODOO_MEMORY_BYTES, result, VOODOO_RESULT_WORDS);
}

static uint32_t run(void)
{
    return voodoo_run(statements, VOODOO_STATEMENT_WORDS, checked[VOODOO_STATEMENTS], labels, VOODOO_LABEL_WORDS,
                      checked[VOODOO_LABELS], names, VOODOO_NAME_BYTES, checked[VOODOO_DATA], BUDGET, record,
                      VOODOO_RECORD_WORDS, stack, VOODOO_STACK_WORDS, memory, VOODOO_MEMORY_BYTES, result,
                      VOODOO_RESULT_WORDS);
}

int main(int count, char **words)
{
    static const uint32_t arguments[] = {0, 500};
    uint8_t kept[STOCK_BYTES];
    uint32_t stock;
    if (count != 2 || !check(words[1]) || !find_data("stock", &stock)) {
        fputs("keep: no file of rules with the exported data `stock`\n", stderr);
        return 1;
    }
    for (int i = 0; i < TIMES; i++) {
        if (start("take", arguments, 2) != 0)
            return 1;
        if (i > 0)
            memcpy(memory + stock, kept, STOCK_BYTES); /* over the data that the start has written */
        if (run() != 0 || result[VOODOO_OUTCOME] != VOODOO_OUTCOME_FINISHED)
            return 1;
        memcpy(kept, memory + stock, STOCK_BYTES);
        printf("%" PRId32 "\n", (int32_t)result[VOODOO_WORD]);
    }
    return fflush(stdout) == 0 ? 0 : 1;
}
