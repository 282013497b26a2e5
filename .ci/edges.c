/*
 * The edges of include/voodoo.h, for the gate: NULL with length 0 for every buffer of every function, records that
 * hold no state, a budget of 0, pauses and goings on with what they leave in the record, lists of the host that are cut
 * or empty, places of bad escapes up to the source's length. Prints what differs and how many calls answered as they
 * must; exit status 1 if one did not.
 */
#include "voodoo.h"

#include <inttypes.h>
#include <stdbool.h>
#include <stdio.h>
#include <string.h>

/* statement 1 pauses, 2 returns the word handed in */
static const char text[] =
    "section functions\nimport bath\nexport f\nf: function\nlet x call bath 5 6\nreturn x\nend function\n";
enum { ROWS = 4, NAMES = 2, IMPORT = 25 };

static const uint32_t hosts[] = {5, 2, 4, 2};
static const uint8_t host_names[][VOODOO_NAME_ROW] = {"order", "bath"};
enum { BATH = 1 };

static uint32_t tokens[VOODOO_TOKEN_WORDS], statements[VOODOO_STATEMENT_WORDS], labels[VOODOO_LABEL_WORDS];
static uint8_t names[VOODOO_NAME_BYTES], data[VOODOO_DATA_BYTES];
static uint32_t checked[VOODOO_RESULT_WORDS];
static uint32_t record[VOODOO_RECORD_WORDS], stack[64], result[VOODOO_RESULT_WORDS];
static uint8_t memory[64];

static unsigned good, bad;

static void expect(const char *what, int which, uint32_t number, uint32_t expected)
{
    if (number == expected) {
        good++;
    } else {
        bad++;
        printf("%s, %d: %" PRIu32 ", expected %" PRIu32 "\n", what, which, number, expected);
    }
}

/* Buffer i of a call, or NULL where it is the one left out; its length likewise. */
#define BUFFER(i, p) (out == (i) || out == ALL ? NULL : (p))
#define LENGTH(i, n) (out == (i) || out == ALL ? 0 : (n))

enum { ALL = -1, NONE = 100 };

static uint32_t check(int out)
{
    return voodoo_check(BUFFER(0, (const uint8_t *)text), LENGTH(0, strlen(text)), BUFFER(1, hosts), LENGTH(1, 4),
                        BUFFER(2, (const uint8_t *)host_names), LENGTH(2, sizeof host_names), BUFFER(3, tokens),
                        LENGTH(3, VOODOO_TOKEN_WORDS), BUFFER(4, statements), LENGTH(4, VOODOO_STATEMENT_WORDS),
                        BUFFER(5, labels), LENGTH(5, VOODOO_LABEL_WORDS), BUFFER(6, names), LENGTH(6, VOODOO_NAME_BYTES),
                        BUFFER(7, data), LENGTH(7, VOODOO_DATA_BYTES), BUFFER(8, checked),
                        LENGTH(8, VOODOO_RESULT_WORDS));
}

static uint32_t start(int out)
{
    static const uint32_t arguments[1];
    return voodoo_start(BUFFER(0, statements), LENGTH(0, VOODOO_STATEMENT_WORDS), ROWS, BUFFER(1, labels),
                        LENGTH(1, VOODOO_LABEL_WORDS), NAMES, BUFFER(2, names), LENGTH(2, VOODOO_NAME_BYTES), 0,
                        BUFFER(3, data), LENGTH(3, VOODOO_DATA_BYTES), BUFFER(4, (const uint8_t *)"f"), LENGTH(4, 1),
                        BUFFER(5, arguments), 0, BUFFER(6, record), LENGTH(6, VOODOO_RECORD_WORDS), BUFFER(7, stack),
                        LENGTH(7, 64), BUFFER(8, memory), LENGTH(8, 64), BUFFER(9, result),
                        LENGTH(9, VOODOO_RESULT_WORDS));
}

static uint32_t step(int out)
{
    return voodoo_step(BUFFER(0, statements), LENGTH(0, VOODOO_STATEMENT_WORDS), ROWS, BUFFER(1, labels),
                       LENGTH(1, VOODOO_LABEL_WORDS), NAMES, BUFFER(2, names), LENGTH(2, VOODOO_NAME_BYTES), 0,
                       BUFFER(3, record), LENGTH(3, VOODOO_RECORD_WORDS), BUFFER(4, stack), LENGTH(4, 64),
                       BUFFER(5, memory), LENGTH(5, 64), BUFFER(6, result), LENGTH(6, VOODOO_RESULT_WORDS));
}

static uint32_t run(int out, uint64_t budget)
{
    return voodoo_run(BUFFER(0, statements), LENGTH(0, VOODOO_STATEMENT_WORDS), ROWS, BUFFER(1, labels),
                      LENGTH(1, VOODOO_LABEL_WORDS), NAMES, BUFFER(2, names), LENGTH(2, VOODOO_NAME_BYTES), 0, budget,
                      BUFFER(3, record), LENGTH(3, VOODOO_RECORD_WORDS), BUFFER(4, stack), LENGTH(4, 64),
                      BUFFER(5, memory), LENGTH(5, 64), BUFFER(6, result), LENGTH(6, VOODOO_RESULT_WORDS));
}

/* Going on with `words` words of record. */
static uint32_t resume_of(int out, uint32_t word, size_t words)
{
    return voodoo_resume(BUFFER(0, statements), LENGTH(0, VOODOO_STATEMENT_WORDS), ROWS, BUFFER(1, labels),
                         LENGTH(1, VOODOO_LABEL_WORDS), NAMES, BUFFER(2, names), LENGTH(2, VOODOO_NAME_BYTES), 0, word,
                         BUFFER(3, record), LENGTH(3, words), BUFFER(4, stack), LENGTH(4, 64), BUFFER(5, memory),
                         LENGTH(5, 64), BUFFER(6, result), LENGTH(6, VOODOO_RESULT_WORDS));
}

static uint32_t resume(int out, uint32_t word)
{
    return resume_of(out, word, VOODOO_RECORD_WORDS);
}

/* What each call answers with buffer i left out; the source is good again before each. */
static void leave_out_each(void)
{
    static const uint32_t of_check[] = {0, 10, 10, 16, 16, 16, 16, 0, 0};
    static const uint32_t of_start[] = {35, 35, 35, 0, 20, 0, 35, 23, 0, 0};
    static const uint32_t of_step[] = {35, 35, 35, 35, 35, 0, 0};
    static const uint32_t of_resume[] = {35, 35, 35, 37, 35, 0, 0};
    for (int i = 0; i < 9; i++)
        expect("check without buffer", i, check(i), of_check[i]);
    expect("check of nothing", ALL, check(ALL), 0);
    for (int i = 0; i < 10; i++) {
        check(NONE);
        expect("start without buffer", i, start(i), of_start[i]);
    }
    expect("start of nothing", ALL, start(ALL), 35);
    for (int i = 0; i < 7; i++) {
        start(NONE);
        expect("step without buffer", i, step(i), of_step[i]);
        start(NONE);
        expect("run without buffer", i, run(i, 1), of_step[i]);
        start(NONE);
        expect("run of budget 0 without buffer", i, run(i, 0), 0);
        start(NONE);
        step(NONE);
        expect("resume without buffer", i, resume(i, 9), of_resume[i]);
    }
    expect("step of nothing", ALL, step(ALL), 35);
    expect("run of nothing", ALL, run(ALL, 1), 35);
    expect("run of nothing, budget 0", ALL, run(ALL, 0), 0);
    expect("resume of nothing", ALL, resume(ALL, 0), 37);
}

/* The result's words behind the number. */
static void answer(const char *what, uint32_t place, uint32_t count, uint32_t outcome, uint32_t word)
{
    expect(what, VOODOO_NUMBER, result[VOODOO_NUMBER], 0);
    expect(what, VOODOO_PLACE, result[VOODOO_PLACE], place);
    expect(what, VOODOO_COUNT_LOW, result[VOODOO_COUNT_LOW], count);
    expect(what, VOODOO_COUNT_HIGH, result[VOODOO_COUNT_HIGH], 0);
    expect(what, VOODOO_OUTCOME, result[VOODOO_OUTCOME], outcome);
    expect(what, VOODOO_WORD, result[VOODOO_WORD], word);
}

/* Whether the record's words from VOODOO_ARGUMENTS on are these two and six zeros. */
static bool arguments_are(uint32_t first, uint32_t second)
{
    const uint32_t wanted[8] = {first, second};
    return memcmp(record + VOODOO_ARGUMENTS, wanted, sizeof wanted) == 0;
}

/* A pause and the going on from it, word by word; all words of the record hold something before the start. */
static void pauses(void)
{
    enum { KEPT = 7, STAYS = 4711 };
    uint32_t before[VOODOO_RECORD_WORDS];
    for (int i = 0; i < VOODOO_RECORD_WORDS; i++)
        record[i] = STAYS;
    expect("start", 0, start(NONE), 0);
    answer("start", VOODOO_NONE, 0, VOODOO_OUTCOME_GOING, 0);
    expect("a start's arguments", 0, arguments_are(0, 0), true);
    expect("step to a pause", 0, step(NONE), 0);
    answer("step to a pause", VOODOO_NONE, 0, VOODOO_OUTCOME_PAUSED, BATH);
    expect("a paused record", VOODOO_STATE, record[VOODOO_STATE], VOODOO_STATE_PAUSED);
    expect("a paused record", VOODOO_NEXT, record[VOODOO_NEXT], 1);
    expect("a paused record", VOODOO_VALUE, record[VOODOO_VALUE], BATH);
    expect("a paused record", VOODOO_AT, record[VOODOO_AT], 2);
    expect("a paused record", VOODOO_ARGUMENTS, arguments_are(5, 6), true);
    memcpy(before, record, sizeof before);
    expect("step of a paused record", 0, step(NONE), 0);
    answer("step of a paused record", VOODOO_NONE, 0, VOODOO_OUTCOME_PAUSED, BATH);
    expect("run of a paused record", 0, run(NONE, 5), 0);
    answer("run of a paused record", VOODOO_NONE, 0, VOODOO_OUTCOME_PAUSED, BATH);
    expect("run of a paused record", 0, run(NONE, 0), 0);
    answer("budget 0 of a paused record", VOODOO_NONE, 0, VOODOO_OUTCOME_PAUSED, BATH);
    expect("the paused record stays", 0, memcmp(before, record, sizeof before) == 0, true);
    expect("resume", 0, resume(NONE, 9), 0);
    answer("resume", VOODOO_NONE, 1, VOODOO_OUTCOME_GOING, 0);
    expect("a resumed record", VOODOO_STATE, record[VOODOO_STATE], VOODOO_STATE_RUNNING);
    expect("a resumed record", VOODOO_NEXT, record[VOODOO_NEXT], 2);
    expect("a resumed record", VOODOO_VALUE, record[VOODOO_VALUE], 0);
    expect("a resumed record", VOODOO_AT, record[VOODOO_AT], 0);
    expect("a resumed record", VOODOO_ARGUMENTS, arguments_are(0, 0), true);
    expect("the run behind it", 0, run(NONE, 5), 0);
    answer("the run behind it", VOODOO_NONE, 1, VOODOO_OUTCOME_FINISHED, 9);
    start(NONE);
    expect("run to a pause", 0, run(NONE, 5), 0);
    answer("run to a pause", VOODOO_NONE, 0, VOODOO_OUTCOME_PAUSED, BATH);
    expect("start of a paused record", 0, start(NONE), 0);
    expect("a started record", VOODOO_VALUE, record[VOODOO_VALUE], 0);
    expect("a started record", VOODOO_ARGUMENTS, arguments_are(0, 0), true);
    expect("word 7", KEPT, record[KEPT], STAYS);
}

/* A paused record may hold any number and any arguments: they are given back, and going on does not read them. */
static void any_pause(void)
{
    start(NONE);
    step(NONE);
    record[VOODOO_VALUE] = 77;
    record[VOODOO_AT] = 99;
    record[VOODOO_ARGUMENTS + 7] = 13;
    expect("step of any pause", 0, step(NONE), 0);
    answer("step of any pause", VOODOO_NONE, 0, VOODOO_OUTCOME_PAUSED, 77);
    expect("resume of any pause", 0, resume(NONE, 9), 0);
    expect("the arguments behind it", 0, arguments_are(0, 0), true);
}

/* Going on with the record as it is, and `words` words of it lent: nothing but the answer changes. */
static void not_paused(const char *what, size_t words)
{
    uint32_t before[VOODOO_RECORD_WORDS];
    static const uint32_t refusal[VOODOO_RESULT_WORDS] = {VOODOO_NOT_PAUSED, VOODOO_NONE};
    memcpy(before, record, sizeof before);
    expect(what, 0, resume_of(NONE, 9, words), VOODOO_NOT_PAUSED);
    expect(what, 1, memcmp(result, refusal, sizeof refusal) == 0, true);
    expect(what, 2, memcmp(before, record, sizeof before) == 0, true);
}

static void not_paused_each(void)
{
    start(NONE);
    not_paused("resume of a running record", VOODOO_RECORD_WORDS);
    step(NONE);
    not_paused("resume of a short record", VOODOO_RECORD_WORDS - 1);
    resume(NONE, 9);
    step(NONE);
    not_paused("resume of a finished record", VOODOO_RECORD_WORDS);
    record[VOODOO_STATE] = VOODOO_STATE_STOPPED;
    record[VOODOO_VALUE] = VOODOO_STOP_AUTO;
    not_paused("resume of a stopped record", VOODOO_RECORD_WORDS);
    record[VOODOO_VALUE] = 77;
    not_paused("resume of a record stopped by no stop", VOODOO_RECORD_WORDS);
    record[VOODOO_STATE] = 0;
    not_paused("resume of an unlisted state", VOODOO_RECORD_WORDS);
    record[VOODOO_STATE] = VOODOO_STATE_PAUSED + 1;
    not_paused("resume of an unlisted state", VOODOO_RECORD_WORDS);
}

/* A paused record whose next statement calls no imported function: 35, and it stays paused. */
static void broken_pause(uint32_t next, uint32_t place)
{
    uint32_t before[VOODOO_RECORD_WORDS];
    start(NONE);
    step(NONE);
    record[VOODOO_NEXT] = next;
    memcpy(before, record, sizeof before);
    expect("resume at another statement", (int)next, resume(NONE, 9), 35);
    expect("its place", (int)next, result[VOODOO_PLACE], place);
    expect("its count", (int)next, (uint32_t)voodoo_count(result), 0);
    expect("its outcome", (int)next, result[VOODOO_OUTCOME], VOODOO_OUTCOME_PAUSED);
    expect("its record", (int)next, memcmp(before, record, sizeof before) == 0, true);
    expect("step at another statement", (int)next, step(NONE), 0);
}

/* A record with this state and number: it is none of the listed states, so nothing but the answer changes. */
static void unlisted(uint32_t state, uint32_t number)
{
    uint32_t before[VOODOO_RECORD_WORDS];
    start(NONE);
    record[VOODOO_STATE] = state;
    record[VOODOO_VALUE] = number;
    memcpy(before, record, sizeof before);
    expect("step of an unlisted state", (int)number, step(NONE), 35);
    expect("its place", (int)number, result[VOODOO_PLACE], VOODOO_NONE);
    expect("run of an unlisted state", (int)number, run(NONE, 5), 35);
    expect("its count", (int)number, (uint32_t)voodoo_count(result), 0);
    expect("budget 0 of an unlisted state", (int)number, run(NONE, 0), 0);
    expect("its place", (int)number, result[VOODOO_PLACE], VOODOO_NONE);
    expect("the record", (int)number, memcmp(before, record, sizeof before) == 0, true);
}

/* The source with another list: the number of `bath`, or refusal 10 at its name. */
static void listed(const char *what, const uint32_t *rows, size_t words, size_t bytes, uint32_t number)
{
    uint32_t given = voodoo_check((const uint8_t *)text, strlen(text), rows, words, (const uint8_t *)host_names, bytes,
                                  tokens, VOODOO_TOKEN_WORDS, statements, VOODOO_STATEMENT_WORDS, labels,
                                  VOODOO_LABEL_WORDS, names, VOODOO_NAME_BYTES, data, VOODOO_DATA_BYTES, checked,
                                  VOODOO_RESULT_WORDS);
    if (number == VOODOO_NONE) {
        expect(what, 0, given, VOODOO_UNKNOWN_NAME);
        expect(what, 1, checked[VOODOO_PLACE], IMPORT);
    } else {
        expect(what, 0, given, VOODOO_ACCEPTED);
        expect(what, 1, labels[1], number);
    }
}

static void lists(void)
{
    static const uint32_t many[] = {5, 2, 4, 9}, empty[] = {5, 2, 0, 2}, longer[] = {5, 2, 65, 2};
    listed("the list", hosts, 4, sizeof host_names, BATH);
    listed("half an entry", hosts, 3, sizeof host_names, VOODOO_NONE);
    listed("no list", NULL, 0, sizeof host_names, VOODOO_NONE);
    listed("a name that is lent to its end", hosts, 4, VOODOO_NAME_ROW + 4, BATH);
    listed("a name cut short", hosts, 4, VOODOO_NAME_ROW + 3, VOODOO_NONE);
    listed("more than eight arguments", many, 4, sizeof host_names, VOODOO_NONE);
    listed("an empty name", empty, 4, sizeof host_names, VOODOO_NONE);
    listed("a long name", longer, 4, sizeof host_names, VOODOO_NONE);
}

/* A source that is refused before any table is needed: its number and place. */
static void refused(const char *source, uint32_t number, uint32_t place)
{
    uint32_t given = voodoo_check((const uint8_t *)source, strlen(source), NULL, 0, NULL, 0, NULL, 0, NULL, 0, NULL, 0, NULL, 0,
                                  NULL, 0, checked, VOODOO_RESULT_WORDS);
    expect(source, 0, given, number);
    expect(source, 6, checked[VOODOO_PLACE], place);
}

int main(void)
{
    leave_out_each();
    refused("a\\q", VOODOO_BAD_ESCAPE, 2);
    refused("\"\\x4g\"", VOODOO_BAD_ESCAPE, 4);
    refused("\"a\\x\n\"", VOODOO_BAD_ESCAPE, 4);
    refused("\\", VOODOO_BAD_ESCAPE, 1);
    refused("@a\\x4", VOODOO_BAD_ESCAPE, 5);
    refused("5\\q", VOODOO_NO_TOKEN, 1);
    lists();
    check(NONE);
    pauses();
    any_pause();
    not_paused_each();
    broken_pause(2, 2);
    broken_pause(ROWS, VOODOO_NONE);
    unlisted(0, 0);
    unlisted(VOODOO_STATE_PAUSED + 1, 30);
    unlisted(VOODOO_STATE_STOPPED, 0);
    unlisted(VOODOO_STATE_STOPPED, 29);
    unlisted(VOODOO_STATE_STOPPED, 35);
    unlisted(VOODOO_STATE_STOPPED, 77);
    start(NONE);
    record[VOODOO_STATE] = VOODOO_STATE_STOPPED;
    record[VOODOO_VALUE] = VOODOO_STOP_AUTO;
    expect("step of a stopped record", 34, step(NONE), 34);
    expect("budget 0 of a stopped record", 34, run(NONE, 0), 34);
    printf("%u as expected, %u not\n", good, bad);
    return bad == 0 ? 0 : 1;
}
