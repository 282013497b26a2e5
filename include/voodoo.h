/*
 * voodoo.h - check and run Voodoo 1.1 rules from C.
 *
 *     voodoo_check   reads a source text, with a list of the functions that the
 *                    host has for it, and answers either "accepted", with the
 *                    tables of the checked program and its data, or "refused",
 *                    with a number and the place of the fault.
 *     voodoo_start   begins a run of an exported function, or refuses it.
 *     voodoo_run     takes steps of a run, at most as many as a budget says.
 *     voodoo_step    takes one step.
 *     voodoo_resume  goes on with a paused run: hands it the word it waits for.
 *
 * A run of at most 100 turns, each an answer to a pause or 1,000 steps, behind an
 * accepted check whose result is `check`. `answer` is the host's: it does what the
 * imported function of that number does, and gives a word.
 *
 *     uint32_t record[VOODOO_RECORD_WORDS], stack[VOODOO_STACK_WORDS];
 *     uint8_t memory[VOODOO_MEMORY_BYTES] = {0};
 *     uint32_t result[VOODOO_RESULT_WORDS], arguments[1] = {30};
 *
 *     uint32_t number = voodoo_start(
 *         statements, VOODOO_STATEMENT_WORDS, check[VOODOO_STATEMENTS],
 *         labels, VOODOO_LABEL_WORDS, check[VOODOO_LABELS],
 *         names, VOODOO_NAME_BYTES, check[VOODOO_DATA], data, VOODOO_DATA_BYTES,
 *         (const uint8_t *)"top", 3, arguments, 1,
 *         record, VOODOO_RECORD_WORDS, stack, VOODOO_STACK_WORDS,
 *         memory, VOODOO_MEMORY_BYTES, result, VOODOO_RESULT_WORDS);
 *     uint64_t steps = 0;
 *     for (int turn = 0; turn < 100; turn++) {
 *         if (number != 0 || result[VOODOO_OUTCOME] == VOODOO_OUTCOME_FINISHED)
 *             break;
 *         if (result[VOODOO_OUTCOME] == VOODOO_OUTCOME_PAUSED)
 *             number = voodoo_resume(
 *                 statements, VOODOO_STATEMENT_WORDS, check[VOODOO_STATEMENTS],
 *                 labels, VOODOO_LABEL_WORDS, check[VOODOO_LABELS],
 *                 names, VOODOO_NAME_BYTES, check[VOODOO_DATA],
 *                 answer(result[VOODOO_WORD], record + VOODOO_ARGUMENTS),
 *                 record, VOODOO_RECORD_WORDS, stack, VOODOO_STACK_WORDS,
 *                 memory, VOODOO_MEMORY_BYTES, result, VOODOO_RESULT_WORDS);
 *         else
 *             number = voodoo_run(
 *                 statements, VOODOO_STATEMENT_WORDS, check[VOODOO_STATEMENTS],
 *                 labels, VOODOO_LABEL_WORDS, check[VOODOO_LABELS],
 *                 names, VOODOO_NAME_BYTES, check[VOODOO_DATA], 1000,
 *                 record, VOODOO_RECORD_WORDS, stack, VOODOO_STACK_WORDS,
 *                 memory, VOODOO_MEMORY_BYTES, result, VOODOO_RESULT_WORDS);
 *         steps += voodoo_count(result);
 *     }
 *     if (number != 0)
 *         printf("number %" PRIu32 "\n", number);
 *     else if (result[VOODOO_OUTCOME] == VOODOO_OUTCOME_FINISHED)
 *         printf("%" PRId32 " after %" PRIu64 " steps\n", (int32_t)result[VOODOO_WORD], steps);
 *     else
 *         printf("not at its end after %" PRIu64 " steps\n", steps);
 *
 * Everything is proved: for all inputs and all buffers the answer and every word
 * of every buffer are those of one definition (voodoo_check: crates/c_voodoo/specs
 * and crates/check_source/specs, over crates/check_judge/specs and
 * crates/check_fill/specs; the others: crates/c_voodoo/specs/Calls.antt over
 * crates/vm_definitions/specs and crates/c_words/specs). The functions return for
 * every input, allocate nothing, keep nothing between calls and call nothing but
 * memcpy and memset, so any number of threads may call them at once, each with its
 * own buffers. Nothing checks that these declarations and the compiled code agree.
 *
 * Link target/staticlib/libc_voodoo.a (x86-64 Linux; `.ci/host` makes it).
 */
#ifndef VOODOO_H
#define VOODOO_H

#include <stddef.h>
#include <stdint.h>

#ifdef __cplusplus
extern "C" {
#endif

/* The longest source, in bytes. One byte more is refusal 1. */
#define VOODOO_SOURCE_BYTES 16384

/*
 * Buffers that are long enough for every source. Shorter ones are fine where a
 * source needs less; where it needs more, the answer is refusal 16.
 * docs/TABLES.md says what each word of a row holds.
 */
#define VOODOO_TOKEN_WORDS     32768 /* 4,096 tokens, 8 words each      */
#define VOODOO_STATEMENT_WORDS 27648 /* 1,024 statements, 27 words each */
#define VOODOO_LABEL_WORDS      1024 /* 256 labels, 4 words each        */
#define VOODOO_NAME_BYTES      16384 /* their names, 64 bytes each      */
#define VOODOO_DATA_BYTES      32768 /* the program's data, byte 0 on   */
#define VOODOO_RESULT_WORDS        6 /* the answer, see below           */

#define VOODOO_TOKEN_ROW      8 /* words of a row */
#define VOODOO_STATEMENT_ROW 27
#define VOODOO_LABEL_ROW      4
#define VOODOO_NAME_ROW      64 /* bytes of a name */

/*
 * The host's list: the functions that a source may `import`. A call to one pauses
 * the run, and the host does what it asks (voodoo_resume). Entry i has number i, two
 * words of `hosts`, and 64 bytes of `host_names` from byte 64 * i on, where its name
 * begins:
 *
 *     static const uint32_t hosts[] = {4, 1, 5, 2};
 *     static const uint8_t host_names[][VOODOO_NAME_ROW] = {"bath", "order"};
 *
 * is number 0, `bath` with one argument, and number 1, `order` with two. An entry is
 * passed over, and keeps its number, if it has more than 8 arguments, or if its name
 * is empty, longer than 64 bytes or not wholly in `host_names`. Of equal names that
 * are left the first counts. Half an entry at the end is none; entries from number
 * 268,435,456 on are not looked at.
 */
#define VOODOO_HOST_ROW 2 /* words of an entry */

enum {
    VOODOO_HOST_LENGTH,   /* bytes of the name  */
    VOODOO_HOST_ARGUMENTS /* its argument count */
};

/* The words of `result`. */
enum {
    VOODOO_NUMBER,     /* 0: accepted; else the refusal, 1 to 17           */
    VOODOO_PLACE,      /* refused: a byte of the source, counted from 0; its
                          length where the source ends too early (3, 8)    */
    VOODOO_TOKENS,     /* accepted: rows of `tokens` in use                */
    VOODOO_STATEMENTS, /* accepted: rows of `statements` in use            */
    VOODOO_LABELS,     /* accepted: rows of `labels` and `names` in use    */
    VOODOO_DATA        /* accepted: bytes of `data` in use                 */
};

/*
 * The refusals. The place is what stands in brackets; a number that is added later
 * has one only where its line says so. The answer comes from the first of these groups
 * that has one, with the lowest place there, then the lowest number: 1; 2 to 6 and 14
 * of tokens; 7, 8, 9 and other 14; 10 to 13 and 17; 15; 16.
 */
enum {
    VOODOO_ACCEPTED        = 0,
    VOODOO_SOURCE_TOO_LONG = 1,  /* more than 16,384 bytes [16,384]              */
    VOODOO_NO_TOKEN        = 2,  /* no token can be read here [the byte]         */
    VOODOO_BAD_ESCAPE      = 3,  /* [the first byte that breaks it; the source's
                                    length if the source ends there]             */
    VOODOO_OPEN_STRING     = 4,  /* open at the end of its line or of the source
                                    [its start]                                  */
    VOODOO_BIG_INTEGER     = 5,  /* integer out of range [its start]             */
    VOODOO_LONG_NAME       = 6,  /* more than 64 bytes [its start]               */
    VOODOO_BAD_SHAPE       = 7,  /* unknown word, or wrong operands [the magic
                                    word, or an unknown substitute]              */
    VOODOO_NOT_HERE        = 8,  /* not allowed here [the word, label or name;
                                    the source's length if something is open]    */
    VOODOO_LEFT_OUT        = 9,  /* a word of Voodoo that is not taken [it]      */
    VOODOO_UNKNOWN_NAME    = 10, /* also an import that the host's list does not
                                    have [the name]                              */
    VOODOO_WRONG_KIND      = 11, /* a name of another kind is needed [the name]  */
    VOODOO_SECOND_NAME     = 12, /* a second name in one scope [the name]        */
    VOODOO_ARGUMENT_COUNT  = 13, /* another count of arguments [the name]        */
    VOODOO_LIMIT           = 14, /* a limit passed [what passes it]              */
    VOODOO_BIG_DATA        = 15, /* more than 32,768 bytes [the definition or
                                    `align`]                                     */
    VOODOO_SHORT_BUFFER    = 16, /* a buffer is shorter than needed [0]          */
    VOODOO_LATE_EXPORT     = 17  /* an export or import after a use [its name]   */
};

/*
 * Checks a source of 32-bit words against the host's list and returns
 * result[VOODOO_NUMBER]. The list is only read; with NULL and length 0 for both of
 * its buffers it is empty, and every `import` is refusal 10.
 *
 *   accepted   `tokens`, `statements`, `labels`, `names` and `data` hold the
 *              checked program, and zeros behind it, to the end of each buffer.
 *   refused    these five are zeros, to the end of each.
 *   result     its first six words are written, or as many as it has; others are
 *              left as they are. Words that an answer has no value for are 0.
 *
 * Each buffer is a pointer and its length: words for uint32_t, bytes for uint8_t.
 * Where the length is 0 the pointer may be NULL; else it is valid for the length and
 * aligned. No two of the nine buffers may overlap. What the last six held before
 * does not matter.
 *
 * It uses at most 288 KB of stack (measured, bench/run); have 512 KB free.
 */
uint32_t voodoo_check(
    const uint8_t *source,     size_t source_bytes,
    const uint32_t *hosts,     size_t host_words,
    const uint8_t *host_names, size_t host_name_bytes,
    uint32_t *tokens,          size_t token_words,
    uint32_t *statements,      size_t statement_words,
    uint32_t *labels,          size_t label_words,
    uint8_t *names,            size_t name_bytes,
    uint8_t *data,             size_t data_bytes,
    uint32_t *result,          size_t result_words);

/* ---- running a checked program */

#define VOODOO_RECORD_WORDS    16 /* the run record; fewer hold none, more are not used */
#define VOODOO_STACK_WORDS  16384 /* the longest stack: enough for what can run at all  */
#define VOODOO_MEMORY_BYTES 65536 /* the longest memory                                 */

#define VOODOO_NONE 4294967295u /* result[VOODOO_PLACE]: no place */

/*
 * The words of the record. The host keeps them from one call to the next, in this
 * program or another, and need look only at the arguments of a pause. Where a record
 * is written, words 0 to 6 and 8 to 15 are. Word 7 is never read and never written.
 */
enum {
    VOODOO_STATE, /* one of the states below                                  */
    VOODOO_NEXT,  /* the next statement; finished: VOODOO_NONE                */
    VOODOO_FRAME, /* the first stack word of the frame; finished: VOODOO_NONE */
    VOODOO_USED,  /* stack words in use; finished: 0                          */
    VOODOO_TOP,   /* the auto top: first byte of memory behind data and autos */
    VOODOO_VALUE, /* finished: the word; stopped: the number, 30 to 34;
                     paused: the imported name's number; else 0               */
    VOODOO_AT,    /* stopped: the statement; paused: the count of arguments;
                     else 0                                                   */
    VOODOO_ARGUMENTS = 8 /* paused: the first of eight words, the arguments and
                            zeros behind them; else eight zeros               */
};

/* The states. Any other number is no record, nor is a stopped one whose number is not 30 to 34. */
enum {
    VOODOO_STATE_RUNNING  = 1,
    VOODOO_STATE_FINISHED = 2,
    VOODOO_STATE_STOPPED  = 3,
    VOODOO_STATE_PAUSED   = 4
};

/*
 * The words of `result` behind a start, a step, a run or a resume; VOODOO_NUMBER and
 * VOODOO_PLACE are words 0 and 1, as behind a check:
 *
 *     VOODOO_NUMBER   0, or one of the numbers below
 *     VOODOO_PLACE    the statement of a stop or of number 35; else VOODOO_NONE
 */
enum {
    VOODOO_COUNT_LOW = 2, /* the steps that this call counted, see voodoo_count; */
    VOODOO_COUNT_HIGH,    /* 0 behind a start                                    */
    VOODOO_OUTCOME,       /* one of the outcomes below                           */
    VOODOO_WORD           /* finished: the word that the function returned;
                             paused: the imported name's number; else 0          */
};

/* The outcomes. */
enum {
    VOODOO_OUTCOME_GOING    = 0, /* running; or see the number                         */
    VOODOO_OUTCOME_FINISHED = 1, /* the run has ended                                  */
    VOODOO_OUTCOME_PAUSED   = 2  /* only voodoo_resume goes on, or a start begins anew */
};

/* The numbers. The place is what stands in brackets. */
enum {
    VOODOO_NO_FUNCTION    = 20, /* start: no exported function of that name [none]     */
    VOODOO_START_COUNT    = 21, /* start: another count of arguments [none]            */
    VOODOO_MEMORY_LENGTH  = 22, /* start: memory shorter than the data, or over 65,536
                                   bytes [none]                                        */
    VOODOO_STACK_LENGTH   = 23, /* start: stack shorter than the first frame, or over
                                   16,384 words [none]                                 */
    VOODOO_STOP_DIVISION  = 30, /* zero divisor, or -2147483648 by -1 [the statement]  */
    VOODOO_STOP_SHIFT     = 31, /* a negative count of a shift [the statement]         */
    VOODOO_STOP_ADDRESS   = 32, /* outside of memory, or a word at no multiple of 4
                                   [the statement]                                     */
    VOODOO_STOP_STACK     = 33, /* no room for a frame [the statement]                 */
    VOODOO_STOP_AUTO      = 34, /* no room for auto memory [the statement]             */
    VOODOO_BROKEN         = 35, /* broken tables or record, docs/TABLES.md [the lowest
                                   such statement, or none]                            */
    VOODOO_NOT_PAUSED     = 37  /* resume: the record is not paused [none]             */
};

/* The steps that the call behind `result` (at least four words) counted. */
static inline uint64_t voodoo_count(const uint32_t *result)
{
    return (uint64_t)result[VOODOO_COUNT_HIGH] << 32 | result[VOODOO_COUNT_LOW];
}

/*
 * The four functions take what an accepted check has left: `statements`, `labels`,
 * `names` (with the lengths of these buffers), `data`, and from its result
 *
 *     statement_count = result[VOODOO_STATEMENTS]
 *     label_count     = result[VOODOO_LABELS]
 *     data_length     = result[VOODOO_DATA]
 *
 * and only read it. Buffers that hold anything else are safe too: what is broken in
 * them is number 35.
 *
 * `record`, `stack` and `memory` belong to one run, from its start on: hand the same
 * contents and the same lengths to each later call. The host may read and write
 * memory between calls. `stack` and `memory` may be shorter than their limits: a run
 * that then lacks room stops with 33, 34 or 32.
 *
 * In all four: `result` gets its first six words, or as many as it has; others are
 * left as they are. The function returns result[VOODOO_NUMBER]. Fewer than 16 words
 * of record are number 35 with no place (of voodoo_resume 37; but see budget 0 of
 * voodoo_run), and but for `result` nothing changes.
 *
 * Each buffer is a pointer and its length: words for uint32_t, bytes for uint8_t.
 * Where the length is 0 the pointer may be NULL; else it is valid for the length and
 * aligned. No two buffers of a call may overlap.
 *
 * Each uses less than 4 KB of stack (counted in the compiled code); have 8 KB free.
 */

/*
 * Starts the exported function `name` (its bytes as the label table has them, with no
 * 0 at the end) with its arguments. What `record` holds does not matter.
 *
 *   0          the run has begun and no step is taken. `record` is written. `stack`
 *              holds the first frame from word 0 on, `memory` the data from byte 0
 *              on; their other words and bytes are left as they are.
 *   20 to 23,  `record`, `stack` and `memory` are left as they are. Where several
 *   35         numbers hold, the answer is the first of 35, 20, 21, 22, 23.
 */
uint32_t voodoo_start(
    const uint32_t *statements, size_t statement_words, uint32_t statement_count,
    const uint32_t *labels,     size_t label_words,     uint32_t label_count,
    const uint8_t *names,       size_t name_bytes,      uint32_t data_length,
    const uint8_t *data,        size_t data_bytes,
    const uint8_t *name,        size_t name_length,
    const uint32_t *arguments,  size_t argument_count,
    uint32_t *record,           size_t record_words,
    uint32_t *stack,            size_t stack_words,
    uint8_t *memory,            size_t memory_bytes,
    uint32_t *result,           size_t result_words);

/*
 * Takes one step: one statement.
 *
 *   0, count 1         the statement is done. `record` is written, and `stack` and
 *                      `memory` as the statement says. If the run has ended,
 *                      VOODOO_OUTCOME says so and VOODOO_WORD is its word.
 *   0, count 0,        the statement calls an imported function, and its arguments
 *   paused             are read. VOODOO_OUTCOME says so and VOODOO_WORD is the
 *                      imported name's number. `record` is written: the state is
 *                      paused, and from VOODOO_ARGUMENTS on stand the arguments.
 *                      `stack` and `memory` are left as they are. The call counts
 *                      when the host goes on, see voodoo_resume.
 *   0, count 0         otherwise: the record had finished or paused before. It says
 *                      so again, nothing else changes.
 *   30 to 34, count 0  the statement could not be done. `record` is written: the
 *                      state is stopped, for good. `stack` and `memory` are left as
 *                      they are. A record that had stopped before says the same
 *                      again, and is not written.
 *   35, count 0        the tables or the record are broken, or it holds no listed
 *                      state: `record`, `stack` and `memory` are left as they are.
 *                      The same call on good tables goes on.
 */
uint32_t voodoo_step(
    const uint32_t *statements, size_t statement_words, uint32_t statement_count,
    const uint32_t *labels,     size_t label_words,     uint32_t label_count,
    const uint8_t *names,       size_t name_bytes,      uint32_t data_length,
    uint32_t *record,           size_t record_words,
    uint32_t *stack,            size_t stack_words,
    uint8_t *memory,            size_t memory_bytes,
    uint32_t *result,           size_t result_words);

/*
 * Steps until `budget` steps are counted, the run has ended, stopped or paused, or
 * number 35 comes: the same as so many calls of voodoo_step, and quicker. A paused
 * record is given back with count 0 each time, so a loop of runs must end on a pause
 * or answer it.
 *
 *   0          the budget is used up, or the run has ended or paused: VOODOO_OUTCOME
 *              says which. `record`, `stack` and `memory` are those behind the last
 *              step; a pause is in `record`, as voodoo_step.
 *   30 to 34   the run stopped behind the counted steps: as voodoo_step.
 *   35         broken tables or record, found behind the counted steps: `record`,
 *              `stack` and `memory` are those behind the last counted step.
 *   count 0    `record` is written only if a running record has stopped or paused in
 *              this call; `stack` and `memory` are left as they are. So with a budget
 *              of 0, and on a record that had finished, stopped or paused before,
 *              nothing but `result` changes.
 *   budget 0   is answered before anything is looked at: 0, or the number of a record
 *              that had stopped before; never 35, also with a record that is short
 *              or holds no listed state.
 */
uint32_t voodoo_run(
    const uint32_t *statements, size_t statement_words, uint32_t statement_count,
    const uint32_t *labels,     size_t label_words,     uint32_t label_count,
    const uint8_t *names,       size_t name_bytes,      uint32_t data_length,
    uint64_t budget,
    uint32_t *record,           size_t record_words,
    uint32_t *stack,            size_t stack_words,
    uint8_t *memory,            size_t memory_bytes,
    uint32_t *result,           size_t result_words);

/*
 * Goes on with a paused record: `word` is the result of the imported function, and
 * the call is done with it, as one step. A bare `call` drops the word, `let` and
 * `set` store it, `return call` and `tail-call` return it. The arguments are not read
 * again: the host may have changed the memory.
 *
 *   0, count 1     the call is done. `record` is written, words 8 to 15 are zeros
 *                  again, and `stack` and `memory` are as the statement says. If the
 *                  run has ended, VOODOO_OUTCOME says so and VOODOO_WORD is its word.
 *   37             the record is not paused, whatever it is: running, finished,
 *                  stopped, in no listed state, or of fewer than 16 words. Looked at
 *                  first; nothing but `result` changes, and it says nothing else.
 *   32, count 0    the address of a `set @` is bad. `record` is written: the state is
 *                  stopped. It never comes on an accepted program whose record and
 *                  stack are as the last call left them.
 *   35, count 0    as voodoo_step, and where the next statement calls no imported
 *                  function. The record stays paused.
 */
uint32_t voodoo_resume(
    const uint32_t *statements, size_t statement_words, uint32_t statement_count,
    const uint32_t *labels,     size_t label_words,     uint32_t label_count,
    const uint8_t *names,       size_t name_bytes,      uint32_t data_length,
    uint32_t word,
    uint32_t *record,           size_t record_words,
    uint32_t *stack,            size_t stack_words,
    uint8_t *memory,            size_t memory_bytes,
    uint32_t *result,           size_t result_words);

#ifdef __cplusplus
}
#endif

#endif
