/*
 * Times voodoo_check on a source like real rules and on slow ones: best and median of 20 calls in milliseconds of processor
 * time, and the stack it uses.
 * Exit status 1 if a best time is over 100 ms.
 */
#define _POSIX_C_SOURCE 200809L
#include "voodoo.h"

#include <pthread.h>
#include <stdarg.h>
#include <stdio.h>
#include <stdlib.h>
#include <string.h>
#include <time.h>

enum { RUNS = 20, LIMIT_MS = 100, STACK = 4 << 20 };

static uint32_t tokens[VOODOO_TOKEN_WORDS];
static uint32_t statements[VOODOO_STATEMENT_WORDS];
static uint32_t labels[VOODOO_LABEL_WORDS];
static uint8_t names[VOODOO_NAME_BYTES];
static uint8_t data[VOODOO_DATA_BYTES];
static uint32_t result[VOODOO_RESULT_WORDS];

/* ---- the source */

static char source[VOODOO_SOURCE_BYTES + 4096];
static size_t size;

static void put(const char *format, ...)
{
    va_list values;
    va_start(values, format);
    size += (size_t)vsnprintf(source + size, sizeof source - size, format, values);
    va_end(values);
    if (size > VOODOO_SOURCE_BYTES) {
        fprintf(stderr, "bench: a source is too long\n");
        exit(2);
    }
}

static void repeat(int count, const char *text)
{
    for (int i = 0; i < count; i++)
        put("%s", text);
}

static const char letters[] = "abcdefghijklmnopqrstuvwxyzABCDEFGHIJKLMNOPQRSTUVWXYZ";

/* The name of number i, of two letters. */
static const char *name(int i)
{
    static char text[4];
    text[0] = letters[i / 52 % 52];
    text[1] = letters[i % 52];
    return text;
}

/* ---- sources like real rules */

static void real_rules(void)
{
    put("# Rules for the baths of one line.\nsection data\n");
    for (int i = 0; i < 27; i++)
        put("stock_%d: word %d     # millilitres\nlow_%d: word %d\n", i, 1000 + 37 * i, i, 100 + i);
    put("section functions\n\n");
    for (int i = 0; i < 27; i++) {
        put("# What may be taken from bottle %d, and what is left of it.\n", i);
        put("export grant_%d\ngrant_%d:\nfunction amount\n", i, i);
        put("    let have @stock_%d\n    ifgt amount have\n        return have\n    end if\n", i);
        put("    block\n        let rest sub have amount\n        set @stock_%d rest\n", i);
        put("        iflt rest @low_%d\n            call order_%d rest 500\n", i, i);
        put("        else ifeq rest 0\n            call order_%d 0 1000\n        end if\n    end block\n", i);
        put("    return amount\nend function\n\n");
        put("order_%d:\nfunction left wanted\n    let sum add left wanted\n    set @stock_%d sum\n    return sum\nend function\n\n", i, i);
    }
}

static void many_rules(void)
{
    put("section data\n");
    for (int i = 0; i < 60; i++)
        put("d%d: word %d\n", i, i);
    put("section functions\n");
    for (int i = 0; i < 60; i++) {
        put("f%d:\nfunction n m\nlet have @d%d\nifgt n have\nreturn have\nend if\nblock\nlet rest sub have n\n", i, i);
        put("set @d%d rest\niflt rest m\nset rest call f%d rest m\nend if\nend block\nreturn n\nend function\n", i, (i + 59) % 60);
    }
}

/* ---- slow sources */

static void different_names(void)
{
    for (int i = 0; i < 4096; i++)
        put("%c%c%c%s", letters[i / 2704 % 52], letters[i / 52 % 52], letters[i % 52], i == 4095 ? "" : " ");
}

/* Names that agree in eight bytes and in the hash of the rest (crates/lex_spelling, `mix`). */
enum { HALF = 38 * 38 * 38 * 38 };
struct half {
    uint32_t hash, number;
};

static int by_hash(const void *a, const void *b)
{
    uint32_t x = ((const struct half *)a)->hash, y = ((const struct half *)b)->hash;
    return (x > y) - (x < y);
}

static uint32_t half_hash(uint32_t number, char text[5])
{
    uint32_t hash = 0;
    for (int i = 0; i < 4; i++) {
        text[i] = letters[number % 38];
        hash = hash * 16777619u + (uint8_t)text[i];
        number /= 38;
    }
    text[4] = 0;
    return hash;
}

static void equal_hashes(void)
{
    struct half *halves = malloc(HALF * sizeof *halves);
    if (halves == NULL)
        exit(2);
    char a[5], b[5];
    uint32_t power = 1, target = 12345;
    for (int i = 0; i < 4; i++)
        power *= 16777619u;
    for (uint32_t i = 0; i < HALF; i++)
        halves[i] = (struct half){ half_hash(i, a), i };
    qsort(halves, HALF, sizeof *halves, by_hash);
    for (uint32_t i = 0; i < HALF; i++) {
        struct half key = { target - half_hash(i, a) * power, 0 };
        struct half *found = bsearch(&key, halves, HALF, sizeof *halves, by_hash);
        if (found == NULL)
            continue;
        half_hash(found->number, b);
        if (size + 17 > VOODOO_SOURCE_BYTES)
            break;
        put("prefixes%s%s ", a, b);
    }
    free(halves);
}

/* Fifteen blocks, in them fifteen more with 64 lets each. */
static void deep_lets(void)
{
    put("section functions\nfunction\n");
    repeat(15, "block\n");
    for (int i = 0; i < 15; i++) {
        put("block\n");
        for (int j = 0; j < 64; j++)
            put("let %s 1\n", name(j));
        put("end block\n");
    }
    repeat(15, "end block\n");
    put("end function\n");
}

/* The same, each let reading a name that is found behind all of them. */
static void deep_reads(void)
{
    put("section functions\nfunction p\n");
    repeat(15, "block\n");
    for (int i = 0; i < 15; i++) {
        put("block\n");
        for (int j = 0; j < 63; j++)
            put("let %s p\n", name(j));
        put("end block\n");
    }
    repeat(15, "end block\n");
    put("end function\n");
}

/* Calls inside 16 blocks, whose arguments have the name of lets in many closed blocks. */
static void deep_calls(void)
{
    put("section functions\nf:\nfunction a b c d e g h x\nend function\nfunction x\n");
    repeat(15, "block\n");
    for (int i = 0; i < 258; i++)
        put("block\nlet x 1\nend block\n");
    put("block\n");
    for (int i = 0; i < 151; i++)
        put("call f x x x x x x x x\n");
    put("end block\n");
    repeat(15, "end block\n");
    put("end function\n");
}

/* Calls with arguments that mean the last of 200 data labels, behind 60 lets. */
static void label_calls(void)
{
    put("section data\n");
    for (int i = 0; i < 200; i++)
        put("%s: byte 1\n", name(i));
    put("section functions\nf:\nfunction a b c d e g h x\n");
    repeat(8, "block\nlet z 1\nlet y 1\nlet v 1\nlet w 1\nlet u 1\nlet t 1\n");
    for (int i = 0; i < 257; i++)
        put("call f dR dR dR dR dR dR dR dR\n");
    repeat(8, "end block\n");
    put("end function\n");
}

static void exports(void)
{
    put("section data\n");
    repeat(1363, "export x\n");
    put("x:byte 1");
}

static void exports_aligns(void)
{
    put("section data\n");
    repeat(1023, "export x\n");
    repeat(510, "align\n");
    put("x:byte 1");
}

static void label_exports(void)
{
    put("section data\n");
    for (int i = 0; i < 1278; i++)
        put("export %s\n", name(i % 256));
    for (int i = 0; i < 256; i++)
        put("%s:", name(i));
    put("byte 1");
}

static void data_labels(void)
{
    put("section data\n");
    repeat(1917, "align\n");
    for (int i = 0; i < 256; i++)
        put("%s:", name(i));
    put("byte 1");
}

static void data_lines(void)
{
    put("section data\n");
    for (int i = 0; i < 256; i++)
        put("%s:byte 1\nbyte 2\nbyte 3\nbyte 4\n", name(i));
}

static void nested_ifs(void)
{
    put("section functions\nfunction a\n");
    repeat(511, "ifeq a 1\n");
    repeat(511, "end if\n");
    put("end function\n");
}

static void else_ifs(void)
{
    put("section functions\nfunction a\nifeq a 1\n");
    repeat(510, "else ifeq a 1\n");
    put("end if\nend function\n");
}

static void blocks(void)
{
    put("section functions\nfunction p\nlet a p\n");
    repeat(500, "block\nend block\n");
    put("end function\n");
}

static void block_lets(void)
{
    put("section functions\nfunction p\n");
    repeat(15, "block\n");
    repeat(330, "block\nlet a p\nend block\n");
    repeat(15, "end block\n");
    put("end function\n");
}

static void functions(void)
{
    put("section functions\n");
    repeat(512, "function\nend function\n");
}

static void function_labels(void)
{
    put("section functions\n");
    for (int i = 0; i < 256; i++)
        put("%s:function\ntail-call %s\nend function\n", name(i), name(255 - i));
}

static void gotos(void)
{
    put("section functions\nfunction\n");
    for (int i = 0; i < 255; i++)
        put("%s:goto %s\n", name(i), name(254 - i));
    repeat(760, "goto aa\n");
    put("end function\n");
}

static void pending_labels(void)
{
    put("section data\n");
    for (int i = 0; i < 4092; i++)
        put("%s:", name(i));
    put("byte 1");
}

static void long_line(void)
{
    put("section functions\nfunction\ncall ");
    repeat(4090, "x ");
}

static void escapes(void)
{
    put("section data\nstring \"");
    repeat(4080, "\\x41");
    put("\"");
}

static void joints(void)
{
    put("section data\nstring \"");
    repeat(2700, "\\\n    ");
    put("\"");
}

static void newlines(void)
{
    repeat(4096, "\n");
}

static void blanks(void)
{
    repeat(VOODOO_SOURCE_BYTES, " ");
}

static const struct {
    const char *title;
    void (*make)(void);
} sources[] = {
    { "rules with comments, 27 baths", real_rules },
    { "rules without comments, 60 functions", many_rules },
    { "4,096 different names", different_names },
    { "names of one hash, eight bytes equal", equal_hashes },
    { "960 lets inside 16 blocks", deep_lets },
    { "945 lets inside 16 blocks, each reading a parameter", deep_reads },
    { "calls inside 16 blocks, 258 blocks with such a let before", deep_calls },
    { "calls with data labels inside 8 blocks", label_calls },
    { "1,363 exports of one definition", exports },
    { "1,023 exports and 510 aligns", exports_aligns },
    { "1,278 exports of 256 labels", label_exports },
    { "256 labels behind 1,917 aligns", data_labels },
    { "256 data labels, 1,024 lines", data_lines },
    { "511 ifs one in the other", nested_ifs },
    { "510 else-if lines", else_ifs },
    { "500 blocks side by side", blocks },
    { "330 blocks with a let, inside 15", block_lets },
    { "512 functions", functions },
    { "256 functions that call each other", function_labels },
    { "1,015 gotos", gotos },
    { "4,092 labels before a line", pending_labels },
    { "a line of 4,090 names", long_line },
    { "a string of 4,080 escapes", escapes },
    { "2,700 continuations", joints },
    { "4,096 ends of lines", newlines },
    { "16,384 blanks", blanks },
};

/* ---- time and stack */

static uint32_t check(void)
{
    return voodoo_check((const uint8_t *)source, size, NULL, 0, NULL, 0, tokens, VOODOO_TOKEN_WORDS, statements, VOODOO_STATEMENT_WORDS, labels,
                        VOODOO_LABEL_WORDS, names, VOODOO_NAME_BYTES, data, VOODOO_DATA_BYTES, result, VOODOO_RESULT_WORDS);
}

static double now(void)
{
    struct timespec t;
    clock_gettime(CLOCK_PROCESS_CPUTIME_ID, &t);
    return (double)t.tv_sec * 1000 + (double)t.tv_nsec / 1e6;
}

static int by_time(const void *a, const void *b)
{
    double x = *(const double *)a, y = *(const double *)b;
    return (x > y) - (x < y);
}

static unsigned char *top;

static void *check_thread(void *unused)
{
    unsigned char here;
    (void)unused;
    top = &here;
    check();
    return NULL;
}

/* Bytes of a painted stack that a call has written. */
static size_t stack_use(void)
{
    unsigned char *stack;
    pthread_attr_t how;
    pthread_t thread;
    size_t low = 0;
    if (posix_memalign((void **)&stack, 4096, STACK) != 0)
        exit(2);
    memset(stack, 0xa5, STACK);
    pthread_attr_init(&how);
    if (pthread_attr_setstack(&how, stack, STACK) != 0 || pthread_create(&thread, &how, check_thread, NULL) != 0)
        exit(2);
    pthread_join(thread, NULL);
    while (stack[low] == 0xa5)
        low++;
    size_t used = (size_t)(top - (stack + low));
    free(stack);
    return used;
}

int main(void)
{
    double worst = 0;
    size_t stack = 0;
    printf("%-58s %6s %7s %8s %8s\n", "source", "bytes", "number", "best", "median");
    for (size_t i = 0; i < sizeof sources / sizeof *sources; i++) {
        double times[RUNS];
        uint32_t number = 0;
        size = 0;
        sources[i].make();
        for (int run = 0; run < RUNS; run++) {
            double from = now();
            number = check();
            times[run] = now() - from;
        }
        qsort(times, RUNS, sizeof *times, by_time);
        size_t used = stack_use();
        if (used > stack)
            stack = used;
        if (times[0] > worst)
            worst = times[0];
        printf("%-58s %6zu %7u %8.2f %8.2f\n", sources[i].title, size, (unsigned)number, times[0], times[RUNS / 2]);
    }
    printf("slowest %.2f ms; stack %zu bytes at most\n", worst, stack);
    return worst > LIMIT_MS;
}
