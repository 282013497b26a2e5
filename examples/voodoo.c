/*
 * Checks and runs files of Voodoo rules: a host of include/voodoo.h.
 *
 *     voodoo check [--hosts LIST] FILE
 *     voodoo run [OPTION..] FILE NAME [ARGUMENT..]
 *
 * Results go to standard output; refusals, stops, questions and errors to standard
 * error. Exit status 0: accepted, or run to its end; 1: refused; 2: wrong use, a file
 * that cannot be read, or a result that cannot be written; 3: stopped; 4: the steps
 * are used up; 6: paused, and nobody answers.
 */
#include "voodoo.h"

#include <errno.h>
#include <inttypes.h>
#include <stdbool.h>
#include <stdio.h>
#include <stdlib.h>
#include <string.h>

enum { OK = 0, REFUSED = 1, MISUSED = 2, STOPPED = 3, USED_UP = 4, PAUSED = 6 };

/* One byte more than a source may have, so that a longer file is seen to be longer. */
static uint8_t source[VOODOO_SOURCE_BYTES + 1];
static size_t source_size;

/* The checked program. */
static uint32_t tokens[VOODOO_TOKEN_WORDS];
static uint32_t statements[VOODOO_STATEMENT_WORDS];
static uint32_t labels[VOODOO_LABEL_WORDS];
static uint8_t names[VOODOO_NAME_BYTES];
static uint8_t data[VOODOO_DATA_BYTES];
static uint32_t checked[VOODOO_RESULT_WORDS];

/* The functions that rules may import. */
enum { HOSTS = 64 };
static uint32_t hosts[HOSTS * VOODOO_HOST_ROW];
static uint8_t host_names[HOSTS * VOODOO_NAME_ROW];
static size_t host_count;

/* A run of it. */
static uint32_t record[VOODOO_RECORD_WORDS];
static uint32_t stack[VOODOO_STACK_WORDS];
static uint8_t memory[VOODOO_MEMORY_BYTES];
static uint32_t result[VOODOO_RESULT_WORDS];

static const char *const meanings[] = {
    [VOODOO_SOURCE_TOO_LONG] = "source longer than 16,384 bytes",
    [VOODOO_NO_TOKEN] = "no token can be read here",
    [VOODOO_OPEN_STRING] = "string not closed on its line",
    [VOODOO_BIG_INTEGER] = "integer out of range",
    [VOODOO_LONG_NAME] = "name longer than 64 bytes",
    [VOODOO_BAD_SHAPE] = "unknown word, or not its operands",
    [VOODOO_NOT_HERE] = "not allowed here",
    [VOODOO_LEFT_OUT] = "left out of this Voodoo",
    [VOODOO_UNKNOWN_NAME] = "unknown name",
    [VOODOO_WRONG_KIND] = "name of the wrong kind",
    [VOODOO_SECOND_NAME] = "second name in one scope",
    [VOODOO_ARGUMENT_COUNT] = "wrong number of arguments",
    [VOODOO_LIMIT] = "a limit is passed",
    [VOODOO_BIG_DATA] = "more than 32,768 bytes of data",
    [VOODOO_SHORT_BUFFER] = "a buffer is too short",
    [VOODOO_LATE_EXPORT] = "export or import after the first use",
    [VOODOO_NO_FUNCTION] = "no exported function of that name",
    [VOODOO_START_COUNT] = "wrong number of arguments",
    [VOODOO_MEMORY_LENGTH] = "memory shorter than the data, or over 65,536 bytes",
    [VOODOO_STACK_LENGTH] = "stack shorter than the first frame, or over 16,384 words",
    [VOODOO_STOP_DIVISION] = "division by zero, or a quotient that has no word",
    [VOODOO_STOP_SHIFT] = "negative shift count",
    [VOODOO_STOP_ADDRESS] = "address outside of memory, or no multiple of 4",
    [VOODOO_STOP_STACK] = "stack full",
    [VOODOO_STOP_AUTO] = "auto memory full",
    [VOODOO_BROKEN] = "broken tables or record",
};

static const char usage[] =
    "usage: voodoo check [--hosts LIST] FILE\n"
    "       voodoo run [OPTION..] FILE NAME [ARGUMENT..]\n"
    "\n"
    "check says whether a file of rules is accepted, with its counts and labels, or shows\n"
    "where it is refused. run checks it, starts the exported function NAME with arguments\n"
    "from -2147483648 to 4294967295 and prints the word it returns, as a signed number.\n"
    "\n"
    "  --hosts LIST     the functions that rules may import, each with the number of its\n"
    "                   arguments (default bath/1,order/2)\n"
    "  --answer NAME=WORD,..   run: what the imported NAME gives, call after call; where no\n"
    "                   word is left it is asked for: a word a line on standard input\n"
    "  --steps N        run: the most statements to take (default 100000000)\n"
    "  --stack WORDS    run: the stack lent to it (default and most 16384)\n"
    "  --memory BYTES   run: the memory lent to it (default and most 65536)\n"
    "\n"
    "Results go to standard output; refusals, stops, questions and errors to standard error.\n"
    "exit status: 0 accepted or run to its end, 1 refused, 2 wrong use, a file that cannot\n"
    "be read or a result that cannot be written, 3 stopped, 4 steps used up, 6 paused at\n"
    "the end of standard input\n";

/* ---- places in the source */

enum { BEFORE = 60, AROUND = 76 }; /* bytes shown before the place, and of a line in all */

/* A byte that goes on a character of UTF-8 takes no column of its own. */
static bool goes_on(uint8_t b)
{
    return b >= 0x80 && b < 0xc0;
}

static void print_line(size_t from, size_t to)
{
    for (size_t i = from; i < to; i++) {
        uint8_t b = source[i];
        putc(b == '\r' ? ' ' : (b < 32 && b != '\t') || b == 127 ? '?' : b, stderr);
    }
}

static void print_caret(size_t from, size_t place)
{
    for (size_t i = from; i < place; i++)
        if (!goes_on(source[i]))
            putc(source[i] == '\t' ? '\t' : ' ', stderr);
    fprintf(stderr, "^\n");
}

/* The line that holds a place, or what is around it in a long one, and a caret. */
static void show_line(size_t start, size_t place)
{
    size_t end = place;
    while (end < source_size && source[end] != '\n')
        end++;
    if (start == end)
        return;
    size_t from = place - start > BEFORE ? place - BEFORE : start;
    while (from < place && goes_on(source[from]))
        from++;
    size_t to = end - from > AROUND ? from + AROUND : end;
    while (to < end && goes_on(source[to]))
        to++;
    fprintf(stderr, "    %s", from > start ? "..." : "");
    print_line(from, to);
    fprintf(stderr, "%s\n    %s", to < end ? "..." : "", from > start ? "   " : "");
    print_caret(from, place);
}

/* A message at a place: `what number: meaning`, or `what: meaning` without a number. */
static void show(const char *path, size_t place, const char *what, uint32_t number, const char *meaning)
{
    size_t line = 1, start = 0;
    for (size_t i = 0; i < place; i++) {
        if (source[i] == '\n') {
            line++;
            start = i + 1;
        }
    }
    fprintf(stderr, "%s:%zu:%zu: %s", path, line, place - start + 1, what);
    if (number != 0)
        fprintf(stderr, " %" PRIu32, number);
    fprintf(stderr, ": %s\n", meaning);
    show_line(start, place);
}

/* Where a statement begins: the token row that names it. */
static size_t place_of(uint32_t statement)
{
    for (uint32_t i = 0; i < checked[VOODOO_TOKENS]; i++) {
        const uint32_t *row = tokens + i * VOODOO_TOKEN_ROW;
        if (row[7] == statement + 1)
            return row[1];
    }
    return source_size;
}

/* ---- check */

static void print_bytes(FILE *out, const uint8_t *name, uint32_t length)
{
    for (uint32_t i = 0; i < length; i++) {
        uint8_t b = name[i];
        bool plain = (b >= 'a' && b <= 'z') || (b >= 'A' && b <= 'Z') || (b >= '0' && b <= '9') || b == '_' || b == '-';
        if (plain)
            putc(b, out);
        else
            fprintf(out, "\\x%02x", b);
    }
}

static void print_name(FILE *out, uint32_t label)
{
    print_bytes(out, names + label * VOODOO_NAME_ROW, labels[label * VOODOO_LABEL_ROW + 3]);
}

static void print_label(FILE *out, uint32_t label)
{
    uint32_t kind = labels[label * VOODOO_LABEL_ROW];
    uint32_t number = labels[label * VOODOO_LABEL_ROW + 1];
    const char *exported = kind == 2 || kind == 4 ? ", exported" : "";
    fprintf(out, "  ");
    print_name(out, label);
    if (kind == 1 || kind == 2) {
        fprintf(out, ": data at %" PRIu32 "%s\n", number, exported);
    } else if (kind == 3 || kind == 4) {
        const uint32_t *row = statements + number * VOODOO_STATEMENT_ROW;
        fprintf(out, ": function at statement %" PRIu32 "%s; parameters %" PRIu32 ", frame words %" PRIu32 "\n", number, exported,
               row[5], row[4]);
    } else if (kind == 6) {
        fprintf(out, ": import, number %" PRIu32 "; arguments %" PRIu32 "\n", number, labels[label * VOODOO_LABEL_ROW + 2]);
    } else {
        fprintf(out, ": place at statement %" PRIu32 "\n", number);
    }
}

static void print_accepted(const char *path)
{
    printf("%s: accepted\n", path);
    printf("tokens %" PRIu32 ", statements %" PRIu32 ", labels %" PRIu32 ", bytes of data %" PRIu32 "\n", checked[VOODOO_TOKENS],
           checked[VOODOO_STATEMENTS], checked[VOODOO_LABELS], checked[VOODOO_DATA]);
    for (uint32_t i = 0; i < checked[VOODOO_LABELS]; i++)
        print_label(stdout, i);
}

static int read_source(const char *path)
{
    FILE *file = fopen(path, "rb");
    if (file == NULL) {
        perror(path);
        return MISUSED;
    }
    source_size = fread(source, 1, sizeof source, file);
    bool failed = ferror(file) != 0;
    fclose(file);
    if (failed)
        fprintf(stderr, "%s: cannot be read\n", path);
    return failed ? MISUSED : OK;
}

/* What would have gone on with the escape that breaks at a place: behind its backslash, or behind \x. */
static const char *escape_meaning(size_t place)
{
    bool ends = place == source_size;
    if (source[place - 1] == '\\')
        return ends ? "bad escape: the source ends behind the backslash"
                    : "bad escape: one of \\ \" n r t x or a space is expected here";
    return ends ? "bad escape: the source ends where a hex digit is expected" : "bad escape: a hex digit is expected here";
}

/* The word `import` stands before a place, plainly spelled. */
static bool is_imported(size_t place)
{
    while (place > 0 && (source[place - 1] == ' ' || source[place - 1] == '\t'))
        place--;
    return place >= 6 && memcmp(source + place - 6, "import", 6) == 0;
}

/* What a refusal means at its place. */
static const char *meaning(uint32_t number, size_t place)
{
    if (number == VOODOO_UNKNOWN_NAME && is_imported(place))
        return "the host has no function of this name (see --hosts)";
    if (number == VOODOO_BAD_ESCAPE)
        return escape_meaning(place);
    if (number == VOODOO_NOT_HERE && place == source_size)
        return "the source ends while something is open";
    return meanings[number];
}

/* Reads and checks a file; shows the place of a refusal. */
static int check(const char *path)
{
    int status = read_source(path);
    if (status != OK)
        return status;
    uint32_t number = voodoo_check(source, source_size, hosts, host_count * VOODOO_HOST_ROW, host_names,
                                   host_count * VOODOO_NAME_ROW, tokens, VOODOO_TOKEN_WORDS, statements,
                                   VOODOO_STATEMENT_WORDS, labels, VOODOO_LABEL_WORDS, names, VOODOO_NAME_BYTES, data,
                                   VOODOO_DATA_BYTES, checked, VOODOO_RESULT_WORDS);
    if (number == VOODOO_ACCEPTED)
        return OK;
    size_t place = checked[VOODOO_PLACE];
    show(path, place, "refusal", number, meaning(number, place));
    return REFUSED;
}

/* ---- run */

enum { ARGUMENTS = 16, ANSWERS = 16, BUDGET = 1000000 }; /* arguments and answers taken; steps of one call */

/* What is left of the words that an imported function gives. */
struct answer {
    const char *name;
    size_t length;
    const char *words;
};

struct options {
    uint64_t steps;
    size_t stack_words;
    size_t memory_bytes;
    struct answer answers[ANSWERS];
    size_t answer_count;
};

/* A whole number from `least` to `most`. */
static bool read_number(const char *text, intmax_t least, intmax_t most, intmax_t *number)
{
    char *end;
    errno = 0;
    *number = strtoimax(text, &end, 10);
    return errno == 0 && end != text && *end == '\0' && least <= *number && *number <= most;
}

static uint32_t start(const struct options *options, const char *name, const uint32_t *arguments, size_t count)
{
    return voodoo_start(statements, VOODOO_STATEMENT_WORDS, checked[VOODOO_STATEMENTS], labels, VOODOO_LABEL_WORDS,
                        checked[VOODOO_LABELS], names, VOODOO_NAME_BYTES, checked[VOODOO_DATA], data, VOODOO_DATA_BYTES,
                        (const uint8_t *)name, strlen(name), arguments, count, record, VOODOO_RECORD_WORDS, stack,
                        options->stack_words, memory, options->memory_bytes, result, VOODOO_RESULT_WORDS);
}

static uint32_t run(const struct options *options, uint64_t budget)
{
    return voodoo_run(statements, VOODOO_STATEMENT_WORDS, checked[VOODOO_STATEMENTS], labels, VOODOO_LABEL_WORDS,
                      checked[VOODOO_LABELS], names, VOODOO_NAME_BYTES, checked[VOODOO_DATA], budget, record,
                      VOODOO_RECORD_WORDS, stack, options->stack_words, memory, options->memory_bytes, result,
                      VOODOO_RESULT_WORDS);
}

static int refuse_start(const char *path, const char *name, uint32_t number)
{
    fprintf(stderr, "%s: refusal %" PRIu32 ": %s: %s\n", path, number, meanings[number], name);
    for (uint32_t i = 0; i < checked[VOODOO_LABELS]; i++)
        if (labels[i * VOODOO_LABEL_ROW] == 4)
            print_label(stderr, i);
    return REFUSED;
}

/* A word as the signed number that it stands for. */
static int64_t signed_word(uint32_t word)
{
    return word < UINT32_C(2147483648) ? (int64_t)word : (int64_t)word - INT64_C(4294967296);
}

/* ---- pauses */

/* The next word of an option that names this function; false where none is left. */
static bool next_answer(struct options *options, const uint8_t *name, uint32_t length, uint32_t *word)
{
    for (size_t i = 0; i < options->answer_count; i++) {
        struct answer *answer = &options->answers[i];
        if (answer->length == length && memcmp(answer->name, name, length) == 0 && *answer->words != '\0') {
            char *end;
            *word = (uint32_t)strtoimax(answer->words, &end, 10); /* take_answer has looked at it */
            answer->words = *end == ',' ? end + 1 : end;
            return true;
        }
    }
    return false;
}

/* The imported function and its arguments, as a line of rules has them. */
static void print_question(FILE *out, const uint8_t *name, uint32_t length)
{
    print_bytes(out, name, length);
    for (uint32_t i = 0; i < record[VOODOO_AT]; i++)
        fprintf(out, " %" PRId64, signed_word(record[VOODOO_ARGUMENTS + i]));
}

/* Asks for a word until one is given; false at the end of the input. */
static bool ask(const uint8_t *name, uint32_t length, uint32_t *word)
{
    char line[64];
    for (;;) {
        intmax_t number;
        print_question(stderr, name, length);
        fputs("? ", stderr);
        if (fgets(line, sizeof line, stdin) == NULL) {
            putc('\n', stderr);
            return false;
        }
        line[strcspn(line, "\r\n")] = '\0';
        if (read_number(line, INT32_MIN, UINT32_MAX, &number)) {
            *word = (uint32_t)number;
            return true;
        }
        fprintf(stderr, "voodoo: no word: %s (a number from -2147483648 to 4294967295)\n", line);
    }
}

static uint32_t resume(const struct options *options, uint32_t word)
{
    return voodoo_resume(statements, VOODOO_STATEMENT_WORDS, checked[VOODOO_STATEMENTS], labels, VOODOO_LABEL_WORDS,
                         checked[VOODOO_LABELS], names, VOODOO_NAME_BYTES, checked[VOODOO_DATA], word, record,
                         VOODOO_RECORD_WORDS, stack, options->stack_words, memory, options->memory_bytes, result,
                         VOODOO_RESULT_WORDS);
}

/* Answers a pause and goes on, its number in *number; or says where the run is paused. */
static int answer_pause(const char *path, struct options *options, uint32_t *number)
{
    uint32_t host = result[VOODOO_WORD], word;
    const uint8_t *name = host_names + host * VOODOO_NAME_ROW;
    uint32_t length = hosts[host * VOODOO_HOST_ROW + VOODOO_HOST_LENGTH];
    if (!next_answer(options, name, length, &word) && !ask(name, length, &word)) {
        show(path, place_of(record[VOODOO_NEXT]), "paused", 0, "nobody answers this call");
        return PAUSED;
    }
    *number = resume(options, word);
    return OK;
}

/* Runs in budgets, as a host does that has other work between them; answers each pause. */
static int run_on(const char *path, struct options *options)
{
    uint64_t taken = 0;
    while (taken < options->steps) {
        uint64_t left = options->steps - taken;
        uint32_t number = 0;
        if (result[VOODOO_OUTCOME] == VOODOO_OUTCOME_PAUSED) {
            int status = answer_pause(path, options, &number);
            if (status != OK)
                return status;
        } else {
            number = run(options, left < BUDGET ? left : BUDGET);
        }
        taken += voodoo_count(result);
        if (number == VOODOO_BROKEN) {
            fprintf(stderr, "%s: number 35: %s\n", path, meanings[number]);
            return STOPPED;
        }
        if (number != 0) {
            show(path, place_of(result[VOODOO_PLACE]), "stop", number, meanings[number]);
            return STOPPED;
        }
        if (result[VOODOO_OUTCOME] == VOODOO_OUTCOME_FINISHED) {
            printf("%" PRId64 "\n", signed_word(result[VOODOO_WORD]));
            fflush(stdout); /* before the line on standard error */
            fprintf(stderr, "%" PRIu64 " step%s\n", taken, taken == 1 ? "" : "s");
            return OK;
        }
    }
    fprintf(stderr, "%s: not at its end after %" PRIu64 " steps\n", path, taken);
    return USED_UP;
}

static int run_file(struct options *options, int count, char **words)
{
    uint32_t arguments[ARGUMENTS];
    int given = count - 2;
    if (given > ARGUMENTS) {
        fprintf(stderr, "voodoo: more than %d arguments\n", ARGUMENTS);
        return MISUSED;
    }
    for (int i = 0; i < given; i++) {
        intmax_t number;
        if (!read_number(words[i + 2], INT32_MIN, UINT32_MAX, &number)) {
            fprintf(stderr, "voodoo: no word: %s\n", words[i + 2]);
            return MISUSED;
        }
        arguments[i] = (uint32_t)number;
    }
    int status = check(words[0]);
    if (status != OK)
        return status;
    uint32_t number = start(options, words[1], arguments, (size_t)given);
    return number == 0 ? run_on(words[0], options) : refuse_start(words[0], words[1], number);
}

/* ---- the command line */

static int misuse(void)
{
    fputs(usage, stderr);
    return MISUSED;
}

/* One entry of the host's list: its name and the number of its arguments. */
static bool take_host(const char *name, size_t length, const char *count)
{
    if (host_count == HOSTS || length == 0 || length > VOODOO_NAME_ROW || count[0] < '0' || count[0] > '8')
        return false;
    memset(host_names + host_count * VOODOO_NAME_ROW, 0, VOODOO_NAME_ROW);
    memcpy(host_names + host_count * VOODOO_NAME_ROW, name, length);
    hosts[host_count * VOODOO_HOST_ROW + VOODOO_HOST_LENGTH] = (uint32_t)length;
    hosts[host_count * VOODOO_HOST_ROW + VOODOO_HOST_ARGUMENTS] = (uint32_t)(count[0] - '0');
    host_count++;
    return true;
}

/* The host's list: NAME/COUNT, with commas between; empty for none. */
static bool take_hosts(const char *text)
{
    host_count = 0;
    while (*text != '\0') {
        size_t length = strcspn(text, "/,");
        if (text[length] != '/' || !take_host(text, length, text + length + 1))
            return false;
        text += length + 2;
        if (*text == ',' && text[1] != '\0')
            text++;
        else if (*text != '\0')
            return false;
    }
    return true;
}

/* Words with commas between them. */
static bool are_words(const char *text)
{
    for (;;) {
        char *end;
        errno = 0;
        intmax_t number = strtoimax(text, &end, 10);
        if (errno != 0 || end == text || number < INT32_MIN || number > UINT32_MAX)
            return false;
        if (*end == '\0')
            return true;
        if (*end != ',')
            return false;
        text = end + 1;
    }
}

/* What an imported function gives: NAME=WORD,.. */
static bool take_answer(struct options *options, const char *text)
{
    size_t length = strcspn(text, "=");
    if (options->answer_count == ANSWERS || text[length] != '=' || !are_words(text + length + 1))
        return false;
    options->answers[options->answer_count++] = (struct answer){text, length, text + length + 1};
    return true;
}

/* Takes one option with its value; false where it is none. */
static bool take_option(struct options *options, const char *name, const char *text)
{
    intmax_t number;
    if (strcmp(name, "--hosts") == 0)
        return take_hosts(text);
    if (strcmp(name, "--answer") == 0)
        return take_answer(options, text);
    if (strcmp(name, "--steps") == 0 && read_number(text, 0, INTMAX_MAX, &number))
        options->steps = (uint64_t)number;
    else if (strcmp(name, "--stack") == 0 && read_number(text, 0, VOODOO_STACK_WORDS, &number))
        options->stack_words = (size_t)number;
    else if (strcmp(name, "--memory") == 0 && read_number(text, 0, VOODOO_MEMORY_BYTES, &number))
        options->memory_bytes = (size_t)number;
    else
        return false;
    return true;
}

static int run_command(int count, char **words)
{
    struct options options = {.steps = 100000000, .stack_words = VOODOO_STACK_WORDS, .memory_bytes = VOODOO_MEMORY_BYTES};
    while (count >= 2 && strncmp(words[0], "--", 2) == 0) {
        if (!take_option(&options, words[0], words[1])) {
            fprintf(stderr, "voodoo: no such option or value: %s %s\n", words[0], words[1]);
            return misuse();
        }
        count -= 2;
        words += 2;
    }
    return count < 2 ? misuse() : run_file(&options, count, words);
}

static int check_command(int count, char **words)
{
    if (count == 3 && strcmp(words[0], "--hosts") == 0) {
        if (!take_hosts(words[1])) {
            fprintf(stderr, "voodoo: no list of hosts: %s (NAME/COUNT,.. with counts from 0 to 8)\n", words[1]);
            return MISUSED;
        }
        count -= 2;
        words += 2;
    }
    if (count != 1)
        return misuse();
    int status = check(words[0]);
    if (status == OK)
        print_accepted(words[0]);
    return status;
}

static int command(int count, char **words)
{
    take_hosts("bath/1,order/2"); /* those of the lister */
    if (count == 2 && (strcmp(words[1], "--help") == 0 || strcmp(words[1], "-h") == 0)) {
        fputs(usage, stdout);
        return OK;
    }
    if (count >= 3 && strcmp(words[1], "check") == 0)
        return check_command(count - 2, words + 2);
    if (count >= 2 && strcmp(words[1], "run") == 0)
        return run_command(count - 2, words + 2);
    return misuse();
}

int main(int count, char **words)
{
    int status = command(count, words);
    if (fflush(stdout) != 0 || ferror(stdout)) {
        fputs("voodoo: standard output cannot be written\n", stderr);
        return MISUSED;
    }
    return status;
}
