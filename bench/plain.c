/*
 * What one would write by hand in C for the same rows: a switch on the kind of the statement, with the tests that 01 asks
 * for before each step (number 35) and in it (stops 30 to 34). It says 35 without a place. Compiled with PLAIN_UNTESTED it
 * leaves out the tests for 35, which only tables and records that are known to be good allow.
 */
#ifdef PLAIN_UNTESTED
#define plain_start plain_start_untested
#define plain_run plain_run_untested
enum { TESTED = 0 };
#else
enum { TESTED = 1 };
#endif

#include "plain.h"

#include <stdbool.h>
#include <string.h>

enum { ROW = 27 };

#define NO_ROW 4294967295u

static const uint32_t *row_of(const struct program *p, uint32_t n)
{
    return p->statements + (size_t)n * ROW;
}

static bool is_call(const uint32_t *row)
{
    uint32_t k = row[0];
    return k == 11 || (((k >= 5 && k <= 7) || k == 13) && row[6] == 2);
}

static bool is_return(const uint32_t *row)
{
    return row[0] == 2 || (row[0] == 13 && row[6] != 2);
}

static bool in_function(const struct program *p, const uint32_t *row)
{
    return row[1] < p->count && row_of(p, row[1])[0] == 1;
}

/* ---- number 35 */

static bool operand_good(const struct program *p, const uint32_t *operand, uint32_t size)
{
    switch (operand[0]) {
    case 1:
    case 4:
        return true;
    case 2:
    case 5:
        return operand[1] < size;
    case 3:
    case 6:
        return operand[1] <= p->data_length;
    default:
        return false;
    }
}

static bool operands_good(const struct program *p, const uint32_t *row, uint32_t n, uint32_t size)
{
    for (uint32_t i = 0; i < n; i++)
        if (!operand_good(p, row + 11 + 2 * i, size))
            return false;
    return true;
}

static bool target_good(const struct program *p, const uint32_t *row)
{
    return row[4] < p->count && row_of(p, row[4])[1] == row[1];
}

static bool call_good(const struct program *p, const uint32_t *row, uint32_t size)
{
    uint32_t g = row[7];
    if (g >= p->count || row[8] > 8)
        return false;
    const uint32_t *callee = row_of(p, g);
    return callee[0] == 1 && callee[5] == row[8] && callee[4] >= 3 + (uint64_t)callee[5] && operands_good(p, row, row[8], size);
}

static bool expression_good(const struct program *p, const uint32_t *row, uint32_t size)
{
    uint32_t e = row[6];
    if (e == 1)
        return operand_good(p, row + 11, size);
    if (e == 2)
        return call_good(p, row, size);
    if (e == 36 || e == 37 || e == 44)
        return operand_good(p, row + 11, size);
    return e >= 33 && e <= 51 && operand_good(p, row + 11, size) && operand_good(p, row + 13, size);
}

static bool row_good(const struct program *p, const uint32_t *row, uint32_t size)
{
    switch (row[0]) {
    case 2:
    case 22:
        return true;
    case 3:
        return (uint64_t)row[4] + row[5] < size;
    case 4:
        return row[4] < size;
    case 5:
    case 6:
        return row[4] < size && expression_good(p, row, size);
    case 7:
        return row[9] >= 1 && row[9] <= 3 && operand_good(p, row + 9, size) && expression_good(p, row, size);
    case 8:
    case 9:
        return operands_good(p, row, 3, size);
    case 10:
    case 20:
    case 21:
        return target_good(p, row);
    case 11:
    case 12:
        return row[6] == 2 && call_good(p, row, size);
    case 13:
        return row[6] == 0 || expression_good(p, row, size);
    case 14:
    case 15:
    case 16:
    case 17:
    case 18:
    case 19:
        return target_good(p, row) && operands_good(p, row, 2, size);
    default:
        return false;
    }
}

/* The head of the frame at s: the first, or called from the frame below it. */
static bool head_good(const struct program *p, const struct run *r, uint32_t s)
{
    uint32_t back = r->stack[s], below = r->stack[s + 1];
    if (s == 0 && back == NO_ROW && below == NO_ROW)
        return true;
    if (back >= p->count)
        return false;
    const uint32_t *row = row_of(p, back);
    return in_function(p, row) && is_call(row) && (uint64_t)below + row_of(p, row[1])[4] == s;
}

static bool leaves_good(const struct program *p, const struct run *r, uint32_t s)
{
    for (;;) {
        if (!head_good(p, r, s) || r->stack[s + 2] > r->memory_bytes)
            return false;
        if (s == 0)
            return true;
        const uint32_t *row = row_of(p, r->stack[s]);
        const uint32_t *function = row_of(p, row[1]);
        if (function[4] < 3 + (uint64_t)function[5] || !row_good(p, row, function[4]))
            return false;
        if (row[0] != 13)
            return true;
        s = r->stack[s + 1];
    }
}

static bool step_good(const struct program *p, const struct run *r)
{
    if (r->next >= p->count || r->memory_bytes > 65536 || r->stack_words > 16384)
        return false;
    const uint32_t *row = row_of(p, r->next);
    if (!in_function(p, row))
        return false;
    const uint32_t *function = row_of(p, row[1]);
    uint32_t size = function[4];
    if (size < 3 + (uint64_t)function[5] || (uint64_t)r->frame + size != r->used || r->used > r->stack_words ||
        r->top > r->memory_bytes)
        return false;
    if (!row_good(p, row, size) || !head_good(p, r, r->frame))
        return false;
    if (row[0] == 4)
        return r->stack[r->frame + row[4]] <= r->memory_bytes;
    if (row[0] == 12)
        return r->stack[r->frame + 2] <= r->memory_bytes;
    return !is_return(row) || leaves_good(p, r, r->frame);
}

/* ---- words */

static bool has_word(const struct run *r, uint32_t a)
{
    return a % 4 == 0 && (uint64_t)a + 4 <= r->memory_bytes;
}

static uint32_t load(const struct run *r, uint32_t a)
{
    uint32_t v;
    memcpy(&v, r->memory + a, 4);
    return v;
}

static void store(struct run *r, uint32_t a, uint32_t v)
{
    memcpy(r->memory + a, &v, 4);
}

static uint32_t number(const struct run *r, const uint32_t *operand)
{
    return operand[0] == 2 || operand[0] == 5 ? r->stack[r->frame + operand[1]] : operand[1];
}

static bool read(const struct run *r, const uint32_t *operand, uint32_t *v)
{
    uint32_t x = number(r, operand);
    if (operand[0] >= 4) {
        if (!has_word(r, x))
            return false;
        x = load(r, x);
    }
    *v = x;
    return true;
}

/* ---- expressions: 0, or the number of the stop */

static uint32_t reserve(const struct run *r, uint64_t bytes, uint32_t *v, uint32_t *top)
{
    uint64_t at = ((uint64_t)r->top + 3) / 4 * 4;
    if (at + bytes > r->memory_bytes)
        return 34;
    *v = (uint32_t)at;
    *top = (uint32_t)(at + bytes);
    return 0;
}

static uint32_t apply(const struct run *r, uint32_t e, uint32_t x, uint32_t y, uint32_t *v, uint32_t *top)
{
    switch (e) {
    case 33: *v = x + y; return 0;
    case 34: *v = x & y; return 0;
    case 35:
        if ((int32_t)y < 0)
            return 31;
        *v = (uint32_t)((int32_t)x >> (y < 32 ? y : 31));
        return 0;
    case 36: return reserve(r, x, v, top);
    case 37: return reserve(r, 4 * (uint64_t)x, v, top);
    case 38:
    case 49:
        if ((int32_t)y < 0)
            return 31;
        *v = y < 32 ? x >> y : 0;
        return 0;
    case 39:
        if (y == 0 || (x == 0x80000000u && y == 0xffffffffu))
            return 30;
        *v = (uint32_t)((int32_t)x / (int32_t)y);
        return 0;
    case 40: {
        uint32_t a = x + y;
        if (a >= r->memory_bytes)
            return 32;
        *v = r->memory[a];
        return 0;
    }
    case 41: {
        uint32_t a = x + 4 * y;
        if (!has_word(r, a))
            return 32;
        *v = load(r, a);
        return 0;
    }
    case 42:
        if (y == 0)
            return 30;
        *v = y == 0xffffffffu ? 0 : (uint32_t)((int32_t)x % (int32_t)y);
        return 0;
    case 43: *v = x * y; return 0;
    case 44: *v = ~x; return 0;
    case 45: *v = x | y; return 0;
    case 46:
        if ((int32_t)y < 0)
            return 31;
        *v = x << (y & 31) | x >> (-y & 31);
        return 0;
    case 47:
        if ((int32_t)y < 0)
            return 31;
        *v = x >> (y & 31) | x << (-y & 31);
        return 0;
    case 48:
        if ((int32_t)y < 0)
            return 31;
        *v = y < 32 ? x << y : 0;
        return 0;
    case 50: *v = x - y; return 0;
    default: *v = x ^ y; return 0;
    }
}

static uint32_t eval(const struct run *r, const uint32_t *row, uint32_t *v, uint32_t *top)
{
    uint32_t x, y = 0, e = row[6];
    *top = r->top;
    if (!read(r, row + 11, &x))
        return 32;
    if (e == 1) {
        *v = x;
        return 0;
    }
    if (e != 36 && e != 37 && e != 44 && !read(r, row + 13, &y))
        return 32;
    return apply(r, e, x, y, v, top);
}

static bool holds(uint32_t k, uint32_t x, uint32_t y)
{
    int32_t a = (int32_t)x, b = (int32_t)y;
    switch (k) {
    case 14: return a == b;
    case 15: return a >= b;
    case 16: return a > b;
    case 17: return a <= b;
    case 18: return a < b;
    default: return a != b;
    }
}

/* ---- calls and returns */

static bool read_arguments(const struct run *r, const uint32_t *row, uint32_t *words)
{
    for (uint32_t i = 0; i < row[8]; i++)
        if (!read(r, row + 11 + 2 * i, words + i))
            return false;
    return true;
}

static void enter(struct run *r, uint32_t at, uint32_t back, uint32_t below, uint32_t top, const uint32_t *words, uint32_t n,
                  uint32_t size)
{
    uint32_t *frame = r->stack + at;
    frame[0] = back;
    frame[1] = below;
    frame[2] = top;
    for (uint32_t i = 0; i < n; i++)
        frame[3 + i] = words[i];
    for (uint32_t i = 3 + n; i < size; i++)
        frame[i] = 0;
    r->frame = at;
    r->used = at + size;
    r->top = top;
}

static uint32_t call(const struct program *p, struct run *r, const uint32_t *row)
{
    uint32_t words[8], size = row_of(p, row[7])[4];
    if (row[0] == 7 && !has_word(r, number(r, row + 9)))
        return 32;
    if (!read_arguments(r, row, words))
        return 32;
    if ((uint64_t)r->used + size > r->stack_words)
        return 33;
    enter(r, r->used, r->next, r->frame, r->top, words, row[8], size);
    r->next = row[7] + 1;
    return 0;
}

static uint32_t tail_call(const struct program *p, struct run *r, const uint32_t *row)
{
    uint32_t words[8], size = row_of(p, row[7])[4], *frame = r->stack + r->frame;
    if (!read_arguments(r, row, words))
        return 32;
    if ((uint64_t)r->frame + size > r->stack_words)
        return 33;
    enter(r, r->frame, frame[0], frame[1], frame[2], words, row[8], size);
    r->next = row[7] + 1;
    return 0;
}

static uint32_t hand_back(const struct program *p, struct run *r, uint32_t v)
{
    uint32_t s = r->frame;
    const uint32_t *row = NULL;
    while (s != 0) {
        row = row_of(p, r->stack[s]);
        if (row[0] != 13)
            break;
        s = r->stack[s + 1];
    }
    uint32_t back = r->stack[s], below = r->stack[s + 1], top = r->stack[s + 2];
    if (s == 0) {
        r->state = PLAIN_FINISHED;
        r->value = v;
        r->next = r->frame = NO_ROW;
        r->used = 0;
        r->top = top;
        return 0;
    }
    if (row[0] == 7) {
        uint32_t a = row[9] == 2 ? r->stack[below + row[10]] : row[10];
        if (!has_word(r, a))
            return 32;
        store(r, a, v);
    } else if (row[0] != 11) {
        r->stack[below + row[4]] = v;
    }
    r->next = back + 1;
    r->frame = below;
    r->used = s;
    r->top = top;
    return 0;
}

/* ---- statements: 0, or the number of the stop */

static uint32_t assign(struct run *r, const uint32_t *row)
{
    uint32_t v, top, stop;
    uint32_t a = row[0] == 7 ? number(r, row + 9) : 0;
    if (row[0] == 7 && !has_word(r, a))
        return 32;
    stop = eval(r, row, &v, &top);
    if (stop != 0)
        return stop;
    if (row[0] == 7)
        store(r, a, v);
    else
        r->stack[r->frame + row[4]] = v;
    r->top = top;
    r->next++;
    return 0;
}

static uint32_t set_memory(struct run *r, const uint32_t *row)
{
    uint32_t base, offset, v;
    if (!read(r, row + 11, &base) || !read(r, row + 13, &offset) || !read(r, row + 15, &v))
        return 32;
    uint32_t a = row[0] == 8 ? base + offset : base + 4 * offset;
    if (row[0] == 8 ? a >= r->memory_bytes : !has_word(r, a))
        return 32;
    if (row[0] == 8)
        r->memory[a] = (uint8_t)v;
    else
        store(r, a, v);
    r->next++;
    return 0;
}

static uint32_t execute(const struct program *p, struct run *r)
{
    const uint32_t *row = row_of(p, r->next);
    uint32_t x, y, stop;
    switch (row[0]) {
    case 2:
        return hand_back(p, r, 0);
    case 3:
        r->stack[r->frame + row[4]] = r->top;
        for (uint32_t i = 1; i <= row[5]; i++)
            r->stack[r->frame + row[4] + i] = 0;
        r->next++;
        return 0;
    case 4:
        r->top = r->stack[r->frame + row[4]];
        r->next++;
        return 0;
    case 5:
    case 6:
    case 7:
        return row[6] == 2 ? call(p, r, row) : assign(r, row);
    case 8:
    case 9:
        return set_memory(r, row);
    case 11:
        return call(p, r, row);
    case 12:
        return tail_call(p, r, row);
    case 13:
        if (row[6] == 2)
            return call(p, r, row);
        x = 0;
        stop = row[6] == 0 ? 0 : eval(r, row, &x, &y);
        return stop != 0 ? stop : hand_back(p, r, x);
    case 14:
    case 15:
    case 16:
    case 17:
    case 18:
    case 19:
        if (!read(r, row + 11, &x) || !read(r, row + 13, &y))
            return 32;
        r->next = holds(row[0], x, y) ? r->next + 1 : row[4];
        return 0;
    case 22:
        r->next++;
        return 0;
    default:
        r->next = row[4];
        return 0;
    }
}

/* ---- runs */

void plain_start(const struct program *p, struct run *r, uint32_t function, const uint32_t *arguments)
{
    const uint32_t *row = row_of(p, function);
    enter(r, 0, NO_ROW, NO_ROW, p->data_length, arguments, row[5], row[4]);
    r->state = PLAIN_RUNNING;
    r->next = function + 1;
}

uint64_t plain_run(const struct program *p, struct run *r, uint64_t budget)
{
    uint64_t count = 0;
    while (count < budget && r->state == PLAIN_RUNNING) {
        uint32_t stop = !TESTED || step_good(p, r) ? execute(p, r) : 35;
        if (stop != 0) {
            r->state = PLAIN_STOPPED;
            r->value = stop;
            break;
        }
        count++;
    }
    return count;
}
