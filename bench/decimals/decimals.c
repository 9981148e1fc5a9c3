/* Times the calls of decimals.h: a line a call, with its name, the data, how many rounds of CALLS calls, the
 * nanoseconds of all of them, and two checksums of the results. */
#include "decimals.h"

#include <stdio.h>
#include <string.h>
#include <time.h>

enum { COUNT = 4096 + 20, CALLS = 4096, SHIFTS = 20, TIMES = 40 };

struct text {
    char bytes[64];
    size_t length;
};

/* A call's numbers stand in two columns. */
struct columns {
    i128 left[COUNT], right[COUNT];
};

struct data {
    const char *kind;
    struct columns pairs, powers, roundings, roots;
    struct text texts[COUNT];
};

/* The data. */

static uint64_t seed = 12345;

static uint64_t below(uint64_t bound) {
    seed = seed * UINT64_C(6364136223846793005) + UINT64_C(1442695040888963407);
    return (seed >> 33) % bound;
}

static i128 digits(uint64_t count) {
    i128 number = 0;
    for (; count > 0; count--)
        number = 10 * number + (i128)below(10);
    return number;
}

static i128 up_to(uint64_t most) {
    return digits(below(most) + 1);
}

static i128 with_any_sign(i128 raw) {
    return below(4) == 0 ? -raw : raw;
}

/* Amounts from 1.25 to 99999.99 and factors from 0.0001 to 0.9999, rates of growth over up to 24 months,
 * amounts rounded to up to four places, and amounts to take the root of. */
static void fill_small(struct data *data, int row) {
    data->pairs.left[row] = with_any_sign((i128)(125 + below(9999875)) * 10000000);
    data->pairs.right[row] = with_any_sign((i128)(1 + below(9999)) * 100000);
    data->powers.left[row] = (i128)(10000 + below(1000)) * 100000;
    data->powers.right[row] = (i128)(1 + below(24)) * ONE;
    data->roundings.left[row] = with_any_sign((i128)below(99999) * ONE + (i128)below(ONE));
    data->roundings.right[row] = (i128)below(5);
    data->roots.left[row] = (i128)(125 + below(9999875)) * 10000000;
}

/* Numbers of 1 to 27 digits, nine of them behind the point, and powers of either sign. */
static void fill_wide(struct data *data, int row) {
    data->pairs.left[row] = with_any_sign(up_to(27));
    data->pairs.right[row] = with_any_sign(up_to(27));
    data->powers.left[row] = with_any_sign(up_to(13));
    data->powers.right[row] = ((i128)below(81) - 40) * ONE;
    data->roundings.left[row] = with_any_sign(up_to(27));
    data->roundings.right[row] = (i128)below(28) - 18;
    data->roots.left[row] = up_to(27);
}

/* As 123.45, -0.5, 1e3 and 99999999.999999999. */
static void small_text(char *bytes) {
    unsigned kind = (unsigned)below(4), front = (unsigned)below(100000000), behind = (unsigned)below(ONE);
    if (kind == 0)
        sprintf(bytes, "%u.%02u", front / 100, behind % 100);
    else if (kind == 1)
        sprintf(bytes, "-0.%u", behind % 10);
    else if (kind == 2)
        sprintf(bytes, "%ue%u", front % 10, behind % 7);
    else
        sprintf(bytes, "%u.%09u", front, behind);
}

/* Up to 18 digits before the point and up to 18 behind it, and with an exponent. */
static void wide_text(char *bytes) {
    unsigned kind = (unsigned)below(4);
    unsigned long front = (unsigned long)up_to(18);
    unsigned behind = (unsigned)below(ONE), last = (unsigned)below(ONE), exponent = last % 20;
    if (kind == 0)
        sprintf(bytes, "%lu.%09u", front, behind);
    else if (kind == 1)
        sprintf(bytes, "-%lu.%09u%09u", front, behind, last);
    else if (kind == 2)
        sprintf(bytes, "%lue%u", front, exponent);
    else
        sprintf(bytes, "%lu.%09ue-%u", front, behind, exponent);
}

static void fill(struct data *data, const char *kind, void (*fill_row)(struct data *, int),
                 void (*text)(char *)) {
    data->kind = kind;
    for (int row = 0; row < COUNT; row++) {
        fill_row(data, row);
        text(data->texts[row].bytes);
        data->texts[row].length = strlen(data->texts[row].bytes);
    }
}

/* The rounds. */

static i128 value_of(struct outcome outcome) {
    return outcome.fault == FINE ? outcome.raw : outcome.fault == DIV_ZERO ? 1 : 2;
}

static i128 reading_of(struct outcome outcome) {
    return outcome.fault == FINE ? outcome.raw : outcome.fault == OVER ? 1 : 2;
}

/* All results in turn, so that their order counts. */
static u128 mixed_with(u128 sum, i128 value) {
    return 31 * sum + (u128)value;
}

static uint64_t nanos(void) {
    struct timespec now;
    clock_gettime(CLOCK_MONOTONIC, &now);
    return (uint64_t)now.tv_sec * ONE + (uint64_t)now.tv_nsec;
}

static void print_number(i128 number) {
    char bytes[41], *at = bytes + 40;
    u128 size = size_of(number);
    *at = 0;
    do
        *--at = (char)('0' + (int)(size % 10)), size /= 10;
    while (size != 0);
    printf(" %s%s", number < 0 ? "-" : "", at);
}

static void print_line(const char *name, const char *kind, unsigned rounds, uint64_t least, u128 sum,
                       u128 mixed) {
    printf("%s %s %u %lu", name, kind, rounds, least);
    print_number((i128)sum);
    print_number((i128)mixed);
    printf("\n");
}

/* A call with the numbers of one row, or with those of two. */
typedef i128 call(const struct data *data, unsigned at, unsigned other);

#define CALL(name, columns, outcome)                                                       \
    static inline i128 call_##name(const struct data *data, unsigned at, unsigned other) { \
        i128 left = data->columns.left[at], right = data->columns.right[other];            \
        (void)right;                                                                       \
        return value_of(outcome);                                                          \
    }

CALL(add, pairs, add(left, right))
CALL(sub, pairs, sub(left, right))
CALL(neg, pairs, neg(left))
CALL(mul, pairs, mul(left, right))
CALL(div, pairs, divide(left, right))
CALL(percent, pairs, percent(left))
CALL(floor_mod, pairs, floor_mod(left, right))
CALL(quotient, pairs, quotient(left, right))
CALL(pow, powers, power(left, right))
CALL(nearest, roundings, round_to(left, (int64_t)right, NEAREST))
CALL(away, roundings, round_to(left, (int64_t)right, AWAY))
CALL(toward, roundings, round_to(left, (int64_t)right, TOWARD))
CALL(floor, roundings, round_to(left, (int64_t)right, FLOOR))
CALL(sqrt, roots, root(left))

static inline i128 call_read(const struct data *data, unsigned at, unsigned other) {
    (void)at;
    return reading_of(read(data->texts[other].bytes, data->texts[other].length));
}

static inline i128 call_write(const struct data *data, unsigned at, unsigned other) {
    struct written text;
    (void)at;
    write(data->pairs.left[other], &text);
    return text.end - text.start + (unsigned char)text.bytes[text.end - 1];
}

static inline i128 all_bytes(const struct data *data, unsigned at, unsigned other) {
    struct written text;
    u128 mixed = 0;
    (void)at;
    write(data->pairs.left[other], &text);
    for (; text.start < text.end; text.start++)
        mixed = mixed_with(mixed, text.bytes[text.start]);
    return (i128)mixed;
}

/* The least time of TIMES. A round takes other rows together than the one before it. */
static inline __attribute__((always_inline)) void time_call(const char *name, const struct data *data,
                                                            unsigned rounds, call *timed, call *checked) {
    uint64_t least = UINT64_MAX;
    u128 sum = 0, mixed = 0;
    for (int time = 0; time < TIMES; time++) {
        uint64_t start = nanos();
        for (unsigned round = 0; round < rounds; round++) {
            for (unsigned at = 0; at < CALLS; at++)
                sum += (u128)timed(data, at, at + round % SHIFTS);
        }
        uint64_t took = nanos() - start;
        least = took < least ? took : least;
    }
    for (unsigned at = 0; at < COUNT; at++)
        mixed = mixed_with(mixed, checked(data, at, at));
    print_line(name, data->kind, rounds, least, sum, mixed);
}

static void time_calls(const struct data *data) {
    time_call("add", data, 100, call_add, call_add);
    time_call("sub", data, 100, call_sub, call_sub);
    time_call("neg", data, 100, call_neg, call_neg);
    time_call("mul", data, 20, call_mul, call_mul);
    time_call("div", data, 20, call_div, call_div);
    time_call("percent", data, 20, call_percent, call_percent);
    time_call("floor_mod", data, 20, call_floor_mod, call_floor_mod);
    time_call("quotient", data, 20, call_quotient, call_quotient);
    time_call("pow", data, 2, call_pow, call_pow);
    time_call("nearest", data, 20, call_nearest, call_nearest);
    time_call("away", data, 20, call_away, call_away);
    time_call("toward", data, 20, call_toward, call_toward);
    time_call("floor", data, 20, call_floor, call_floor);
    time_call("sqrt", data, 20, call_sqrt, call_sqrt);
    time_call("read", data, 20, call_read, call_read);
    time_call("write", data, 20, call_write, all_bytes);
}

int main(void) {
    static struct data small, wide;
    fill(&small, "small", fill_small, small_text);
    fill(&wide, "wide", fill_wide, wide_text);
    time_calls(&small);
    time_calls(&wide);
    return 0;
}
