/* Functions over columns of 100,000 numbers as plain loops: a line a call, with its name, the nanoseconds of the
 * fastest of some calls, and a checksum of the results of all. */
#include <stdint.h>
#include <stdio.h>
#include <time.h>

typedef __int128 i128;
typedef unsigned __int128 u128;

enum { ROWS = 100000, TIMES = 24 };

static const int64_t ONE = INT64_C(1000000000);

static int64_t keys[ROWS], amounts[ROWS], classes[ROWS];

static uint64_t seed = 12345;

static uint64_t below(uint64_t bound) {
    seed = seed * UINT64_C(6364136223846793005) + UINT64_C(1442695040888963407);
    return (seed >> 33) % bound;
}

#define CALL __attribute__((noinline)) static

CALL i128 sum(const int64_t *items, size_t count) {
    i128 total = 0;
    for (size_t i = 0; i < count; i++)
        total += items[i];
    return total;
}

CALL i128 count_equal(const int64_t *items, size_t count, i128 with) {
    i128 found = 0;
    for (size_t i = 0; i < count; i++)
        found += items[i] == with;
    return found * ONE;
}

CALL i128 count_above(const int64_t *items, size_t count, i128 with) {
    i128 found = 0;
    for (size_t i = 0; i < count; i++)
        found += items[i] > with;
    return found * ONE;
}

CALL i128 sum_above(const int64_t *tested, const int64_t *summed, size_t count, i128 with) {
    i128 total = 0;
    for (size_t i = 0; i < count; i++)
        if (tested[i] > with)
            total += summed[i];
    return total;
}

CALL size_t place_equal(const int64_t *items, size_t count, i128 with) {
    for (size_t i = 0; i < count; i++)
        if (items[i] == with)
            return i;
    return count;
}

/* The last place before the first number above that one. */
CALL size_t place_rising(const int64_t *items, size_t count, i128 with) {
    for (size_t i = 0; i < count; i++)
        if (items[i] > with)
            return i - 1;
    return count - 1;
}

static uint64_t nanos(void) {
    struct timespec now;
    clock_gettime(CLOCK_MONOTONIC, &now);
    return (uint64_t)now.tv_sec * UINT64_C(1000000000) + (uint64_t)now.tv_nsec;
}

static void print_line(const char *name, uint64_t least, i128 number) {
    char bytes[41], *at = bytes + 40;
    u128 size = number < 0 ? -(u128)number : (u128)number;
    *at = 0;
    do
        *--at = (char)('0' + (int)(size % 10)), size /= 10;
    while (size != 0);
    printf("%s %lu %s%s\n", name, least, number < 0 ? "-" : "", at);
}

#define TIME(name, call)                               \
    do {                                               \
        uint64_t least = UINT64_MAX;                   \
        u128 all = 0;                                  \
        for (int turn = 0; turn < TIMES; turn++) {     \
            int64_t key = (int64_t)(ROWS - 1 - turn) * 37 * ONE; \
            (void)key;                                 \
            uint64_t start = nanos();                  \
            i128 value = call;                         \
            uint64_t taken = nanos() - start;          \
            least = taken < least ? taken : least;     \
            all = all * 31 + (u128)value;              \
        }                                              \
        print_line(name, least, (i128)all);            \
    } while (0)

int main(void) {
    for (int row = 0; row < ROWS; row++) {
        keys[row] = row * 37 * ONE;
        amounts[row] = (int64_t)(below(10000000) * 10000000);
        classes[row] = (int64_t)(below(1000) * 1000000000);
    }
    TIME("sum", sum(amounts, ROWS));
    TIME("countif_equal", count_equal(classes, ROWS, turn * (i128)ONE));
    TIME("countif_above", count_above(classes, ROWS, 500 * (i128)ONE));
    TIME("sumif", sum_above(classes, amounts, ROWS, 500 * (i128)ONE));
    TIME("vlookup_exact", amounts[place_equal(keys, ROWS, key)]);
    TIME("vlookup_rising", amounts[place_rising(keys, ROWS, key + 1)]);
    TIME("match_exact", (i128)(place_equal(keys, ROWS, key) + 1) * ONE);
    TIME("match_rising", (i128)(place_rising(keys, ROWS, key + 1) + 1) * ONE);
    return 0;
}
