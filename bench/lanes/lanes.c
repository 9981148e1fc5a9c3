/* The kernels of lane_kernels as plain C loops, and their times over the same numbers: a line a call, with its
 * name, the nanoseconds of the fastest of some calls, and a checksum of the results of all. */
#include <stdbool.h>
#include <stddef.h>
#include <stdint.h>
#include <stdio.h>
#include <time.h>

typedef __int128 i128;
typedef unsigned __int128 u128;

enum { LANES = 1048576, SHIFTS = 8, ROWS = LANES + SHIFTS, TIMES = 24, WIDTH = 30 };

#define ONE INT64_C(1000000000)
#define KERNEL static __attribute__((noinline))

/* The kernels. */

/* So few items that the sums of their halves fit 64 bits, which vector code adds. */
KERNEL i128 sum(const int64_t *items, size_t count) {
    int64_t high = 0, low = 0;
    for (size_t i = 0; i < count; i++) {
        high += items[i] >> 32;
        low += items[i] & INT64_C(0xffffffff);
    }
    return (i128)high * ((i128)1 << 32) + low;
}

KERNEL int64_t least_of(const int64_t *items, size_t count) {
    int64_t best = items[0];
    for (size_t i = 1; i < count; i++)
        best = items[i] < best ? items[i] : best;
    return best;
}

KERNEL int64_t greatest_of(const int64_t *items, size_t count) {
    int64_t best = items[0];
    for (size_t i = 1; i < count; i++)
        best = items[i] > best ? items[i] : best;
    return best;
}

KERNEL size_t count_less(const int64_t *items, size_t count, int64_t with) {
    size_t found = 0;
    for (size_t i = 0; i < count; i++)
        found += items[i] < with;
    return found;
}

/* The first lane whose result leaves 64 bits, or -1. */
KERNEL int64_t add(const int64_t *restrict a, const int64_t *restrict b, int64_t *restrict out, size_t count) {
    bool crossed = false;
    for (size_t i = 0; i < count; i++)
        crossed |= __builtin_add_overflow(a[i], b[i], &out[i]);
    for (size_t i = 0; crossed && i < count; i++)
        if (__builtin_add_overflow(a[i], b[i], &out[i]))
            return (int64_t)i;
    return -1;
}

KERNEL int64_t sub(const int64_t *restrict a, const int64_t *restrict b, int64_t *restrict out, size_t count) {
    bool crossed = false;
    for (size_t i = 0; i < count; i++)
        crossed |= __builtin_sub_overflow(a[i], b[i], &out[i]);
    for (size_t i = 0; crossed && i < count; i++)
        if (__builtin_sub_overflow(a[i], b[i], &out[i]))
            return (int64_t)i;
    return -1;
}

KERNEL void equal(const int64_t *restrict a, const int64_t *restrict b, int64_t *restrict out, size_t count) {
    for (size_t i = 0; i < count; i++)
        out[i] = a[i] == b[i] ? ONE : 0;
}

KERNEL void less(const int64_t *restrict a, const int64_t *restrict b, int64_t *restrict out, size_t count) {
    for (size_t i = 0; i < count; i++)
        out[i] = a[i] < b[i] ? ONE : 0;
}

KERNEL void choose(const int64_t *restrict mask, const int64_t *restrict a, const int64_t *restrict b,
                   int64_t *restrict out, size_t count) {
    for (size_t i = 0; i < count; i++)
        out[i] = mask[i] != 0 ? a[i] : b[i];
}

KERNEL void window_sums(const int64_t *restrict items, size_t count, size_t width, i128 *restrict out) {
    i128 running = 0;
    for (size_t i = 0; i + 1 < width; i++)
        running += items[i];
    for (size_t i = 0; i + width <= count; i++) {
        running += items[i + width - 1];
        out[i] = running;
        running -= items[i];
    }
}

/* The data. */

static int64_t left[ROWS], right[ROWS], mask[ROWS], out[LANES];
static i128 sums[LANES + 1 - WIDTH];
static uint64_t seed = 12345;

static uint64_t below(uint64_t bound) {
    seed = seed * UINT64_C(6364136223846793005) + UINT64_C(1442695040888963407);
    return (seed >> 33) % bound;
}

static int64_t amount(void) {
    int64_t raw = (int64_t)(below(10000000) * 10000000);
    return below(4) == 0 ? -raw : raw;
}

/* The times. */

static u128 mixed_with(u128 all, i128 value) {
    return 31 * all + (u128)value;
}

static i128 mixed(void) {
    u128 all = 0;
    for (size_t i = 0; i < LANES; i++)
        all = mixed_with(all, out[i]);
    return (i128)all;
}

static i128 mixed_sums(void) {
    u128 all = 0;
    for (size_t i = 0; i < LANES + 1 - WIDTH; i++)
        all = mixed_with(all, sums[i]);
    return (i128)all;
}

static uint64_t nanos(void) {
    struct timespec now;
    clock_gettime(CLOCK_MONOTONIC, &now);
    return (uint64_t)now.tv_sec * UINT64_C(1000000000) + (uint64_t)now.tv_nsec;
}

static void print_line(const char *name, uint64_t least, i128 number) {
    char bytes[41], *at = bytes + 40;
    u128 size = number < 0 ? -(u128)number : (u128)number;
    *at = 0;
    do
        *--at = (char)('0' + (int)(size % 10)), size /= 10;
    while (size != 0);
    printf("%s %lu %s%s\n", name, least, number < 0 ? "-" : "", at);
}

#define TIME(name, call, value)                        \
    do {                                               \
        uint64_t least = UINT64_MAX;                   \
        u128 all = 0;                                  \
        for (int time = 0; time < TIMES; time++) {     \
            size_t shift = (size_t)time % SHIFTS;      \
            uint64_t start = nanos();                  \
            call;                                      \
            uint64_t taken = nanos() - start;          \
            least = taken < least ? taken : least;     \
            all = mixed_with(all, value);              \
        }                                              \
        print_line(name, least, (i128)all);            \
    } while (0)

int main(void) {
    for (int row = 0; row < ROWS; row++) {
        left[row] = amount();
        right[row] = amount();
        mask[row] = below(2) == 0 ? 0 : ONE;
    }
    i128 wide;
    int64_t result;
    size_t found;
    TIME("sum", wide = sum(left + shift, LANES), wide);
    TIME("min", result = least_of(left + shift, LANES), result);
    TIME("max", result = greatest_of(left + shift, LANES), result);
    TIME("count_where", found = count_less(left + shift, LANES, (int64_t)shift), (i128)found);
    TIME("add", result = add(left + shift, right + shift, out, LANES), (i128)mixed_with((u128)mixed(), result));
    TIME("sub", result = sub(left + shift, right + shift, out, LANES), (i128)mixed_with((u128)mixed(), result));
    TIME("equal", equal(mask + shift, mask, out, LANES), mixed());
    TIME("less", less(left + shift, right + shift, out, LANES), mixed());
    TIME("select", choose(mask + shift, left + shift, right + shift, out, LANES), mixed());
    TIME("window_sums", window_sums(left + shift, LANES, WIDTH, sums), mixed_sums());
    return 0;
}
