// Recalculations of a book of 100,000 rows in plain arrays of decimals with nine places: numbers, their doubles, a
// running sum, and sums over windows of eight rows; and of numbers and their doubles alone, one after each edit. Each kind of edit calculates again the rows that it makes stale.
// Prints a line for each: its name and nanoseconds. The last sums go to the standard error.
#include <inttypes.h>
#include <stdint.h>
#include <stdio.h>
#include <stdlib.h>
#include <string.h>
#include <time.h>

enum { ROWS = 100000, PLACES = 1000000000 };

static int64_t a[ROWS + 2], b[ROWS + 2], c[ROWS + 2], d[ROWS + 2];
static int64_t number[ROWS + 2], twice[ROWS + 2];
static int rows = ROWS;

static int64_t now(void) {
    struct timespec t;
    clock_gettime(CLOCK_MONOTONIC, &t);
    return (int64_t)t.tv_sec * 1000000000 + t.tv_nsec;
}

static int64_t product(int64_t x, int64_t y) { return (int64_t)((__int128)x * y / PLACES); }

// All rows of the doubles and windows from a first to a last row, and the running sums from the first row on.
static void calculate(int first, int last) {
    for (int i = first; i <= last; i++) b[i] = product(a[i], 2LL * PLACES);
    for (int i = first; i <= rows; i++) c[i] = (i == 1 ? 0 : c[i - 1]) + b[i];
    for (int i = first < 8 ? 8 : first; i <= (last + 7 < rows ? last + 7 : rows); i++) {
        int64_t sum = 0;
        for (int k = i - 7; k <= i; k++) sum += a[k];
        d[i] = sum;
    }
}

static void changed(const char *name, int row, int times) {
    int64_t start = now();
    for (int k = 0; k < times; k++) {
        a[row] = (int64_t)k * PLACES;
        calculate(row, row);
    }
    printf("%s %" PRId64 "\n", name, (now() - start) / times);
}

// Numbers all over the first of two columns, each with its double alone.
static void scattered(int times) {
    int64_t start = now();
    for (int k = 0; k < times; k++) {
        int row = (int)(k * 7919LL % ROWS) + 1;
        number[row] = (int64_t)k * PLACES;
        twice[row] = product(number[row], 2LL * PLACES);
        __asm__ volatile("" ::: "memory");
    }
    printf("scattered %" PRId64 "\n", (now() - start) / times);
}

int main(void) {
    for (int i = 1; i <= rows; i++) a[i] = (int64_t)((7 + 37 * i) % 1000) * PLACES;
    int64_t start = now();
    calculate(1, rows);
    printf("full %" PRId64 "\n", now() - start);
    changed("first", 1, 20);
    changed("middle", 50000, 20);
    start = now();
    memmove(a + 50001, a + 50000, sizeof *a * (rows - 49999));
    a[50000] = 0;
    rows++;
    calculate(50000, rows);
    printf("insert %" PRId64 "\n", now() - start);
    changed("last", rows - 8, 1000);
    for (int i = 1; i <= ROWS; i++) {
        number[i] = (int64_t)((7 + 37 * i) % 1000) * PLACES;
        twice[i] = product(number[i], 2LL * PLACES);
    }
    scattered(1000);
    int64_t sum = 0;
    for (int i = 1; i <= ROWS; i++) sum += twice[i];
    fprintf(stderr, "%" PRId64 " %" PRId64 " %" PRId64 "\n", c[rows] / PLACES, d[rows] / PLACES, sum / PLACES);
    return 0;
}
