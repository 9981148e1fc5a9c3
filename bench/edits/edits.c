// Edits of columns of 100,000 cells that are kept as plain arrays: of a kind, and of a number or a formula's id.
// Prints the nanoseconds of each edit of the list in ../edits.sh, and a sum over what is left, which stops a compiler
// that would leave the edits out.
#include <stdint.h>
#include <stdio.h>
#include <stdlib.h>
#include <string.h>
#include <time.h>

// The first FILLED columns are those of the book, and the others those to which copies go.
enum { ROWS = 1048576, COLS = 6, FILLED = 4, USED = 100000, MIDDLE = 50000 };

static uint8_t kinds[COLS][ROWS];
static int64_t items[COLS][ROWS];
// how many rows are used
static int last = USED;

static double now(void) {
    struct timespec t;
    clock_gettime(CLOCK_MONOTONIC, &t);
    return t.tv_sec * 1e9 + t.tv_nsec;
}

static void set(int col, int row, uint8_t kind, int64_t item) {
    kinds[col][row] = kind;
    items[col][row] = item;
    __asm__ volatile("" ::: "memory");
}

static void insert(int place) {
    for (int col = 0; col < FILLED; col++) {
        memmove(&kinds[col][place + 1], &kinds[col][place], last - place);
        memmove(&items[col][place + 1], &items[col][place], (last - place) * sizeof(int64_t));
        set(col, place, 0, 0);
    }
    last++;
}

static void copy(int from, int to) {
    memcpy(kinds[to], kinds[from], USED);
    memcpy(items[to], items[from], USED * sizeof(int64_t));
    __asm__ volatile("" ::: "memory");
}

static void erase(int place) {
    for (int col = 0; col < FILLED; col++) {
        memmove(&kinds[col][place], &kinds[col][place + 1], last - place - 1);
        memmove(&items[col][place], &items[col][place + 1], (last - place - 1) * sizeof(int64_t));
        set(col, last - 1, 0, 0);
    }
    last--;
}

int main(void) {
    for (int row = 0; row < USED; row++) {
        for (int col = 0; col < FILLED; col++) {
            set(col, row, col == 0 ? 1 : 2, col == 0 ? (7 + 37 * row) % 1000 : col);
        }
    }
    double start = now();
    for (int k = 0; k < 1000; k++) set(0, MIDDLE, 1, k);
    printf("number %.0f\n", (now() - start) / 1000);
    start = now();
    for (int k = 0; k < 1000; k++) set(1, MIDDLE, k % 2 ? 2 : 1, k);
    printf("kinds %.0f\n", (now() - start) / 1000);
    start = now();
    for (int k = 0; k < 1000; k++) set(0, (int)((k * 7919LL) % USED), 1, k);
    printf("scattered %.0f\n", (now() - start) / 1000);
    start = now();
    for (int k = 0; k < 20; k++) insert(MIDDLE);
    printf("insert %.0f\n", (now() - start) / 20);
    start = now();
    for (int k = 0; k < 20; k++) erase(MIDDLE);
    printf("delete %.0f\n", (now() - start) / 20);
    start = now();
    for (int k = 0; k < 5; k++) {
        for (int row = 0; row < USED; row++) set(1, row, 2, 1);
    }
    printf("fill %.0f\n", (now() - start) / 5);
    start = now();
    for (int k = 0; k < 5; k++) copy(1, 4);
    printf("copy %.0f\n", (now() - start) / 5);
    start = now();
    for (int k = 0; k < 5; k++) copy(0, 5);
    printf("numbers %.0f\n", (now() - start) / 5);
    int64_t sum = 0;
    for (int col = 0; col < COLS; col++) {
        for (int row = 0; row < ROWS; row++) sum += items[col][row] * (kinds[col][row] + 1);
    }
    fprintf(stderr, "%lld\n", (long long)sum);
    return 0;
}
