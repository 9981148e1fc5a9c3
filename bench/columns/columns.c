/* Columns as plain as can be: an array of 64-bit numbers, and a byte a row for its kind. A line a call: its name, the
 * number of operations, the nanoseconds of all, and a checksum. */
#include <stdint.h>
#include <stdio.h>
#include <stdlib.h>
#include <string.h>
#include <time.h>

enum { ALL = 1048576, MILLION = 1000000 };
enum { EMPTY, NUMBER, BAD };

typedef struct {
    int64_t *raw;
    uint8_t *kind;
} Column;

static Column column_new(void) {
    Column c = {calloc(ALL, 8), calloc(ALL, 1)};
    return c;
}

static void column_free(Column c) {
    free(c.raw);
    free(c.kind);
}

static uint64_t seed;

static uint32_t row_below(uint32_t rows) {
    seed = seed * UINT64_C(6364136223846793005) + UINT64_C(1442695040888963407);
    return (seed >> 33) % rows;
}

static uint64_t now(void) {
    struct timespec t;
    clock_gettime(CLOCK_MONOTONIC, &t);
    return (uint64_t)t.tv_sec * 1000000000 + t.tv_nsec;
}

static uint64_t told(const Column *c, uint32_t row) {
    switch (c->kind[row]) {
    case NUMBER:
        return (uint64_t)c->raw[row] & ((UINT64_C(1) << 40) - 1);
    case BAD:
        return 7;
    default:
        return 1;
    }
}

static uint64_t checksum(const Column *c) {
    uint64_t sum = 0;
    for (uint32_t row = 0; row < ALL; row++)
        sum = sum * 31 + told(c, row);
    return sum;
}

#define CALL __attribute__((noinline)) static

CALL void set(Column *c, uint32_t row, uint8_t kind, int64_t raw) {
    c->raw[row] = raw;
    c->kind[row] = kind;
}

CALL void insert(Column *c, uint32_t at) {
    memmove(c->raw + at + 1, c->raw + at, (ALL - at - 1) * 8);
    memmove(c->kind + at + 1, c->kind + at, ALL - at - 1);
    c->kind[at] = EMPTY;
}

CALL void erase(Column *c, uint32_t at) {
    memmove(c->raw + at, c->raw + at + 1, (ALL - at - 1) * 8);
    memmove(c->kind + at, c->kind + at + 1, ALL - at - 1);
    c->kind[ALL - 1] = EMPTY;
}

static void tell(const char *name, const char *more, uint64_t count, uint64_t start, uint64_t end, uint64_t sum) {
    printf("%s%s %llu %llu %llu\n", name, more, (unsigned long long)count, (unsigned long long)(end - start),
           (unsigned long long)sum);
}

static void edits(const char *name) {
    char full[64];
    Column c = column_new();
    uint64_t start = now();
    for (uint32_t row = 0; row < MILLION; row++)
        set(&c, row, NUMBER, row + 1);
    uint64_t end = now();
    tell(name, "_down", MILLION, start, end, checksum(&c));
    column_free(c);

    c = column_new();
    start = now();
    for (uint32_t row = 0; row < ALL; row++)
        c.raw[row] = 5;
    memset(c.kind, NUMBER, ALL);
    end = now();
    tell(name, "_run", ALL, start, end, checksum(&c));

    if (!strcmp(name, "value")) {
        seed = 12345;
        uint64_t sum = 0;
        start = now();
        for (uint32_t i = 0; i < 1000000; i++)
            sum = sum * 31 + told(&c, row_below(ALL));
        end = now();
        tell(name, "_look", 1000000, start, end, sum);
    }

    start = now();
    for (int i = 0; i < 1000; i++)
        insert(&c, 499999);
    end = now();
    tell(name, "_insert", 1000, start, end, checksum(&c));
    start = now();
    for (int i = 0; i < 1000; i++)
        erase(&c, 499999);
    end = now();
    tell(name, "_erase", 1000, start, end, checksum(&c));
    (void)full;

    if (!strcmp(name, "value")) {
        seed = 777;
        start = now();
        for (int turn = 0; turn < 100000; turn++)
            set(&c, row_below(ALL), turn % 2 ? NUMBER : BAD, 9);
        end = now();
        tell(name, "_kinds", 100000, start, end, checksum(&c));
    }
    column_free(c);
}

static void gets_in(uint32_t blocks) {
    char more[32];
    Column c = column_new();
    uint32_t rows = ALL / blocks;
    for (uint32_t block = 0; block < blocks; block++) {
        uint32_t first = (uint64_t)block * rows % ALL + 1;
        uint32_t last = first + rows > ALL ? ALL : first + rows;
        for (uint32_t row = first - 1; row < last; row++)
            set(&c, row, block % 2 ? BAD : NUMBER, first);
    }
    seed = 12345;
    uint64_t sum = 0, start = now();
    for (int i = 0; i < 1000000; i++)
        sum = sum * 31 + told(&c, row_below(ALL));
    uint64_t end = now();
    snprintf(more, sizeof more, "_get_%u", blocks);
    tell("block", more, 1000000, start, end, sum);
    column_free(c);
}

static void kinds(void) {
    Column c = column_new();
    for (uint32_t row = 0; row < ALL; row++)
        set(&c, row, NUMBER, 5);
    seed = 777;
    uint64_t start = now();
    for (int turn = 0; turn < 100000; turn++)
        set(&c, row_below(ALL), turn % 2 ? NUMBER : BAD, 9);
    uint64_t end = now();
    tell("block", "_kinds", 100000, start, end, checksum(&c));
    column_free(c);
}

static void walks(void) {
    Column c = column_new();
    for (uint32_t row = 0; row < MILLION; row++)
        set(&c, row, (row + 1) % 1000 ? NUMBER : BAD, row + 1);
    uint64_t sum = 0, start = now();
    for (uint32_t row = 0; row < MILLION; row++)
        sum = sum * 31 + told(&c, row);
    uint64_t end = now();
    tell("value", "_pieces", MILLION, start, end, sum);
    column_free(c);
}

int main(void) {
    edits("block");
    gets_in(1);
    gets_in(1000);
    gets_in(100000);
    kinds();
    edits("value");
    walks();
    return 0;
}
