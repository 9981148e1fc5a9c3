/* Readers as plain as can be: for each cell of each column a growing list of the cells that read it. Beside them stands
 * for each column a sorted table of its runs of formulas with one relative form, which the parts are read from;
 * formulas of one cell, of whose parts nothing is asked, aren't in it. A line a call: its name, how often it was made,
 * the nanoseconds of all, and a checksum.
 *
 * An entry is a cell, and whether it reads an area: where a row comes between two rows that an area has, the area has
 * that row too. */
#include <stdint.h>
#include <stdio.h>
#include <stdlib.h>
#include <string.h>
#include <time.h>

enum { COLUMNS = 8, ROWS = 100016, WIDE = 1 << 30 };

typedef struct {
    uint32_t *items;
    uint32_t count, room;
} List;

typedef struct {
    uint32_t first, last, ears;
} Run;

typedef struct {
    List *lists[COLUMNS];
    Run *runs[COLUMNS];
    uint32_t count[COLUMNS], room[COLUMNS];
} Hub;

#define CALL __attribute__((noinline)) static

static uint32_t place(uint32_t col, uint32_t row) { return col << 20 | row; }

static Hub *hub_new(void) {
    Hub *hub = calloc(1, sizeof(Hub));
    for (int col = 0; col < COLUMNS; col++)
        hub->lists[col] = calloc(ROWS, sizeof(List));
    return hub;
}

static void hub_free(Hub *hub) {
    for (int col = 0; col < COLUMNS; col++) {
        for (int row = 0; row < ROWS; row++)
            free(hub->lists[col][row].items);
        free(hub->lists[col]);
        free(hub->runs[col]);
    }
    free(hub);
}

static void push(List *list, uint32_t item) {
    if (list->count == list->room) {
        list->room = list->room ? 2 * list->room : 4;
        list->items = realloc(list->items, list->room * sizeof(uint32_t));
    }
    list->items[list->count++] = item;
}

static void take(List *list, uint32_t item) {
    for (uint32_t at = 0; at < list->count; at++)
        if ((list->items[at] & ~WIDE) == item) {
            list->items[at] = list->items[--list->count];
            return;
        }
}

static void run_push(Hub *hub, uint32_t col, uint32_t first, uint32_t last, uint32_t ears) {
    if (hub->count[col] == hub->room[col]) {
        hub->room[col] = hub->room[col] ? 2 * hub->room[col] : 4;
        hub->runs[col] = realloc(hub->runs[col], hub->room[col] * sizeof(Run));
    }
    hub->runs[col][hub->count[col]++] = (Run){first, last, ears};
}

/* The place of the first run that ends at a row or behind it. */
static uint32_t run_at(const Hub *hub, uint32_t col, uint32_t row) {
    uint32_t low = 0, high = hub->count[col];
    while (low < high) {
        uint32_t middle = (low + high) / 2;
        if (hub->runs[col][middle].last < row)
            low = middle + 1;
        else
            high = middle;
    }
    return low;
}

/* Each row of a run reads so many rows of a column, from the one that lies so far below it on. */
CALL void attach(Hub *hub, uint32_t col, uint32_t first, uint32_t last, uint32_t from_col, int32_t below,
                 uint32_t rows) {
    for (uint32_t row = first; row <= last; row++)
        for (uint32_t k = 0; k < rows; k++)
            push(&hub->lists[from_col][row + below + k], place(col, row) | (rows > 1 ? WIDE : 0));
}

/* Takes out a formula of one cell that reads one cell. */
CALL void detach(Hub *hub, uint32_t col, uint32_t row, uint32_t from_col, uint32_t from) {
    take(&hub->lists[from_col][from], place(col, row));
}

CALL uint32_t readers(const Hub *hub, uint32_t col, uint32_t row, uint32_t *out) {
    const List *list = &hub->lists[col][row];
    for (uint32_t at = 0; at < list->count; at++)
        out[at] = list->items[at] & ~WIDE;
    return list->count;
}

CALL uint32_t parts(const Hub *hub, uint32_t col, uint32_t first, uint32_t last, Run *out) {
    uint32_t count = 0;
    for (uint32_t at = run_at(hub, col, first); at < hub->count[col] && hub->runs[col][at].first <= last; at++) {
        out[count] = hub->runs[col][at];
        if (out[count].first < first)
            out[count].first = first;
        if (out[count].last > last)
            out[count].last = last;
        count++;
    }
    return count;
}

/* The cells that reach a cell by reading, in `out`, which has room for all. */
CALL uint32_t reached(const Hub *hub, uint32_t col, uint32_t row, uint8_t *marks, uint32_t *out) {
    uint32_t count = 0, next = 0;
    memset(marks, 0, COLUMNS * ROWS);
    for (;;) {
        const List *list = &hub->lists[col][row];
        for (uint32_t at = 0; at < list->count; at++) {
            uint32_t cell = list->items[at] & ~WIDE;
            uint8_t *mark = &marks[(cell >> 20) * ROWS + (cell & 0xfffff)];
            if (!*mark) {
                *mark = 1;
                out[count++] = cell;
            }
        }
        if (next == count)
            return count;
        col = out[next] >> 20;
        row = out[next++] & 0xfffff;
    }
}

/* The entries of an inserted row: the readers of areas that have the rows above and below. */
static List entries_between(const List *above, const List *below) {
    List fresh = {0};
    for (uint32_t a = 0; a < above->count; a++)
        for (uint32_t b = 0; b < below->count && above->items[a] & WIDE; b++)
            if (above->items[a] == below->items[b]) {
                push(&fresh, above->items[a]);
                break;
            }
    return fresh;
}

CALL void insert_row(Hub *hub, uint32_t row) {
    for (uint32_t col = 0; col < COLUMNS; col++) {
        List *lists = hub->lists[col];
        List fresh = entries_between(&lists[row - 1], &lists[row]);
        free(lists[ROWS - 1].items);
        memmove(lists + row + 1, lists + row, (ROWS - 1 - row) * sizeof(List));
        lists[row] = fresh;
        for (uint32_t at = 0; at < ROWS; at++)
            for (uint32_t k = 0; k < lists[at].count; k++)
                lists[at].items[k] += (lists[at].items[k] & 0xfffff) >= row;
        uint32_t count = hub->count[col];
        for (uint32_t at = 0; at < count; at++) {
            Run *run = &hub->runs[col][at];
            if (run->first >= row) {
                run->first++;
                run->last++;
            } else if (run->last >= row) {
                Run old = *run;
                run->last = row - 1;
                run_push(hub, col, row + 1, old.last + 1, old.ears);
            }
        }
    }
}

static uint64_t now(void) {
    struct timespec t;
    clock_gettime(CLOCK_MONOTONIC, &t);
    return (uint64_t)t.tv_sec * 1000000000 + t.tv_nsec;
}

static uint64_t cells_sum(const uint32_t *cells, uint32_t count) {
    uint64_t sum = 0;
    for (uint32_t at = 0; at < count; at++)
        sum += cells[at] * UINT64_C(0x9e3779b97f4a7c15) >> 20;
    return sum;
}

static uint64_t parts_sum(const Run *parts, uint32_t count) {
    uint64_t sum = 0;
    for (uint32_t at = 0; at < count; at++)
        sum = sum * 31 + ((uint64_t)parts[at].first << 20) + parts[at].last + parts[at].ears;
    return sum;
}

static uint32_t cells[1 << 20];
static uint8_t marks[COLUMNS * ROWS];

static uint64_t checksum(const Hub *hub) {
    uint64_t sum = 0;
    for (uint32_t col = 1; col <= 3; col++)
        for (uint32_t row = 1; row <= 100010; row++)
            sum = sum * 31 + cells_sum(cells, readers(hub, col, row, cells));
    return sum;
}

static void tell(const char *name, uint64_t count, uint64_t start, uint64_t end, uint64_t sum) {
    printf("%s %llu %llu %llu\n", name, (unsigned long long)count, (unsigned long long)(end - start),
           (unsigned long long)sum);
}

static void attach_runs(Hub *hub) {
    attach(hub, 2, 1, 100000, 1, 0, 1);
    run_push(hub, 2, 1, 100000, 1);
    attach(hub, 3, 2, 100001, 3, -1, 1);
    attach(hub, 3, 2, 100001, 2, 0, 1);
    run_push(hub, 3, 2, 100001, 2);
    attach(hub, 4, 1, 100000, 1, 0, 8);
    run_push(hub, 4, 1, 100000, 1);
}

static void whole(void) {
    Hub *hub = hub_new();
    uint64_t start = now();
    attach_runs(hub);
    uint64_t end = now();
    tell("attach_runs", 1, start, end, checksum(hub));

    uint64_t sum = 0;
    start = now();
    for (int turn = 0; turn < 100000; turn++)
        sum += cells_sum(cells, readers(hub, 1, 50000, cells));
    end = now();
    tell("readers_nine", 100000, start, end, sum);

    sum = 0;
    start = now();
    for (int turn = 0; turn < 100000; turn++)
        sum += cells_sum(cells, readers(hub, 3, 50000, cells));
    end = now();
    tell("readers_one", 100000, start, end, sum);

    sum = 0;
    start = now();
    for (uint32_t row = 1; row <= 100000; row++)
        sum += cells_sum(cells, readers(hub, 3, row, cells));
    end = now();
    tell("readers_chain", 100000, start, end, sum);

    Run found[16];
    sum = 0;
    start = now();
    for (int turn = 0; turn < 100000; turn++) {
        uint32_t count = 0;
        for (uint32_t col = 2; col <= 4; col++)
            count += parts(hub, col, 1, 100001, found + count);
        sum += parts_sum(found, count);
    }
    end = now();
    tell("parts", 100000, start, end, sum);

    sum = 0;
    start = now();
    for (int turn = 0; turn < 100; turn++)
        sum += reached(hub, 3, 1, marks, cells);
    end = now();
    tell("reached", 100, start, end, sum);

    start = now();
    insert_row(hub, 50000);
    end = now();
    tell("insert_runs", 1, start, end, checksum(hub));
    hub_free(hub);
}

static void attach_scattered(Hub *hub) {
    for (uint32_t turn = 0; turn < 10000; turn++) {
        uint32_t row = 10 * turn + 1, from = turn * 7919 % 100000 + 1;
        attach(hub, 6, row, row, 1, (int32_t)(from - row), 1);
    }
}

static void scattered(void) {
    Hub *hub = hub_new();
    attach_runs(hub);
    uint64_t start = now();
    attach_scattered(hub);
    uint64_t end = now();
    tell("attach_single", 10000, start, end, checksum(hub));

    start = now();
    for (uint32_t turn = 0; turn < 10000; turn++)
        detach(hub, 6, 10 * turn + 1, 1, turn * 7919 % 100000 + 1);
    end = now();
    tell("detach_single", 10000, start, end, checksum(hub));
    hub_free(hub);

    hub = hub_new();
    attach_scattered(hub);
    start = now();
    insert_row(hub, 1);
    end = now();
    tell("insert_single", 1, start, end, checksum(hub));
    hub_free(hub);
}

static void fan(uint32_t count) {
    char name[32];
    Hub *hub = hub_new();
    uint64_t start = now();
    for (uint32_t row = 1; row <= count; row++)
        attach(hub, 6, row, row, 1, 1 - (int32_t)row, 1);
    uint64_t end = now();
    snprintf(name, sizeof name, "fan_attach_%u", count);
    tell(name, count, start, end, checksum(hub));

    start = now();
    for (uint32_t row = 1; row <= count; row++)
        detach(hub, 6, row, 1, 1);
    end = now();
    snprintf(name, sizeof name, "fan_detach_%u", count);
    tell(name, count, start, end, checksum(hub));
    hub_free(hub);
}

int main(void) {
    whole();
    scattered();
    fan(10000);
    fan(100000);
    return 0;
}
