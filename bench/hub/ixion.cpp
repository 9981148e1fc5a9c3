/* The same calls on ixion's tracker of dirty cells, which knows pairs of a formula cell and an area that it reads.
 * A line a call, as of the C: its name, how often it was made, the nanoseconds of all, and how many cells it gave, or
 * "-" where it gives none. Reading is transitive in its queries, so of them only what a chain reaches is asked. */
#include <ixion/address.hpp>
#include <ixion/dirty_cell_tracker.hpp>

#include <chrono>
#include <cstdio>

using ixion::abs_range_t;

static uint64_t now() {
    return std::chrono::duration_cast<std::chrono::nanoseconds>(std::chrono::steady_clock::now().time_since_epoch())
        .count();
}

static void tell(const char *name, unsigned count, uint64_t start, uint64_t end) {
    std::printf("%s %u %llu -\n", name, count, (unsigned long long)(end - start));
}

static abs_range_t rows(int col, int first, int last) {
    return abs_range_t(0, first - 1, col - 1, last - first + 1, 1);
}

static void attach_runs(ixion::dirty_cell_tracker &tracker) {
    for (int row = 1; row <= 100000; row++)
        tracker.add(rows(2, row, row), rows(1, row, row));
    for (int row = 2; row <= 100001; row++) {
        tracker.add(rows(3, row, row), rows(3, row - 1, row - 1));
        tracker.add(rows(3, row, row), rows(2, row, row));
    }
    for (int row = 1; row <= 100000; row++)
        tracker.add(rows(4, row, row), rows(1, row, row + 7));
}

static void whole() {
    ixion::dirty_cell_tracker tracker;
    uint64_t start = now();
    attach_runs(tracker);
    tell("attach_runs", 1, start, now());

    start = now();
    auto reached = tracker.query_dirty_cells(rows(3, 1, 1));
    uint64_t end = now();
    std::printf("reached 1 %llu %llu\n", (unsigned long long)(end - start), (unsigned long long)reached.size());

    start = now();
    for (int turn = 0; turn < 10000; turn++)
        tracker.add(rows(6, 10 * turn + 1, 10 * turn + 1), rows(1, turn * 7919 % 100000 + 1, turn * 7919 % 100000 + 1));
    tell("attach_single", 10000, start, now());

    start = now();
    for (int turn = 0; turn < 10000; turn++)
        tracker.remove(rows(6, 10 * turn + 1, 10 * turn + 1),
                       rows(1, turn * 7919 % 100000 + 1, turn * 7919 % 100000 + 1));
    tell("detach_single", 10000, start, now());
}

static void fan(int count) {
    char name[32];
    ixion::dirty_cell_tracker tracker;
    uint64_t start = now();
    for (int row = 1; row <= count; row++)
        tracker.add(rows(6, row, row), rows(1, 1, 1));
    std::snprintf(name, sizeof name, "fan_attach_%d", count);
    tell(name, count, start, now());

    start = now();
    for (int row = 1; row <= count; row++)
        tracker.remove(rows(6, row, row), rows(1, 1, 1));
    std::snprintf(name, sizeof name, "fan_detach_%d", count);
    tell(name, count, start, now());
}

int main() {
    whole();
    fan(10000);
    fan(100000);
}
