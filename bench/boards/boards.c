/* The boards of work_board as C11 atomics and POSIX threads: a line a run, with its name and its workers, the
 * nanoseconds of the fastest of some runs, and a checksum of what the workers drew or marked first. */
#include <pthread.h>
#include <stdalign.h>
#include <stdint.h>
#include <stdio.h>
#include <string.h>
#include <time.h>

/* What <stdatomic.h> stands for in clang, which can't read that of gcc. */
#ifdef __clang__
#define atomic_fetch_add(at, number) __c11_atomic_fetch_add(at, number, __ATOMIC_SEQ_CST)
#define atomic_fetch_or(at, mask) __c11_atomic_fetch_or(at, mask, __ATOMIC_SEQ_CST)
#define atomic_store(at, number) __c11_atomic_store(at, number, __ATOMIC_SEQ_CST)
#else
#include <stdatomic.h>
#endif

enum { UNITS = 4000000, BITS = 4194304, WORD_BITS = 64, TIMES = 7, MOST_WORKERS = 4 };

static alignas(64) _Atomic uint64_t word;
static alignas(64) _Atomic uint64_t words[BITS / WORD_BITS + 1];

/* What a worker begins with, and the sum of its numbers. */
struct job {
    alignas(64) uint64_t first;
    uint64_t sum;
};

/* Draws until none is left. */
static void *draw_all(void *given) {
    struct job *job = given;
    uint64_t sum = 0;
    for (uint64_t unit; (unit = atomic_fetch_add(&word, 1)) < UNITS;)
        sum += unit;
    job->sum = sum;
    return NULL;
}

/* Marks each bit, in turn from the worker's first one on. */
static void *mark_all(void *given) {
    struct job *job = given;
    uint64_t sum = 0;
    for (uint64_t turn = 0; turn < BITS; turn++) {
        uint64_t bit = (job->first + turn) % BITS;
        uint64_t mask = UINT64_C(1) << (bit % WORD_BITS);
        if ((atomic_fetch_or(&words[bit / WORD_BITS], mask) & mask) == 0)
            sum += bit;
    }
    job->sum = sum;
    return NULL;
}

static uint64_t nanos(void) {
    struct timespec now;
    clock_gettime(CLOCK_MONOTONIC, &now);
    return (uint64_t)now.tv_sec * UINT64_C(1000000000) + (uint64_t)now.tv_nsec;
}

static void run(const char *name, void *(*work)(void *), unsigned workers) {
    struct job jobs[MOST_WORKERS];
    pthread_t threads[MOST_WORKERS];
    uint64_t least = UINT64_MAX, sum = 0;
    for (int time = 0; time < TIMES; time++) {
        atomic_store(&word, 0);
        memset((void *)words, 0, sizeof words);
        for (unsigned w = 0; w < workers; w++)
            jobs[w] = (struct job){.first = (uint64_t)w * BITS / workers};
        uint64_t start = nanos();
        for (unsigned w = 1; w < workers; w++)
            if (pthread_create(&threads[w], NULL, work, &jobs[w]) != 0)
                return;
        work(&jobs[0]);
        for (unsigned w = 1; w < workers; w++)
            pthread_join(threads[w], NULL);
        uint64_t taken = nanos() - start;
        least = taken < least ? taken : least;
        for (unsigned w = 0; w < workers; w++)
            sum += jobs[w].sum;
    }
    printf("%s %u %lu %lu\n", name, workers, least, sum);
}

int main(void) {
    for (unsigned workers = 1; workers <= MOST_WORKERS; workers *= 2)
        run("draw", draw_all, workers);
    for (unsigned workers = 1; workers <= MOST_WORKERS; workers *= 2)
        run("mark", mark_all, workers);
    return 0;
}
