/* Times the calls of the library that a test generator makes, one by one: the median processor time
 * of 51 calls (9 of a call over all classes), in microseconds.
 *
 * usage: calls BENCH
 *
 * The 10,000 random gates of docs/C-LIBRARY.md are of
 *   generate.py random --gates 10000 --inputs 100 --outputs 100 --ffs 500 --depth 40
 *
 * A first run of 1,024 random tests drops the classes that are easy to detect: the lists are of the
 * classes that are left, and of all. The last lines say from how many classes on one fs_lanes is
 * faster than as many calls of fs_detecting. */
#define _POSIX_C_SOURCE 200809L
#include "faultsim.h"
#include "../bindings/c/example.h"
#include "timing.h"

#include <inttypes.h>
#include <stdio.h>
#include <stdlib.h>

enum { ROUNDS = 51, FEW = 9, BEFORE = 16 };

static fs_job job;
static fs_fault fault;
static fs_sizes n;
static uint64_t *words, *lanes, state = 1;
static uint32_t *all, *list, *firsts, count, tests;

static void set(void) { done(fs_set_words(&job, tests, words, n.sources, &fault)); }
static void set_next(void) {
    done(fs_next_words(&job, tests, words, n.sources, &fault));
}
static void simulate(void) { done(fs_simulate(&job, list, count, firsts, count)); }
static void find_lanes(void) { done(fs_lanes(&job, 0, list, count, lanes, count)); }
static void add_counts(void) { done(fs_count(&job, 0, list, count, 1000, firsts, count)); }
static void observe(void) { done(fs_observed(&job, 0, list, count, lanes, count)); }
static void values(void) { done(fs_values(&job, 0, lanes, n.signals)); }

static void detect_each(void) {
    for (uint32_t i = 0; i < count; i++)
        done(fs_detecting(&job, list[i], 0, &lanes[i]));
}

static int by_time(const void *one, const void *other) {
    double a = *(const double *)one, b = *(const double *)other;
    return (a > b) - (a < b);
}

/* The median time of a call, each on new random tests. */
static double timed(void (*call)(void), int rounds) {
    double took[ROUNDS];
    for (int round = 0; round < rounds; round++) {
        for (uint32_t i = 0; i < n.sources; i++)
            words[i] = tests == 64 ? next(&state) : next(&state) & 1;
        if (call != set)
            set();
        double start = now();
        call();
        took[round] = now() - start;
    }
    qsort(took, (size_t)rounds, sizeof *took, by_time);
    return took[rounds / 2];
}

/* The times of the calls over the first classes of the list. */
static void time_lists(uint32_t classes, const char *what) {
    count = classes;
    int rounds = classes > 1000 ? FEW : ROUNDS;
    double each = timed(detect_each, rounds);
    printf("| %s | %" PRIu32 " | %.1f | %.1f | %.1f | %.1f |\n", what, classes,
           timed(simulate, rounds), timed(find_lanes, rounds), timed(add_counts, rounds), each);
}

/* The least list for which one fs_lanes takes less time than fs_detecting for each class. */
static uint32_t break_even(uint32_t most) {
    for (count = 1; count < most; count += count / 4 + 1)
        if (timed(find_lanes, ROUNDS) < timed(detect_each, ROUNDS))
            return count;
    return 0;
}

static void time_all(uint32_t left) {
    printf("64 tests: set %.0f, values %.0f, ", timed(set, ROUNDS), timed(values, ROUNDS));
    printf("set after the last test %.0f\n", timed(set_next, ROUNDS));
    uint32_t *classes = list;
    list = all;
    count = n.signals;
    printf("fs_observed: all %" PRIu32 " signals %.0f, ", count, timed(observe, FEW));
    count = 1;
    printf("one %.1f\n", timed(observe, ROUNDS));
    puts("| list | classes | fs_simulate | fs_lanes | fs_count | fs_detecting for each |");
    time_lists(n.classes, "all");
    list = classes;
    for (uint32_t size = 1; size < left; size *= 10)
        time_lists(size, "left");
    time_lists(left, "left");
    printf("fs_lanes is faster from %" PRIu32 " classes on\n", break_even(left));
    tests = 1;
    count = left;
    printf("1 test: set %.0f, fs_simulate of all that are left %.0f\n", timed(set, ROUNDS),
           timed(simulate, FEW));
}

int main(int argc, char **argv) {
    if (argc != 2)
        end("usage: calls BENCH");
    size_t size;
    uint8_t *bench = read_file(argv[1], &size);
    done(fs_job_read(FS_STUCK_AT, bench, size, &job, &fault));
    done(fs_sizes_of(&job, &n));
    uint32_t most = n.classes > n.signals ? n.classes : n.signals, left = 0;
    words = room((size_t)n.sources * BEFORE, sizeof *words);
    lanes = room(most, sizeof *lanes);
    all = room(most, sizeof *all), list = room(most, sizeof *list);
    firsts = room(most, sizeof *firsts);
    for (uint32_t i = 0; i < most; i++)
        all[i] = i;
    for (size_t i = 0; i < (size_t)n.sources * BEFORE; i++)
        words[i] = next(&state);
    done(fs_set_words(&job, 64 * BEFORE, words, (size_t)n.sources * BEFORE, &fault));
    done(fs_simulate(&job, all, n.classes, firsts, n.classes));
    for (uint32_t i = 0; i < n.classes; i++)
        if (firsts[i] == FS_NONE)
            list[left++] = i;
    tests = 64;
    printf("%" PRIu32 " signals, %" PRIu32 " classes, %" PRIu32 " left\n", n.signals, n.classes,
           left);
    time_all(left);
    fs_job_free(&job);
    free(bench), free(words), free(lanes), free(all), free(list), free(firsts);
    return 0;
}
