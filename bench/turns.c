/* Times the loop of a test generator that drops detected classes, with 1 to 64 blocks of 64 random
 * tests a turn, and one run of the same tests in memory. It prints microseconds of processor time
 * for each block: the least of some rounds, each of which runs all loops.
 *
 * usage: turns BENCH [BLOCKS] [ROUNDS]
 *
 * The last lines are of a generator that makes each test for a class that is left, and collects
 * 1 to 512 tests before it simulates them: how many tests it makes in all. Each class gets a random
 * test that detects it. A test is too many if the generator that collects 1 test makes fewer. */
#define _POSIX_C_SOURCE 200809L
#include "faultsim.h"
#include "../bindings/c/example.h"
#include "timing.h"

#include <inttypes.h>
#include <stdio.h>
#include <stdlib.h>
#include <string.h>

enum { SIZES = 8, COLLECTED = 5 };

static fs_job job;
static fs_fault fault;
static fs_sizes n;
static uint64_t *words, *batch, state = 1;
static uint32_t *list, *firsts, *own, blocks = 256, left;

static void all_left(void) {
    left = n.classes;
    for (uint32_t i = 0; i < left; i++)
        list[i] = i;
}

/* Simulates the classes that are left, and drops the detected ones. Returns the time of
 * fs_set_words. */
static double turn(const uint64_t *tests, uint32_t count) {
    double start = now();
    done(fs_set_words(&job, count, tests, (size_t)(count + 63) / 64 * n.sources, &fault));
    double took = now() - start;
    done(fs_simulate(&job, list, left, firsts, left));
    uint32_t still = 0;
    for (uint32_t i = 0; i < left; i++)
        if (firsts[i] == FS_NONE)
            list[still++] = list[i];
    left = still;
    return took;
}

/* One loop over all blocks, `size` of them a turn. Returns its time; `set` gets the time of
 * fs_set_words. */
static double loop(uint32_t size, double *set) {
    *set = 0;
    all_left();
    double start = now();
    for (uint32_t block = 0; block < blocks; block += size) {
        uint32_t count = size < blocks - block ? size : blocks - block;
        *set += turn(words + (size_t)block * n.sources, 64 * count);
    }
    return now() - start;
}

static void time_loops(int rounds) {
    uint32_t sizes[SIZES] = {1, 2, 4, 8, 16, 32, 64, blocks};
    double least[SIZES], sets[SIZES];
    for (int round = 0; round < rounds; round++)
        for (int i = 0; i < SIZES; i++) {
            double set, took = loop(sizes[i], &set);
            if (!round || took < least[i])
                least[i] = took, sets[i] = set;
        }
    puts("blocks a turn, microseconds a block, of these fs_set_words, ratio to one run");
    for (int i = 0; i < SIZES; i++)
        printf("%" PRIu32 ", %.1f, %.1f, %.2f\n", sizes[i], least[i] / blocks, sets[i] / blocks,
               least[i] / least[SIZES - 1]);
}

/* Adds a random test to the collected ones, as test `at`. */
static void collect(uint32_t test, uint32_t at) {
    const uint64_t *from = words + (size_t)(test / 64) * n.sources;
    uint64_t *to = batch + (size_t)(at / 64) * n.sources;
    for (uint32_t i = 0; i < n.sources; i++)
        to[i] |= (from[i] >> test % 64 & 1) << at % 64;
}

/* Gives each class a random test that detects it, or FS_NONE: the first in a random block or, if
 * there is none, in the next block that has one. */
static void find_own_tests(void) {
    done(fs_set_words(&job, 64 * blocks, words, (size_t)blocks * n.sources, &fault));
    all_left();
    done(fs_simulate(&job, list, left, own, left));
    for (uint32_t class = 0; class < left; class++) {
        if (own[class] == FS_NONE)
            continue;
        uint64_t lanes = 0;
        uint32_t block = (uint32_t)(next(&state) % blocks), lane = 0;
        for (; !lanes; block = (block + 1) % blocks) {
            done(fs_detecting(&job, class, block, &lanes));
            own[class] = 64 * block;
        }
        while (!(lanes >> lane & 1))
            lane++;
        own[class] += lane;
    }
}

/* The number of tests that a generator makes if it collects `most` before it simulates them. */
static uint32_t tests_made(uint32_t most) {
    uint32_t made = 0;
    all_left();
    for (uint32_t at = 0; left; at = 0) {
        memset(batch, 0, (size_t)(most + 63) / 64 * n.sources * sizeof *batch);
        for (uint32_t i = 0; i < left && at < most; i++)
            if (own[list[i]] != FS_NONE)
                collect(own[list[i]], at++);
        if (!at)
            break;
        made += at;
        turn(batch, at);
    }
    return made;
}

static void count_tests(void) {
    const uint32_t sizes[COLLECTED] = {1, 64, 128, 256, 512};
    uint32_t least = 0;
    find_own_tests();
    puts("tests collected, tests made, of these too many");
    for (int i = 0; i < COLLECTED; i++) {
        uint32_t made = tests_made(sizes[i]);
        least = i ? least : made;
        printf("%" PRIu32 ", %" PRIu32 ", %" PRIu32 "\n", sizes[i], made, made - least);
    }
}

int main(int argc, char **argv) {
    if (argc < 2 || argc > 4)
        end("usage: turns BENCH [BLOCKS] [ROUNDS]");
    size_t size;
    uint8_t *bench = read_file(argv[1], &size);
    if (argc > 2)
        blocks = (uint32_t)atoi(argv[2]);
    done(fs_job_read(FS_STUCK_AT, bench, size, &job, &fault));
    done(fs_sizes_of(&job, &n));
    words = room((size_t)n.sources * blocks, sizeof *words);
    batch = room((size_t)n.sources * 8, sizeof *batch);
    list = room(n.classes, sizeof *list);
    firsts = room(n.classes, sizeof *firsts);
    own = room(n.classes, sizeof *own);
    for (size_t i = 0; i < (size_t)n.sources * blocks; i++)
        words[i] = next(&state);
    printf("%" PRIu32 " signals, %" PRIu32 " classes\n", n.signals, n.classes);
    time_loops(argc > 3 ? atoi(argv[3]) : 5);
    printf("%" PRIu32 " classes left\n", left);
    count_tests();
    fs_job_free(&job);
    free(bench), free(words), free(batch), free(list), free(firsts), free(own);
    return 0;
}
