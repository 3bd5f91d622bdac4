/* The loops of a test generator over one circuit: random tests with fault dropping, one test at a
 * time, a population by its lanes, and compaction. docs/C-LIBRARY.md has what each call costs.
 *
 * usage: loops BENCH
 *
 * Each loop prints how many tests it keeps, and how many faults they detect. */
#include "example.h"
#include "faultsim.h"

#include <inttypes.h>
#include <string.h>

enum { IDLE = 50, MOST = 4096, TURN = 8 };

/* A job, the classes that no kept test detects, and the kept tests: 64 to a block, as the words of
 * fs_set_words. `words` has the blocks of tests that are tried, at most TURN. */
struct loop {
    fs_job job;
    fs_fault fault;
    fs_sizes n;
    uint64_t *words, *lanes, *tests, state;
    uint32_t *left, *firsts, count, kept;
};

static void done(uint32_t status) {
    if (status)
        end("a call failed");
}

static void take(struct loop *it, uint32_t tests, const uint64_t *words) {
    size_t len = (size_t)(tests + 63) / 64 * it->n.sources;
    done(fs_set_words(&it->job, tests, words, len, &it->fault));
}

static void try_random(struct loop *it, uint32_t blocks) {
    for (size_t i = 0; i < (size_t)blocks * it->n.sources; i++)
        it->words[i] = next(&it->state);
    take(it, 64 * blocks, it->words);
}

/* Keeps one of the tests that are tried. */
static void keep(struct loop *it, uint32_t test) {
    if (it->kept == MOST)
        end("too many tests");
    const uint64_t *from = it->words + (size_t)(test / 64) * it->n.sources;
    uint64_t *block = it->tests + (size_t)(it->kept / 64) * it->n.sources;
    for (uint32_t i = 0; i < it->n.sources; i++)
        block[i] |= (from[i] >> test % 64 & 1) << it->kept % 64;
    it->kept++;
}

/* Simulates the classes that are left, and drops those that a test detects. Sets the lane of each
 * test that is the first of a class, in a word for each block. */
static void drop(struct loop *it, uint64_t news[TURN]) {
    uint32_t still = 0;
    memset(news, 0, TURN * sizeof *news);
    done(fs_simulate(&it->job, it->left, it->count, it->firsts, it->count));
    for (uint32_t i = 0; i < it->count; i++)
        if (it->firsts[i] == FS_NONE)
            it->left[still++] = it->left[i];
        else
            news[it->firsts[i] / 64] |= (uint64_t)1 << it->firsts[i] % 64;
    it->count = still;
}

/* Random tests with fault dropping: TURN blocks of 64 tests a call, and only the classes that are
 * left. One block a call takes twice the time or more. */
static void by_random(struct loop *it) {
    uint64_t news[TURN];
    for (int idle = 0; idle < IDLE && it->count; idle += TURN) {
        try_random(it, TURN);
        drop(it, news);
        for (uint32_t test = 0; test < 64 * TURN; test++)
            if (news[test / 64] >> test % 64 & 1)
                keep(it, test), idle = -TURN;
    }
}

/* Looks for a test of a class. A real generator searches backwards from the fault; this one tries
 * blocks of random tests. Returns the lane of a test, or 64. */
static uint32_t search(struct loop *it, uint32_t target) {
    for (int tried = 0; tried < IDLE; tried++) {
        uint64_t lanes;
        try_random(it, 1);
        done(fs_detecting(&it->job, target, 0, &lanes));
        for (uint32_t lane = 0; lane < 64; lane++)
            if (lanes >> lane & 1)
                return lane;
    }
    return 64;
}

/* One test at a time: a test for the first class that is left, and then all classes on this test. A
 * class for which no test is found goes to the end, and is no target again. */
static void one_by_one(struct loop *it) {
    uint64_t news[TURN];
    for (uint32_t skipped = 0; skipped < it->count;) {
        uint32_t target = it->left[skipped], lane = search(it, target);
        if (lane == 64) {
            skipped++;
            continue;
        }
        for (uint32_t i = 0; i < it->n.sources; i++)
            it->words[i] = it->words[i] >> lane & 1;
        take(it, 1, it->words);
        drop(it, news);
        keep(it, 0);
    }
}

/* The number of classes that each test of the block detects, by fs_lanes; the best lane. */
static uint32_t best_of(struct loop *it, uint32_t *second) {
    uint32_t score[64] = {0}, best = 0;
    done(fs_lanes(&it->job, 0, it->left, it->count, it->lanes, it->count));
    for (uint32_t i = 0; i < it->count; i++)
        for (uint32_t lane = 0; it->lanes[i] && lane < 64; lane++)
            score[lane] += it->lanes[i] >> lane & 1;
    for (uint32_t lane = 1; lane < 64; lane++)
        if (score[lane] > score[best])
            *second = best, best = lane;
    return score[best] ? best : 64;
}

/* Drops the classes that a lane detects: fs_lanes has written their words. */
static void drop_lane(struct loop *it, uint32_t lane) {
    uint32_t still = 0;
    for (uint32_t i = 0; i < it->count; i++)
        if (!(it->lanes[i] >> lane & 1))
            it->left[still++] = it->left[i];
    it->count = still;
}

/* A population of 64 tests: the best is kept, and the next tests take each bit of one of the two
 * best, one bit of eight complemented. If no test of a population detects a class that is left, the
 * next one is random. */
static void by_lanes(struct loop *it) {
    try_random(it, 1);
    for (int idle = 0; idle < IDLE && it->count; idle++) {
        uint32_t second = 0, best = best_of(it, &second);
        if (best == 64) {
            try_random(it, 1);
            continue;
        }
        keep(it, best);
        drop_lane(it, best);
        idle = -1;
        for (uint32_t i = 0; i < it->n.sources; i++) {
            uint64_t of = next(&it->state), mother = -(it->words[i] >> best & 1),
                     father = -(it->words[i] >> second & 1);
            uint64_t turned = next(&it->state) & next(&it->state) & next(&it->state);
            it->words[i] = ((of & mother) | (~of & father)) ^ turned;
        }
        take(it, 64, it->words);
    }
}

static void all_left(struct loop *it) {
    it->count = it->n.classes;
    for (uint32_t i = 0; i < it->count; i++)
        it->left[i] = i;
}

/* Compaction: the kept tests in the other direction. Only those stay that are the first of a class;
 * a late test often detects what earlier ones were kept for. */
static void compact(struct loop *it) {
    uint32_t sources = it->n.sources, kept = it->kept;
    size_t len = (size_t)(kept + 63) / 64 * sources;
    uint64_t *turned = room(len, sizeof *turned);
    uint8_t *needed = room(kept, 1);
    for (uint32_t test = 0; test < kept; test++)
        for (uint32_t i = 0; i < sources; i++) {
            uint32_t from = kept - 1 - test;
            uint64_t bit = it->tests[(size_t)(from / 64) * sources + i] >> from % 64 & 1;
            turned[(size_t)(test / 64) * sources + i] |= bit << test % 64;
        }
    all_left(it);
    take(it, kept, turned);
    done(fs_simulate(&it->job, it->left, it->count, it->firsts, it->count));
    for (uint32_t i = 0; i < it->count; i++)
        if (it->firsts[i] != FS_NONE)
            needed[it->firsts[i]] = 1;
    memset(it->tests, 0, len * sizeof *it->tests);
    it->kept = 0;
    for (uint32_t test = 0; test < kept; test++) {
        for (uint32_t i = 0; i < sources; i++)
            it->words[i] = turned[(size_t)(test / 64) * sources + i] >> test % 64 & 1;
        if (needed[test])
            keep(it, 0);
    }
    free(turned), free(needed);
}

/* What the kept tests detect, from nothing. */
static void tell(struct loop *it, const char *name) {
    uint32_t detected = 0, *of = room(it->n.faults, sizeof *of);
    all_left(it);
    take(it, it->kept, it->tests);
    done(fs_simulate(&it->job, it->left, it->count, it->firsts, it->count));
    done(fs_classes_of(&it->job, of, it->n.faults));
    for (uint32_t i = 0; i < it->n.faults; i++)
        detected += it->firsts[of[i]] != FS_NONE;
    free(of);
    printf("%s: %" PRIu32 " tests, %" PRIu32 " of %" PRIu32 "\n", name, it->kept, detected,
           it->n.faults);
}

static void run(struct loop *it, void (*loop)(struct loop *), const char *name) {
    if (loop != compact) {
        it->kept = 0;
        memset(it->tests, 0, (size_t)MOST / 64 * it->n.sources * sizeof *it->tests);
        all_left(it);
    }
    loop(it);
    tell(it, name);
}

int main(int argc, char **argv) {
    if (argc != 2)
        end("usage: loops BENCH");
    struct loop it = {.state = 1};
    size_t size;
    uint8_t *bench = read_file(argv[1], &size);
    done(fs_job_read(FS_STUCK_AT, bench, size, &it.job, &it.fault));
    done(fs_sizes_of(&it.job, &it.n));
    it.words = room((size_t)TURN * it.n.sources, sizeof *it.words);
    it.lanes = room(it.n.classes, sizeof *it.lanes);
    it.tests = room((size_t)MOST / 64 * it.n.sources, sizeof *it.tests);
    it.left = room(it.n.classes, sizeof *it.left);
    it.firsts = room(it.n.classes, sizeof *it.firsts);
    run(&it, by_random, "random tests");
    run(&it, compact, "these, compacted");
    run(&it, one_by_one, "one test at a time");
    run(&it, by_lanes, "a population");
    run(&it, compact, "these, compacted");
    fs_job_free(&it.job);
    free(bench), free(it.words), free(it.lanes), free(it.tests), free(it.left), free(it.firsts);
    return 0;
}
