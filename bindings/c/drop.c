/* A loop with fault dropping under each fault model: simulates tests block by block, each block
 * only for the classes that no earlier test detects, and prints what `faultsim run --list` prints.
 *
 * usage: drop BENCH TESTS MODEL
 *
 * TESTS has nothing but a line of 0s and 1s for each test. MODEL is stuck, transition or
 * transition-pairs. */
#include "example.h"
#include "faultsim.h"

#include <inttypes.h>
#include <string.h>

/* A job, the classes that no test detects yet, and the first test of each class. */
struct loop {
    fs_job job;
    fs_sizes n;
    uint64_t *words;
    uint32_t model, count, *left, *found, *firsts;
};

/* Takes rows as the words of one block. Under FS_TRANSITION they follow the last test. */
static void take(struct loop *it, const uint8_t *rows, uint32_t count) {
    uint32_t sources = it->n.sources;
    memset(it->words, 0, sources * sizeof *it->words);
    for (uint32_t test = 0; test < count; test++)
        for (uint32_t i = 0; i < sources; i++)
            it->words[i] |= (uint64_t)(rows[(size_t)test * (sources + 1) + i] & 1) << test;
    fs_fault fault;
    if (it->model == FS_TRANSITION
            ? fs_next_words(&it->job, count, it->words, sources, &fault)
            : fs_set_words(&it->job, count, it->words, sources, &fault))
        end("the tests are wrong");
}

/* Simulates the classes that are left. Those that a test detects are dropped: its number is that in
 * the block behind the tests before it. */
static void drop(struct loop *it, uint32_t before) {
    uint32_t still = 0;
    if (fs_simulate(&it->job, it->left, it->count, it->found, it->count))
        end("no memory");
    for (uint32_t i = 0; i < it->count; i++)
        if (it->found[i] == FS_NONE)
            it->left[still++] = it->left[i];
        else
            it->firsts[it->left[i]] = before + it->found[i];
    it->count = still;
}

static void print_fault(struct loop *it, uint32_t number, uint32_t first) {
    uint8_t nothing;
    size_t wanted = 0;
    fs_fault_text(&it->job, number, &nothing, 0, &wanted);
    uint8_t *name = room(wanted, 1);
    if (fs_fault_text(&it->job, number, name, wanted, &wanted))
        end("no memory");
    printf("%.*s ", (int)wanted, name);
    if (first == FS_NONE)
        puts("none");
    else
        printf("%" PRIu32 "\n", first);
    free(name);
}

static void print_all(struct loop *it) {
    uint32_t *of = room(it->n.faults, sizeof *of), faults = it->n.faults, detected = 0;
    if (fs_classes_of(&it->job, of, faults))
        end("no classes");
    for (uint32_t i = 0; i < faults; i++) {
        print_fault(it, i, it->firsts[of[i]]);
        detected += it->firsts[of[i]] != FS_NONE;
    }
    uint64_t hundredths = (uint64_t)10000 * detected / faults;
    printf("%" PRIu32 " of %" PRIu32 " (%" PRIu64 ".%02" PRIu64 "%%)\n", detected, faults,
           hundredths / 100, hundredths % 100);
    free(of);
}

int main(int argc, char **argv) {
    static const char *const models[] = {"stuck", "transition", "transition-pairs"};
    struct loop it = {0};
    while (argc == 4 && it.model < 3 && strcmp(argv[3], models[it.model]))
        it.model++;
    if (argc != 4 || it.model == 3)
        end("usage: drop BENCH TESTS MODEL");
    size_t bench_size, rows_size;
    uint8_t *bench = read_file(argv[1], &bench_size), *rows = read_file(argv[2], &rows_size);
    fs_fault fault;
    if (fs_job_read(it.model, bench, bench_size, &it.job, &fault) || fs_sizes_of(&it.job, &it.n))
        end("the circuit is wrong");
    it.count = it.n.classes;
    it.words = room(it.n.sources, sizeof *it.words), it.left = room(it.count, sizeof *it.left);
    it.found = room(it.count, sizeof *it.found), it.firsts = room(it.count, sizeof *it.firsts);
    for (uint32_t i = 0; i < it.count; i++)
        it.left[i] = i, it.firsts[i] = FS_NONE;
    /* With the last test before them, 63 tests are a block of 64. */
    bool follow = it.model == FS_TRANSITION;
    uint32_t tests = (uint32_t)(rows_size / (it.n.sources + 1)), most = follow ? 63 : 64;
    for (uint32_t test = 0; test < tests; test += most) {
        uint32_t count = tests - test < most ? tests - test : most;
        take(&it, rows + (size_t)test * (it.n.sources + 1), count);
        drop(&it, follow && test ? test - 1 : test);
    }
    print_all(&it);
    fs_job_free(&it.job);
    free(bench), free(rows), free(it.words), free(it.left), free(it.found), free(it.firsts);
    return 0;
}
