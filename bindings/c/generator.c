/* A random test generator: blocks of 64 random tests, of which it keeps those that are the first to
 * detect a class, until 20 blocks in a row bring none.
 *
 * usage: generator BENCH [SEED] > TESTS
 *
 * The tests go to standard output, and a line about them to standard error. */
#include "example.h"
#include "faultsim.h"

#include <inttypes.h>

enum { IDLE = 20 };

/* Keeps the tests of a block that are the first of a class, and drops those classes from the list.
 * Returns how many it keeps. */
static uint32_t keep(const uint64_t *words, uint32_t sources, uint32_t *left, uint32_t *count,
                     const uint32_t *firsts) {
    uint64_t news = 0;
    uint32_t still = 0, kept = 0;
    for (uint32_t i = 0; i < *count; i++) {
        if (firsts[i] == FS_NONE)
            left[still++] = left[i];
        else
            news |= (uint64_t)1 << firsts[i];
    }
    *count = still;
    for (uint32_t lane = 0; lane < 64; lane++) {
        if (!(news >> lane & 1))
            continue;
        kept++;
        for (uint32_t source = 0; source < sources; source++)
            putchar((int)('0' + (words[source] >> lane & 1)));
        putchar('\n');
    }
    return kept;
}

int main(int argc, char **argv) {
    if (argc < 2)
        end("usage: generator BENCH [SEED]");
    uint64_t state = argc > 2 ? strtoull(argv[2], NULL, 10) : 1;
    size_t size;
    uint8_t *bench = read_file(argv[1], &size);
    fs_job job = {0};
    fs_fault fault = {0};
    fs_sizes n;
    uint32_t status = fs_job_read(FS_STUCK_AT, bench, size, &job, &fault);
    if (status || fs_sizes_of(&job, &n)) {
        char why[128];
        fs_message(status, &fault, why, sizeof why);
        end(why);
    }
    uint64_t *words = room(n.sources, sizeof *words);
    uint32_t *left = room(n.classes, sizeof *left), *firsts = room(n.classes, sizeof *firsts);
    uint32_t *of = room(n.faults, sizeof *of), count = n.classes, kept = 0;
    for (uint32_t i = 0; i < count; i++)
        left[i] = i;
    for (int idle = 0; idle < IDLE && count;) {
        for (uint32_t i = 0; i < n.sources; i++)
            words[i] = next(&state);
        if (fs_set_words(&job, 64, words, n.sources, &fault)
            || fs_simulate(&job, left, count, firsts, count))
            end("no memory");
        uint32_t news = keep(words, n.sources, left, &count, firsts);
        idle = news ? 0 : idle + 1;
        kept += news;
    }
    /* The faults of the classes that are left are undetected. */
    uint8_t *open = room(n.classes, 1);
    uint32_t detected = n.faults;
    for (uint32_t i = 0; i < count; i++)
        open[left[i]] = 1;
    if (fs_classes_of(&job, of, n.faults))
        end("no classes");
    for (uint32_t i = 0; i < n.faults; i++)
        detected -= open[of[i]];
    fprintf(stderr, "%" PRIu32 " tests, %" PRIu32 " of %" PRIu32 "\n", kept, detected, n.faults);
    fs_job_free(&job);
    free(bench), free(words), free(left), free(firsts), free(of), free(open);
    return 0;
}
