/* A host's own threads: each has a handle that fs_job_share made, and takes one share of the
 * classes after another.
 *
 * usage: threads THREADS [BENCH TESTS]
 *
 * Without files the circuit is a chain of 2,000 gates with 256 tests. What the threads find must be
 * what one call finds. Prints the number of faults and that of those detected. */
#define _POSIX_C_SOURCE 200809L
#include "faultsim.h"
#include "example.h"

#include <inttypes.h>
#include <pthread.h>
#include <stdio.h>
#include <stdlib.h>
#include <string.h>

/* Shares of the classes: share i ends before the place ends[i]. A thread takes the next one under
 * the lock. */
struct shares {
    pthread_mutex_t lock;
    size_t next, count;
    const size_t *ends;
    const uint32_t *classes;
    uint32_t *firsts;
};

struct worker {
    fs_job job;
    struct shares *shares;
    uint32_t status;
};

static size_t next_share(struct shares *shares) {
    pthread_mutex_lock(&shares->lock);
    size_t share = shares->next++;
    pthread_mutex_unlock(&shares->lock);
    return share;
}

static void *run(void *it) {
    struct worker *worker = it;
    struct shares *all = worker->shares;
    for (size_t i = next_share(all); i < all->count && !worker->status; i = next_share(all)) {
        size_t from = i ? all->ends[i - 1] : 0, count = all->ends[i] - from;
        worker->status = fs_simulate(&worker->job, all->classes + from, count, all->firsts + from,
                                     count);
    }
    fs_job_free(&worker->job);
    return NULL;
}

/* Two inputs and a chain of gates. */
static char *a_chain(int gates) {
    char *text = room((size_t)gates + 8, 40), *at = text;
    at += sprintf(at, "INPUT(a)\nINPUT(b)\nOUTPUT(n%d)\nn0 = NAND(a, b)\n", gates);
    for (int i = 1; i <= gates; i++)
        at += sprintf(at, "n%d = %s(n%d, %c)\n", i, i % 3 ? "XOR" : "NAND", i - 1, "ab"[i % 2]);
    return text;
}

static char *some_tests(int count) {
    char *text = room((size_t)count * 3 + 1, 1), *at = text;
    for (int i = 0; i < count; i++)
        at += sprintf(at, "%d%d\n", i & 1, i >> 1 & 1);
    return text;
}

/* The stems of the classes, for the order of the shares. */
static const uint32_t *stem_at;

static int by_stem(const void *one, const void *other) {
    uint32_t a = stem_at[*(const uint32_t *)one], b = stem_at[*(const uint32_t *)other];
    return (a > b) - (a < b);
}

/* Where shares of whole regions end, of so many classes in the order of their stems. */
static size_t *cut(const uint32_t *classes, const uint32_t *stems, size_t count, size_t shares) {
    size_t *ends = room(shares, sizeof *ends);
    for (size_t i = 0, end = 0; i < shares; i++) {
        end = count * (i + 1) / shares > end ? count * (i + 1) / shares : end;
        while (end && end < count && stems[classes[end]] == stems[classes[end - 1]])
            end++;
        ends[i] = end;
    }
    return ends;
}

/* Shares out all classes by whole regions, so that no two threads simulate one region. There are
 * several shares for each thread: one whose shares take long takes fewer. */
static void simulate(fs_job *job, size_t threads, const fs_sizes *n, uint32_t *firsts) {
    uint32_t *classes = room(n->classes, sizeof *classes), *stems = room(n->classes, sizeof *stems);
    uint32_t *found = room(n->classes, sizeof *found);
    if (fs_stems_of(job, stems, n->classes))
        end("no stems");
    for (uint32_t i = 0; i < n->classes; i++)
        classes[i] = i;
    stem_at = stems;
    qsort(classes, n->classes, sizeof *classes, by_stem);
    size_t *ends = cut(classes, stems, n->classes, 4 * threads);
    struct shares shares = {
        .count = 4 * threads, .ends = ends, .classes = classes, .firsts = found};
    struct worker *workers = room(threads, sizeof *workers);
    pthread_t *ids = room(threads, sizeof *ids);
    if (pthread_mutex_init(&shares.lock, NULL))
        end("no lock");
    for (size_t i = 0; i < threads; i++) {
        workers[i].shares = &shares;
        if (fs_job_share(job, &workers[i].job) || pthread_create(&ids[i], NULL, run, &workers[i]))
            end("no thread");
    }
    for (size_t i = 0; i < threads; i++)
        if (pthread_join(ids[i], NULL) || workers[i].status)
            end("a share failed");
    for (uint32_t i = 0; i < n->classes; i++)
        firsts[classes[i]] = found[i];
    pthread_mutex_destroy(&shares.lock);
    free(classes);
    free(stems);
    free(found);
    free(ends);
    free(workers);
    free(ids);
}

int main(int argc, char **argv) {
    int threads = argc > 1 ? atoi(argv[1]) : 0;
    if (threads < 1 || (argc != 2 && argc != 4))
        end("usage: threads THREADS [BENCH TESTS]");
    size_t size;
    char *bench = argc == 4 ? (char *)read_file(argv[2], &size) : a_chain(2000);
    char *tests = argc == 4 ? (char *)read_file(argv[3], &size) : some_tests(256);
    fs_job job = {0};
    fs_fault fault = {0};
    fs_sizes n;
    if (fs_job_read(FS_STUCK_AT, (const uint8_t *)bench, strlen(bench), &job, &fault)
        || fs_set_text(&job, (const uint8_t *)tests, strlen(tests), &fault)
        || fs_sizes_of(&job, &n))
        end("wrong texts");
    uint32_t *many = room(n.classes, sizeof *many), *one = room(n.classes, sizeof *one);
    simulate(&job, (size_t)threads, &n, many);
    simulate(&job, 1, &n, one);
    if (memcmp(many, one, n.classes * sizeof *one))
        end("threads find something else");
    uint32_t *of = room(n.faults, sizeof *of), found = 0;
    if (fs_classes_of(&job, of, n.faults))
        end("no classes");
    for (uint32_t i = 0; i < n.faults; i++)
        found += many[of[i]] != FS_NONE;
    printf("%" PRIu32 " of %" PRIu32 "\n", found, n.faults);
    fs_job_free(&job);
    free(bench);
    free(tests);
    free(many);
    free(one);
    free(of);
    return 0;
}
