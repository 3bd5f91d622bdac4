/* Threads that share a job from one another, all at the same time: each simulates with its handle,
 * shares the job from it, simulates with the new handle, shares the job from that, and frees them.
 * Each finds what one call finds, and the last handle takes tests again.
 *
 * usage: shares BENCH TESTS */
#define _POSIX_C_SOURCE 200809L
#include "example.h"
#include "faultsim.h"

#include <pthread.h>
#include <string.h>

enum { THREADS = 4, ROUNDS = 2 };

static fs_sizes n;
static uint32_t *classes, *wanted;

static void done(uint32_t status) {
    if (status)
        end("a call failed");
}

static void simulate(fs_job *job) {
    uint32_t *found = room(n.classes, sizeof *found);
    done(fs_simulate(job, classes, n.classes, found, n.classes));
    if (memcmp(found, wanted, n.classes * sizeof *found))
        end("a thread finds something else");
    free(found);
}

static void *run(void *it) {
    fs_job *own = it;
    for (int round = 0; round < ROUNDS; round++) {
        fs_job second = {0}, third = {0};
        simulate(own);
        done(fs_job_share(own, &second));
        simulate(&second);
        done(fs_job_share(&second, &third));
        fs_job_free(&second);
        simulate(&third);
        fs_job_free(&third);
    }
    fs_job_free(own);
    return NULL;
}

int main(int argc, char **argv) {
    if (argc != 3)
        end("usage: shares BENCH TESTS");
    size_t bench_size, tests_size;
    uint8_t *bench = read_file(argv[1], &bench_size), *tests = read_file(argv[2], &tests_size);
    fs_job job = {0}, jobs[THREADS] = {0};
    fs_fault fault;
    pthread_t ids[THREADS];
    done(fs_job_read(FS_STUCK_AT, bench, bench_size, &job, &fault));
    done(fs_set_text(&job, tests, tests_size, &fault));
    done(fs_sizes_of(&job, &n));
    classes = room(n.classes, sizeof *classes), wanted = room(n.classes, sizeof *wanted);
    for (uint32_t i = 0; i < n.classes; i++)
        classes[i] = i;
    done(fs_simulate(&job, classes, n.classes, wanted, n.classes));
    for (int i = 0; i < THREADS; i++)
        if (fs_job_share(&job, &jobs[i]) || pthread_create(&ids[i], NULL, run, &jobs[i]))
            end("no thread");
    simulate(&job);
    for (int i = 0; i < THREADS; i++)
        if (pthread_join(ids[i], NULL))
            end("no join");
    done(fs_set_text(&job, tests, tests_size, &fault));
    fs_job_free(&job);
    free(bench), free(tests), free(classes), free(wanted);
    return 0;
}
