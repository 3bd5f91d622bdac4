/* Refuses each allocation of each call in turn, alone and with all that follow it: the call must
 * return FS_MEMORY, with the handle as it was, or must do without. Calls that take no memory must
 * take none. It does so under each fault model.
 *
 * usage: memory [BENCH TESTS]
 *
 * Without files the circuit is C17 with two tests. Link with -Wl,--wrap=malloc -Wl,--wrap=realloc.
 * Prints for each call how many of its allocations were refused, and of how many it did without. */
#include "faultsim.h"

#include <inttypes.h>
#include <stdbool.h>
#include <stdio.h>
#include <stdlib.h>
#include <string.h>

void *__real_malloc(size_t size);
void *__real_realloc(void *at, size_t size);
void *__wrap_malloc(size_t size);
void *__wrap_realloc(void *at, size_t size);

/* How many allocations are left until one is refused; 0 refuses none. With `onwards` all that
 * follow are refused, too. */
static long left;
static bool onwards, was_refused;

static bool refuses(void) {
    if (!left || --left)
        return false;
    was_refused = true;
    left = onwards;
    return true;
}

void *__wrap_malloc(size_t size) { return refuses() ? NULL : __real_malloc(size); }

void *__wrap_realloc(void *at, size_t size) { return refuses() ? NULL : __real_realloc(at, size); }

static void end(const char *why, long at) {
    fprintf(stderr, "memory: %s, allocation %ld\n", why, at);
    exit(1);
}

static const char *bench =
    "INPUT(1)\nINPUT(2)\nINPUT(3)\nINPUT(6)\nINPUT(7)\nOUTPUT(22)\nOUTPUT(23)\n"
    "10 = NAND(1, 3)\n11 = NAND(3, 6)\n16 = NAND(2, 11)\n19 = NAND(11, 7)\n"
    "22 = NAND(10, 16)\n23 = NAND(16, 19)\n";
static const char *tests = "11111\n01010\n";

static uint32_t model;
static fs_job job, second;
static fs_fault fault;
static fs_sizes n;
static uint32_t *classes, *firsts, *expected, faults;
static uint64_t *words, *lanes;
static uint8_t *text;
static size_t text_len, wanted;

static uint32_t read_it(void) {
    return fs_job_read(model, (const uint8_t *)bench, strlen(bench), &job, &fault);
}

static uint32_t share_it(void) { return fs_job_share(&job, &second); }

static uint32_t set_text(void) {
    return fs_set_text(&job, (const uint8_t *)tests, strlen(tests), &fault);
}

static uint32_t set_words(void) {
    return fs_set_words(&job, n.tests, words, (size_t)n.blocks * n.sources, &fault);
}

static uint32_t next_words(void) {
    uint32_t status = fs_next_words(&job, n.tests, words, (size_t)n.blocks * n.sources, &fault);
    /* Whatever is left to refuse, the job has the first tests again. */
    long rest = left;
    left = 0;
    if (!status && set_text())
        end("fs_set_text", 0);
    left = rest;
    return status;
}

static uint32_t simulate(void) { return fs_simulate(&job, classes, n.classes, firsts, n.classes); }

static uint32_t fault_text(void) { return fs_fault_text(&job, 0, text, text_len, &wanted); }

static uint32_t report(void) {
    return fs_report(&job, FS_LINES_ALL, true, text, text_len, &wanted);
}

static uint32_t in_one(void) {
    return fs_firsts(model, (const uint8_t *)bench, strlen(bench), (const uint8_t *)tests,
                     strlen(tests), firsts, n.faults, &faults, &fault);
}

static uint32_t class_lanes(void) {
    return fs_lanes(&job, 0, classes, n.classes, lanes, n.classes);
}

static uint32_t add_counts(void) {
    return fs_count(&job, 0, classes, n.classes, 5, firsts, n.classes);
}

static uint32_t detections(void) {
    return fs_detections(&job, classes, n.classes, 5, firsts, n.classes);
}

/* The same for one class, which takes another way. */
static uint32_t detections_of_one(void) { return fs_detections(&job, classes, 1, 1, firsts, 1); }

/* The calls about the circuit in arrays, over memory of the program. */
static uint32_t circuit_without(void) {
    static uint32_t numbers[4096], pins[4096], one;
    static uint64_t values[4096];
    static fs_pin readers[4096];
    static fs_site sites[8192];
    if (n.signals >= 4096 || n.faults > 8192)
        end("the circuit is too large", 0);
    uint32_t status = fs_kinds_of(&job, numbers, n.signals);
    if (!status)
        status = fs_levels_of(&job, numbers, n.signals);
    size_t all = 0;
    if (!status && fs_fan_ins_of(&job, numbers, n.signals + 1, pins, 0, &all) != FS_RANGE)
        end("fs_fan_ins_of", 0);
    if (!status)
        status = fs_fan_ins_of(&job, numbers, n.signals + 1, pins, all, &all);
    if (!status)
        status = fs_fan_outs_of(&job, numbers, n.signals + 1, readers, all, &all);
    if (!status)
        status = fs_sites_of(&job, sites, n.faults);
    if (!status)
        status = fs_fault_at(&job, &sites[n.faults - 1], &one);
    if (!status)
        status = fs_signal_named(&job, text, wanted, &one);
    if (!status)
        status = fs_values(&job, 0, values, n.signals);
    for (uint32_t i = 0; i < n.signals; i++)
        numbers[i] = i;
    return status ? status : fs_observed(&job, 0, numbers, n.signals, values, n.signals);
}

/* The calls that take no memory: the first that isn't done, or FS_DONE. */
static uint32_t without(void) {
    fs_sizes sizes;
    uint32_t place, status = fs_sizes_of(&job, &sizes);
    size_t observers = 0;
    uint64_t word;
    if (!status)
        status = fs_classes_of(&job, firsts, n.faults);
    if (!status)
        status = fs_stems_of(&job, firsts, n.classes);
    if (!status)
        status = fs_name_of(&job, 0, text, text_len, &wanted);
    if (!status)
        status = fs_source_of(&job, 0, &place);
    if (!status)
        status = fs_word(&job, 0, 0, &word);
    if (!status)
        status = circuit_without();
    if (!status)
        status = fs_observers_of(&job, (uint32_t *)text, text_len / 4, &observers);
    if (!status)
        status = fs_responses(&job, (uint64_t *)text, n.blocks * observers);
    if (!status)
        status = fs_detecting(&job, 0, 0, &word);
    return status ? status : fs_version() - FAULTSIM_VERSION;
}

/* Whether the handle answers as it did before an allocation was refused. */
static int is_as_before(uint32_t had, const fs_sizes *before) {
    fs_sizes now = {0};
    return fs_sizes_of(&job, &now) == had && !memcmp(&now, before, sizeof now)
        && (!expected
            || (!simulate() && !memcmp(firsts, expected, n.classes * sizeof *firsts)));
}

/* Refuses the first allocation of a call, then the second, until none is left to refuse. Returns
 * how many were refused. */
static long refuse(const char *name, uint32_t (*call)(void)) {
    for (long at = 1, done = 0;; at++) {
        fs_sizes before = {0};
        uint32_t had = fs_sizes_of(&job, &before);
        left = at;
        was_refused = false;
        uint32_t status = call();
        left = 0;
        if (status != FS_DONE && (status != FS_MEMORY || !was_refused))
            end(name, at);
        if (status == FS_MEMORY && !is_as_before(had, &before))
            end(name, at);
        if (!was_refused) {
            printf("%-14s %4ld refused, %ld done without\n", name, at - 1, done);
            return at - 1;
        }
        done += status == FS_DONE;
    }
}

static void *room(size_t count, size_t size) {
    void *at = calloc(count ? count : 1, size);
    if (!at)
        end("no memory", 0);
    return at;
}

static char *read_file(const char *path) {
    FILE *file = fopen(path, "rb");
    if (!file || fseek(file, 0, SEEK_END))
        end(path, 0);
    long size = ftell(file);
    rewind(file);
    char *at = room((size_t)size + 1, 1);
    if (fread(at, 1, (size_t)size, file) != (size_t)size)
        end(path, 0);
    fclose(file);
    return at;
}

/* Room for what the calls write, and what they must write of the job. */
static void make_room(void) {
    size_t observers = 0;
    uint32_t nothing, status = fs_observers_of(&job, &nothing, 0, &observers);
    if (status != FS_RANGE || fs_sizes_of(&job, &n))
        end("fs_observers_of", 0);
    classes = room(n.classes, sizeof *classes);
    firsts = room(n.faults, sizeof *firsts);
    words = room((size_t)n.blocks * n.sources, sizeof *words);
    lanes = room(n.classes, sizeof *lanes);
    uint8_t none;
    status = fs_report(&job, FS_LINES_ALL, true, &none, 0, &text_len);
    if (status != FS_RANGE)
        end("fs_report", 0);
    if (text_len < 8 * n.blocks * observers)
        text_len = 8 * n.blocks * observers;
    text = room(text_len, 1);
    for (uint32_t i = 0; i < n.classes; i++)
        classes[i] = i;
    for (uint32_t i = 0; i < n.sources; i++)
        for (uint32_t b = 0; b < n.blocks; b++) {
            uint32_t signal = 0, place = 0;
            while (fs_source_of(&job, signal, &place) || place != i)
                signal++;
            if (fs_word(&job, b, signal, &words[(size_t)b * n.sources + i]))
                end("fs_word", 0);
        }
    if (simulate())
        end("fs_simulate", 0);
    uint32_t *known = room(n.classes, sizeof *known);
    memcpy(known, firsts, n.classes * sizeof *known);
    expected = known;
}

/* Refuses the allocations of all calls. Returns how many were refused. */
static long refuse_all(void) {
    long refused = refuse("fs_job_read", read_it);
    if (fs_sizes_of(&job, &n))
        end("fs_sizes_of", 0);
    if (refuse("fs_job_read", read_it) != refused)
        end("fs_job_read over a job", 0);
    refused += refuse("fs_set_text", set_text);
    make_room();
    refused += refuse("fs_set_text", set_text);
    refused += refuse("fs_set_words", set_words);
    refused += refuse("fs_next_words", next_words);
    refused += refuse("fs_simulate", simulate);
    refused += refuse("fs_lanes", class_lanes);
    refused += refuse("fs_count", add_counts);
    refused += refuse("fs_detections", detections);
    refused += refuse("fs_detections of a class", detections_of_one);
    refused += refuse("fs_fault_text", fault_text);
    refused += refuse("fs_report", report);
    refused += refuse("fs_job_share", share_it);
    refused += refuse("fs_firsts", in_one);
    if (refuse("the others", without))
        end("a call that takes no memory", 0);
    fs_job_free(&second);
    if (!is_as_before(FS_DONE, &n))
        end("fs_job_free", 0);
    fs_job_free(&job);
    free(classes), free(firsts), free(expected), free(words), free(lanes), free(text);
    expected = NULL;
    return refused;
}

int main(int argc, char **argv) {
    if (argc == 3) {
        bench = read_file(argv[1]);
        tests = read_file(argv[2]);
    }
    for (model = FS_STUCK_AT; model <= FS_TRANSITION_PAIRS; model++)
        for (int turn = 0; turn < 2; turn++) {
            onwards = turn;
            printf("model %" PRIu32 ", %s:\n", model, onwards ? "with all that follow" : "alone");
            if (refuse_all() < 20)
                end("few allocations", 0);
        }
    return 0;
}
