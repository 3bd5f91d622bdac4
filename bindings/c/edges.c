/* Calls at the edges of what a caller may pass, under each fault model. Texts and arrays are in
 * memory of exactly their length, so that valgrind sees what a call touches beyond. Texts end
 * anywhere, and lengths and numbers are wrong, also with a handle of no job. Each call must return
 * its status, and one that fails must leave the job and what it would write as they were.
 *
 * usage: edges */
#include "faultsim.h"

#include <stdio.h>
#include <stdlib.h>
#include <string.h>

static const char c17[] =
    "INPUT(1)\nINPUT(2)\nINPUT(3)\nINPUT(6)\nINPUT(7)\nOUTPUT(22)\nOUTPUT(23)\n"
    "10 = NAND(1, 3)\n11 = NAND(3, 6)\n16 = NAND(2, 11)\n19 = NAND(11, 7)\n"
    "22 = NAND(10, 16)\n23 = NAND(16, 19)";
static const char rows[] = "11111\n01010\n # 2\n\t00110\r\n10101";

enum { PINS = 12, OUTPUTS = 2, UNTOUCHED = 7 };

/* The handle of the calls, and its sizes; the block and the last number of the lists that they get,
 * if it isn't the right one. */
static fs_job job, none, *handle = &job;
static fs_sizes n;
static uint32_t model, block, wrong;

/* Ends the process with the number of the line if what must hold doesn't. */
#define MUST(holds)                                                                              \
    do {                                                                                         \
        if (!(holds)) {                                                                          \
            fprintf(stderr, "edges.c:%d: model %u: %s\n", __LINE__, (unsigned)model, #holds);    \
            exit(1);                                                                             \
        }                                                                                        \
    } while (0)

static void *room(size_t size) {
    void *at = malloc(size);
    MUST(at);
    return memset(at, UNTOUCHED, size);
}

/* The numbers below a count, with the wrong one in the last place. */
static uint32_t *numbers(uint32_t count) {
    uint32_t *list = room(count * sizeof *list);
    for (uint32_t i = 0; i < count; i++)
        list[i] = i;
    if (wrong)
        list[count - 1] = wrong;
    return list;
}

/* The calls that write an array or a text. */
typedef uint32_t writing(void *to, size_t len);

static uint32_t classes_of(void *to, size_t len) { return fs_classes_of(handle, to, len); }
static uint32_t stems_of(void *to, size_t len) { return fs_stems_of(handle, to, len); }
static uint32_t kinds_of(void *to, size_t len) { return fs_kinds_of(handle, to, len); }
static uint32_t levels_of(void *to, size_t len) { return fs_levels_of(handle, to, len); }
static uint32_t sites_of(void *to, size_t len) { return fs_sites_of(handle, to, len); }
static uint32_t values(void *to, size_t len) { return fs_values(handle, block, to, len); }
static uint32_t responses(void *to, size_t len) { return fs_responses(handle, to, len); }

static uint32_t starts_of(void *to, size_t len) {
    size_t wanted;
    uint32_t *pins = room(PINS * sizeof *pins);
    uint32_t status = fs_fan_ins_of(handle, to, len, pins, PINS, &wanted);
    free(pins);
    return status;
}

static uint32_t pins_of(void *to, size_t len) {
    size_t wanted;
    uint32_t *starts = room((n.signals + 1) * sizeof *starts);
    uint32_t status = fs_fan_ins_of(handle, starts, n.signals + 1, to, len, &wanted);
    free(starts);
    return status;
}

static uint32_t reader_starts_of(void *to, size_t len) {
    size_t wanted;
    fs_pin *pins = room(PINS * sizeof *pins);
    uint32_t status = fs_fan_outs_of(handle, to, len, pins, PINS, &wanted);
    free(pins);
    return status;
}

static uint32_t readers_of(void *to, size_t len) {
    size_t wanted;
    uint32_t *starts = room((n.signals + 1) * sizeof *starts);
    uint32_t status = fs_fan_outs_of(handle, starts, n.signals + 1, to, len, &wanted);
    free(starts);
    return status;
}

static uint32_t observers_of(void *to, size_t len) {
    size_t wanted;
    return fs_observers_of(handle, to, len, &wanted);
}

static uint32_t name_of(void *to, size_t len) {
    size_t wanted;
    return fs_name_of(handle, n.signals - 1, to, len, &wanted);
}

static uint32_t fault_text(void *to, size_t len) {
    size_t wanted;
    return fs_fault_text(handle, 0, to, len, &wanted);
}

static uint32_t simulate(void *to, size_t len) {
    uint32_t *list = numbers(n.classes);
    uint32_t status = fs_simulate(handle, list, n.classes, to, len);
    free(list);
    return status;
}

static uint32_t observed(void *to, size_t len) {
    uint32_t *list = numbers(n.signals);
    uint32_t status = fs_observed(handle, block, list, n.signals, to, len);
    free(list);
    return status;
}

static uint32_t lanes(void *to, size_t len) {
    uint32_t *list = numbers(n.classes);
    uint32_t status = fs_lanes(handle, block, list, n.classes, to, len);
    free(list);
    return status;
}

static uint32_t count(void *to, size_t len) {
    uint32_t *list = numbers(n.classes);
    uint32_t status = fs_count(handle, block, list, n.classes, UINT32_MAX, to, len);
    free(list);
    return status;
}

static uint32_t detections(void *to, size_t len) {
    uint32_t *list = numbers(n.classes);
    uint32_t status = fs_detections(handle, list, n.classes, UINT32_MAX, to, len);
    free(list);
    return status;
}

/* A call, the length that it needs and the size of an item; what it gets, and whether it takes more
 * room, too. */
struct edge {
    writing *call;
    size_t len, size;
    bool has_block, has_list, takes_more;
};

/* One call with a length: it must return the status. */
static void returns(const struct edge *edge, size_t len, uint32_t wanted) {
    uint8_t *to = room(len * edge->size);
    MUST(edge->call(to, len) == wanted);
    for (size_t i = 0; wanted && i < len * edge->size; i++)
        MUST(to[i] == UNTOUCHED);
    free(to);
}

static void try_edge(const struct edge *edge) {
    returns(edge, edge->len, FS_DONE);
    returns(edge, edge->len - 1, FS_RANGE);
    returns(edge, edge->len + 1, edge->takes_more ? FS_DONE : FS_RANGE);
    returns(edge, 0, FS_RANGE);
    const uint32_t blocks[] = {1, UINT32_MAX}, lasts[] = {(uint32_t)edge->len, UINT32_MAX};
    for (int i = 0; i < 2; i++) {
        block = edge->has_block ? blocks[i] : 0;
        if (block)
            returns(edge, edge->len, FS_RANGE);
        block = 0;
        wrong = edge->has_list ? lasts[i] : 0;
        if (wrong)
            returns(edge, edge->len, FS_RANGE);
        wrong = 0;
    }
    handle = &none;
    returns(edge, edge->len, FS_NO_JOB);
    handle = &job;
}

static void try_edges(void) {
    /* The last signal of C17 is 23, and its first fault "stem 1 sa0" or "stem 1 str". */
    const struct edge edges[] = {
        {.call = classes_of, .len = n.faults, .size = 4},
        {.call = stems_of, .len = n.classes, .size = 4},
        {.call = kinds_of, .len = n.signals, .size = 4},
        {.call = levels_of, .len = n.signals, .size = 4},
        {.call = starts_of, .len = n.signals + 1, .size = 4},
        {.call = pins_of, .len = PINS, .size = 4},
        {.call = reader_starts_of, .len = n.signals + 1, .size = 4},
        {.call = readers_of, .len = PINS, .size = sizeof(fs_pin)},
        {.call = sites_of, .len = n.faults, .size = sizeof(fs_site)},
        {.call = observers_of, .len = OUTPUTS, .size = 4, .takes_more = true},
        {.call = name_of, .len = 2, .size = 1, .takes_more = true},
        {.call = fault_text, .len = 10, .size = 1, .takes_more = true},
        {.call = responses, .len = OUTPUTS, .size = 8},
        {.call = values, .len = n.signals, .size = 8, .has_block = true},
        {.call = simulate, .len = n.classes, .size = 4, .has_list = true},
        {.call = detections, .len = n.classes, .size = 4, .has_list = true},
        {.call = observed, .len = n.signals, .size = 8, .has_block = true, .has_list = true},
        {.call = lanes, .len = n.classes, .size = 8, .has_block = true, .has_list = true},
        {.call = count, .len = n.classes, .size = 4, .has_block = true, .has_list = true},
    };
    for (size_t i = 0; i < sizeof edges / sizeof *edges; i++)
        try_edge(&edges[i]);
}

/* A text up to a length, as a circuit or as tests. */
static uint32_t takes(const char *text, size_t len, bool is_circuit) {
    fs_fault fault;
    uint8_t *copy = memcpy(room(len), text, len);
    uint32_t status = is_circuit ? fs_job_read(model, copy, len, handle, &fault)
                                 : fs_set_text(handle, copy, len, &fault);
    free(copy);
    return status;
}

/* Texts that end anywhere: the last one is whole. */
static void try_texts(void) {
    MUST(takes(c17, 0, true) == FS_REFUSED);
    for (size_t len = 1; len < sizeof c17; len++) {
        uint32_t status = takes(c17, len, true);
        MUST(status == FS_DONE || status == FS_REFUSED);
    }
    for (size_t len = 0; len < sizeof rows; len++) {
        uint32_t status = takes(rows, len, false);
        MUST(status == FS_DONE || status == FS_REFUSED);
    }
    MUST(fs_sizes_of(handle, &n) == FS_DONE && n.faults == 34 && n.tests == 4 && n.blocks == 1);
}

static uint32_t takes_words(uint32_t tests, size_t len, bool after) {
    fs_fault fault;
    uint64_t *words = room(len * sizeof *words);
    memset(words, 0, len * sizeof *words);
    uint32_t status = after ? fs_next_words(handle, tests, words, len, &fault)
                            : fs_set_words(handle, tests, words, len, &fault);
    free(words);
    return status;
}

/* Words that are too few, too many or none, in place of the tests and after the last one. */
static void try_words(void) {
    for (int after = 0; after < 2; after++) {
        fs_sizes before = n;
        MUST(takes_words(64, n.sources - 1, after) == FS_REFUSED);
        MUST(takes_words(65, n.sources, after) == FS_REFUSED);
        MUST(takes_words(UINT32_MAX, n.sources, after) == FS_REFUSED);
        MUST(fs_sizes_of(handle, &n) == FS_DONE && !memcmp(&n, &before, sizeof n));
        MUST(takes_words(64, n.sources, after) == FS_DONE);
        MUST(fs_sizes_of(handle, &n) == FS_DONE && n.tests == (after ? 65 : 64));
    }
    MUST(takes_words(0, 0, true) == FS_DONE && fs_sizes_of(handle, &n) == FS_DONE && n.tests == 1);
    MUST(takes_words(0, 0, false) == FS_DONE && fs_sizes_of(handle, &n) == FS_DONE && !n.tests);
}

int main(void) {
    for (model = FS_STUCK_AT; model <= FS_TRANSITION_PAIRS; model++) {
        try_texts();
        try_edges();
        try_words();
        fs_job_free(&job);
        fs_job_free(&job);
        fs_job_free(&none);
    }
    MUST(takes(c17, sizeof c17 - 1, true) == FS_RANGE);
    return 0;
}
