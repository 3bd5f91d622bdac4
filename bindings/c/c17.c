/* C17 under one test, 11111, and what each status is for. Prints '14 of 34' and returns 0. */
#include "faultsim.h"

#include <inttypes.h>
#include <stdio.h>
#include <stdlib.h>
#include <string.h>

static const char C17[] =
    "INPUT(1)\nINPUT(2)\nINPUT(3)\nINPUT(6)\nINPUT(7)\nOUTPUT(22)\nOUTPUT(23)\n"
    "10 = NAND(1, 3)\n11 = NAND(3, 6)\n16 = NAND(2, 11)\n19 = NAND(11, 7)\n"
    "22 = NAND(10, 16)\n23 = NAND(16, 19)\n";

static const uint8_t *bytes(const char *text) { return (const uint8_t *)text; }

/* Ends the process with the number of the line if what must hold doesn't. */
#define MUST(holds)                                                                              \
    do {                                                                                         \
        if (!(holds)) {                                                                          \
            fprintf(stderr, "c17.c:%d: %s\n", __LINE__, #holds);                                 \
            exit(1);                                                                             \
        }                                                                                        \
    } while (0)

/* How many faults the job's tests detect. */
static uint32_t detected(fs_job *job) {
    fs_sizes n;
    MUST(fs_sizes_of(job, &n) == FS_DONE);
    uint32_t *classes = calloc(n.classes, sizeof *classes);
    uint32_t *firsts = calloc(n.classes, sizeof *firsts);
    uint32_t *of = calloc(n.faults, sizeof *of);
    MUST(classes && firsts && of);
    for (uint32_t i = 0; i < n.classes; i++)
        classes[i] = i;
    MUST(fs_simulate(job, classes, n.classes, firsts, n.classes) == FS_DONE);
    MUST(fs_classes_of(job, of, n.faults) == FS_DONE);
    uint32_t found = 0;
    for (uint32_t i = 0; i < n.faults; i++)
        found += firsts[of[i]] != FS_NONE;
    classes[0] = n.classes;
    MUST(fs_simulate(job, classes, n.classes, firsts, n.classes) == FS_RANGE);
    MUST(fs_simulate(job, classes, 0, firsts, 1) == FS_RANGE);
    MUST(fs_classes_of(job, of, n.faults - 1) == FS_RANGE);
    free(classes);
    free(firsts);
    free(of);
    return found;
}

/* A job that two handles share takes no tests. The last handle takes them again. */
static void shared(fs_job *job) {
    fs_fault fault = {0};
    fs_job second = {0};
    uint64_t right[5] = {1, 1, 1, 1, 1};
    MUST(fs_job_share(&second, job) == FS_NO_JOB);
    MUST(fs_job_share(job, &second) == FS_DONE);
    MUST(fs_set_text(job, bytes("00000\n"), 6, &fault) == FS_SHARED);
    MUST(fs_set_words(&second, 1, right, 5, &fault) == FS_SHARED);
    MUST(detected(&second) == 14 && detected(job) == 14);
    fs_job_free(&second);
    MUST(fs_set_text(job, bytes("11111\n"), 6, &fault) == FS_DONE && detected(job) == 14);
    MUST(fs_job_share(job, &second) == FS_DONE);
    fs_job_free(job);
    MUST(fs_set_words(&second, 1, right, 5, &fault) == FS_DONE && detected(&second) == 14);
    MUST(fs_job_share(&second, job) == FS_DONE);
    fs_job_free(&second);
}

/* New tests behind the last one: a buffer under 0 and then 1, which detects that a line is slow to
 * rise. */
static void next(void) {
    fs_job job = {0};
    fs_fault fault = {0};
    fs_sizes n;
    const char *buffer = "INPUT(a)\nOUTPUT(z)\nz = BUFF(a)\n";
    uint64_t one[1] = {1}, idle[1] = {2}, lanes, many[1024] = {0};
    uint32_t of[4];
    MUST(fs_next_words(&job, 1, one, 1, &fault) == FS_NO_JOB);
    MUST(fs_job_read(FS_TRANSITION, bytes(buffer), strlen(buffer), &job, &fault) == FS_DONE);
    MUST(fs_classes_of(&job, of, 4) == FS_DONE);
    MUST(fs_next_words(&job, 1, one, 1, &fault) == FS_DONE);
    MUST(fs_sizes_of(&job, &n) == FS_DONE && n.tests == 1);
    MUST(fs_set_text(&job, bytes("1\n0\n"), 4, &fault) == FS_DONE);
    MUST(fs_next_words(&job, 1, one, 1, &fault) == FS_DONE);
    MUST(fs_sizes_of(&job, &n) == FS_DONE && n.tests == 2);
    MUST(fs_detecting(&job, of[0], 0, &lanes) == FS_DONE && lanes == 2);
    MUST(fs_next_words(&job, 1, idle, 1, &fault) == FS_REFUSED && fault.kind == FS_WORDS_IDLE);
    MUST(fs_next_words(&job, 65536, many, 1024, &fault) == FS_REFUSED);
    MUST(fault.kind == FS_WORDS_MANY && fs_next_words(&job, 65535, many, 1024, &fault) == FS_DONE);
    MUST(fs_sizes_of(&job, &n) == FS_DONE && n.tests == 65536 && n.blocks == 1024);
    fs_job_free(&job);
}

/* Texts and words that are wrong. */
static void wrong(fs_job *job) {
    fs_fault fault = {0};
    uint64_t lanes = 7, word = 7, words[5] = {1, 1, 1, 1, 2};
    /* Under 11111 NAND(1, 3), signal 5, is 0. */
    MUST(fs_word(job, 0, 5, &word) == FS_DONE && (word & 1) == 0);
    MUST(fs_word(job, 0, 0, &word) == FS_DONE && (word & 1) == 1);
    MUST(fs_word(job, 0, 11, &word) == FS_RANGE && fs_word(job, 1, 0, &word) == FS_RANGE);
    uint32_t stems[34];
    fs_sizes n;
    MUST(fs_sizes_of(job, &n) == FS_DONE && n.classes <= 34);
    MUST(fs_stems_of(job, stems, n.classes) == FS_DONE && stems[0] < n.signals);
    MUST(fs_stems_of(job, stems, n.classes - 1) == FS_RANGE);
    uint8_t name[3] = "???";
    size_t wanted = 0;
    MUST(fs_name_of(job, 5, name, 1, &wanted) == FS_RANGE && wanted == 2 && name[0] == '?');
    MUST(fs_name_of(job, 5, name, 3, &wanted) == FS_DONE && !memcmp(name, "10?", 3));
    MUST(fs_name_of(job, 11, name, 3, &wanted) == FS_RANGE);
    uint8_t fault_text[12] = "???????????";
    MUST(fs_fault_text(job, 0, fault_text, 9, &wanted) == FS_RANGE && wanted == 10);
    MUST(fs_fault_text(job, 0, fault_text, 11, &wanted) == FS_DONE);
    MUST(!memcmp(fault_text, "stem 1 sa0?", 11));
    MUST(fs_fault_text(job, 34, fault_text, 11, &wanted) == FS_RANGE);
    uint32_t asked[3] = {1, 0, 1}, counts[3] = {7, 7, 7}, found[3];
    MUST(fs_detections(job, asked, 3, 5, counts, 3) == FS_DONE);
    MUST(fs_simulate(job, asked, 3, found, 3) == FS_DONE && found[0] == found[2]);
    for (int i = 0; i < 3; i++)
        MUST(counts[i] == (found[i] != FS_NONE));
    MUST(fs_detections(job, asked, 3, 0, counts, 3) == FS_DONE && counts[0] == 0);
    asked[0] = 1000;
    counts[0] = 7;
    MUST(fs_detections(job, asked, 3, 5, counts, 3) == FS_RANGE && counts[0] == 7);
    uint32_t signals[2];
    uint64_t shown[2];
    MUST(fs_observers_of(job, signals, 1, &wanted) == FS_RANGE && wanted == 2);
    MUST(fs_observers_of(job, signals, 2, &wanted) == FS_DONE);
    MUST(fs_name_of(job, signals[1], name, 3, &wanted) == FS_DONE && !memcmp(name, "23", 2));
    /* Under 11111 NAND(10, 16) is 1, and NAND(16, 19) is 0. */
    MUST(fs_responses(job, shown, 1) == FS_RANGE && fs_responses(job, shown, 2) == FS_DONE);
    MUST((shown[0] & 1) == 1 && (shown[1] & 1) == 0);
    uint8_t report[32];
    MUST(fs_report(job, FS_LINES_ALL, false, report, 32, &wanted) == FS_RANGE && wanted > 32);
    MUST(fs_report(job, FS_LINES_NONE, false, report, 32, &wanted) == FS_DONE);
    MUST(wanted == 18 && !memcmp(report, "14 of 34 (41.17%)\n", 18));
    MUST(fs_report(job, 3, false, report, 32, &wanted) == FS_RANGE);
    uint32_t place = 7;
    MUST(fs_source_of(job, 4, &place) == FS_DONE && place == 4);
    MUST(fs_source_of(job, 5, &place) == FS_RANGE && place == 4);
    MUST(fs_detecting(job, 1000, 0, &lanes) == FS_RANGE && lanes == 7);
    MUST(fs_set_words(job, 1, words, 5, &fault) == FS_REFUSED);
    MUST(fault.kind == FS_WORDS_IDLE && fault.place == 4);
    MUST(fs_set_words(job, 1, words, 4, &fault) == FS_REFUSED && fault.kind == FS_WORDS_COUNT);
    MUST(fs_set_text(job, bytes("11111\n111\n"), 10, &fault) == FS_REFUSED);
    MUST(fault.kind == FS_TESTS_WIDTH && fault.place == 2);
    MUST(fs_job_read(FS_STUCK_AT, bytes("INPUT(a)\nz = AND(a, b)\n"), 23, job, &fault)
         == FS_REFUSED);
    MUST(fault.kind == FS_BENCH_UNDEFINED && fault.place == 2);
    MUST(fs_job_read(3, bytes(C17), strlen(C17), job, &fault) == FS_RANGE);
    MUST(detected(job) == 14);
}

/* Messages: all of one, as much as there is room for, and none. */
static void messages(void) {
    fs_fault fault = {.kind = FS_TESTS_WIDTH, .place = UINT64_MAX};
    const char *whole = "tests line 18446744073709551615: wrong width";
    char text[64] = "?", short_text[8];
    MUST(fs_message(FS_REFUSED, &fault, text, 0) == strlen(whole) && text[0] == '?');
    MUST(fs_message(FS_REFUSED, &fault, text, 64) == strlen(whole) && !strcmp(text, whole));
    MUST(fs_message(FS_REFUSED, &fault, short_text, 8) == strlen(whole));
    MUST(!strcmp(short_text, "tests l"));
    fault.kind = 15;
    MUST(fs_message(FS_REFUSED, &fault, text, 64) == 7 && !strcmp(text, "unknown"));
    fs_message(FS_REFUSED, NULL, text, 64);
    MUST(!strcmp(text, "a text or words are wrong"));
    fs_message(6, NULL, text, 64);
    MUST(!strcmp(text, "unknown status 6"));
}

int main(void) {
    fs_job job = {0};
    fs_fault fault = {0};
    fs_sizes n;
    MUST(fs_version() == FAULTSIM_VERSION && strchr("0123456789", fs_release()[0]));
    MUST(fs_sizes_of(&job, &n) == FS_NO_JOB);
    MUST(fs_job_read(FS_STUCK_AT, bytes(C17), strlen(C17), &job, &fault) == FS_DONE);
    MUST(fs_set_text(&job, bytes("11111\n"), 6, &fault) == FS_DONE);
    MUST(fs_sizes_of(&job, &n) == FS_DONE);
    printf("%" PRIu32 " of %" PRIu32 "\n", detected(&job), n.faults);
    shared(&job);
    wrong(&job);
    next();
    messages();
    fs_job_free(&job);
    fs_job_free(&job);
    MUST(fs_sizes_of(&job, &n) == FS_NO_JOB);

    uint32_t faults = 0, firsts[34], found = 0;
    const uint8_t *bench = bytes(C17), *tests = bytes("11111\n");
    size_t length = strlen(C17);
    MUST(fs_firsts(0, bench, length, tests, 6, firsts, 0, &faults, &fault) == FS_RANGE);
    MUST(faults == 34);
    MUST(fs_firsts(0, bench, length, tests, 6, firsts, 34, &faults, &fault) == FS_DONE);
    for (uint32_t i = 0; i < faults; i++)
        found += firsts[i] != FS_NONE;
    MUST(found == 14);
    return 0;
}
