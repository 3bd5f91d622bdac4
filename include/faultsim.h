/* faultsim.h: fault simulation of combinational circuits and of circuits with full scan, from C.
 *
 * A call never ends the process, never waits and starts no thread. It returns one of the statuses
 * below. It reads no text past its length and keeps nothing of what a caller passes.
 *
 * Rules that nothing checks; what is proved of the calls holds for callers that keep them:
 *   - No pointer is null, not even where a length is 0, unless the call says that it may be. While a
 *     call runs, nobody writes to what a pointer to const leads to, and only the call uses what any
 *     other pointer leads to.
 *   - An fs_job is zeros before its first use, and only these calls change it. Never use a copy of
 *     one. Free it with fs_job_free, which leaves zeros; to free it again does nothing.
 *   - Give a handle to one call at a time. It may go to another thread, with a lock or the start or
 *     join of the thread in between. Handles that fs_job_share made of one another may be in calls
 *     in several threads at once.
 *   - malloc, realloc and free are thread-safe and belong to one allocator. No call comes from a
 *     signal handler.
 */
#ifndef FAULTSIM_H
#define FAULTSIM_H

#include <stdbool.h>
#include <stddef.h>
#include <stdint.h>

#ifdef __cplusplus
extern "C" {
#endif

/* A handle: a job (a circuit, its faults in classes, and tests), or none. */
typedef struct fs_job {
    bool live;
    void *at;
} fs_job;

/* How large a job is. Signals, faults, classes, tests and blocks are numbered from 0. */
typedef struct fs_sizes {
    uint32_t sources; /* primary inputs and scan cells: the width of a test */
    uint32_t signals;
    uint32_t faults;  /* before collapsing */
    uint32_t classes; /* equivalence classes of faults */
    uint32_t tests;
    uint32_t blocks; /* blocks of 64 tests; the last may be short */
} fs_sizes;

/* Why a status is FS_REFUSED: one of the kinds below, and a place. */
typedef struct fs_fault {
    uint32_t kind;
    uint64_t place;
} fs_fault;

/* A pin of a gate. Numbers count from 0. */
typedef struct fs_pin {
    uint32_t gate; /* the signal of the gate */
    uint32_t pin;
} fs_pin;

/* The site of a fault: a line of the circuit, and the bit at which it is stuck. Numbers count from
 * 0. */
typedef struct fs_site {
    uint32_t kind;  /* FS_STEM, FS_PIN, FS_DATA or FS_OUTPUT */
    uint32_t at;    /* the signal, the signal of the gate, the flip-flop or the OUTPUT line */
    uint32_t pin;   /* the pin of the gate, or 0 */
    uint32_t stuck; /* 0 or 1; a transition fault is slow to leave the bit */
} fs_site;

/* Statuses. */
enum {
    FS_DONE,    /* the call did what it is for */
    FS_NO_JOB,  /* the handle has no job */
    FS_MEMORY,  /* memory ran out */
    FS_REFUSED, /* a text or words are wrong; the fs_fault says why */
    FS_RANGE,   /* a number is out of range, or a length is not what it must be */
    FS_SHARED   /* another handle shares the job (fs_job_share) */
};

/* Fault models. */
enum {
    FS_STUCK_AT,
    FS_TRANSITION,      /* each test is the capture test of the one before it */
    FS_TRANSITION_PAIRS /* tests 2k and 2k + 1 are a launch/capture pair */
};

/* Kinds of fs_fault. The place is the line, from 1, of 4 to 7, 9 and 10; the source, from 0, of 14;
 * and else 0. */
enum {
    FS_BENCH_BYTES = 1, /* more bytes than the limit */
    FS_BENCH_SIGNALS,   /* more signals than the limit */
    FS_BENCH_SINKS,     /* more pins than the limit */
    FS_BENCH_SYNTAX,    /* the line is no line of a bench file */
    FS_BENCH_REDEFINED, /* the line defines a name that an earlier line defines */
    FS_BENCH_UNDEFINED, /* the line reads a name that no line defines */
    FS_BENCH_CYCLE,     /* the gate of the line is on a cycle, or fed by one */
    FS_BENCH_EMPTY,     /* there is no line */
    FS_TESTS_BYTE,      /* the line has a byte other than 0 and 1 */
    FS_TESTS_WIDTH,     /* the line hasn't a bit for each source */
    FS_TESTS_MANY,      /* more than 65,536 tests */
    FS_WORDS_MANY,      /* more than 65,536 tests */
    FS_WORDS_COUNT,     /* not a word for each block and source */
    FS_WORDS_IDLE       /* the source has a bit past the last test */
};

/* Which faults have a line in a report. */
enum {
    FS_LINES_NONE,
    FS_LINES_ALL,       /* as --list */
    FS_LINES_UNDETECTED /* as --undetected */
};

/* Kinds of signals: primary inputs and scan cells, and signals of gates. */
enum {
    FS_SOURCE,
    FS_AND,
    FS_NAND,
    FS_OR,
    FS_NOR,
    FS_XOR,
    FS_XNOR,
    FS_NOT,
    FS_BUFF
};

/* Kinds of lines. */
enum {
    FS_STEM,  /* the stem of a signal */
    FS_PIN,   /* a pin of a gate */
    FS_DATA,  /* the data pin of a flip-flop */
    FS_OUTPUT /* an OUTPUT line */
};

/* Stands in place of a first test if no test detects. */
#define FS_NONE UINT32_MAX

/* The version of these calls. A program that was compiled with this header needs a library with the
 * same: fs_version() == FAULTSIM_VERSION. */
#define FAULTSIM_VERSION 1
uint32_t fs_version(void);

/* Returns the release of the library, such as "0.3.0", or "0.3.0 (unproved)" if nothing of it was
 * proved. The text lasts as long as the program. */
const char *fs_release(void);

/* Writes what a status says, and for FS_REFUSED what the fs_fault says, which may be null: no more
 * than size - 1 bytes of it and a 0. Returns the number of its bytes without the 0, as snprintf. */
size_t fs_message(uint32_t status, const fs_fault *fault, char *text, size_t size);

/* Reads a circuit, lists the faults of a model and collapses them. The job has no tests yet. On
 * FS_DONE the handle has the new job, and what it had is freed; else it is as it was. */
uint32_t fs_job_read(uint32_t model, const uint8_t *bench, size_t bench_len, fs_job *job,
                     fs_fault *fault);

/* Frees what a handle has, and leaves zeros. */
void fs_job_free(fs_job *job);

/* Gives `other` the same job, with room of its own to simulate: for another thread. On FS_DONE what
 * `other` had is freed; else it is as it was. While several handles share a job, the calls that
 * take tests return FS_SHARED, if the tests have no error; the last of them that is left takes
 * tests again. */
uint32_t fs_job_share(fs_job *job, fs_job *other);

/* Writes the sizes of the job. */
uint32_t fs_sizes_of(fs_job *job, fs_sizes *sizes);

/* Takes tests in place of the job's. Words: for each block of 64 tests one for each source; bit k
 * of words[block * sources + source] is the source's bit in test 64 * block + k, and 0 past the
 * last test. Text: a line of 0s and 1s for each test. On any status but FS_DONE the tests are as
 * they were. */
uint32_t fs_set_words(fs_job *job, uint32_t count, const uint64_t *words, size_t words_len,
                      fs_fault *fault);
uint32_t fs_set_text(fs_job *job, const uint8_t *text, size_t text_len, fs_fault *fault);

/* Takes tests in words as fs_set_words does, but after the job's last test: that is test 0 of the
 * new list, and the new ones are tests 1, 2, .. So under FS_TRANSITION the pair of the last test
 * and the first new one isn't lost. If the job has no tests, all are new. Under FS_TRANSITION_PAIRS
 * it would make pairs of a capture test and the next launch test: use fs_set_words there, with an
 * even number of tests. */
uint32_t fs_next_words(fs_job *job, uint32_t count, const uint64_t *words, size_t words_len,
                       fs_fault *fault);

/* Writes the class of each fault, in the order of `faultsim faults`. classes_len is the number of
 * faults. */
uint32_t fs_classes_of(fs_job *job, uint32_t *classes, size_t classes_len);

/* Writes the stem of each class: the signal at which the fanout-free region of its representative
 * ends. stems_len is the number of classes. A thread that simulates whole regions spares work. */
uint32_t fs_stems_of(fs_job *job, uint32_t *stems, size_t stems_len);

/* Writes the name of a signal, and the number of its bytes in `wanted`; no 0 follows it. If the
 * text has less room, the status is FS_RANGE, and `wanted` is the room that the name needs. If the
 * signal is out of range, the status is FS_RANGE, too, and `wanted` is as it was: set it to 0
 * before. */
uint32_t fs_name_of(fs_job *job, uint32_t signal, uint8_t *text, size_t text_len, size_t *wanted);

/* Writes the name of a fault, as each line of `faultsim faults` begins: `stem G1 sa0`, `pin G2 1
 * sa1`, `data Q str`; no 0 follows it. `wanted` is as in fs_name_of. */
uint32_t fs_fault_text(fs_job *job, uint32_t fault, uint8_t *text, size_t text_len,
                       size_t *wanted);

/* Writes the place of a signal in a test, from 0. The status is FS_RANGE if the signal is a gate's,
 * or out of range. */
uint32_t fs_source_of(fs_job *job, uint32_t signal, uint32_t *place);

/* Writes the number of the signal of a name. The status is FS_RANGE if no signal has the name. */
uint32_t fs_signal_named(fs_job *job, const uint8_t *name, size_t name_len, uint32_t *signal);

/* Writes the kind of each signal: FS_SOURCE, or the kind of the gate that drives it. kinds_len is
 * the number of signals. */
uint32_t fs_kinds_of(fs_job *job, uint32_t *kinds, size_t kinds_len);

/* Writes the level of each signal: 0 for a source, and for the signal of a gate one more than the
 * greatest level of the signals that the gate reads. levels_len is the number of signals. */
uint32_t fs_levels_of(fs_job *job, uint32_t *levels, size_t levels_len);

/* Writes the fan-in of each signal: the signals that the pins of its gate read, in order. Those of
 * signal s are pins[starts[s]] up to pins[starts[s + 1] - 1]; a source has none. `wanted` is the
 * number of all pins. starts_len is the number of signals and one more, and pins_len is `wanted`;
 * if one of them is another number, the status is FS_RANGE. The arrays don't overlap. */
uint32_t fs_fan_ins_of(fs_job *job, uint32_t *starts, size_t starts_len, uint32_t *pins,
                       size_t pins_len, size_t *wanted);

/* Writes the fan-out of each signal: the pins of gates that read it, by the number of the gate's
 * signal and then by pin. Those of signal s are pins[starts[s]] up to pins[starts[s + 1] - 1]. So
 * each pin that fs_fan_ins_of writes stands once, with the signal that it reads; a gate that reads
 * a signal twice stands there twice. The data pins of flip-flops and the OUTPUT lines, which also
 * read signals, are observers (fs_observers_of). The lengths, `wanted` and the status are as in
 * fs_fan_ins_of. */
uint32_t fs_fan_outs_of(fs_job *job, uint32_t *starts, size_t starts_len, fs_pin *pins,
                        size_t pins_len, size_t *wanted);

/* Writes the site of each fault. sites_len is the number of faults. */
uint32_t fs_sites_of(fs_job *job, fs_site *sites, size_t sites_len);

/* Writes the number of the fault of a site. The status is FS_RANGE if the circuit has no such
 * fault, as at a pin whose signal nothing else reads. It looks at one fault after another: for many
 * sites make a table from fs_sites_of. */
uint32_t fs_fault_at(fs_job *job, const fs_site *site, uint32_t *fault);

/* Writes the fault-free value of a signal: bit k of `word` is its value in test 64 * block + k. Bits
 * past the last test may be 1. */
uint32_t fs_word(fs_job *job, uint32_t block, uint32_t signal, uint64_t *word);

/* Writes the fault-free values of all signals in the tests of a block: words[signal] is the word
 * that fs_word writes. words_len is the number of signals. */
uint32_t fs_values(fs_job *job, uint32_t block, uint64_t *words, size_t words_len);

/* Writes the signal of each observer, and the number of observers in `wanted`: the OUTPUT lines in
 * order, then the data pins of the flip-flops, in the order of the DFF lines. If the array has less
 * room, the status is FS_RANGE. */
uint32_t fs_observers_of(fs_job *job, uint32_t *signals, size_t signals_len, size_t *wanted);

/* Writes the fault-free values of the observers: words[block * observers + o] is the word of
 * observer o, as from fs_word: bits past the last test may be 1, so mask them before you use the
 * words as tests. words_len is the number of blocks times the number of observers. */
uint32_t fs_responses(fs_job *job, uint64_t *words, size_t words_len);

/* Writes for each class of a list the first test that detects it, or FS_NONE. The list may have
 * any order, and a class more than once. The lengths are equal, and the arrays don't overlap. On any
 * status but FS_DONE `firsts` is as it was. */
uint32_t fs_simulate(fs_job *job, const uint32_t *classes, size_t classes_len, uint32_t *firsts,
                     size_t firsts_len);

/* Writes for each signal of a list the tests of a block in which complementing the signal is seen at
 * an observer: bit k of its word in `lanes` is 1 exactly if test 64 * block + k detects the signal
 * stuck at the complement of its fault-free value, under every fault model. A bit past the last test
 * is 0. The list may have any order, and a signal more than once. The lengths are equal, and the
 * arrays don't overlap. It simulates signal by signal, and takes no memory. */
uint32_t fs_observed(fs_job *job, uint32_t block, const uint32_t *signals, size_t signals_len,
                     uint64_t *lanes, size_t lanes_len);

/* Writes which tests of a block detect a class: bit k of `lanes` is 1 exactly if test
 * 64 * block + k does. */
uint32_t fs_detecting(fs_job *job, uint32_t class_number, uint32_t block, uint64_t *lanes);

/* Writes for each class of a list the word that fs_detecting writes for the class and the block. The
 * list may have any order, and a class more than once. The lengths are equal, and the arrays don't
 * overlap. It simulates region by region. On any status but FS_DONE `lanes` is as it was. */
uint32_t fs_lanes(fs_job *job, uint32_t block, const uint32_t *classes, size_t classes_len,
                  uint64_t *lanes, size_t lanes_len);

/* Adds to the count of each class of a list the number of tests of a block that detect it. A count
 * that would be above `most` becomes `most`. A class that stands in the list more than once has a
 * count at each of its places. The lengths are equal, and the arrays don't overlap. It simulates
 * region by region, as fs_lanes does. On any status but FS_DONE `counts` is as it was. */
uint32_t fs_count(fs_job *job, uint32_t block, const uint32_t *classes, size_t classes_len,
                  uint32_t most, uint32_t *counts, size_t counts_len);

/* Counts the tests that detect each class of a list, up to `most` for a class. The lengths are
 * equal, and the arrays don't overlap. The list may have any order, and a class more than once. It
 * simulates region by region, as fs_simulate does, and leaves out a class whose count is `most`. On
 * any status but FS_DONE `counts` is as it was. */
uint32_t fs_detections(fs_job *job, const uint32_t *classes, size_t classes_len, uint32_t most,
                       uint32_t *counts, size_t counts_len);

/* Writes the report of `faultsim run` on the job, and the number of its bytes in `wanted`; no 0
 * follows it. `lines` chooses which faults have a line; with `classes` a last line has the
 * coverage of the classes. If the text has less room, the status is FS_RANGE, and `wanted` is the
 * room that the report needs. Each call simulates all classes. */
uint32_t fs_report(fs_job *job, uint32_t lines, bool classes, uint8_t *text, size_t text_len,
                   size_t *wanted);

/* All in one call, without a handle: writes the first test of a text that detects each fault of a
 * circuit, or FS_NONE, and the number of faults in `faults`. If firsts_len is another number, the
 * status is FS_RANGE, and `faults` is written nevertheless. If the model is out of range, and on
 * FS_MEMORY and FS_REFUSED, `faults` is as it was. */
uint32_t fs_firsts(uint32_t model, const uint8_t *bench, size_t bench_len, const uint8_t *text,
                   size_t text_len, uint32_t *firsts, size_t firsts_len, uint32_t *faults,
                   fs_fault *fault);

#ifdef __cplusplus
}
#endif

#endif
