/* Runs the calls of bindings/cases.txt, and compares their results.
 *
 * usage: cases FILE
 *
 * Link with a library that has refuse.c. Prints each call that has another result, and then how
 * many calls there were. Returns 0 if there were some, and all had their results. */
#include "faultsim.h"
#include "refuse.h"

#include <inttypes.h>
#include <stdarg.h>
#include <stdio.h>
#include <stdlib.h>
#include <string.h>

enum { TEXTS = 17, WORDS = 128, ROOM = 1 << 14, HANDLES = 128 };

struct text {
    char name[32], bytes[ROOM];
    size_t len;
};

static struct text texts[TEXTS];
static fs_job jobs[HANDLES];
/* The call: its words and how many there are; its result as text. */
static char *words[WORDS];
static size_t count;
static char said[ROOM];

static void end(const char *why, const char *what) {
    fprintf(stderr, "cases: %s: %s\n", why, what);
    exit(1);
}

static void say(const char *form, ...) {
    size_t at = strlen(said);
    va_list items;
    va_start(items, form);
    if (vsnprintf(said + at, sizeof said - at, form, items) >= (int)(sizeof said - at))
        end("a result is too long", said);
    va_end(items);
}

static const struct text *text_of(const char *name) {
    for (size_t i = 0; i < TEXTS; i++)
        if (!strcmp(texts[i].name, name))
            return &texts[i];
    end("no text", name);
    return NULL;
}

static const uint8_t *bytes(const struct text *text) { return (const uint8_t *)text->bytes; }

static uint32_t number(size_t at) { return (uint32_t)strtoul(words[at], NULL, 10); }

static uint32_t model_of(const char *name) {
    static const char *const names[] = {"stuck", "transition", "transition-pairs"};
    for (uint32_t i = 0; i < 3; i++)
        if (!strcmp(names[i], name))
            return i;
    end("no model", name);
    return 0;
}

/* The sizes of a job, or zeros. */
static fs_sizes sizes_of(fs_job *job) {
    fs_sizes n = {0};
    fs_sizes_of(job, &n);
    return n;
}

/* The tests of a block as bits. */
static uint64_t lanes_of(const fs_sizes *n, uint32_t block) {
    uint32_t left = n->tests > 64 * block ? n->tests - 64 * block : 0;
    return left >= 64 ? UINT64_MAX : ((uint64_t)1 << left) - 1;
}

/* The numbers from a word on, or all below a count. */
static size_t numbers_at(size_t at, uint32_t all, uint32_t *numbers) {
    if (at < count && !strcmp(words[at], "all")) {
        for (uint32_t i = 0; i < all; i++)
            numbers[i] = i;
        return all;
    }
    size_t listed = 0;
    while (at < count)
        numbers[listed++] = number(at++);
    return listed;
}

static void say_numbers(const uint32_t *numbers, size_t of) {
    for (size_t i = 0; i < of; i++)
        say(i ? " %" PRIu32 : "%" PRIu32, numbers[i]);
}

static void say_tests(const uint32_t *firsts, size_t of) {
    for (size_t i = 0; i < of; i++)
        if (firsts[i] == FS_NONE)
            say(i ? " -" : "-");
        else
            say(i ? " %" PRIu32 : "%" PRIu32, firsts[i]);
}

/* A text of a call, with / for the end of a line. */
static void say_text(const uint8_t *text, size_t len) {
    for (size_t i = 0; i < len; i++)
        say("%c", text[i] == '\n' ? '/' : text[i]);
}

static uint32_t read_it(fs_job *job, fs_fault *fault) {
    const struct text *bench = text_of(words[3]);
    return fs_job_read(model_of(words[2]), bytes(bench), bench->len, job, fault);
}

static uint32_t share_it(fs_job *job, fs_fault *fault) {
    (void)fault;
    return fs_job_share(&jobs[(size_t)words[2][0]], job);
}

static uint32_t free_it(fs_job *job, fs_fault *fault) {
    (void)fault;
    fs_job_free(job);
    return FS_DONE;
}

static uint32_t say_sizes(fs_job *job, fs_fault *fault) {
    (void)fault;
    fs_sizes n;
    uint32_t status = fs_sizes_of(job, &n);
    uint32_t all[] = {n.sources, n.signals, n.faults, n.classes, n.tests, n.blocks};
    if (!status)
        say_numbers(all, 6);
    return status;
}

static uint32_t set_text(fs_job *job, fs_fault *fault) {
    const struct text *tests = text_of(words[2]);
    return fs_set_text(job, bytes(tests), tests->len, fault);
}

static size_t words_at(size_t at, uint64_t *of) {
    size_t listed = 0;
    while (at < count)
        of[listed++] = strtoull(words[at++], NULL, 16);
    return listed;
}

static uint32_t set_words(fs_job *job, fs_fault *fault) {
    uint64_t given[WORDS];
    size_t len = words_at(3, given);
    return fs_set_words(job, number(2), given, len, fault);
}

static uint32_t next_words(fs_job *job, fs_fault *fault) {
    uint64_t given[WORDS];
    size_t len = words_at(3, given);
    return fs_next_words(job, number(2), given, len, fault);
}

/* The rows of a text as words. */
static uint32_t set_rows(fs_job *job, fs_fault *fault) {
    const struct text *tests = text_of(words[2]);
    uint32_t sources = sizes_of(job).sources;
    uint32_t rows = (uint32_t)(tests->len / (sources + 1));
    uint64_t given[WORDS] = {0};
    for (uint32_t row = 0; row < rows; row++)
        for (uint32_t source = 0; source < sources; source++)
            if (tests->bytes[row * (sources + 1) + source] == '1')
                given[row / 64 * sources + source] |= (uint64_t)1 << row % 64;
    return fs_set_words(job, rows, given, (size_t)((rows + 63) / 64) * sources, fault);
}

static uint32_t say_classes_of(fs_job *job, fs_fault *fault) {
    (void)fault;
    uint32_t of[WORDS], faults = sizes_of(job).faults;
    uint32_t status = fs_classes_of(job, of, faults);
    say_numbers(of, status ? 0 : faults);
    return status;
}

static uint32_t say_stems_of(fs_job *job, fs_fault *fault) {
    (void)fault;
    uint32_t stems[WORDS], classes = sizes_of(job).classes;
    uint32_t status = fs_stems_of(job, stems, classes);
    say_numbers(stems, status ? 0 : classes);
    return status;
}

typedef uint32_t naming(fs_job *, uint32_t, uint8_t *, size_t, size_t *);

/* A name, whose length is asked for first. */
static uint32_t say_one(naming *call, fs_job *job, uint32_t of) {
    uint8_t text[ROOM];
    size_t wanted = 0;
    uint32_t status = call(job, of, text, 0, &wanted);
    if (status == FS_RANGE && wanted)
        status = call(job, of, text, wanted, &wanted);
    say_text(text, status ? 0 : wanted);
    return status;
}

static uint32_t say_name(fs_job *job, fs_fault *fault) {
    (void)fault;
    return say_one(fs_name_of, job, number(2));
}

static uint32_t say_fault_name(fs_job *job, fs_fault *fault) {
    (void)fault;
    return say_one(fs_fault_text, job, number(2));
}

static uint32_t say_names(fs_job *job, fs_fault *fault) {
    (void)fault;
    uint32_t status = FS_DONE;
    for (uint32_t i = 0; !status && i < sizes_of(job).signals; i++) {
        say(i ? " " : "");
        status = say_one(fs_name_of, job, i);
    }
    return status;
}

static uint32_t say_fault_names(fs_job *job, fs_fault *fault) {
    (void)fault;
    uint32_t status = FS_DONE;
    for (uint32_t i = 0; !status && i < sizes_of(job).faults; i++) {
        say(i ? ", " : "");
        status = say_one(fs_fault_text, job, i);
    }
    return status;
}

/* The names of the sources, in the order of a test's bits. */
static uint32_t say_sources(fs_job *job, fs_fault *fault) {
    (void)fault;
    fs_sizes n = sizes_of(job);
    uint32_t signals[WORDS], place, status = FS_DONE;
    for (uint32_t i = 0; i < n.signals; i++)
        if (!fs_source_of(job, i, &place))
            signals[place] = i;
    for (uint32_t i = 0; !status && i < n.sources; i++) {
        say(i ? " " : "");
        status = say_one(fs_name_of, job, signals[i]);
    }
    return status;
}

static uint32_t say_word(fs_job *job, fs_fault *fault) {
    (void)fault;
    uint64_t word;
    fs_sizes n = sizes_of(job);
    uint32_t status = fs_word(job, number(2), number(3), &word);
    if (!status)
        say("%" PRIx64, word & lanes_of(&n, number(2)));
    return status;
}

static uint32_t say_signal(fs_job *job, fs_fault *fault) {
    (void)fault;
    uint32_t signal = 0;
    const uint8_t *name = (const uint8_t *)words[2];
    uint32_t status = fs_signal_named(job, name, strlen(words[2]), &signal);
    if (status == FS_RANGE)
        say("-");
    else if (!status)
        say("%" PRIu32, signal);
    return status == FS_RANGE ? FS_DONE : status;
}

static uint32_t say_kinds(fs_job *job, fs_fault *fault) {
    (void)fault;
    uint32_t kinds[WORDS], signals = sizes_of(job).signals;
    uint32_t status = fs_kinds_of(job, kinds, signals);
    say_numbers(kinds, status ? 0 : signals);
    return status;
}

static uint32_t say_levels(fs_job *job, fs_fault *fault) {
    (void)fault;
    uint32_t levels[WORDS], signals = sizes_of(job).signals;
    uint32_t status = fs_levels_of(job, levels, signals);
    say_numbers(levels, status ? 0 : signals);
    return status;
}

static uint32_t say_fan_ins(fs_job *job, fs_fault *fault) {
    (void)fault;
    uint32_t starts[WORDS], pins[WORDS], signals = sizes_of(job).signals;
    size_t wanted = 0;
    uint32_t status = fs_fan_ins_of(job, starts, signals, pins, 0, &wanted);
    if (status != FS_RANGE)
        end("starts of a wrong length are taken", words[0]);
    status = fs_fan_ins_of(job, starts, signals + 1, pins, wanted, &wanted);
    if (!status) {
        say_numbers(starts, signals + 1);
        say(", ");
        say_numbers(pins, wanted);
    }
    return status;
}

static uint32_t say_fan_outs(fs_job *job, fs_fault *fault) {
    (void)fault;
    uint32_t starts[WORDS], signals = sizes_of(job).signals;
    fs_pin pins[WORDS];
    size_t wanted = 0;
    uint32_t status = fs_fan_outs_of(job, starts, signals, pins, 0, &wanted);
    if (status != FS_RANGE)
        end("starts of a wrong length are taken", words[0]);
    status = fs_fan_outs_of(job, starts, signals + 1, pins, wanted, &wanted);
    say_numbers(starts, status ? 0 : signals + 1);
    for (size_t i = 0; !status && i < wanted; i++)
        say(", %" PRIu32 " %" PRIu32, pins[i].gate, pins[i].pin);
    return status;
}

static uint32_t say_sites(fs_job *job, fs_fault *fault) {
    (void)fault;
    fs_site sites[WORDS];
    uint32_t faults = sizes_of(job).faults;
    uint32_t status = fs_sites_of(job, sites, faults);
    for (uint32_t i = 0; !status && i < faults; i++) {
        uint32_t all[] = {sites[i].kind, sites[i].at, sites[i].pin, sites[i].stuck};
        say(i ? ", " : "");
        say_numbers(all, 4);
    }
    return status;
}

static uint32_t say_fault_at(fs_job *job, fs_fault *fault) {
    (void)fault;
    fs_site site = {number(2), number(3), number(4), number(5)};
    uint32_t at = 0;
    uint32_t status = fs_fault_at(job, &site, &at);
    if (status == FS_RANGE)
        say("-");
    else if (!status)
        say("%" PRIu32, at);
    return status == FS_RANGE ? FS_DONE : status;
}

static uint32_t say_values(fs_job *job, fs_fault *fault) {
    (void)fault;
    uint64_t all[WORDS];
    fs_sizes n = sizes_of(job);
    uint32_t status = fs_values(job, number(2), all, n.signals);
    for (uint32_t i = 0; !status && i < n.signals; i++)
        say(i ? " %" PRIx64 : "%" PRIx64, all[i] & lanes_of(&n, number(2)));
    return status;
}

static uint32_t say_observers(fs_job *job, fs_fault *fault) {
    (void)fault;
    uint32_t signals[WORDS];
    size_t wanted = 0;
    uint32_t status = fs_observers_of(job, signals, WORDS, &wanted);
    say_numbers(signals, status ? 0 : wanted);
    return status;
}

static uint32_t say_responses(fs_job *job, fs_fault *fault) {
    (void)fault;
    uint32_t signals[WORDS];
    uint64_t all[WORDS];
    size_t observers = 0;
    fs_sizes n = sizes_of(job);
    uint32_t status = fs_observers_of(job, signals, WORDS, &observers);
    if (!status)
        status = fs_responses(job, all, n.blocks * observers);
    for (uint32_t i = 0; !status && i < n.blocks * observers; i++)
        say(i ? " %" PRIx64 : "%" PRIx64, all[i] & lanes_of(&n, (uint32_t)(i / observers)));
    return status;
}

static uint32_t say_firsts(fs_job *job, fs_fault *fault) {
    (void)fault;
    uint32_t classes[WORDS], firsts[WORDS];
    size_t of = numbers_at(2, sizes_of(job).classes, classes);
    uint32_t status = fs_simulate(job, classes, of, firsts, of);
    say_tests(firsts, status ? 0 : of);
    return status;
}

static uint32_t say_lanes(fs_job *job, fs_fault *fault) {
    (void)fault;
    uint64_t lanes;
    uint32_t status = fs_detecting(job, number(2), number(3), &lanes);
    if (!status)
        say("%" PRIx64, lanes);
    return status;
}

/* The words of the signals or classes of a list, by fs_observed or fs_lanes. */
static uint32_t say_words(fs_job *job, const uint32_t *list, size_t of, bool are_signals) {
    uint64_t lanes[WORDS];
    uint32_t status = are_signals ? fs_observed(job, number(2), list, of, lanes, of)
                                  : fs_lanes(job, number(2), list, of, lanes, of);
    for (size_t i = 0; !status && i < of; i++)
        say(i ? " %" PRIx64 : "%" PRIx64, lanes[i]);
    return status;
}

static uint32_t say_observed(fs_job *job, fs_fault *fault) {
    (void)fault;
    uint32_t signals[WORDS];
    size_t of = numbers_at(3, sizes_of(job).signals, signals);
    return say_words(job, signals, of, true);
}

static uint32_t say_class_lanes(fs_job *job, fs_fault *fault) {
    (void)fault;
    uint32_t classes[WORDS];
    size_t of = numbers_at(3, sizes_of(job).classes, classes);
    return say_words(job, classes, of, false);
}

/* Counts from the same count for each class. */
static uint32_t say_added(fs_job *job, fs_fault *fault) {
    (void)fault;
    uint32_t classes[WORDS], counts[WORDS];
    size_t of = numbers_at(5, sizes_of(job).classes, classes);
    for (size_t i = 0; i < of; i++)
        counts[i] = number(4);
    uint32_t status = fs_count(job, number(2), classes, of, number(3), counts, of);
    say_numbers(counts, status ? 0 : of);
    return status;
}

static uint32_t say_counts(fs_job *job, fs_fault *fault) {
    (void)fault;
    uint32_t classes[WORDS], counts[WORDS];
    size_t of = numbers_at(3, sizes_of(job).classes, classes);
    uint32_t status = fs_detections(job, classes, of, number(2), counts, of);
    say_numbers(counts, status ? 0 : of);
    return status;
}

static uint32_t say_report(fs_job *job, fs_fault *fault) {
    (void)fault;
    static const char *const names[] = {"none", "all", "undetected"};
    uint8_t text[ROOM];
    size_t wanted = 0;
    uint32_t lines = 0;
    while (lines < 3 && strcmp(names[lines], words[2]))
        lines++;
    uint32_t status = fs_report(job, lines, !strcmp(words[3], "true"), text, ROOM, &wanted);
    say_text(text, status ? 0 : wanted);
    return status;
}

static uint32_t say_coverage(fs_job *job, fs_fault *fault) {
    (void)fault;
    uint32_t classes[WORDS], firsts[WORDS], of[WORDS], found = 0;
    fs_sizes n = sizes_of(job);
    for (uint32_t i = 0; i < n.classes; i++)
        classes[i] = i;
    uint32_t status = fs_simulate(job, classes, n.classes, firsts, n.classes);
    if (!status)
        status = fs_classes_of(job, of, n.faults);
    for (uint32_t i = 0; !status && i < n.faults; i++)
        found += firsts[of[i]] != FS_NONE;
    if (!status)
        say("%" PRIu32 " of %" PRIu32, found, n.faults);
    return status;
}

static uint32_t say_in_one(fs_job *job, fs_fault *fault) {
    (void)job;
    const struct text *bench = text_of(words[3]), *tests = text_of(words[4]);
    uint32_t firsts[WORDS], faults = 0, model = model_of(words[2]), status = FS_RANGE;
    size_t room = 0;
    for (int turn = 0; status == FS_RANGE && turn < 2; turn++, room = faults)
        status = fs_firsts(model, bytes(bench), bench->len, bytes(tests), tests->len, firsts, room,
                           &faults, fault);
    say_tests(firsts, status ? 0 : faults);
    return status;
}

static uint32_t say_version(fs_job *job, fs_fault *fault) {
    (void)job, (void)fault;
    say("%" PRIu32, fs_version());
    return FS_DONE;
}

/* What is wrong, in words. */
static uint32_t say_error(fs_job *job, fs_fault *fault) {
    (void)job;
    *fault = (fs_fault){.kind = number(2), .place = number(3)};
    char text[80], least[1];
    size_t wanted = fs_message(FS_REFUSED, fault, text, sizeof text);
    if (fs_message(FS_REFUSED, fault, least, 1) != wanted || least[0] || wanted != strlen(text))
        end("a message has another length", text);
    say("%s", text);
    return FS_DONE;
}

/* What a status says, in words. */
static uint32_t say_status_text(fs_job *job, fs_fault *fault) {
    (void)job, (void)fault;
    char text[80];
    fs_message(number(2), NULL, text, sizeof text);
    say("%s", text);
    return FS_DONE;
}

typedef uint32_t calling(fs_job *, fs_fault *);

static const struct {
    const char *name;
    calling *call;
} calls[] = {
    {"read", read_it}, {"share", share_it}, {"free", free_it}, {"sizes", say_sizes},
    {"set_text", set_text}, {"set_words", set_words}, {"next_words", next_words},
    {"set_rows", set_rows}, {"classes_of", say_classes_of}, {"stems_of", say_stems_of},
    {"name_of", say_name}, {"names", say_names}, {"sources", say_sources},
    {"fault_name", say_fault_name}, {"fault_names", say_fault_names}, {"word", say_word},
    {"signal_named", say_signal}, {"kinds_of", say_kinds}, {"levels_of", say_levels},
    {"fan_ins_of", say_fan_ins}, {"fan_outs_of", say_fan_outs}, {"sites_of", say_sites},
    {"fault_at", say_fault_at}, {"values", say_values}, {"observers", say_observers},
    {"responses", say_responses}, {"simulate", say_firsts}, {"observed", say_observed},
    {"lanes", say_class_lanes}, {"count", say_added},
    {"detecting", say_lanes}, {"detections", say_counts}, {"report", say_report},
    {"coverage", say_coverage}, {"firsts", say_in_one}, {"version", say_version},
    {"error", say_error}, {"status", say_status_text},
};

static calling *call_of(const char *name) {
    for (size_t i = 0; i < sizeof calls / sizeof *calls; i++)
        if (!strcmp(calls[i].name, name))
            return calls[i].call;
    end("no call", name);
    return NULL;
}

static void say_status(uint32_t status, const fs_fault *fault) {
    if (status == FS_REFUSED)
        say("refused %" PRIu32 " %" PRIu64, fault->kind, fault->place);
    else if (status != FS_DONE)
        say(status == FS_MEMORY ? "memory" : status == FS_RANGE ? "range"
            : status == FS_SHARED ? "shared" : "no job");
}

/* Cuts a line into its words, in place. */
static void cut(char *line) {
    count = 0;
    for (char *word = strtok(line, " "); word; word = strtok(NULL, " ")) {
        if (count == WORDS)
            end("too many words", word);
        words[count++] = word;
    }
}

/* Runs the call of a line. Returns whether it has its result. */
static int comes_out(const char *line) {
    char call[ROOM], *wanted = "";
    strcpy(call, line);
    char *mark = strstr(call, " =");
    if (mark) {
        wanted = mark + 2 + (mark[2] == ' ');
        *mark = 0;
    }
    int is_refused = !strncmp(call, "refused ", 8);
    cut(call + 8 * is_refused);
    fs_fault fault = {0};
    calling *it = call_of(words[1]);
    said[0] = 0;
    refuse_allocations(is_refused);
    uint32_t status = it(&jobs[(size_t)words[0][0]], &fault);
    refuse_allocations(false);
    say_status(status, &fault);
    if (!strcmp(said, wanted))
        return 1;
    printf("FAILED %s\n    is %s\n", line, said);
    return 0;
}

static void free_all(void) {
    for (size_t i = 0; i < HANDLES; i++)
        fs_job_free(&jobs[i]);
}

/* A new text of a name. */
static struct text *new_text(const char *name) {
    for (size_t i = 0; i < TEXTS; i++)
        if (!texts[i].name[0]) {
            if (snprintf(texts[i].name, sizeof texts[i].name, "%s", name) >= 32)
                end("a name is too long", name);
            return &texts[i];
        }
    end("too many texts", name);
    return NULL;
}

static void add_line(struct text *text, const char *line) {
    size_t len = strlen(line);
    if (text->len + len + 1 > ROOM)
        end("a text is too long", text->name);
    memcpy(text->bytes + text->len, line, len);
    text->bytes[text->len + len] = '\n';
    text->len += len + 1;
}

int main(int argc, char **argv) {
    FILE *file = argc == 2 ? fopen(argv[1], "r") : NULL;
    if (!file)
        end("usage", "cases FILE");
    struct text *text = NULL;
    unsigned run = 0, failed = 0;
    for (char line[ROOM]; fgets(line, ROOM, file);) {
        line[strcspn(line, "\n")] = 0;
        if (!line[0] || line[0] == '#')
            continue;
        if (!strncmp(line, "-- ", 3)) {
            text = new_text(line + 3);
        } else if (!strncmp(line, "== ", 3)) {
            text = NULL;
            free_all();
        } else if (text) {
            add_line(text, line);
        } else {
            run++;
            failed += !comes_out(line);
        }
    }
    free_all();
    fclose(file);
    printf("%u calls, %u failed\n", run, failed);
    return !run || failed;
}
