/* The calls of faultsim.h that are written in C, and not proved: texts for people. */
#include "faultsim.h"

#include <inttypes.h>
#include <stdio.h>

/* contrib/build-library gives the release, with "(unproved)" behind it if nothing was proved. */
#ifndef FAULTSIM_RELEASE
#error "FAULTSIM_RELEASE is the text of fs_release"
#endif

const char *fs_release(void) { return FAULTSIM_RELEASE; }

/* What an fs_fault says, by its kind: before its place, and after it. */
static const struct {
    const char *before, *after;
} kinds[] = {
    {"unknown", NULL},
    {"bench: more bytes than the limit", NULL},
    {"bench: more signals than the limit", NULL},
    {"bench: more pins than the limit", NULL},
    {"bench line ", ": syntax"},
    {"bench line ", ": name defined before"},
    {"bench line ", ": name not defined"},
    {"bench line ", ": gate on a cycle, or fed by one"},
    {"bench: no line", NULL},
    {"tests line ", ": not 0 or 1"},
    {"tests line ", ": wrong width"},
    {"tests: more than 65,536 rows", NULL},
    {"words: more than 65,536 tests", NULL},
    {"words: wrong number of words", NULL},
    {"words: source ", " has a bit past the last test"},
};

static const char *const statuses[] = {
    "done",
    "the handle has no job",
    "memory ran out",
    "a text or words are wrong",
    "a number is out of range, or a length is not what it must be",
    "another handle shares the job",
};

size_t fs_message(uint32_t status, const fs_fault *fault, char *text, size_t size) {
    int len;
    if (status == FS_REFUSED && fault) {
        uint32_t kind = fault->kind < sizeof kinds / sizeof *kinds ? fault->kind : 0;
        const char *before = kinds[kind].before, *after = kinds[kind].after;
        len = after ? snprintf(text, size, "%s%" PRIu64 "%s", before, fault->place, after)
                    : snprintf(text, size, "%s", before);
    } else if (status < sizeof statuses / sizeof *statuses) {
        len = snprintf(text, size, "%s", statuses[status]);
    } else {
        len = snprintf(text, size, "unknown status %" PRIu32, status);
    }
    return len < 0 ? 0 : (size_t)len;
}
