/* Lets a test refuse the allocations of the library alone. contrib/test-bindings makes a library of
 * this and of libfaultsim.a, whose malloc and realloc are called these. */
#include "refuse.h"

#include <stdlib.h>

void *refusable_malloc(size_t size);
void *refusable_realloc(void *at, size_t size);

static bool refused;

void refuse_allocations(bool are_refused) { refused = are_refused; }

void *refusable_malloc(size_t size) { return refused ? NULL : malloc(size); }

void *refusable_realloc(void *at, size_t size) { return refused ? NULL : realloc(at, size); }
