/* refuse.h: what a library with refuse.c has beside the calls of faultsim.h. */
#ifndef REFUSE_H
#define REFUSE_H

#include <stdbool.h>

#ifdef __cplusplus
extern "C" {
#endif

/* Refuses each allocation of the library from now on, or none. */
void refuse_allocations(bool are_refused);

#ifdef __cplusplus
}
#endif

#endif
