/* Calls that no caller should make: each must be refused, and change nothing. */
#ifndef BAD_H
#define BAD_H

#include "host.h"

/* Makes all of them at a mount, or at a handle that holds none: how many were not refused as they should be, each of
 * which it tells. */
unsigned bad_calls(refskold *mount);

/* Of jobs that a host has in its hands: answers that fit none of them. */
unsigned bad_answers(struct host *host);

/* The same of pointers that are NULL. */
unsigned null_pointers(refskold *mount);

#endif
