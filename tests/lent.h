/* Memory lent to a call of the library: of just the length that is said, so that a byte read or written beyond it is
 * caught. */
#ifndef LENT_H
#define LENT_H

#include <stdbool.h>
#include <stddef.h>
#include <stdint.h>

/* What catches it. */
enum how {
    HEAP,     /* each part is allocated: an address sanitizer or valgrind sees what lies beyond it */
    BEFORE,   /* each part ends where a page that may not be touched begins */
    BEHIND    /* each part begins where such a page ends */
};

/* The parts of a call. A part is lent once at a time. */
enum part { CARD, ARENA, ROOM, OTHER_ROOM, CODES, LIST, DATA, TOLD, OTHER_TOLD, FLAG, PARTS };

/* Says what catches it from now on. */
void lend_by(enum how how);

/* A copy of these bytes, for the call to read. That it is written to is caught too: by the pages at once, and where it is
 * allocated when it is taken back. */
const void *lend(enum part part, const void *bytes, size_t length);

/* A copy of these bytes, for the call to write. */
void *lend_writable(enum part part, void *bytes, size_t length);

/* Ends the lending of all parts. A part that was writable is copied back to the bytes it was made of. */
void take_back(void);

#endif
