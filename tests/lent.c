#define _DEFAULT_SOURCE
#include "lent.h"

#include <stdio.h>
#include <stdlib.h>
#include <string.h>
#include <sys/mman.h>
#include <unistd.h>

/* No part is longer than this many bytes. */
enum { MOST = 160 * 1024 };

static struct {
    uint8_t *pages;    /* of MOST bytes, between two pages that may not be touched */
    uint8_t *own;      /* what is lent, NULL for nothing */
    void *home;        /* where it goes back to, NULL where it is only read */
    uint8_t *kept;     /* what it has to be still, if it is allocated and only read; else NULL */
    size_t length;
} parts[PARTS];

static enum how by = HEAP;

static void must(bool holds, const char *what) {
    if (!holds) {
        perror(what);
        exit(2);
    }
}

void lend_by(enum how how) {
    size_t page = (size_t)sysconf(_SC_PAGESIZE);
    by = how;
    for (int i = 0; i < PARTS && how != HEAP; i++) {
        uint8_t *all = mmap(NULL, MOST + 2 * page, PROT_NONE, MAP_PRIVATE | MAP_ANONYMOUS, -1, 0);
        must(all != MAP_FAILED, "mmap");
        parts[i].pages = all + page;
        must(mprotect(parts[i].pages, MOST, PROT_READ | PROT_WRITE) == 0, "mprotect");
    }
}

/* Memory of this length for a part. */
static uint8_t *room_for(enum part part, size_t length) {
    if (by == HEAP) {
        uint8_t *own = malloc(length);
        must(own != NULL, "malloc");
        return own;
    }
    must(length <= MOST, "a part is too long");
    return by == BEFORE ? parts[part].pages + (MOST - length) : parts[part].pages;
}

/* Has the pages of a part only read, or written too. */
static void protect(enum part part, int how) {
    if (by != HEAP && parts[part].length != 0) {
        uintptr_t page = (uintptr_t)sysconf(_SC_PAGESIZE);
        size_t over = (size_t)((uintptr_t)parts[part].own % page);
        must(mprotect(parts[part].own - over, parts[part].length + over, how) == 0, "mprotect");
    }
}

static uint8_t *lend_part(enum part part, const void *bytes, void *home, size_t length) {
    must(parts[part].own == NULL, "a part is lent twice");
    parts[part].own = room_for(part, length);
    parts[part].home = home;
    parts[part].length = length;
    if (length != 0) {
        memcpy(parts[part].own, bytes, length);
    }
    return parts[part].own;
}

const void *lend(enum part part, const void *bytes, size_t length) {
    const uint8_t *own = lend_part(part, bytes, NULL, length);
    if (by == HEAP) {
        parts[part].kept = room_for(part, length);
        memcpy(parts[part].kept, own, length);
    }
    protect(part, PROT_READ);
    return own;
}

void *lend_writable(enum part part, void *bytes, size_t length) { return lend_part(part, bytes, bytes, length); }

void take_back(void) {
    for (int i = 0; i < PARTS; i++) {
        if (parts[i].own == NULL) {
            continue;
        }
        if (parts[i].home == NULL) {
            protect((enum part)i, PROT_READ | PROT_WRITE);
        } else if (parts[i].length != 0) {
            memcpy(parts[i].home, parts[i].own, parts[i].length);
        }
        if (by == HEAP) {
            const uint8_t *kept = parts[i].kept;
            must(kept == NULL || memcmp(kept, parts[i].own, parts[i].length) == 0, "a part that is only read was written");
            free(parts[i].kept);
            free(parts[i].own);
            parts[i].kept = NULL;
        }
        parts[i].own = NULL;
    }
}
