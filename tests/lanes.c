#include "lanes.h"

#include <assert.h>
#include <stddef.h>
#include <string.h>

#include "uluvoli.h"

/* A lane is sixteen bytes to C too, each part where the record has it. */
static_assert(sizeof(uluvoli_lane) == ULUVOLI_BLOCK_SIZE && offsetof(uluvoli_lane, filled) == 0 &&
                  offsetof(uluvoli_lane, length) == 1 && offsetof(uluvoli_lane, race) == 2 &&
                  offsetof(uluvoli_lane, crew) == 4 && sizeof((uluvoli_lane){0}.crew) == 12,
              "a lane is its record");

bool lanes_agree(const uint8_t *written, const uint8_t *records) {
    uluvoli_lane lanes[ULUVOLI_LANES];
    memcpy(lanes, written, sizeof lanes);
    for (int i = 0; i < ULUVOLI_LANES; i++, records += sizeof *lanes) {
        const uluvoli_lane *lane = &lanes[i];
        if (lane->filled != records[0] || lane->length != records[1] || lane->race != records[2] + 256u * records[3] ||
            memcmp(lane->crew, records + 4, sizeof lane->crew) != 0) {
            return false;
        }
    }
    return true;
}
