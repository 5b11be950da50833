#include "layout.h"

#include <string.h>

/* Where the header's numbers stand, and the number of this layout. */
enum { COUNT = 0, USED = 2, SYSTEM = 6, KEY = 8, FLAGS = 12, LAYOUT = 22, NUMBER = 2 };

/* Where the columns begin. */
enum { KIND = 32, CODE = 160, START = 288, BLOCKS = 416, VERSION = 544, GENERATION = 800, UPPER = 864, LOWER = 1120 };

enum { AREA = 0, SERVICE = 1, LIMITED = 2 };

/* So many bytes as a number, low byte first. */
static uint32_t get(const uint8_t *at, unsigned many) {
    uint32_t value = 0;
    while (many-- > 0) {
        value = value << 8 | at[many];
    }
    return value;
}

static void put(uint8_t *at, unsigned many, uint32_t value) {
    for (unsigned i = 0; i < many; i++) {
        at[i] = (uint8_t)(value >> 8 * i);
    }
}

/* The first record that is not taken, which is taken by this, with what all records have. */
static uint32_t next(uint8_t *card, uint8_t kind, uint32_t depth, uint16_t code, uint16_t version) {
    uint32_t own = get(card + COUNT, 2);
    put(card + COUNT, 2, own + 1);
    card[KIND + 2 * own] = kind;
    card[KIND + 2 * own + 1] = (uint8_t)depth;
    put(card + CODE + 2 * own, 2, code);
    put(card + VERSION + 2 * own, 2, version);
    return own;
}

void layout_new(uint8_t card[LAYOUT_SIZE], uint16_t system, uint16_t version, uint32_t join) {
    memset(card, 0, LAYOUT_SIZE);
    put(card + SYSTEM, 2, system);
    put(card + KEY, 2, version);
    put(card + FLAGS, 2, join);
    put(card + LAYOUT, 2, NUMBER);
    layout_area(card, 0, 0x0000, 0xfffe, 0);
}

void layout_area(uint8_t card[LAYOUT_SIZE], uint32_t depth, uint16_t code, uint16_t end, uint16_t version) {
    put(card + START + 2 * next(card, AREA, depth, code, version), 2, end);
}

void layout_service(uint8_t card[LAYOUT_SIZE], uint32_t depth, uint16_t code, uint16_t version, uint32_t used) {
    uint32_t before = get(card + USED, 2), count = get(card + COUNT, 2);
    uint32_t start = before, blocks = used - before;
    for (uint32_t i = 0; i < count; i++) {
        if (card[KIND + 2 * i] != AREA && get(card + CODE + 2 * i, 2) / 64 == code / 64u) {
            start = get(card + START + 2 * i, 2);
            blocks = get(card + BLOCKS + 2 * i, 2);
            break;
        }
    }
    uint32_t own = next(card, SERVICE, depth, code, version);
    put(card + START + 2 * own, 2, start);
    put(card + BLOCKS + 2 * own, 2, blocks);
    put(card + USED, 2, used);
}

void layout_limit(uint8_t card[LAYOUT_SIZE], uint32_t upper, uint32_t lower, uint8_t generation) {
    uint32_t own = get(card + COUNT, 2) - 1;
    card[KIND + 2 * own] = LIMITED;
    card[GENERATION + own] = generation;
    put(card + UPPER + 4 * own, 4, upper);
    put(card + LOWER + 4 * own, 4, lower);
}

/* Whether a place lies in a field of so many bytes for each record, of a column of this kind or above. */
static bool in_column(const uint8_t *card, unsigned place, unsigned begin, unsigned many, uint8_t kind) {
    if (place < begin || place >= begin + 64 * many) {
        return false;
    }
    uint32_t own = (place - begin) / many;
    return own < get(card + COUNT, 2) && card[KIND + 2 * own] >= kind;
}

bool layout_used(const uint8_t card[LAYOUT_SIZE], unsigned place) {
    static const unsigned header[] = {COUNT, USED, SYSTEM, KEY, FLAGS, LAYOUT};
    for (unsigned i = 0; i < sizeof header / sizeof *header; i++) {
        if (place - header[i] < 2) {
            return true;
        }
    }
    return in_column(card, place, KIND, 2, AREA) || in_column(card, place, CODE, 2, AREA) ||
           in_column(card, place, START, 2, AREA) || in_column(card, place, BLOCKS, 2, SERVICE) ||
           in_column(card, place, VERSION, 2, AREA) || in_column(card, place, GENERATION, 1, LIMITED) ||
           in_column(card, place, UPPER, 4, LIMITED) || in_column(card, place, LOWER, 4, LIMITED);
}
