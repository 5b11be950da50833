#include "held.h"

#include <stdio.h>
#include <stdlib.h>
#include <string.h>

#include "lent.h"

uint8_t card[ULUVOLI_CARD_SIZE];
uint8_t card_wanted[LAYOUT_SIZE];
uint8_t arena[ARENA_SIZE];
size_t arena_len;

uint16_t codes[CODES_MOST];
uint8_t list[LIST_SIZE];
uint8_t data[DATA_SIZE];

uint8_t arena_after[ARENA_SIZE];
uint8_t room[ROOM_SIZE];
uint8_t room_wanted[ROOM_SIZE];
size_t room_len;

char place[4096];
unsigned long lines, calls, wrong;

/* Which byte of the card is changed, and what it was. */
static size_t spoilt;
static uint8_t kept;

void check(bool agrees, const char *what) {
    calls++;
    if (!agrees) {
        wrong++;
        printf("%s: %s\n", place, what);
    }
}

const uint8_t *lent_card(void) { return lend(CARD, card, sizeof card); }

const uint8_t *lent_unbuilt(void) {
    uint8_t unbuilt[sizeof card];
    memcpy(unbuilt, card, sizeof card);
    unbuilt[1] = 0xff;
    return lend(CARD, unbuilt, sizeof unbuilt);
}

void spoil_card(void) {
    spoilt = (lines * 2654435761u >> 7) % sizeof card;
    while (!layout_used(card, (unsigned)spoilt)) {
        spoilt = (spoilt + 1) % sizeof card;
    }
    kept = card[spoilt];
    card[spoilt] = (uint8_t)(kept + 1 + lines % 255);
}

void mend_card(void) { card[spoilt] = kept; }

void mark_room(size_t length) {
    room_len = length;
    if (length > sizeof room) {
        fputs("answers: a room is too long\n", stderr);
        exit(2);
    }
    memset(room, MARK, length);
    memset(room_wanted, MARK, length);
}

bool room_agrees(void) { return memcmp(room, room_wanted, room_len) == 0; }

uint8_t *lent_arena(void) {
    memcpy(arena_after, arena, arena_len);
    return lend_writable(ARENA, arena_after, arena_len);
}

bool arena_agrees(void) { return memcmp(arena, arena_after, arena_len) == 0; }
