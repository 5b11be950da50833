/* What the lines of a list are put to: a card and its arena, what a call is sent, what it writes and should have written; and
 * the count of what was compared. */
#ifndef HELD_H
#define HELD_H

#include <stdbool.h>
#include <stddef.h>
#include <stdint.h>

#include "layout.h"
#include "uluvoli.h"

enum { ARENA_SIZE = 70000, ROOM_SIZE = 140000, CODES_MOST = 1024, LIST_SIZE = 4096, DATA_SIZE = 16384, MARK = 0xa5 };

/* A number whose bytes are all the mark: what a call answers through a pointer holds it before. */
static const size_t MARKED = SIZE_MAX / 255 * MARK;

/* The bytes that a flag holds before: no, yes, and one that is neither. */
static const uint8_t flag_bytes[] = {0, 1, MARK};

/* Refusal 8, as a call returns it. */
enum { UNBUILT = ULUVOLI_NOT_BUILT << 16 };

/* The card as calls left it and as it should be, the arena as it should be, and how much of it is lent. */
extern uint8_t card[ULUVOLI_CARD_SIZE];
extern uint8_t card_wanted[LAYOUT_SIZE];
extern uint8_t arena[ARENA_SIZE];
extern size_t arena_len;

/* What a call is sent. */
extern uint16_t codes[CODES_MOST];
extern uint8_t list[LIST_SIZE];
extern uint8_t data[DATA_SIZE];

/* What a call wrote, and what it should have written. */
extern uint8_t arena_after[ARENA_SIZE];
extern uint8_t room[ROOM_SIZE];
extern uint8_t room_wanted[ROOM_SIZE];
extern size_t room_len;

/* The place of the line, for what is printed; how many lines there were, comparisons, and differences. */
extern char place[4096];
extern unsigned long lines, calls, wrong;

/* Counts a call, and says where it is not as it should be. */
void check(bool agrees, const char *what);

/* The card, to be read by a call. */
const uint8_t *lent_card(void);

/* The card with a count of records that none has, which every call refuses. */
const uint8_t *lent_unbuilt(void);

/* Changes one byte that is part of the card, another one from line to line, and changes it back. */
void spoil_card(void);
void mend_card(void);

/* Marks an output or a staging of this length, and what it should be. */
void mark_room(size_t length);

/* Whether it is afterwards as it should be. */
bool room_agrees(void);

/* The arena, to be written by a call. */
uint8_t *lent_arena(void);

/* Whether it is afterwards as it should be. */
bool arena_agrees(void);

#endif
