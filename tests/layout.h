/* The bytes of a card, worked out from docs/RULES.md and from nothing of the library: what they are after calls that were
 * accepted. */
#ifndef LAYOUT_H
#define LAYOUT_H

#include <stdbool.h>
#include <stdint.h>

enum { LAYOUT_SIZE = 1376 };

/* A card with nothing but its root. */
void layout_new(uint8_t card[LAYOUT_SIZE], uint16_t system, uint16_t version, uint32_t join);

/* An area more. */
void layout_area(uint8_t card[LAYOUT_SIZE], uint32_t depth, uint16_t code, uint16_t end, uint16_t version);

/* A service more: of the store of the first service of its number, or of a new one that ends with the blocks in use. */
void layout_service(uint8_t card[LAYOUT_SIZE], uint32_t depth, uint16_t code, uint16_t version, uint32_t used);

/* A limit for the node added last. */
void layout_limit(uint8_t card[LAYOUT_SIZE], uint32_t upper, uint32_t lower, uint8_t generation);

/* Whether a place of a card's bytes is part of it: in the header, or in a field of a record taken that its kind has. */
bool layout_used(const uint8_t card[LAYOUT_SIZE], unsigned place);

#endif
