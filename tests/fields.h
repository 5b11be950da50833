/* The fields of a line of the oracle's lists (oracle/README.md): parted by one space, capital hex. */
#ifndef FIELDS_H
#define FIELDS_H

#include <stddef.h>
#include <stdint.h>

enum { FIELDS = 10 };

/* Cuts a line into its fields, in place; those that it lacks are empty. */
void cut(char *line, char *fields[FIELDS]);

/* The number that a field spells. */
uint32_t number(const char *field);

/* The bytes that a field spells, two digits each, `-` for none; their number. */
size_t bytes(const char *field, uint8_t *to, size_t most);

/* The 16-bit numbers that a field spells, four digits each. */
size_t halves(const char *field, uint16_t *to, size_t most);

/* The answer that a field spells, as the library gives it: `!` and a refusal, or a status pair. */
uint32_t answer(const char *field);

#endif
