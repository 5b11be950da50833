#include "fields.h"

#include <stdio.h>
#include <stdlib.h>
#include <string.h>

void cut(char *line, char *fields[FIELDS]) {
    line[strcspn(line, "\n")] = '\0';
    for (int i = 0; i < FIELDS; i++) {
        fields[i] = line;
        line += strcspn(line, " ");
        if (*line == ' ') {
            *line++ = '\0';
        }
    }
}

/* Ends the run: a list that is not the oracle's. */
static void unreadable(const char *field) {
    fprintf(stderr, "fields: not as the oracle writes it: %.40s\n", field);
    exit(2);
}

/* The number that so many digits at a place spell. */
static uint32_t digits(const char *at, size_t count) {
    uint32_t value = 0;
    for (size_t i = 0; i < count; i++) {
        char digit = at[i];
        if (digit >= '0' && digit <= '9') {
            value = 16 * value + (uint32_t)(digit - '0');
        } else if (digit >= 'A' && digit <= 'F') {
            value = 16 * value + (uint32_t)(digit - 'A' + 10);
        } else {
            unreadable(at);
        }
    }
    return value;
}

uint32_t number(const char *field) {
    size_t count = strlen(field);
    if (count == 0 || count > 8) {
        unreadable(field);
    }
    return digits(field, count);
}

/* How many numbers of so many digits a field spells. */
static size_t many(const char *field, size_t each, size_t most) {
    size_t count = strcmp(field, "-") == 0 ? 0 : strlen(field) / each;
    if (count > most) {
        unreadable(field);
    }
    return count;
}

size_t bytes(const char *field, uint8_t *to, size_t most) {
    size_t count = many(field, 2, most);
    for (size_t i = 0; i < count; i++) {
        to[i] = (uint8_t)digits(field + 2 * i, 2);
    }
    return count;
}

size_t halves(const char *field, uint16_t *to, size_t most) {
    size_t count = many(field, 4, most);
    for (size_t i = 0; i < count; i++) {
        to[i] = (uint16_t)digits(field + 4 * i, 4);
    }
    return count;
}

uint32_t answer(const char *field) { return *field == '!' ? number(field + 1) << 16 : number(field); }
