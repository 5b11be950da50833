/* flips: changes each byte of cards that the library built, and puts every call to the card before and after. A byte
 * that is no part of the card (layout_used) has to change no answer and nothing that a call writes; one that is has to
 * make the card refusal 8 or another card. It prints how many changes there were of each sort. */
#include <stdio.h>
#include <stdlib.h>
#include <string.h>

#include "layout.h"
#include "uluvoli.h"

enum { ARENA = 16 * 512, ELEMENTS = 12, OUTPUT = 16 * ELEMENTS, NODES = 63 };

static uint8_t card[ULUVOLI_CARD_SIZE], arena[ARENA];
static unsigned long refused, others, unused, wrong;

static void must(bool holds, const char *what) {
    if (!holds) {
        fprintf(stderr, "flips: %s\n", what);
        exit(2);
    }
}

/* ---- what every call answers and writes, as one number */

static uint64_t told;

static void tell(const void *bytes, size_t length) {
    const uint8_t *at = bytes;
    for (size_t i = 0; i < length; i++) {
        told = (told ^ at[i]) * 1099511628211u;
    }
}

/* A call's answer, and what it wrote if it is done. */
static void answered(uint32_t answer, const void *bytes, size_t length) {
    tell(&answer, sizeof answer);
    if (answer == 0) {
        tell(bytes, length);
    }
}

/* An addition to a copy: where it is accepted the card's bytes are written anew. */
static void additions(const uint8_t own[ULUVOLI_CARD_SIZE]) {
    uint8_t copy[ULUVOLI_CARD_SIZE], blocks[ARENA];
    memcpy(copy, own, sizeof copy);
    answered(uluvoli_add_area(copy, sizeof copy, 1, 0xfe00, 0xfe3f, 3), copy, sizeof copy);
    memcpy(copy, own, sizeof copy);
    memcpy(blocks, arena, sizeof blocks);
    answered(uluvoli_add_service(copy, sizeof copy, blocks, sizeof blocks, 1, 0xfd89, 1, 3), copy, sizeof copy);
    tell(blocks, sizeof blocks);
    memcpy(copy, own, sizeof copy);
    answered(uluvoli_set_limit(copy, sizeof copy, 7, -7, 1), copy, sizeof copy);
}

/* What is asked of one code. */
static void asked(const uint8_t own[ULUVOLI_CARD_SIZE], uint16_t code) {
    uint16_t number = 0, codes[1] = {code};
    size_t place = 0, length = 0;
    bool well = false;
    uint8_t list[3 * ELEMENTS], out[OUTPUT], message[ULUVOLI_INFORMATION_MOST], blocks[ARENA], staging[ARENA];
    uint8_t data[OUTPUT] = {1};
    uint32_t answer = uluvoli_total(own, ULUVOLI_CARD_SIZE, code, &number);
    answered(answer, &number, sizeof number);
    answer = uluvoli_key_version(own, ULUVOLI_CARD_SIZE, code, &number);
    answered(answer, &number, sizeof number);
    answer = uluvoli_area_list(own, ULUVOLI_CARD_SIZE, codes, 1, &well);
    answered(answer, &well, sizeof well);
    answer = uluvoli_service_list(own, ULUVOLI_CARD_SIZE, codes, 1, &well);
    answered(answer, &well, sizeof well);
    answer = uluvoli_stored_block(own, ULUVOLI_CARD_SIZE, arena, sizeof arena, code, 0, &place);
    answered(answer, &place, sizeof place);
    answer = uluvoli_code_list(own, ULUVOLI_CARD_SIZE, code, 0, message, sizeof message, &length);
    answered(answer, message, length);
    answer = uluvoli_block_information(own, ULUVOLI_CARD_SIZE, arena, sizeof arena, codes, 1, message, sizeof message,
                                       &length);
    answered(answer, message, length);
    memcpy(blocks, arena, sizeof blocks);
    answer = uluvoli_set_block(own, ULUVOLI_CARD_SIZE, blocks, sizeof blocks, code, 0, data, ULUVOLI_BLOCK_SIZE);
    answered(answer, blocks, sizeof blocks);
    for (unsigned i = 0; i < ELEMENTS; i++) {
        list[2 * i] = 0x80;
        list[2 * i + 1] = (uint8_t)(i / 2);
    }
    memset(out, 0, sizeof out);
    for (unsigned many = 1; many <= ELEMENTS; many += ELEMENTS - 1) {
        answer = uluvoli_read(own, ULUVOLI_CARD_SIZE, arena, sizeof arena, out, sizeof out, false, codes, 1, many, list,
                              2 * many);
        answered(answer, out, sizeof out);
    }
    memset(staging, 0, sizeof staging);
    memcpy(blocks, arena, sizeof blocks);
    answer = uluvoli_write(own, ULUVOLI_CARD_SIZE, blocks, sizeof blocks, staging, sizeof staging, false, codes, 1, 1,
                           list, 2, data, sizeof data);
    answered(answer, blocks, sizeof blocks);
    uint8_t lanes[ULUVOLI_LANES * sizeof(uluvoli_lane)] = {0};
    answered(uluvoli_board(own, ULUVOLI_CARD_SIZE, arena, sizeof arena, code, lanes, sizeof lanes), lanes, sizeof lanes);
}

/* All of it, with the codes that the card was built with. */
static uint64_t answers(const uint8_t own[ULUVOLI_CARD_SIZE], const uint16_t codes[], size_t many) {
    uint16_t pairs[ULUVOLI_DIRECTORY_MOST] = {0};
    size_t nodes = 0;
    told = 14695981039346656037u;
    additions(own);
    uint32_t answer = uluvoli_directory(own, ULUVOLI_CARD_SIZE, pairs, ULUVOLI_DIRECTORY_MOST, &nodes);
    answered(answer, pairs, sizeof pairs);
    for (size_t i = 0; i < many; i++) {
        asked(own, codes[i]);
    }
    return told;
}

/* ---- the changes */

static bool is_refused(const uint8_t own[ULUVOLI_CARD_SIZE]) {
    uint16_t blocks = 0;
    return uluvoli_refusal(uluvoli_total(own, ULUVOLI_CARD_SIZE, 0x0000, &blocks)) == ULUVOLI_NOT_BUILT;
}

static void flip(const char *name, const uint16_t codes[], size_t many) {
    uint64_t before = answers(card, codes, many);
    for (unsigned place = 0; place < sizeof card; place++) {
        const uint8_t changes[] = {(uint8_t)(1u << place % 8), 0xff};
        for (unsigned i = 0; i < sizeof changes; i++) {
            uint8_t own[sizeof card];
            memcpy(own, card, sizeof own);
            own[place] ^= changes[i];
            bool same = answers(own, codes, many) == before, used = layout_used(card, place);
            if (used == same) {
                printf("%s, byte %u by %02x: %s\n", name, place, changes[i],
                       used ? "it is part of the card, and no answer differs" : "it is no part, and an answer differs");
                wrong++;
            } else if (!used) {
                unused++;
            } else if (is_refused(own)) {
                refused++;
            } else {
                others++;
            }
        }
    }
}

/* ---- the cards */

static void area(uint32_t depth, uint16_t code, uint16_t end) {
    must(uluvoli_add_area(card, sizeof card, depth, code, end, (uint16_t)(code + 1)) == 0, "an area was refused");
}

static void service(uint32_t depth, uint16_t code, uint32_t blocks) {
    must(uluvoli_add_service(card, sizeof card, arena, sizeof arena, depth, code, blocks, (uint16_t)(code + 2)) == 0,
         "a service was refused");
}

static void limit(int32_t upper, int32_t lower, uint8_t generation) {
    must(uluvoli_set_limit(card, sizeof card, upper, lower, generation) == 0, "a limit was refused");
}

static void begin(uint16_t system, uint16_t version, bool join) {
    memset(arena, 0, sizeof arena);
    must(uluvoli_new(card, sizeof card, system, version, join) == 0, "a new card was refused");
}

int main(void) {
    static const uint16_t root[] = {0x0000, 0xffff, 0x1009};
    begin(0x0102, 0x0304, false);
    flip("the root alone", root, 3);

    static const uint16_t some[] = {0x0000, 0xffff, 0x0100, 0x0109, 0x010b, 0x018c, 0x0210, 0x0212};
    begin(0x1234, 0x5678, true);
    area(1, 0x0100, 0x02ff);
    service(2, 0x0109, 3);
    service(2, 0x010b, 3);
    service(2, 0x018c, 4);
    service(2, 0x0210, 1);
    limit(1000, -1000, 9);
    service(2, 0x0212, 1);
    flip("seven nodes", some, 8);

    static uint16_t all[4] = {0x0000, 0xffff};
    begin(0xfedc, 0xba98, false);
    for (unsigned i = 1; i < NODES; i++) {
        uint16_t code = (uint16_t)(64 * i + (i % 3 == 0 ? 0x10 : 0x08));
        service(1, code, i % 5);
        if (i % 3 == 0) {
            limit(2147483647, -2147483647 - 1, (uint8_t)i);
        }
        all[2 + i % 2] = code;
    }
    flip("63 nodes", all, 4);
    printf("%lu changes of bytes that are part of a card: %lu refused with 8, %lu another card; %lu of others: ",
           refused + others, refused, others, unused);
    printf("%s\n", wrong == 0 ? "no answer changed" : "wrong ones are told above");
    return wrong != 0;
}
