#include "messages.h"

#include <stdio.h>
#include <stdlib.h>
#include <string.h>

#include "held.h"
#include "lent.h"

/* What the field of a line says of the bytes that are lent as a card. */
enum { AS_IT_IS, NO_COUNT, BYTE_LESS, BYTE_MORE };

/* No list that a reader is lent has more numbers. */
enum { NUMBERS = 64 };

/* The two lists that a reader fills, what they should be, and how many numbers of each are lent. */
static uint16_t filled[2][NUMBERS];
static uint16_t filled_wanted[2][NUMBERS];
static size_t filled_len[2];

/* The refusal that a field spells, as a call returns it; 0 for the fields of an answer. */
static uint32_t refusal(const char *field) { return *field == '!' ? answer(field) : 0; }

/* The bytes that are lent as a card, and how many they are. */
static const uint8_t *lent_as(uint32_t how, size_t *length) {
    uint8_t longer[sizeof card + 1] = {0};
    memcpy(longer, card, sizeof card);
    *length = sizeof card + (how == BYTE_MORE) - (how == BYTE_LESS);
    return how == NO_COUNT ? lent_unbuilt() : lend(CARD, longer, *length);
}

/* Asks for the message of a line on the card's bytes as they are, lent in this way; what it wrote is in room, and how many bytes it
 * has in told. */
static uint32_t ask(char *f[FIELDS], uint32_t how, uint32_t length, size_t *told) {
    size_t card_len;
    uint32_t got;
    mark_room(length);
    *told = MARKED;
    const uint8_t *own = lent_as(how, &card_len);
    uint8_t *out = lend_writable(ROOM, room, room_len);
    size_t *bytes_told = lend_writable(TOLD, told, sizeof *told);
    if (*f[0] == 'C') {
        got = uluvoli_code_list(own, card_len, (uint16_t)number(f[1]), number(f[2]), out, room_len, bytes_told);
    } else {
        size_t many = halves(f[1], codes, CODES_MOST);
        const uint8_t *blocks = lend(ARENA, arena, arena_len);
        const uint16_t *asked = lend(CODES, codes, 2 * many);
        got = uluvoli_block_information(own, card_len, blocks, arena_len, asked, many, out, room_len, bytes_told);
    }
    take_back();
    return got;
}

void message_written(char *f[FIELDS]) {
    char **rest = f + (*f[0] == 'C' ? 3 : 2);
    uint32_t how = number(rest[0]), length = number(rest[1]), wanted = refusal(rest[2]);
    size_t told, told_wanted = MARKED;
    spoil_card();
    uint32_t got = ask(f, AS_IT_IS, length, &told);
    mend_card();
    check(got == 0 || (told == MARKED && room_agrees()), "a message of a spoilt card");
    got = ask(f, how, length, &told);
    if (wanted == 0) {
        told_wanted = bytes(rest[2], room_wanted, sizeof room_wanted);
    }
    check(got == wanted, "the answer to a message");
    check(told == told_wanted, "how many bytes a message has");
    check(room_agrees(), "the bytes of a message, or those behind it");
}

/* Marks the lists of a line, and what they should be. */
static void mark_lists(char *f[FIELDS]) {
    memset(filled, MARK, sizeof filled);
    memset(filled_wanted, MARK, sizeof filled_wanted);
    for (int i = 0; i < 2; i++) {
        filled_len[i] = number(f[2 + i]);
        if (filled_len[i] > NUMBERS) {
            fputs("answers: a list is too long\n", stderr);
            exit(2);
        }
    }
}

/* One of the lists, to be filled by a call. */
static uint16_t *lent_list(enum part part, int which) {
    return lend_writable(part, filled[which], 2 * filled_len[which]);
}

/* Whether the answer and both lists are as they should be. */
static void check_lists(uint32_t got, uint32_t wanted) {
    check(got == wanted, "the answer to a reader");
    check(memcmp(filled, filled_wanted, sizeof filled) == 0, "the lists of a reader, or what is behind them");
}

/* On a refusal the counts and the flag stay, whatever byte it was: one that a program has not set is no bool. */
void code_list_read(char *f[FIELDS]) {
    uint32_t wanted = refusal(f[4]);
    size_t length = bytes(f[1], list, sizeof list);
    for (size_t before = 0; before < sizeof flag_bytes; before++) {
        size_t areas = MARKED, areas_wanted = MARKED, services = MARKED, services_wanted = MARKED;
        uint8_t more = flag_bytes[before], more_wanted = flag_bytes[before];
        mark_lists(f);
        if (wanted == 0) {
            more_wanted = number(f[4]) == 1;
            areas_wanted = halves(f[5], filled_wanted[0], NUMBERS) / 2;
            services_wanted = halves(f[6], filled_wanted[1], NUMBERS);
        }
        const uint8_t *message = lend(LIST, list, length);
        uint16_t *ranges = lent_list(ROOM, 0), *others = lent_list(OTHER_ROOM, 1);
        size_t *area_count = lend_writable(TOLD, &areas, sizeof areas);
        size_t *service_count = lend_writable(OTHER_TOLD, &services, sizeof services);
        uint32_t got = uluvoli_read_code_list(message, length, ranges, filled_len[0], others, filled_len[1], area_count,
                                              service_count, lend_writable(FLAG, &more, sizeof more));
        take_back();
        check_lists(got, wanted);
        check(areas == areas_wanted && services == services_wanted, "the counts of a code list");
        check(more == more_wanted, "the flag of a code list");
    }
}

void information_read(char *f[FIELDS]) {
    uint32_t wanted = refusal(f[4]);
    size_t length = bytes(f[1], list, sizeof list), nodes = MARKED, nodes_wanted = MARKED;
    mark_lists(f);
    if (wanted == 0) {
        nodes_wanted = halves(f[4], filled_wanted[0], NUMBERS);
        halves(f[5], filled_wanted[1], NUMBERS);
    }
    const uint8_t *message = lend(LIST, list, length);
    uint16_t *assigned = lent_list(ROOM, 0), *unused = lent_list(OTHER_ROOM, 1);
    uint32_t got = uluvoli_read_block_information(message, length, assigned, filled_len[0], unused, filled_len[1],
                                                  lend_writable(TOLD, &nodes, sizeof nodes));
    take_back();
    check_lists(got, wanted);
    check(nodes == nodes_wanted, "how many nodes information has");
}
