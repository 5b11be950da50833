/* Puts the oracle's lists of trees, requests, boards and messages (oracle/README.md) to the library and compares every answer, and
 * every byte that was lent, the card's among them (layout.h). Each call is lent memory of its own, of just the lengths that it is
 * told (lent.h). What a call answers through a pointer holds something else before, and a refusal has to leave it. */
#define _GNU_SOURCE
#include <signal.h>
#include <stdio.h>
#include <stdlib.h>
#include <string.h>
#include <unistd.h>

#include "fields.h"
#include "held.h"
#include "lanes.h"
#include "layout.h"
#include "lent.h"
#include "messages.h"
#include "uluvoli.h"

/* The blocks in use. */
static size_t used;

/* A call that touches what it was not lent ends here. */
static void touched(int signal_number) {
    static const char text[] = ": memory that was not lent was touched\n";
    (void)signal_number;
    if (write(STDERR_FILENO, place, strlen(place)) < 0 || write(STDERR_FILENO, text, sizeof text - 1) < 0) {
        _exit(3);
    }
    _exit(1);
}

/* ---- building */

/* Whether a call that may change the card ended as it should: the card's bytes are those wanted, and a refusal changes
 * none. */
static void added(uint32_t got, const char *field) {
    take_back();
    check(got == number(field) << 16, "an addition");
    check(memcmp(card, card_wanted, sizeof card) == 0, "the card after an addition");
}

static void new_card(char *f[FIELDS]) {
    uint16_t system = (uint16_t)number(f[1]), version = (uint16_t)number(f[2]);
    bool join = number(f[3]) == 1;
    arena_len = number(f[4]);
    used = 0;
    memset(arena, MARK, sizeof arena);
    layout_new(card_wanted, system, version, join);
    for (size_t length = sizeof card - 1; length <= sizeof card + 1; length += 2) {
        mark_room(length);
        check(uluvoli_new(lend_writable(ROOM, room, length), length, system, version, join) == UNBUILT, "a card's length");
        take_back();
        check(room_agrees(), "bytes of another length than a card's");
    }
    added(uluvoli_new(lend_writable(CARD, card, sizeof card), sizeof card, system, version, join), "00");
}

static void area(char *f[FIELDS]) {
    uint32_t depth = number(f[1]);
    uint16_t code = (uint16_t)number(f[2]), end = (uint16_t)number(f[3]), version = (uint16_t)number(f[4]);
    if (number(f[5]) == 0) {
        layout_area(card_wanted, depth, code, end, version);
    }
    added(uluvoli_add_area(lend_writable(CARD, card, sizeof card), sizeof card, depth, code, end, version), f[5]);
}

/* A service: a new store is zeroed, and no other byte of the arena changes. */
static void service(char *f[FIELDS]) {
    uint32_t depth = number(f[1]), blocks = number(f[3]), next = number(f[6]);
    uint16_t code = (uint16_t)number(f[2]), version = (uint16_t)number(f[4]);
    if (number(f[5]) == 0) {
        layout_service(card_wanted, depth, code, version, next);
    }
    uint8_t *own = lend_writable(CARD, card, sizeof card);
    added(uluvoli_add_service(own, sizeof card, lent_arena(), arena_len, depth, code, blocks, version), f[5]);
    if (next > used) {
        memset(arena + 16 * used, 0, 16 * (next - used));
        used = next;
    }
    check(arena_agrees(), "the arena after a service");
}

static void limit(char *f[FIELDS]) {
    uint32_t upper = number(f[1]), lower = number(f[2]);
    uint8_t generation = (uint8_t)number(f[3]);
    if (number(f[4]) == 0) {
        layout_limit(card_wanted, upper, lower, generation);
    }
    uint8_t *own = lend_writable(CARD, card, sizeof card);
    added(uluvoli_set_limit(own, sizeof card, (int32_t)upper, (int32_t)lower, generation), f[4]);
}

/* Sets block number `at` of a service to the data. */
static uint32_t set(uint16_t code, uint32_t at, size_t length) {
    const uint8_t *own = lent_card();
    uint32_t got = uluvoli_set_block(own, sizeof card, lent_arena(), arena_len, code, at, lend(DATA, data, length),
                                     length);
    take_back();
    return got;
}

/* Where block number `at` of a service lies. */
static uint32_t stored(const uint8_t *own, uint16_t code, uint32_t at, size_t *offset) {
    uint32_t got = uluvoli_stored_block(own, sizeof card, lend(ARENA, arena, arena_len), arena_len, code, at,
                                        lend_writable(TOLD, offset, sizeof *offset));
    take_back();
    return got;
}

/* A block that is not there, or is not sixteen bytes: the refusal that is first, and nothing is written. */
static void block_refused(uint16_t code, uint32_t at, size_t length) {
    size_t offset = MARKED;
    bool right = set(code, at, length - 1) == ULUVOLI_NOT_A_BLOCK << 16 && arena_agrees();
    right = right && set(code, UINT32_MAX, length) == ULUVOLI_NO_SUCH_BLOCK << 16 && arena_agrees();
    right = right && set(code, UINT32_MAX, length - 1) == ULUVOLI_NO_SUCH_BLOCK << 16 && arena_agrees();
    right = right && stored(lent_card(), code, UINT32_MAX, &offset) == ULUVOLI_NO_SUCH_BLOCK << 16;
    right = right && stored(lent_unbuilt(), code, at, &offset) == UNBUILT;
    check(right && offset == MARKED, "a block refused");
}

/* Sets a block, and asks where it lies. */
static void block(char *f[FIELDS]) {
    uint16_t code = (uint16_t)number(f[1]);
    uint32_t at = number(f[2]);
    size_t length = bytes(f[3], data, sizeof data), offset = SIZE_MAX;
    block_refused(code, at, length);
    uint32_t got = set(code, at, length);
    uint32_t told = stored(lent_card(), code, at, &offset);
    if (offset <= sizeof arena - length) {
        memcpy(arena + offset, data, length);
    }
    check(got == 0 && told == 0 && arena_agrees(), "a block set");
}

/* ---- questions */

/* A directory, and the same on a card that no calls build: then as on a refusal the pairs and their number stay. */
static void directory(char *f[FIELDS]) {
    size_t many = number(f[1]), nodes = MARKED, wanted_nodes = MARKED;
    uint32_t wanted = *f[2] == '!' ? answer(f[2]) : 0;
    mark_room(2 * many);
    const uint8_t *own = lent_unbuilt();
    uint16_t *out = lend_writable(ROOM, room, 2 * many);
    uint32_t got = uluvoli_directory(own, sizeof card, out, many, lend_writable(TOLD, &nodes, sizeof nodes));
    take_back();
    check(got == UNBUILT && nodes == MARKED && room_agrees(), "a directory of no card");
    if (wanted == 0) {
        wanted_nodes = halves(f[2], (uint16_t *)(void *)room_wanted, sizeof room / 2) / 2;
    }
    own = lent_card();
    out = lend_writable(ROOM, room, 2 * many);
    got = uluvoli_directory(own, sizeof card, out, many, lend_writable(TOLD, &nodes, sizeof nodes));
    take_back();
    check(got == wanted && nodes == wanted_nodes && room_agrees(), "a directory");
}

/* A total or a key version; on a card that no calls build the number stays. */
static void told(char *f[FIELDS], uint32_t (*ask)(const uint8_t *, size_t, uint16_t, uint16_t *)) {
    uint16_t code = (uint16_t)number(f[1]), wanted = (uint16_t)number(f[2]), before = (uint16_t)MARKED;
    uint16_t value = before;
    const uint8_t *own = lent_unbuilt();
    uint32_t got = ask(own, sizeof card, code, lend_writable(TOLD, &value, sizeof value));
    take_back();
    check(got == UNBUILT && value == before, "a number of no card");
    own = lent_card();
    got = ask(own, sizeof card, code, lend_writable(TOLD, &value, sizeof value));
    take_back();
    check(got == 0 && value == wanted, "a number");
}

/* An area list or a service list; on a card that no calls build the flag stays, whatever byte it was. */
static void formed(char *f[FIELDS], uint32_t (*ask)(const uint8_t *, size_t, const uint16_t *, size_t, bool *)) {
    bool wanted = number(f[2]) == 1;
    size_t many = halves(f[1], codes, sizeof codes / sizeof *codes);
    for (size_t before = 0; before < sizeof flag_bytes; before++) {
        uint8_t well = flag_bytes[before];
        const uint8_t *own = lent_unbuilt();
        const uint16_t *list_asked = lend(CODES, codes, 2 * many);
        uint32_t got = ask(own, sizeof card, list_asked, many, lend_writable(TOLD, &well, sizeof well));
        take_back();
        check(got == UNBUILT && well == flag_bytes[before], "a list for no card");
        own = lent_card();
        list_asked = lend(CODES, codes, 2 * many);
        got = ask(own, sizeof card, list_asked, many, lend_writable(TOLD, &well, sizeof well));
        take_back();
        check(got == 0 && well == wanted, "a list");
    }
}

/* ---- requests */

/* Serves the request of a line on the card's bytes as they are; what it wrote is in room and arena_after. */
static uint32_t serve(char *f[FIELDS]) {
    bool open = *f[1] == 'O';
    size_t codes_len = halves(f[2], codes, sizeof codes / sizeof *codes);
    uint32_t count = number(f[3]);
    size_t list_len = bytes(f[4], list, sizeof list);
    size_t data_len = bytes(f[5], data, sizeof data);
    uint32_t got;
    mark_room(number(f[6]));
    memcpy(arena_after, arena, arena_len);
    const uint8_t *own = lent_card();
    const uint16_t *asked = lend(CODES, codes, 2 * codes_len);
    const uint8_t *elements = lend(LIST, list, list_len);
    uint8_t *lent = lend_writable(ROOM, room, room_len);
    if (*f[0] == 'R') {
        got = uluvoli_read(own, sizeof card, lend(ARENA, arena, arena_len), arena_len, lent, room_len, open, asked,
                           codes_len, count, elements, list_len);
    } else {
        got = uluvoli_write(own, sizeof card, lent_arena(), arena_len, lent, room_len,
                            open, asked, codes_len, count, elements, list_len, lend(DATA, data, data_len), data_len);
    }
    take_back();
    return got;
}

/* The same on a card with one byte changed: most are refused, and then nothing is written. */
static void serve_spoilt(char *f[FIELDS]) {
    spoil_card();
    uint32_t got = serve(f);
    mend_card();
    check(uluvoli_refusal(got) == 0 || (room_agrees() && arena_agrees()), "a request on a spoilt card");
}

/* What the header makes of an answer: a cause is neither a refusal nor a part of the pair. The Rust tells no cause, so the
 * pair is its own, and the cause that of the line's last field. */
static void read_answer(uint32_t got, uint32_t wanted, uint32_t cause, bool refused) {
    uint8_t sf1 = MARK, sf2 = (uint8_t)~MARK;
    bool pair = uluvoli_pair(got, &sf1, &sf2);
    uint32_t flags = refused ? MARK << 8 | (uint8_t)~MARK : wanted;
    enum uluvoli_end end = refused ? ULUVOLI_REFUSED : wanted == 0 ? ULUVOLI_DONE : ULUVOLI_PAIR;
    check(uluvoli_cause(got) == cause, "the cause of an A5");
    check(uluvoli_refusal(got) == (refused ? wanted >> 16 : 0), "the number of a refusal");
    check(uluvoli_end_of(got) == end, "how a request ended");
    check(pair == !refused && ((uint32_t)sf1 << 8 | sf2) == flags, "a status pair");
}

/* A request: its answer, and every byte of the arena, and of the output or the staging. */
static void request(char *f[FIELDS]) {
    uint32_t wanted = answer(f[7]);
    serve_spoilt(f);
    uint32_t got = serve(f);
    if (*f[0] == 'R') {
        bytes(f[8], room_wanted, sizeof room_wanted);
    } else if (uluvoli_refusal(wanted) == 0) {
        memset(room_wanted, 0, 16 * used);
    }
    for (const char *change = f[8]; *f[0] == 'W' && strlen(change) >= 36; change += 36) {
        char head[5] = {0};
        memcpy(head, change, 4);
        char whole[33] = {0};
        memcpy(whole, change + 4, 32);
        bytes(whole, arena + 16 * number(head), 16);
    }
    check(got == (number(f[9]) << 24 | wanted), "the answer to a request");
    read_answer(got, wanted, number(f[9]), *f[7] == '!');
    check(room_agrees(), "output or staging");
    check(arena_agrees(), "the arena after a request");
}

/* ---- boards */

/* Asks for the board of a line on the card's bytes as they are; what it wrote is in room. */
static uint32_t ask_board(char *f[FIELDS]) {
    mark_room(number(f[2]));
    memcpy(arena_after, arena, arena_len);
    const uint8_t *own = lent_card();
    const uint8_t *blocks = lend(ARENA, arena, arena_len);
    uint8_t *lanes = lend_writable(ROOM, room, room_len);
    uint32_t got = uluvoli_board(own, sizeof card, blocks, arena_len, (uint16_t)number(f[1]), lanes, room_len);
    take_back();
    return got;
}

/* A board: its answer, and every byte of the lanes. What is no board leaves them, whatever they were; so does one of a card
 * with a byte changed, if it is none. */
static void board(char *f[FIELDS]) {
    uint32_t wanted = answer(f[3]);
    spoil_card();
    uint32_t got = ask_board(f);
    mend_card();
    check(got == 0 || room_agrees(), "a board of a spoilt card");
    got = ask_board(f);
    bytes(f[4], room_wanted, sizeof room_wanted);
    check(got == wanted, "the answer to a board");
    check(room_agrees(), "lanes");
    check(got != 0 || lanes_agree(room, room_wanted), "lanes as C reads them");
}

static void one_line(char *f[FIELDS]) {
    switch (*f[0]) {
    case 'T': new_card(f); break;
    case 'm': arena_len = number(f[1]); break;
    case 'a': area(f); break;
    case 's': service(f); break;
    case 'l': limit(f); break;
    case 'b': block(f); break;
    case 'B': board(f); break;
    case 'D': directory(f); break;
    case 'N': told(f, uluvoli_total); break;
    case 'V': told(f, uluvoli_key_version); break;
    case 'K': formed(f, uluvoli_area_list); break;
    case 'L': formed(f, uluvoli_service_list); break;
    case 'R':
    case 'W': request(f); break;
    case 'C':
    case 'I': message_written(f); break;
    case 'c': code_list_read(f); break;
    case 'i': information_read(f); break;
    default: check(false, "a line of no known kind");
    }
}

static void one_file(const char *name) {
    FILE *in = fopen(name, "r");
    char *line = NULL;
    size_t size = 0;
    if (in == NULL) {
        perror(name);
        exit(2);
    }
    for (unsigned long at = 1; getline(&line, &size, in) > 0; at++) {
        char *f[FIELDS];
        snprintf(place, sizeof place, "%s:%lu", name, at);
        lines++;
        cut(line, f);
        one_line(f);
    }
    free(line);
    fclose(in);
}

int main(int argc, char **argv) {
    static const char *const ways[] = {[HEAP] = "heap", [BEFORE] = "before", [BEHIND] = "behind"};
    int how = HEAP;
    while (argc > 2 && how <= BEHIND && strcmp(argv[1], ways[how]) != 0) {
        how++;
    }
    if (argc < 3 || how > BEHIND) {
        fputs("usage: answers heap|before|behind FILE..\n", stderr);
        return 2;
    }
    lend_by((enum how)how);
    if (how != HEAP) {
        signal(SIGSEGV, touched);
    }
    for (int i = 2; i < argc; i++) {
        one_file(argv[i]);
    }
    printf("lines %lu, comparisons %lu, wrong %lu\n", lines, calls, wrong);
    return wrong == 0 ? 0 : 1;
}
