/* stack SIZE: makes every call of the library, on the cards that ask most of it, each on a stack of SIZE bytes that begins
 * behind a page that may not be touched, and prints the most bytes of it that a call took. A call that wants more ends the
 * program by a signal; what was tried last stands on standard error. */
#define _GNU_SOURCE
#include <stdbool.h>
#include <stdio.h>
#include <stdlib.h>
#include <string.h>
#include <sys/mman.h>
#include <ucontext.h>
#include <unistd.h>

#include "uluvoli.h"

enum { MARK = 0xa5, ARENA = ULUVOLI_ARENA_MOST, OUTPUT = 16 * ULUVOLI_ELEMENTS_MOST, LIST = 4096 };

static void must(bool holds, const char *what) {
    if (!holds) {
        fprintf(stderr, "stack: %s\n", what);
        exit(2);
    }
}

/* ---- a stack of its own for a call */

static uint8_t *stack;
static size_t stack_len, most;
static ucontext_t here, there;
static const char *most_call = "", *most_card = "";

static void make_stack(size_t length) {
    size_t page = (size_t)sysconf(_SC_PAGESIZE);
    must(length >= 4096 && length % page == 0, "a stack is whole pages");
    uint8_t *all = mmap(NULL, length + page, PROT_NONE, MAP_PRIVATE | MAP_ANONYMOUS, -1, 0);
    must(all != MAP_FAILED, "there is no memory");
    stack = all + page;
    stack_len = length;
    must(mprotect(stack, length, PROT_READ | PROT_WRITE) == 0, "there is no stack");
}

/* Makes a call on that stack, and keeps how much of it was written. */
static void on_stack(const char *name, const char *card_name, void (*one)(void)) {
    size_t clean = 0;
    fprintf(stderr, "%s on %s\n", name, card_name);
    memset(stack, MARK, stack_len);
    must(getcontext(&there) == 0, "there is no context");
    there.uc_stack.ss_sp = stack;
    there.uc_stack.ss_size = stack_len;
    there.uc_link = &here;
    makecontext(&there, one, 0);
    must(swapcontext(&here, &there) == 0, "the stack was not taken");
    while (clean < stack_len && stack[clean] == MARK) {
        clean++;
    }
    if (stack_len - clean > most) {
        most = stack_len - clean;
        most_call = name;
        most_card = card_name;
    }
}

/* ---- what calls are lent, and what they answer */

static uint8_t card[ULUVOLI_CARD_SIZE];
static uint8_t arena[ARENA], staging[ARENA], out[OUTPUT], data[OUTPUT], list[3 * ULUVOLI_ELEMENTS_MOST];
static uint8_t lanes[ULUVOLI_LANES * sizeof(uluvoli_lane)];
static uint16_t pairs[ULUVOLI_DIRECTORY_MOST], codes[ULUVOLI_CODES_MOST], names[LIST], code;
static uint16_t first[ULUVOLI_ASKED_MOST], second[ULUVOLI_ASKED_MOST];
static size_t place, firsts, seconds;
static uint32_t packet;
static uint16_t told;
static bool well;
static uint32_t answer;

/* ---- the calls */

static void new_card(void) { answer = uluvoli_new(card, sizeof card, 0x0001, 0x0002, false); }
static void add_area(void) { answer = uluvoli_add_area(card, sizeof card, 1, 0xfe00, 0xfe3f, 3); }
static void add_service(void) {
    answer = uluvoli_add_service(card, sizeof card, arena, sizeof arena, 1, 0xff09, 0, 3);
}
static void set_limit(void) { answer = uluvoli_set_limit(card, sizeof card, 1000000, -1000000, 1); }
static void set_block(void) {
    answer = uluvoli_set_block(card, sizeof card, arena, sizeof arena, code, 0, data, ULUVOLI_BLOCK_SIZE);
}
static void stored_block(void) {
    answer = uluvoli_stored_block(card, sizeof card, arena, sizeof arena, code, 0, &place);
}
static void read_blocks(void) {
    answer = uluvoli_read(card, sizeof card, arena, sizeof arena, out, sizeof out, false, codes, ULUVOLI_CODES_MOST,
                          ULUVOLI_ELEMENTS_MOST, list, sizeof list);
}
static void write_blocks(void) {
    answer = uluvoli_write(card, sizeof card, arena, sizeof arena, staging, sizeof staging, false, codes,
                           ULUVOLI_CODES_MOST, ULUVOLI_ELEMENTS_MOST, list, sizeof list, data, sizeof data);
}
static void board(void) {
    answer = uluvoli_board(card, sizeof card, arena, sizeof arena, code, lanes, sizeof lanes);
}
static void directory(void) {
    answer = uluvoli_directory(card, sizeof card, pairs, ULUVOLI_DIRECTORY_MOST, &place);
}
static void total(void) { answer = uluvoli_total(card, sizeof card, code, &told); }
static void key_version(void) { answer = uluvoli_key_version(card, sizeof card, code, &told); }
static void area_list(void) { answer = uluvoli_area_list(card, sizeof card, names, LIST, &well); }
static void service_list(void) { answer = uluvoli_service_list(card, sizeof card, names, LIST, &well); }
static void code_list(void) {
    answer = uluvoli_code_list(card, sizeof card, code, packet, out, sizeof out, &place);
}
static void read_code_list(void) {
    answer = uluvoli_read_code_list(out, place, first, 2 * ULUVOLI_PACKET_MOST, second, ULUVOLI_PACKET_MOST, &firsts,
                                    &seconds, &well);
}
static void block_information(void) {
    answer = uluvoli_block_information(card, sizeof card, arena, sizeof arena, names, ULUVOLI_ASKED_MOST, out,
                                       sizeof out, &place);
}
static void read_block_information(void) {
    answer = uluvoli_read_block_information(out, place, first, ULUVOLI_ASKED_MOST, second, ULUVOLI_ASKED_MOST, &firsts);
}

/* ---- the cards: so many nodes beside the root */

static void area(uint32_t depth, unsigned number, unsigned end) {
    answer = uluvoli_add_area(card, sizeof card, depth, (uint16_t)(64 * number), (uint16_t)end, 3);
    must(answer == 0, "an area was refused");
}

static void service(uint32_t depth, unsigned number, unsigned attribute, uint32_t blocks) {
    uint16_t own = (uint16_t)(64 * number + attribute);
    answer = uluvoli_add_service(card, sizeof card, arena, sizeof arena, depth, own, blocks, 3);
    must(answer == 0, "a service was refused");
}

/* Areas side by side. */
static void flat_areas(unsigned nodes) {
    for (unsigned i = 1; i <= nodes; i++) {
        area(1, i, 64 * i + 63);
    }
}

/* Areas down to depth 8; the others lie at depth 8 too. */
static void deep_areas(unsigned nodes) {
    for (unsigned i = 1; i <= nodes; i++) {
        area(i < 8 ? i : 8, i, i < 8 ? 0x7fff : 64 * i + 63);
    }
}

/* Areas down to depth 8, and services under the last. */
static void deep_services(unsigned nodes) {
    for (unsigned i = 1; i <= nodes; i++) {
        if (i < 8) {
            area(i, i, 0x7fff);
        } else {
            service(8, i, 0x08, 70);
        }
    }
}

/* At each depth down to 7 an area with a service of its own, again and again. */
static void branched(unsigned nodes) {
    for (unsigned i = 0; i < nodes; i++) {
        uint32_t depth = 1 + i / 2 % 7;
        if (i % 2 == 0) {
            area(depth, 1 + i, 0x7fff);
        } else {
            service(depth + 1, 1 + i, 0x08, 64);
        }
    }
}

/* Services side by side, each with a store: random, cyclic and purse in turn. */
static void flat_services(unsigned nodes) {
    static const unsigned attributes[] = {0x08, 0x0c, 0x10};
    for (unsigned i = 1; i <= nodes; i++) {
        service(1, i, attributes[i % 3], 64);
    }
}

/* Services that share one store of all blocks, so that the total stops. */
static void one_store(unsigned nodes) {
    for (unsigned i = 1; i <= nodes; i++) {
        service(1, 1, 0x08, 4096);
    }
}

/* The cards of 64 nodes, each with the total of its root. */
static const struct {
    const char *name;
    void (*build)(unsigned nodes);
    uint16_t total;
} cards[] = {
    {"areas side by side", flat_areas, 0},
    {"areas eight deep", deep_areas, 0},
    {"services eight deep", deep_services, 56 * 70},
    {"areas and services at every depth", branched, 31 * 64},
    {"services side by side", flat_services, 63 * 64},
    {"services of one store", one_store, 65535},
};

/* ---- every call on every card */

static const char *card_name;
static unsigned calls;

/* Makes a call, which has to be answered so. */
static void expect(const char *name, void (*one)(void), uint32_t wanted) {
    on_stack(name, card_name, one);
    calls++;
    if (answer != wanted) {
        fprintf(stderr, "stack: it answered %06x, not %06x\n", (unsigned)answer, (unsigned)wanted);
        exit(1);
    }
}

static void make(void (*build)(unsigned nodes), unsigned nodes) {
    memset(arena, 0, sizeof arena);
    must(uluvoli_new(card, sizeof card, 0x0001, 0x0002, false) == 0, "a new card was refused");
    build(nodes);
}

/* Names the first services of the directory, at most sixteen, and lists as many elements as a request may have, as many of
 * each. Gives how many there are. */
static size_t name_services(void) {
    size_t services = 0;
    memset(codes, 0xff, sizeof codes);
    for (size_t i = 0; i < place && services < ULUVOLI_CODES_MOST; i++) {
        if (pairs[2 * i + 1] == 0xffff) {
            codes[services++] = pairs[2 * i];
        }
    }
    for (size_t i = 0; i < ULUVOLI_ELEMENTS_MOST; i++) {
        list[3 * i] = (uint8_t)(i * ULUVOLI_CODES_MOST / ULUVOLI_ELEMENTS_MOST);
        data[16 * i + 12] = (uint8_t)i;
    }
    return services;
}

/* Fills the lanes of the store that is asked about: twelve bytes of crew each, and of race 7 but for the last lane's. */
static void fill_lanes(uint8_t last_race) {
    for (uint8_t i = 0; i < ULUVOLI_LANES; i++) {
        uint8_t block[] = "\1\7\0CREW OF BOAT";
        block[0] = (uint8_t)(i + 1);
        block[1] = i + 1 < ULUVOLI_LANES ? 7 : last_race;
        answer = uluvoli_set_block(card, sizeof card, arena, sizeof arena, code, i, block, ULUVOLI_BLOCK_SIZE);
        must(answer == 0, "a lane was refused");
    }
}

/* A board of every kind: of empty lanes, of filled ones, of two races; the lanes are empty again afterwards. */
static void ask_board(bool has) {
    expect("board, empty", board, has ? 0 : 0x0100 | ULUVOLI_SF2_ATTRIBUTE);
    if (has) {
        fill_lanes(7);
        expect("board", board, 0);
        fill_lanes(8);
        expect("board, refused", board, ULUVOLI_RACES_DIFFER << 16);
        memset(arena, 0, sizeof arena);
    }
}

/* Every packet of the root's children, and the blocks of as many nodes as may be asked at once. */
static void ask_messages(void) {
    code = 0x0000;
    packet = 0;
    do {
        expect("code_list", code_list, 0);
        expect("read_code_list", read_code_list, 0);
        packet++;
    } while (well);
    expect("code_list, refused", code_list, ULUVOLI_PACKET_PAST_END << 16);
    expect("block_information", block_information, 0);
    expect("read_block_information", read_block_information, 0);
    must(firsts == ULUVOLI_ASKED_MOST, "the information has other nodes");
}

/* Every question, message, read, write and board, on a card of 64 nodes. */
static void ask(uint16_t wanted_total) {
    expect("directory", directory, 0);
    must(place == ULUVOLI_NODES_MOST, "the directory has other nodes");
    bool has = name_services() > 0, service_last = pairs[ULUVOLI_DIRECTORY_MOST - 1] == 0xffff;
    code = 0x0000;
    expect("total of the root", total, 0);
    must(told == wanted_total, "the total is another");
    for (size_t i = 1; i < ULUVOLI_NODES_MOST; i++) {
        code = names[i] = pairs[2 * i];
        expect("total", total, 0);
        expect("key_version", key_version, 0);
    }
    expect("area_list", area_list, 0);
    expect("service_list", service_list, 0);
    ask_messages();
    code = codes[0];
    expect("set_block", set_block, has ? 0 : ULUVOLI_NO_SUCH_BLOCK << 16);
    expect("stored_block", stored_block, has ? 0 : ULUVOLI_NO_SUCH_BLOCK << 16);
    ask_board(has);
    expect("read", read_blocks, has ? 0 : 0x0100 | ULUVOLI_SF2_ATTRIBUTE);
    expect("write", write_blocks, has ? 0 : 0x0100 | ULUVOLI_SF2_ATTRIBUTE);
    expect("set_limit", set_limit, service_last ? 0 : ULUVOLI_NOT_A_SERVICE << 16);
    expect("add_area, refused", add_area, ULUVOLI_TABLE_FULL << 16);
    expect("add_service, refused", add_service, ULUVOLI_TABLE_FULL << 16);
}

/* Every call on a card whose last record is of no kind, so that the bytes encode none: refusal 8. */
static void ask_none(void) {
    static const struct {
        const char *name;
        void (*one)(void);
    } asked[] = {
        {"add_area", add_area},   {"add_service", add_service},   {"set_limit", set_limit},       {"set_block", set_block},
        {"read", read_blocks},    {"stored_block", stored_block}, {"write", write_blocks},        {"board", board},
        {"total", total},         {"directory", directory},       {"key_version", key_version},   {"area_list", area_list},
        {"code_list", code_list}, {"service_list", service_list}, {"information", block_information},
    };
    card_name = "bytes of no card";
    make(flat_areas, ULUVOLI_NODES_MOST - 1);
    card[32 + 2 * (ULUVOLI_NODES_MOST - 1)] = 3; /* its kind */
    for (size_t i = 0; i < sizeof asked / sizeof *asked; i++) {
        expect(asked[i].name, asked[i].one, ULUVOLI_NOT_BUILT << 16);
    }
}

int main(int argc, char **argv) {
    must(argc == 2, "usage: stack SIZE");
    make_stack(strtoul(argv[1], NULL, 10));
    for (size_t i = 0; i < sizeof cards / sizeof *cards; i++) {
        card_name = cards[i].name;
        make(cards[i].build, ULUVOLI_NODES_MOST - 1);
        ask(cards[i].total);
        make(cards[i].build, ULUVOLI_NODES_MOST - 2);
        expect("add_area", add_area, 0);
        make(cards[i].build, ULUVOLI_NODES_MOST - 2);
        expect("add_service", add_service, 0);
        expect("new", new_card, 0);
    }
    ask_none();
    printf("%u calls on %zu bytes of stack; the most, %zu, took %s on %s\n", calls, stack_len, most, most_call, most_card);
    return 0;
}
