/* A handset's program: a marshal writes the lanes of a race, the finish tower reads them, with a late redraw. */
#include <stdio.h>
#include <string.h>

#include "uluvoli.h"

/* The marshal's and the tower's service: one number, so one store, which only the marshal may write. */
static const uint16_t marshal_code[] = {0x1049};
static const uint16_t tower_code[] = {0x104b};

/* Practice credit: a purse that terminals may only lower, and not below -50. */
static const uint16_t credit_code[] = {0x10d5};

static uint8_t card[ULUVOLI_CARD_SIZE];
static uint8_t arena[1024];
static uint8_t staging[1024];

/* Prints who did what, and how the call ended: a refusal has no status pair, and only an A5 has a cause. */
static uint32_t tell(const char *what, uint32_t answer) {
    uint8_t sf1, sf2;
    if (uluvoli_cause(answer) != 0 && uluvoli_pair(answer, &sf1, &sf2)) {
        printf("%-28s %02X %02X, cause %u\n", what, (unsigned)sf1, (unsigned)sf2, (unsigned)uluvoli_cause(answer));
    } else if (uluvoli_pair(answer, &sf1, &sf2)) {
        printf("%-28s %02X %02X\n", what, (unsigned)sf1, (unsigned)sf2);
    } else {
        printf("%-28s refused, %u\n", what, (unsigned)uluvoli_refusal(answer));
    }
    return answer;
}

/* A card with an area, two lanes and a purse. It does not join: the tower's service has to name the lanes' count. */
static void build(void) {
    tell("new card", uluvoli_new(card, sizeof card, 0x0001, 0x0000, false));
    tell("area 1000 to 10FF", uluvoli_add_area(card, sizeof card, 1, 0x1000, 0x10ff, 0x0000));
    tell("service 1049, 2 blocks",
         uluvoli_add_service(card, sizeof card, arena, sizeof arena, 2, marshal_code[0], 2, 0x0000));
    tell("service 104B, 9 blocks",
         uluvoli_add_service(card, sizeof card, arena, sizeof arena, 2, tower_code[0], 9, 0x0000));
    tell("service 104B, joins it",
         uluvoli_add_service(card, sizeof card, arena, sizeof arena, 2, tower_code[0], 2, 0x0000));
    tell("service 10D5, 1 block",
         uluvoli_add_service(card, sizeof card, arena, sizeof arena, 2, credit_code[0], 1, 0x0000));
    tell("limit -50 to 200", uluvoli_set_limit(card, sizeof card, 200, -50, 0));
}

/* Writes blocks 0 and 1 in one request, both or none, with so many bytes of staging. */
static uint32_t write_lanes_by(size_t staging_len, const uint16_t *codes, const char *lanes) {
    static const uint8_t list[] = {0x80, 0, 0x80, 1};
    return uluvoli_write(card, sizeof card, arena, sizeof arena, staging, staging_len, true, codes, 1, 2, list,
                         sizeof list, (const uint8_t *)lanes, strlen(lanes));
}

static uint32_t write_lanes(const uint16_t *codes, const char *lanes) {
    return write_lanes_by(sizeof staging, codes, lanes);
}

/* Reads both lanes and prints them. */
static void read_lanes(void) {
    static const uint8_t list[] = {0x80, 0, 0x80, 1};
    uint8_t out[2 * ULUVOLI_BLOCK_SIZE];
    uint32_t answer = uluvoli_read(card, sizeof card, arena, sizeof arena, out, sizeof out, true, tower_code, 1, 2,
                                   list, sizeof list);
    if (tell("tower reads", answer) == 0) {
        printf("    %.16s\n    %.16s\n", (const char *)out, (const char *)out + ULUVOLI_BLOCK_SIZE);
    }
}

/* Lowers the purse by an amount, under an execution id of its own, and prints what is stored then. */
static void spend(uint8_t amount, uint8_t id) {
    static const uint8_t list[] = {0x80, 0};
    uint8_t data[ULUVOLI_BLOCK_SIZE] = {0};
    size_t offset = 0;
    data[0] = amount;
    data[12] = id;
    tell("practice on credit", uluvoli_write(card, sizeof card, arena, sizeof arena, staging, sizeof staging, true,
                                             credit_code, 1, 1, list, sizeof list, data, sizeof data));
    uint32_t answer = uluvoli_stored_block(card, sizeof card, arena, sizeof arena, credit_code[0], 0, &offset);
    if (tell("where the purse is", answer) == 0) {
        printf("    purse at %u: %02X %02X %02X %02X\n", (unsigned)offset, (unsigned)arena[offset],
               (unsigned)arena[offset + 1], (unsigned)arena[offset + 2], (unsigned)arena[offset + 3]);
    }
}

/* What can be asked of the tree. */
static void ask(void) {
    uint16_t pairs[ULUVOLI_DIRECTORY_MOST];
    size_t nodes = 0;
    uint16_t blocks = 0;
    tell("directory", uluvoli_directory(card, sizeof card, pairs, ULUVOLI_DIRECTORY_MOST, &nodes));
    for (size_t i = 0; i < nodes; i++) {
        printf("    %04X %04X\n", (unsigned)pairs[2 * i], (unsigned)pairs[2 * i + 1]);
    }
    if (tell("total of area 1000", uluvoli_total(card, sizeof card, 0x1000, &blocks)) == 0) {
        printf("    %u blocks\n", (unsigned)blocks);
    }
}

int main(void) {
    build();
    ask();
    tell("marshal writes", write_lanes(marshal_code, "lane 1: LEANDER lane 2: THAMES  "));
    read_lanes();
    tell("marshal redraws", write_lanes(marshal_code, "lane 1: THAMES  lane 2: LEANDER "));
    read_lanes();
    tell("tower tries to write", write_lanes(tower_code, "lane 1: TOWER   lane 2: TOWER   "));
    tell("marshal sends one lane", write_lanes(marshal_code, "lane 1: NEPTUNE "));
    tell("marshal stages too little", write_lanes_by(16, marshal_code, "lane 1: NEPTUNE lane 2: NEPTUNE "));
    read_lanes();
    spend(50, 1);
    spend(1, 2);
    card[0] = 99; /* bytes that no calls build: every call refuses them */
    read_lanes();
    spend(1, 3);
    return 0;
}
