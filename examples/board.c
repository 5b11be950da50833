/* A tower's program: it shows the lane board of race 7, before and after a late redraw. */
#include <stdio.h>
#include <string.h>

#include "uluvoli.h"

/* The marshal's and the tower's service: one number, so one store, which only the marshal may write. */
static const uint16_t marshal_code[] = {0x1049};
static const uint16_t tower_code = 0x104b;

static uint8_t card[ULUVOLI_CARD_SIZE];
static uint8_t arena[ULUVOLI_LANES * ULUVOLI_BLOCK_SIZE];
static uint8_t staging[ULUVOLI_LANES * ULUVOLI_BLOCK_SIZE];

/* A card with eight lanes. */
static uint32_t build(void) {
    uint32_t answer = uluvoli_new(card, sizeof card, 0x0001, 0x0000, false);
    if (answer == 0) {
        answer = uluvoli_add_service(card, sizeof card, arena, sizeof arena, 1, marshal_code[0], ULUVOLI_LANES, 0);
    }
    if (answer == 0) {
        answer = uluvoli_add_service(card, sizeof card, arena, sizeof arena, 1, tower_code, ULUVOLI_LANES, 0);
    }
    return answer;
}

/* The block of a lane: the lane, the race's number, the crew filled up with spaces, and zero. */
static void draw(uint8_t block[ULUVOLI_BLOCK_SIZE], uint8_t lane, uint16_t race, const char *crew) {
    size_t length = strlen(crew);
    block[0] = lane;
    block[1] = (uint8_t)(race & 0xff);
    block[2] = (uint8_t)(race >> 8);
    memset(block + 3, ' ', 12);
    memcpy(block + 3, crew, length < 12 ? length : 12);
    block[15] = 0;
}

/* Writes two lanes in one request, both or none. */
static uint32_t write_lanes(uint8_t first, const char *first_crew, uint8_t second, const char *second_crew) {
    uint8_t list[] = {0x80, (uint8_t)(first - 1), 0x80, (uint8_t)(second - 1)};
    uint8_t data[2 * ULUVOLI_BLOCK_SIZE];
    draw(data, first, 7, first_crew);
    draw(data + ULUVOLI_BLOCK_SIZE, second, 7, second_crew);
    return uluvoli_write(card, sizeof card, arena, sizeof arena, staging, sizeof staging, true, marshal_code, 1, 2,
                         list, sizeof list, data, sizeof data);
}

/* Prints how a call ended. */
static void tell(const char *what, uint32_t answer) {
    uint8_t sf1, sf2;
    if (uluvoli_pair(answer, &sf1, &sf2)) {
        printf("%s: %02X %02X\n", what, (unsigned)sf1, (unsigned)sf2);
    } else {
        printf("%s: refused, %u\n", what, (unsigned)uluvoli_refusal(answer));
    }
}

/* Asks for the board and prints it: nothing of an earlier one has a part in it. */
static void show(uint16_t code) {
    uluvoli_lane lanes[ULUVOLI_LANES];
    uint32_t answer = uluvoli_board(card, sizeof card, arena, sizeof arena, code, (uint8_t *)lanes, sizeof lanes);
    tell("tower's board", answer);
    for (int i = 0; answer == 0 && i < ULUVOLI_LANES; i++) {
        if (lanes[i].filled) {
            printf("    lane %d, race %u: %.*s\n", i + 1, (unsigned)lanes[i].race, (int)lanes[i].length, lanes[i].crew);
        } else {
            printf("    lane %d\n", i + 1);
        }
    }
}

int main(void) {
    tell("a card with eight lanes", build());
    tell("marshal draws lanes 1 and 2", write_lanes(1, "LEANDER M4+", 2, "THAMES M4+"));
    tell("marshal draws lanes 3 and 5", write_lanes(3, "MOLESEY M4+", 5, "TIDEWAY M4+"));
    show(tower_code);
    tell("marshal redraws lanes 2 and 3", write_lanes(2, "MOLESEY M4+", 3, "THAMES M4+"));
    show(tower_code);
    tell("marshal mistypes lane 5", write_lanes(4, "TIDEWAY M4+", 5, "\tTIDEWAY"));
    show(tower_code);
    show(0x1089); /* no service of the card */
    return 0;
}
