/* A first client: a crew's card with its name, its last three outings and its practice minutes. */
#include <stdio.h>
#include <string.h>

#include "uluvoli.h"

/* Three services that need no key: a random one, a cyclic one, and a purse that is only taken from. */
static const uint16_t codes[] = {0x1009, 0x104d, 0x1095};
static uint8_t card[ULUVOLI_CARD_SIZE], arena[5 * ULUVOLI_BLOCK_SIZE], staging[sizeof arena], out[sizeof arena];

/* Prints how a call ended, and says whether it was done. */
static bool tell(const char *what, uint32_t answer) {
    uint8_t sf1, sf2;
    if (uluvoli_pair(answer, &sf1, &sf2)) {
        printf("%-10s %02X %02X\n", what, (unsigned)sf1, (unsigned)sf2);
    } else {
        printf("%-10s refused, %u\n", what, (unsigned)uluvoli_refusal(answer));
    }
    return answer == 0;
}

/* Adds a service right under the root. */
static bool add(const char *what, int which, uint32_t blocks) {
    return tell(what, uluvoli_add_service(card, sizeof card, arena, sizeof arena, 1, codes[which], blocks, 0));
}

/* A card with one name, three outings, and 90 minutes of at most 120. */
static bool build(void) {
    static const uint8_t minutes[ULUVOLI_BLOCK_SIZE] = {90};
    return tell("card", uluvoli_new(card, sizeof card, 0x0001, 0, false)) && add("name", 0, 1) &&
           add("outings", 1, 3) && add("minutes", 2, 1) &&
           tell("limit", uluvoli_set_limit(card, sizeof card, 120, 0, 0)) &&
           tell("90", uluvoli_set_block(card, sizeof card, arena, sizeof arena, codes[2], 0, minutes, sizeof minutes));
}

/* An outing in one write: the name, the outing ahead of earlier ones, and the minutes, taken under an id of its own. */
static bool row(const char *outing, uint8_t minutes, uint8_t id) {
    static const uint8_t list[] = {0x80, 0, 0x81, 0, 0x82, 0};
    uint8_t data[3 * ULUVOLI_BLOCK_SIZE] = "LEANDER";
    memcpy(data + ULUVOLI_BLOCK_SIZE, outing, strlen(outing));
    data[2 * ULUVOLI_BLOCK_SIZE] = minutes;
    data[2 * ULUVOLI_BLOCK_SIZE + 12] = id;
    return tell(outing, uluvoli_write(card, sizeof card, arena, sizeof arena, staging, sizeof staging, true, codes, 3,
                                      3, list, sizeof list, data, sizeof data));
}

int main(void) {
    static const uint8_t list[] = {0x80, 0, 0x81, 0, 0x81, 1, 0x81, 2, 0x82, 0};
    if (!build() || !row("Thursday", 5, 1) || !row("Friday", 25, 2) || !row("Saturday", 20, 3) ||
        !row("Saturday", 20, 3) || /* sent again, as after a lost answer: it changes nothing */
        row("Sunday", 41, 4) ||    /* 40 are left: it fails, and nothing of it is written */
        !tell("all", uluvoli_read(card, sizeof card, arena, sizeof arena, out, sizeof out, true, codes, 3, 5, list,
                                  sizeof list))) {
        return 1;
    }
    printf("%.16s: %.16s, %.16s, %.16s; %u minutes left\n", out, out + 16, out + 32, out + 48, (unsigned)out[64]);
    return 0;
}
