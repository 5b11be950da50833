/* An inspector's program: it walks the tree of a card by its messages alone, packet by packet, and prints the blocks of
 * each node. */
#include <stdio.h>

#include "uluvoli.h"

static uint8_t card[ULUVOLI_CARD_SIZE];
static uint8_t arena[640];

/* Prints how a call ended. */
static void tell(const char *what, uint32_t answer) {
    if (answer == 0) {
        printf("%s: done\n", what);
    } else {
        printf("%s: refused, %u\n", what, (unsigned)uluvoli_refusal(answer));
    }
}

/* What the first refused call of those that build the card answered, 0 where none was: no call is made after it. */
static uint32_t built;

static void area(uint32_t depth, uint16_t code, uint16_t end) {
    built = built != 0 ? built : uluvoli_add_area(card, sizeof card, depth, code, end, 0);
}

static void service(uint32_t depth, uint16_t code, uint32_t blocks) {
    built = built != 0 ? built : uluvoli_add_service(card, sizeof card, arena, sizeof arena, depth, code, blocks, 0);
}

/* A regatta's card: a race with an area for its lanes, the clubs' credits side by side, and two areas of one code. */
static uint32_t build(void) {
    built = uluvoli_new(card, sizeof card, 0x0001, 0x0000, false);
    area(1, 0x1000, 0x1fff);
    area(2, 0x1040, 0x10ff);
    service(3, 0x1049, 8);
    service(3, 0x104b, 8);
    for (uint16_t club = 0; club < 16; club++) {
        service(1, (uint16_t)(0x2015 + 64 * club), 1);
    }
    area(1, 0x3000, 0x3fff);
    service(2, 0x300b, 4);
    area(1, 0x3000, 0x30ff);
    service(2, 0x304b, 2);
    return built;
}

/* What a packet says of an area's children, and the blocks of each. */
struct packet {
    uint16_t areas[2 * ULUVOLI_PACKET_MOST], services[ULUVOLI_PACKET_MOST];
    uint16_t assigned[ULUVOLI_ASKED_MOST], unused[ULUVOLI_ASKED_MOST];
    size_t area_count, service_count;
    bool more;
};

/* The card tells a packet, and its bytes are read. */
static uint32_t read_children(uint16_t parent, uint32_t number, struct packet *packet) {
    uint8_t message[ULUVOLI_CODE_LIST_MOST];
    size_t bytes = 0;
    uint32_t answer = uluvoli_code_list(card, sizeof card, parent, number, message, sizeof message, &bytes);
    return answer != 0 ? answer
                       : uluvoli_read_code_list(message, bytes, packet->areas, 2 * ULUVOLI_PACKET_MOST,
                                                packet->services, ULUVOLI_PACKET_MOST, &packet->area_count,
                                                &packet->service_count, &packet->more);
}

/* The card tells the blocks of the packet's nodes, areas first, and the bytes are read. */
static uint32_t read_blocks(struct packet *packet) {
    uint8_t message[ULUVOLI_INFORMATION_MOST];
    uint16_t codes[ULUVOLI_PACKET_MOST];
    size_t nodes = 0, bytes = 0;
    for (size_t i = 0; i < packet->area_count; i++) {
        codes[nodes++] = packet->areas[2 * i];
    }
    for (size_t i = 0; i < packet->service_count; i++) {
        codes[nodes++] = packet->services[i];
    }
    uint32_t answer = uluvoli_block_information(card, sizeof card, arena, sizeof arena, codes, nodes, message,
                                                sizeof message, &bytes);
    return answer != 0 ? answer
                       : uluvoli_read_block_information(message, bytes, packet->assigned, ULUVOLI_ASKED_MOST,
                                                        packet->unused, ULUVOLI_ASKED_MOST, &nodes);
}

/* The areas that the walk has met, in tree order, and whether a code names them. */
static struct {
    uint16_t code, end;
    bool named;
} met[ULUVOLI_NODES_MOST];
static size_t met_count;

/* Whether its code names the area that is met now. A code names the first area that has it, so none before may have it:
 * none that was met, and none that may lie in one that could not be asked for its children. */
static bool named(uint16_t code, uint16_t end) {
    bool first = true;
    for (size_t i = 0; i < met_count; i++) {
        bool hidden = !met[i].named && met[i].code <= code && code <= met[i].end;
        first = first && met[i].code != code && !hidden;
    }
    met[met_count].code = code;
    met[met_count].end = end;
    met[met_count++].named = first;
    return first;
}

static void show(int depth, uint16_t parent);

/* Prints an area of a packet, and its children. What its code tells is another area's where that has the code. */
static void show_area(int depth, const struct packet *packet, size_t i) {
    uint16_t code = packet->areas[2 * i], end = packet->areas[2 * i + 1];
    printf("%*sarea %04X to %04X: ", 4 * depth + 2, "", (unsigned)code, (unsigned)end);
    if (named(code, end)) {
        printf("%u blocks, %u free\n", (unsigned)packet->assigned[i], (unsigned)packet->unused[i]);
        show(depth + 1, code);
    } else {
        printf("cannot be asked for by its code\n");
    }
}

/* Prints the children of an area, and those of each area among them. */
static void show(int depth, uint16_t parent) {
    struct packet packet = {.more = true};
    for (uint32_t number = 0; packet.more; number++) {
        if (read_children(parent, number, &packet) != 0 || read_blocks(&packet) != 0) {
            printf("the card tells no more\n");
            return;
        }
        printf("%*spacket %u of %04X%s\n", 4 * depth, "", (unsigned)number, (unsigned)parent,
               packet.more ? ", more follow" : "");
        for (size_t i = 0; i < packet.area_count; i++) {
            show_area(depth, &packet, i);
        }
        for (size_t i = 0; i < packet.service_count; i++) {
            printf("%*sservice %04X: %u blocks\n", 4 * depth + 2, "", (unsigned)packet.services[i],
                   (unsigned)packet.assigned[packet.area_count + i]);
        }
    }
}

int main(void) {
    struct packet packet = {.more = false};
    uint8_t message[] = {0, 0, 1, 0x49, 0x10, 0};
    uint16_t codes[ULUVOLI_ASKED_MOST + 1] = {0};
    size_t bytes = 0, nodes = 0;
    tell("a card with 25 nodes", build());
    named(0x0000, 0xfffe);
    show(0, 0x0000);
    tell("the children of a service", read_children(0x1049, 0, &packet));
    tell("a third packet", read_children(0x0000, 2, &packet));
    tell("33 nodes at once", uluvoli_block_information(card, sizeof card, arena, sizeof arena, codes,
                                                       ULUVOLI_ASKED_MOST + 1, message, sizeof message, &bytes));
    tell("a packet with a byte too many",
         uluvoli_read_code_list(message, sizeof message, packet.areas, 2 * ULUVOLI_PACKET_MOST, packet.services,
                                ULUVOLI_PACKET_MOST, &packet.area_count, &packet.service_count, &packet.more));
    tell("blocks of a node that are cut off",
         uluvoli_read_block_information(message + 2, 4, packet.assigned, ULUVOLI_ASKED_MOST, packet.unused,
                                        ULUVOLI_ASKED_MOST, &nodes));
    return 0;
}
