/*
 * Uluvoli: a soft FeliCa card, as a static library.
 *
 * The card is a value of ULUVOLI_CARD_SIZE bytes that the caller keeps; the blocks of its services lie in an arena
 * that the caller lends. Nothing else is kept between calls: no allocation, no global, no lock. Card and arena belong
 * together: save and restore both, or neither.
 *
 * What every call returns
 *   0                      done; of a read, a write or a board that is the status pair 00 00
 *   cause << 24 | SF1 << 8 | SF2
 *                          another status pair, of a read, a write or a board (uluvoli_pair), and which A5 it was
 *                          (uluvoli_cause)
 *   number << 16           a refusal (uluvoli_refusal): it has no status pair
 * uluvoli_end_of says which of the three it is. A refusal leaves every byte that the caller lent as it was; a pair
 * other than 00 00 leaves card, arena and output as they were. A number or flag that a call answers is written
 * through its last pointers, only where it returns 0. Each call below lists the refusals that it can give: the first
 * that holds is given.
 *
 * What the library checks, and what it cannot
 *   Every call on a card checks its bytes: a length other than ULUVOLI_CARD_SIZE, bytes that no card is written as,
 *   and cards that no accepted calls build, are refusal 8. Cards saved before, of 1,290 bytes, are refused with 8 too:
 *   build them anew. Bytes that are no part of a card (records not taken, fields that a node of its kind has not) are
 *   written as zero and never read. An arena, a staging or an output that is too short is refused too, and no call
 *   reads or writes past the lengths given to it.
 *   It cannot check the pointers: each must be valid for as many elements as the length after it says, aligned for
 *   its type, and not null, even where the length is 0. A part that a call writes may overlap no other part of that
 *   call. Two calls may run at once only if neither writes what the other is lent. A call takes at most ULUVOLI_STACK
 *   bytes of stack, on any card; that is measured, not proved, and what a signal handler takes on the same stack
 *   comes on top.
 *   All or nothing holds between calls. A process that is killed, or loses power, within a call leaves card and arena
 *   as far as they were written by then: whoever has to be safe from that works on a copy, and stores card and arena
 *   together once the call has returned.
 *
 * What a client has to know of a card
 *   Codes. The upper ten bits of a service's code are its number; the services of a number share one store and are of
 *   one kind. The lower six bits are its attribute. Bit 0 is the key bit: an even code needs a key, so that open
 *   requests are A5 there (cause 1), and an odd one is key-free. An area's code has no such bit.
 *     08, 09  random, read/write    0C, 0D  cyclic, read/write    10, 11  purse, direct      14, 15  purse, decrement
 *     0A, 0B  random, read-only     0E, 0F  cyclic, read-only     12, 13  purse, cashback    16, 17  purse, read-only
 *   Depths. The root has depth 0 and is there from the start; what lies right under it has depth 1; 8 is the last.
 *   Versions. A node's `version` is its key version: it is kept for uluvoli_key_version and does nothing else. That
 *   of a card is its system's, which the code FFFF asks for; the root's is 0000.
 *   Random stores. The data of an element become the block. Of two elements for one block the later one stays.
 *   Rings. Block 0 of a cyclic store is the newest. Every element of a write names block 0; the elements of a number
 *   that stand together are a run, which goes in front in its order, so that its first is block 0 afterwards and the
 *   oldest blocks are lost. A run equal to what the store begins with does not turn it. A read may name any block.
 *   Purses. A block has three numbers, low byte first: the purse in bytes 0 to 3, the cashback in 4 to 7, the
 *   execution id in 12 to 15. In data, bytes 0 to 3 are the amount. Purse, cashback and amount are signed just where
 *   the code that the element names has a limit (the first service of that code), and then the purse stays within it.
 *   All of a new store is zero: uluvoli_set_block fills a purse. A decrement takes the amount away and keeps it as
 *   the cashback. Access mode 1, on a cashback service alone, gives back: the amount, which may not be above the
 *   stored cashback, is added to the purse, and the cashback falls to 0. In mode 0 such a service decrements. Both
 *   keep bytes 8 to 11 and store the id; under the stored id they change nothing and are 00 00. A direct write stores
 *   all 16 bytes and can raise neither purse nor cashback. Reads have mode 0 alone.
 *   Limits. uluvoli_set_limit takes the upper bound first. A lower one above it is accepted; no purse is within then.
 *   Data and staging. Data beyond 16 bytes an element are passed over. A write zeroes the staging that it needs, 16
 *   bytes for each block in use, and leaves what is beyond it. A staging as long as the arena always does.
 *   None. A request that counts 0 elements, with a list of 0 bytes, is 00 00 whatever codes it has, unless it is
 *   refused. A service may have 0 blocks. uluvoli_total of FFFF is 0: the whole card's is that of 0000.
 *   Machine. The library is for x86-64 alone.
 */
#ifndef ULUVOLI_H
#define ULUVOLI_H

#include <stdbool.h>
#include <stddef.h>
#include <stdint.h>

#ifdef __cplusplus
extern "C" {
#endif

/* Sizes. */
enum {
    ULUVOLI_CARD_SIZE = 1376,        /* bytes of a card */
    ULUVOLI_BLOCK_SIZE = 16,         /* bytes of a block */
    ULUVOLI_ARENA_MOST = 65536,      /* bytes of an arena that can be used: 4,096 blocks */
    ULUVOLI_NODES_MOST = 64,         /* areas and services of a card, its root among them */
    ULUVOLI_DIRECTORY_MOST = 128,    /* numbers of a directory: a pair for each node */
    ULUVOLI_ELEMENTS_MOST = 512,     /* elements of a request */
    ULUVOLI_CODES_MOST = 16,         /* service codes of a request */
    ULUVOLI_LANES = 8,               /* lanes of a board */
    ULUVOLI_PACKET_MOST = 16,        /* areas and services of a packet, together */
    ULUVOLI_CODE_LIST_MOST = 67,     /* bytes of a code list */
    ULUVOLI_ASKED_MOST = 32,         /* nodes of block information */
    ULUVOLI_INFORMATION_MOST = 129,  /* bytes of block information */
    ULUVOLI_STACK = 16384,           /* bytes of stack that a call takes, at most */
    ULUVOLI_SYSTEM = 0xffff          /* the code that names the system */
};

/* Refusals, as uluvoli_refusal gives them. */
enum {
    ULUVOLI_TOO_MANY_ELEMENTS = 1,           /* over 512 elements */
    ULUVOLI_TOO_MANY_CODES = 2,              /* over 16 service codes */
    ULUVOLI_LIST_LENGTH = 3,                 /* the list ends before its elements do, or runs on */
    ULUVOLI_SHORT_STAGING = 4,               /* the staging is shorter than the blocks in use */
    ULUVOLI_SHORT_OUTPUT = 5,                /* what is lent for an answer is too short */
    ULUVOLI_SHORT_ARENA = 7,                 /* the arena is shorter than the blocks in use */
    ULUVOLI_NOT_BUILT = 8,                   /* bytes that are no card, or a card that no calls build */
    ULUVOLI_INVALID_AREA_RANGE = 11,         /* an area ends before it begins */
    ULUVOLI_INVALID_ROOT_AREA_RANGE = 12,    /* area 0000 ends elsewhere than at FFFE */
    ULUVOLI_NODE_CODE_OUT_OF_RANGE = 13,     /* a code or an end over FFFE */
    ULUVOLI_INVALID_AREA_ATTRIBUTE = 14,     /* an area's low six bits are neither 0 nor 1 */
    ULUVOLI_CHILD_AREA_FORBIDDEN = 15,       /* the parent's low six bits are not 0 */
    ULUVOLI_UNDEFINED_ATTRIBUTE = 16,        /* a service's attribute is undefined */
    ULUVOLI_SERVICE_OUT_OF_RANGE = 17,       /* a service outside its parent */
    ULUVOLI_AREA_OUT_OF_RANGE = 18,          /* an area outside its parent */
    ULUVOLI_OVERLAP_KIND_MISMATCH = 19,      /* the number's store is of another kind */
    ULUVOLI_TABLE_FULL = 20,                 /* all 64 nodes are there */
    ULUVOLI_NO_PARENT = 21,                  /* no parent at that depth, or a depth of 0 or over 8 */
    ULUVOLI_NO_ROOM = 22,                    /* too few unused blocks in the arena */
    ULUVOLI_NO_SUCH_BLOCK = 23,              /* no such service, or no block of that number */
    ULUVOLI_COUNTS_DIFFER = 24,              /* the store has another block count, and the card does not join */
    ULUVOLI_NOT_A_SERVICE = 28,              /* a limit for a node that is no service */
    ULUVOLI_NOT_A_BLOCK = 30,                /* a block to set that is not sixteen bytes */
    ULUVOLI_RACES_DIFFER = 40,               /* two filled lanes of a board are of different races */
    ULUVOLI_WRONG_LANE = 41,                 /* a filled block with another lane's byte */
    ULUVOLI_BAD_CREW = 42,                   /* a crew byte that is not 20h to 7Eh */
    ULUVOLI_TAIL_NOT_ZERO = 43,              /* a filled block whose last byte is not zero */
    ULUVOLI_PARENT_NO_AREA = 44,             /* the parent of a code list is no area */
    ULUVOLI_PACKET_PAST_END = 45,            /* no such packet */
    ULUVOLI_TOO_MANY_NODES = 46,             /* over 32 nodes are asked */
    ULUVOLI_NOT_A_MESSAGE = 47               /* bytes that are no message */
};

/* Status flag 2. Status flag 1 is the place of the element that failed, 1 to 254; FF is no place: it is told for the
 * 255th element, for all after it, and for short data. */
enum {
    ULUVOLI_SF2_OUTSIDE_WORD = 0x01,         /* a purse without limits would leave 0 to 4,294,967,295 */
    ULUVOLI_SF2_CASHBACK_EXCEEDS = 0x02,     /* a cashback above the stored one */
    ULUVOLI_SF2_OUTSIDE_LIMITS = 0x03,       /* a purse would leave its limits */
    ULUVOLI_SF2_LIST_INDEX = 0xa3,           /* the element's index is beyond the codes */
    ULUVOLI_SF2_ATTRIBUTE = 0xa4,            /* an undefined attribute, or the system's code */
    ULUVOLI_SF2_NOT_ALLOWED = 0xa5,          /* a key is needed, read-only, no cashback, a rule of the kind */
    ULUVOLI_SF2_NO_SERVICE = 0xa6,           /* no such service */
    ULUVOLI_SF2_ACCESS_MODE = 0xa7,          /* an access mode that the request does not have */
    ULUVOLI_SF2_BLOCK_NUMBER = 0xa8,         /* the number is not below the store's count */
    ULUVOLI_SF2_SHORT_DATA = 0xac,           /* with status flag 1 FF: fewer than 16 bytes of data an element */
    ULUVOLI_SF2_CYCLIC_TOO_LONG = 0xaf       /* a cyclic run longer than the store */
};

/* Which A5 it was (ULUVOLI_SF2_NOT_ALLOWED), as uluvoli_cause gives it: the first that holds. */
enum {
    ULUVOLI_CAUSE_KEY_NEEDED = 1,            /* an open request on a service that needs a key */
    ULUVOLI_CAUSE_READ_ONLY = 2,             /* a write to a read-only service */
    ULUVOLI_CAUSE_NO_CASHBACK = 3,           /* access mode 1 on a service without cashback */
    ULUVOLI_CAUSE_CYCLIC_BLOCK = 4,          /* a cyclic write that does not name block 0 */
    ULUVOLI_CAUSE_PURSE_RAISED = 5,          /* a direct write that would raise the purse */
    ULUVOLI_CAUSE_CASHBACK_RAISED = 6,       /* a direct write that would raise the cashback */
    ULUVOLI_CAUSE_SUM_TOO_LARGE = 7          /* a direct write: its cashback and the stored purse exceed FFFFFFFF */
};

/* How a call ended. */
enum uluvoli_end {
    ULUVOLI_DONE,      /* done */
    ULUVOLI_PAIR,      /* a status pair other than 00 00 */
    ULUVOLI_REFUSED    /* a refusal */
};

/* The number of a refusal; 0 for every other answer. */
static inline uint32_t uluvoli_refusal(uint32_t answer) { return answer >> 16 & 0xff; }

/* How the call that gave this answer ended. */
static inline enum uluvoli_end uluvoli_end_of(uint32_t answer) {
    return answer == 0 ? ULUVOLI_DONE : uluvoli_refusal(answer) == 0 ? ULUVOLI_PAIR : ULUVOLI_REFUSED;
}

/* Which A5 a read or a write was told, 1 to 7; 0 for every other answer. */
static inline uint32_t uluvoli_cause(uint32_t answer) { return answer >> 24; }

/* Gives the status pair of a read, a write or a board, 00 00 too, and true. A refusal has none: false, and the flags
 * stay. */
static inline bool uluvoli_pair(uint32_t answer, uint8_t *sf1, uint8_t *sf2) {
    if (uluvoli_end_of(answer) == ULUVOLI_REFUSED) {
        return false;
    }
    *sf1 = (uint8_t)(answer >> 8);
    *sf2 = (uint8_t)(answer & 0xff);
    return true;
}

/* ---- building: uluvoli_set_block apart, each call writes the card's bytes anew where it is done */

/* Writes a card with nothing but its root area, 0000 to FFFE, whatever the bytes were. On a card that joins, a service
 * may join a store of another block count than it names; on any other that is 24. Refusals: 8, for the length. */
uint32_t uluvoli_new(uint8_t *card, size_t card_len, uint16_t system, uint16_t version, bool join);

/* Adds an area from `code` to `end` under the latest node of depth - 1. Refusals: 8, 20, 21, 13, 12, 14, 11, 15, 18. */
uint32_t uluvoli_add_area(uint8_t *card, size_t card_len, uint32_t depth, uint16_t code, uint16_t end,
                          uint16_t version);

/* Adds a service. The first of its number (code / 64) makes a store of `blocks` zeroed blocks in the arena; a later one
 * joins that store and has to name its count, but on a card that joins its `blocks` is ignored. Refusals: 8, 7, 20, 21,
 * 13, 16, 17, 19, 24, 22. */
uint32_t uluvoli_add_service(uint8_t *card, size_t card_len, uint8_t *arena, size_t arena_len, uint32_t depth,
                             uint16_t code, uint32_t blocks, uint16_t version);

/* Sets the purse limits of the node added last, which must be a service. Refusals: 8, 28. */
uint32_t uluvoli_set_limit(uint8_t *card, size_t card_len, int32_t upper, int32_t lower, uint8_t generation);

/* Sets a stored block, whatever its service's kind, to the ULUVOLI_BLOCK_SIZE bytes at `block`. Refusals: 8, 7, 23,
 * 30 (for `block_len`). */
uint32_t uluvoli_set_block(const uint8_t *card, size_t card_len, uint8_t *arena, size_t arena_len, uint16_t code,
                           uint32_t number, const uint8_t *block, size_t block_len);

/* ---- requests: `open` is true for an open request, which no service that needs a key serves; false in a session.
 * `count` is the number of elements in `list`: each two bytes (80h + 16 * mode + index, number) or three (16 * mode +
 * index, number low byte first), index into `codes`. */

/* Reads the elements' blocks to the front of `out`, 16 bytes for each element. Refusals: 8, 1, 2, 3, 7, 5. */
uint32_t uluvoli_read(const uint8_t *card, size_t card_len, const uint8_t *arena, size_t arena_len, uint8_t *out,
                      size_t out_len, bool open, const uint16_t *codes, size_t codes_len, uint32_t count,
                      const uint8_t *list, size_t list_len);

/* Writes `data`, 16 bytes for each element, to the elements' blocks: all of it or nothing. `staging` holds 16 bytes for
 * each block in use; they are zero after every status pair, 00 00 too. Refusals: 8, 1, 2, 3, 7, 4. */
uint32_t uluvoli_write(const uint8_t *card, size_t card_len, uint8_t *arena, size_t arena_len, uint8_t *staging,
                       size_t staging_len, bool open, const uint16_t *codes, size_t codes_len, uint32_t count,
                       const uint8_t *list, size_t list_len, const uint8_t *data, size_t data_len);

/* A lane of a board, in 16 bytes. Of an empty lane all are zero. */
typedef struct uluvoli_lane {
    uint8_t filled;     /* 1, or 0 for an empty lane */
    uint8_t length;     /* how many bytes of `crew` are the crew's code, without trailing spaces */
    uint16_t race;      /* the race's number */
    char crew[12];      /* the crew's code, 20h to 7Eh, and zeros; no zero follows twelve of them */
} uluvoli_lane;

/* Reads the first eight blocks of the service `code`, one request in a session, and writes the board that they make to
 * the front of `lanes`: ULUVOLI_LANES records of uluvoli_lane, lane 1 first. `lanes_len` counts bytes. Refusals: 8, 7,
 * 5 (for `lanes_len`); a status pair; then 41, 42, 43 lane by lane, and 40. */
uint32_t uluvoli_board(const uint8_t *card, size_t card_len, const uint8_t *arena, size_t arena_len, uint16_t code,
                       uint8_t *lanes, size_t lanes_len);

/* ---- questions */

/* Writes the tree to the front of `out`, in order, a pair for each node: an area's code and end, a service's code and
 * FFFF. `nodes` is how many pairs that is. Refusals: 8, 5. */
uint32_t uluvoli_directory(const uint8_t *card, size_t card_len, uint16_t *out, size_t out_len, size_t *nodes);

/* How many blocks a service's store has, or all services under an area, a shared store counted for each and 65,535 at
 * most; 0 for an unknown code. Refusals: 8. */
uint32_t uluvoli_total(const uint8_t *card, size_t card_len, uint16_t code, uint16_t *blocks);

/* The key version of the system (FFFF), a service or an area; FFFF for an unknown code. Refusals: 8. */
uint32_t uluvoli_key_version(const uint8_t *card, size_t card_len, uint16_t code, uint16_t *version);

/* Whether an area list of a mutual authentication is well formed: first an area, then areas or FFFF. Refusals: 8. */
uint32_t uluvoli_area_list(const uint8_t *card, size_t card_len, const uint16_t *areas, size_t areas_len,
                           bool *well_formed);

/* Whether a service list of a mutual authentication is well formed: each code is on the card or FFFF, at least one
 * needs a key (areas and FFFF do), and none that does comes after one that does not. Refusals: 8. */
uint32_t uluvoli_service_list(const uint8_t *card, size_t card_len, const uint16_t *services, size_t services_len,
                              bool *well_formed);

/* Where the sixteen bytes of a stored block begin in the arena. Refusals: 8, 7, 23. */
uint32_t uluvoli_stored_block(const uint8_t *card, size_t card_len, const uint8_t *arena, size_t arena_len,
                              uint16_t code, uint32_t number, size_t *offset);

/* ---- messages: what a card has, for a program that has no card. Numbers of 16 bits go low byte first. `bytes` is how
 * many bytes a message has; those behind them stay as they were. */

/* Writes a packet of the direct children of the area `parent` to the front of `out` as a code list: a flag, 1 where
 * more packets follow; how many areas, code and end of each; how many services, their codes. Packet p, from 0 on, holds
 * children 16 p to 16 p + 15 in tree order, areas and services counted together; packet 0 always exists. The first area
 * of a code answers: one inside an area of its own code cannot be asked for, and a walk must not try.
 * ULUVOLI_CODE_LIST_MOST bytes are room for any. Refusals: 8, 44, 45, 5. */
uint32_t uluvoli_code_list(const uint8_t *card, size_t card_len, uint16_t parent, uint32_t packet, uint8_t *out,
                           size_t out_len, size_t *bytes);

/* Writes block information of the nodes `codes` to the front of `out`: how many nodes, the block total of each (as
 * uluvoli_total has it), and how many blocks are free for each: all unused ones of the arena for an area, 0 otherwise.
 * ULUVOLI_INFORMATION_MOST bytes are room for any. Refusals: 8, 7, 46, 5. */
uint32_t uluvoli_block_information(const uint8_t *card, size_t card_len, const uint8_t *arena, size_t arena_len,
                                   const uint16_t *codes, size_t codes_len, uint8_t *out, size_t out_len,
                                   size_t *bytes);

/* Reads a code list: code and end of each area to the front of `areas`, two numbers an area, and the services' codes to
 * the front of `services`. 2 * ULUVOLI_PACKET_MOST and ULUVOLI_PACKET_MOST numbers are room for any. The codes are not
 * judged. Refusals: 47, 5. */
uint32_t uluvoli_read_code_list(const uint8_t *message, size_t message_len, uint16_t *areas, size_t areas_len,
                                uint16_t *services, size_t services_len, size_t *area_count, size_t *service_count,
                                bool *more);

/* Reads block information: the assigned counts to the front of `assigned`, the free ones to the front of `free_blocks`,
 * one for each node. ULUVOLI_ASKED_MOST numbers are room for any. Refusals: 47, 5. */
uint32_t uluvoli_read_block_information(const uint8_t *message, size_t message_len, uint16_t *assigned,
                                        size_t assigned_len, uint16_t *free_blocks, size_t free_blocks_len,
                                        size_t *nodes);

#ifdef __cplusplus
}
#endif

#endif
