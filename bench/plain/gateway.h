/* A stand-in for an RFID gateway, by document 01: sixteen readers (nodes 1 to 16) and the gateway
   itself (node 32). Written from the customer's papers alone, as the yardstick of the proved one. */
#ifndef PLAIN_GATEWAY_H
#define PLAIN_GATEWAY_H

#include <stdbool.h>
#include <stddef.h>
#include <stdint.h>

enum {
    READERS = 16,
    GATEWAY_NODE = 32,
    NODES = READERS + 1,    /* the lists: one to each reader, the last to the gateway */
    ID_BYTES = 8,
    PLAQUE_MAX = 1024,
    NAME_MAX = 64,
    DATA_MAX = 255,
    ANSWER_MAX = 134,       /* words of the longest answer: 6 + half of 255, rounded up */
    COLLECT_MAX = ANSWER_MAX + 1,
    SHARE = 134,            /* "Its charge is the larger of 134 and its held words" */
    HELD_MAX = 804,
    STORE_WORDS = 4096
};

/* What a call returns: 0, QUIET, or the refusal number of document 01. */
enum {
    DONE = 0,
    QUIET = -1,
    NO_SUCH_STAMP = 3,
    BAD_WORD_COUNT = 4,
    BAD_FIXED_BYTE = 5,
    NODES_DIFFER = 6,
    BAD_NODE = 7,
    BAD_COMMAND = 8,
    BAD_LENGTH = 9,
    OUT_OF_LIMITS = 10,
    NOT_ZERO = 11,
    PAST_PLAQUE = 12,
    NO_ROOM = 13,
    NOTHING_THERE = 14,
    BAD_NUMBER = 15,
    OUTPUT_TOO_SHORT = 16
};

enum form { REGISTER, FRAMED };

struct stamp {
    uint8_t month, day, hour, minute, second;
};

struct reader {
    bool there;                     /* a plaque is in the field */
    uint16_t length;
    uint8_t id[ID_BYTES];
    bool reading;                   /* continuous reading is on */
    uint8_t delay, size;
    uint16_t start;
    bool reported;                  /* the last report, for repeats */
    uint8_t reported_id[ID_BYTES];
    uint32_t reported_clock;
    uint8_t plaque[PLAQUE_MAX];
};

/* A node's pending answers in register form, oldest first, in a ring. Each starts with its Overall
   Length. No node holds more than 804 words, so the ring has room for whatever document 01 lets in. */
struct list {
    uint16_t ring[HELD_MAX];
    uint16_t first;                 /* where the oldest answer starts */
    uint16_t held;
    uint16_t handover;
    uint8_t count;
};

struct gateway {
    struct reader readers[READERS];
    struct list lists[NODES];
    unsigned charges;               /* the 17 charges added up */
    uint8_t name_length;
    uint8_t name[NAME_MAX];
};

void gateway_fresh(struct gateway *g);
int gateway_command(struct gateway *g, const struct stamp *when, enum form form,
                    const uint16_t *words, size_t count);
int gateway_check(struct gateway *g, unsigned node, const struct stamp *when, uint32_t clock);
int gateway_arrive(struct gateway *g, unsigned node, const uint8_t *id, size_t id_length,
                   const uint8_t *bytes, size_t length);
int gateway_leave(struct gateway *g, unsigned node);
int gateway_collect(const struct gateway *g, unsigned node, enum form form, uint16_t *out,
                    size_t room, size_t *words, unsigned *number);
int gateway_acknowledge(struct gateway *g, unsigned node, unsigned number);

/* Words of the answer store as document 02, E8, lays it out. */
void gateway_store(const struct gateway *g, size_t first, size_t count, uint16_t *out);

/* The place of a node's list, or -1 for a node that is not allowed. */
int gateway_list_of(unsigned node);

#endif
