#include "gateway.h"

#include <string.h>

enum command {
    FILL = 0x04,
    READ = 0x05,
    WRITE = 0x06,
    READ_ID = 0x07,
    SEARCH = 0x08,
    CONTINUOUS = 0x0D,
    GET_NAME = 0x11,
    SET_NAME = 0x21,
    RESET_READER = 0x54,
    INITIALISE = 0x60,
    RESET_GATEWAY = 0x61,
    CLEAR = 0x79
};

enum {
    HEAD = 6,                       /* words of a packet without data, word 00 not counted */
    ANSWERED = 0xAA00,
    READER_ERROR = 0xFFFF,          /* "the LSB of word 02 is FF for a reader's error" */
    TAG_NOT_FOUND = 0x07
};

/* A command that has been read: words 02 to 06 and its data words. */
struct packet {
    uint8_t command, node;
    uint16_t timeout, start, size;
    const uint16_t *data;
};

static unsigned high(uint16_t word) { return word >> 8; }
static unsigned low(uint16_t word) { return word & 0xFF; }
static uint16_t pair(unsigned msb, unsigned lsb) { return (uint16_t)(msb << 8 | lsb); }
static size_t half_up(size_t bytes) { return (bytes + 1) / 2; }
static bool is_reader(unsigned node) { return node >= 1 && node <= READERS; }

int gateway_list_of(unsigned node)
{
    if (is_reader(node))
        return (int)node - 1;
    return node == GATEWAY_NODE ? READERS : -1;
}

/* "A fresh state has no plaque, no pending answer, no continuous reading, an empty name, instance
   counts 0, handover numbers 1." Plaque memory starts as all 0 here. */
void gateway_fresh(struct gateway *g)
{
    memset(g, 0, sizeof *g);
    for (int i = 0; i < NODES; i++)
        g->lists[i].handover = 1;
    g->charges = NODES * SHARE;
}

/* "days as in the calendar, 29 in February, hour to 23, minute and second to 59" */
static bool is_stamp(const struct stamp *s)
{
    static const uint8_t days[13] = {0, 31, 29, 31, 30, 31, 30, 31, 31, 30, 31, 30, 31};

    return s->month >= 1 && s->month <= 12 && s->day >= 1 && s->day <= days[s->month]
        && s->hour <= 23 && s->minute <= 59 && s->second <= 59;
}

/* ---- Reading a command packet: 4 to 11, the lowest number that applies */

static bool at_readers(uint8_t command)
{
    return (command >= FILL && command <= SEARCH) || command == CONTINUOUS
        || command == RESET_READER;
}

static bool at_gateway(uint8_t command)
{
    return command == GET_NAME || command == SET_NAME || command == INITIALISE
        || command == RESET_GATEWAY || command == CLEAR;
}

/* The table's Overall Length. A size outside its limits asks for a length all the same: 9 is below 10. */
static size_t length_asked(const struct packet *p)
{
    switch (p->command) {
    case FILL: return HEAD + 1;
    case WRITE:
    case SET_NAME: return HEAD + half_up(p->size);
    default: return HEAD;
    }
}

/* "04 to 08 have timeout 1 to 65,534." */
static bool in_time(const struct packet *p)
{
    return p->timeout >= 1 && p->timeout <= 65534;
}

static bool within_limits(const struct packet *p)
{
    switch (p->command) {
    case FILL: return in_time(p) && p->size >= 1 && p->size <= PLAQUE_MAX;
    case READ:
    case WRITE: return in_time(p) && p->size >= 1 && p->size <= DATA_MAX;
    case READ_ID:
    case SEARCH: return in_time(p);
    case CONTINUOUS:
        /* "size 0 stops, and start and delay must then be 0 (10)" */
        if (p->size == 0)
            return p->start == 0 && p->timeout == 0;
        return p->timeout <= 60 && p->size <= DATA_MAX && p->start + p->size <= PLAQUE_MAX;
    case SET_NAME: return p->size >= 1 && p->size <= NAME_MAX;
    default: return true;
    }
}

/* The byte after an odd last data byte. */
static bool padded(const struct packet *p)
{
    return p->size % 2 == 0 || low(p->data[p->size / 2]) == 0;
}

/* "Words and bytes that a command doesn't use are 0." */
static bool unused_are_zero(const struct packet *p)
{
    switch (p->command) {
    case FILL: return low(p->data[0]) == 0;
    case READ:
    case CONTINUOUS: return true;
    case WRITE: return padded(p);
    case READ_ID:
    case SEARCH: return p->start == 0 && p->size == 0;
    case SET_NAME: return p->timeout == 0 && p->start == 0 && padded(p);
    default: return p->timeout == 0 && p->start == 0 && p->size == 0;
    }
}

static int read_packet(enum form form, const uint16_t *words, size_t count, struct packet *p)
{
    const uint16_t *w = words;          /* w[0] is word 01, Overall Length */
    size_t length = count;

    if (form == FRAMED && length > 0)
        w++, length--;
    if (length < HEAD || w[0] != length)
        return BAD_WORD_COUNT;
    if ((form == FRAMED && high(words[0]) != 0xFF) || high(w[1]) != 0xAA || high(w[2]) != 0)
        return BAD_FIXED_BYTE;
    if (form == FRAMED && low(words[0]) != low(w[2]))
        return NODES_DIFFER;
    *p = (struct packet){(uint8_t)low(w[1]), (uint8_t)low(w[2]), w[3], w[4], w[5], w + HEAD};
    if (gateway_list_of(p->node) < 0)
        return BAD_NODE;
    if (is_reader(p->node) ? !at_readers(p->command) : !at_gateway(p->command))
        return BAD_COMMAND;
    if (length != length_asked(p))
        return BAD_LENGTH;
    if (!within_limits(p))
        return OUT_OF_LIMITS;
    return unused_are_zero(p) ? DONE : NOT_ZERO;
}

/* ---- Pending answers and room */

static unsigned charge(unsigned held) { return held > SHARE ? held : SHARE; }

static void set_held(struct gateway *g, struct list *l, unsigned held)
{
    g->charges += charge(held);
    g->charges -= charge(l->held);
    l->held = (uint16_t)held;
}

/* "An answer has room exactly when afterwards its node holds at most 804 and the 17 charges add to
   at most 4,096." */
static bool has_room(const struct gateway *g, const struct list *l, size_t words)
{
    unsigned held = l->held + (unsigned)words;

    return held <= HELD_MAX && g->charges - charge(l->held) + charge(held) <= STORE_WORDS;
}

/* "65,535 is followed by 1" */
static void move_on(struct list *l)
{
    l->handover = l->handover == 65535 ? 1 : l->handover + 1;
}

static void push(struct gateway *g, struct list *l, const uint16_t *words, size_t count)
{
    size_t at = (l->first + (size_t)l->held) % HELD_MAX;
    size_t until_end = HELD_MAX - at < count ? HELD_MAX - at : count;

    memcpy(l->ring + at, words, until_end * sizeof *words);
    memcpy(l->ring, words + until_end, (count - until_end) * sizeof *words);
    set_held(g, l, l->held + (unsigned)count);
}

static void copy_oldest(const struct list *l, uint16_t *out)
{
    size_t count = l->ring[l->first];
    size_t until_end = (size_t)HELD_MAX - l->first < count ? (size_t)HELD_MAX - l->first : count;

    memcpy(out, l->ring + l->first, until_end * sizeof *out);
    memcpy(out + until_end, l->ring, (count - until_end) * sizeof *out);
}

/* Queues a response, or says that it has no room and changes nothing. So a caller answers first and
   takes effect after that. */
static int answer(struct gateway *g, unsigned node, const struct stamp *when, unsigned echo,
                  const uint8_t *data, size_t length)
{
    struct list *l = &g->lists[gateway_list_of(node)];
    size_t count = HEAD + half_up(length);
    uint16_t words[ANSWER_MAX];

    if (!has_room(g, l, count))
        return NO_ROOM;
    words[0] = (uint16_t)count;
    words[1] = (uint16_t)echo;
    words[2] = pair(l->count, node);
    words[3] = pair(when->month, when->day);
    words[4] = pair(when->hour, when->minute);
    words[5] = pair(when->second, (unsigned)length);
    for (size_t i = 0; i < length / 2; i++)
        words[HEAD + i] = pair(data[2 * i], data[2 * i + 1]);
    if (length % 2 == 1)
        words[count - 1] = pair(data[length - 1], 0);
    push(g, l, words, count);
    l->count++;                         /* 255 is followed by 0 */
    return DONE;
}

/* ---- Commands */

static void take_data(uint8_t *bytes, const struct packet *p)
{
    for (size_t i = 0; i < p->size; i++)
        bytes[i] = (uint8_t)(i % 2 == 0 ? high(p->data[i / 2]) : low(p->data[i / 2]));
}

/* 04 to 08: "with no plaque in the field make the error response 07, Tag Not Found. With a plaque,
   04 to 06 need start + size at most the plaque's length." */
static int obey_at_plaque(struct gateway *g, const struct stamp *when, const struct packet *p)
{
    struct reader *r = &g->readers[p->node - 1];
    const uint8_t code = TAG_NOT_FOUND;
    unsigned echo = ANSWERED | p->command;
    int result;

    if (!r->there)
        return answer(g, p->node, when, READER_ERROR, &code, 1);
    if (p->command <= WRITE && p->start + p->size > r->length)
        return PAST_PLAQUE;
    if (p->command == READ)
        return answer(g, p->node, when, echo, r->plaque + p->start, p->size);
    if (p->command == READ_ID)
        return answer(g, p->node, when, echo, r->id, ID_BYTES);
    result = answer(g, p->node, when, echo, NULL, 0);
    if (result == DONE && p->command == FILL)
        memset(r->plaque + p->start, (int)high(p->data[0]), p->size);
    if (result == DONE && p->command == WRITE)
        take_data(r->plaque + p->start, p);
    return result;
}

/* 0D and 54: "starting or stopping forgets the last report". A stop has delay, start and size 0. */
static int obey_reading(struct gateway *g, const struct stamp *when, const struct packet *p)
{
    struct reader *r = &g->readers[p->node - 1];

    if (answer(g, p->node, when, ANSWERED | p->command, NULL, 0) != DONE)
        return NO_ROOM;
    r->reading = p->size > 0;
    r->delay = (uint8_t)p->timeout;
    r->start = p->start;
    r->size = (uint8_t)p->size;
    r->reported = false;
    return DONE;
}

/* "61 and 79 move it on once at each node whose list was not empty" */
static void empty_lists(struct gateway *g, bool counts_too)
{
    for (struct list *l = g->lists; l < g->lists + NODES; l++) {
        if (l->held > 0)
            move_on(l);
        set_held(g, l, 0);
        if (counts_too)
            l->count = 0;
    }
}

static int obey_at_gateway(struct gateway *g, const struct stamp *when, const struct packet *p)
{
    unsigned echo = ANSWERED | p->command;

    if (p->command == GET_NAME)
        return answer(g, p->node, when, echo, g->name, g->name_length);
    /* "their own answer is made after the effect", so for these two there is always room */
    if (p->command == RESET_GATEWAY || p->command == CLEAR)
        empty_lists(g, p->command == RESET_GATEWAY);
    if (answer(g, p->node, when, echo, NULL, 0) != DONE)
        return NO_ROOM;
    if (p->command == SET_NAME)
        take_data(g->name, p);
    if (p->command == SET_NAME || p->command == INITIALISE)
        g->name_length = (uint8_t)p->size;      /* 0 in 60 */
    return DONE;
}

int gateway_command(struct gateway *g, const struct stamp *when, enum form form,
                    const uint16_t *words, size_t count)
{
    struct packet p;
    int result;

    if (!is_stamp(when))
        return NO_SUCH_STAMP;
    result = read_packet(form, words, count, &p);
    if (result != DONE)
        return result;
    if (p.node == GATEWAY_NODE)
        return obey_at_gateway(g, when, &p);
    if (p.command <= SEARCH)
        return obey_at_plaque(g, when, &p);
    return obey_reading(g, when, &p);
}

/* ---- The other calls */

/* "A repeat has the ID last reported, and clock minus the clock at that report, modulo 2^32, is
   below 1,000 times the delay." */
static bool is_repeat(const struct reader *r, uint32_t clock)
{
    return r->reported && memcmp(r->id, r->reported_id, ID_BYTES) == 0
        && (uint32_t)(clock - r->reported_clock) < 1000u * r->delay;
}

int gateway_check(struct gateway *g, unsigned node, const struct stamp *when, uint32_t clock)
{
    struct reader *r;

    if (!is_stamp(when))
        return NO_SUCH_STAMP;
    if (!is_reader(node))
        return BAD_NODE;
    r = &g->readers[node - 1];
    if (!r->reading || !r->there || is_repeat(r, clock))
        return QUIET;
    if (r->start + r->size > r->length)
        return PAST_PLAQUE;
    if (answer(g, node, when, ANSWERED | CONTINUOUS, r->plaque + r->start, r->size) != DONE)
        return NO_ROOM;
    r->reported = true;
    memcpy(r->reported_id, r->id, ID_BYTES);
    r->reported_clock = clock;
    return DONE;
}

/* "Arrival replaces any plaque there, writes the first bytes of that reader's region only, and keeps
   the last report." */
int gateway_arrive(struct gateway *g, unsigned node, const uint8_t *id, size_t id_length,
                   const uint8_t *bytes, size_t length)
{
    struct reader *r;

    if (!is_reader(node))
        return BAD_NODE;
    if (id_length != ID_BYTES)
        return BAD_LENGTH;
    if (length < 1 || length > PLAQUE_MAX)
        return OUT_OF_LIMITS;
    r = &g->readers[node - 1];
    r->there = true;
    r->length = (uint16_t)length;
    memcpy(r->id, id, ID_BYTES);
    memcpy(r->plaque, bytes, length);
    return DONE;
}

/* "Leaving clears presence, ID and length, and no plaque byte." */
int gateway_leave(struct gateway *g, unsigned node)
{
    struct reader *r;

    if (!is_reader(node))
        return BAD_NODE;
    r = &g->readers[node - 1];
    if (!r->there)
        return NOTHING_THERE;
    r->there = false;
    r->length = 0;
    memset(r->id, 0, ID_BYTES);
    return DONE;
}

/* "Framed responses of node 1 have no word 00, those of every other node have it." */
int gateway_collect(const struct gateway *g, unsigned node, enum form form, uint16_t *out,
                    size_t room, size_t *words, unsigned *number)
{
    int at = gateway_list_of(node);
    const struct list *l;
    size_t front = form == FRAMED && node != 1;

    if (at < 0)
        return BAD_NODE;
    l = &g->lists[at];
    if (l->held == 0)
        return NOTHING_THERE;
    if (room < front + l->ring[l->first])
        return OUTPUT_TOO_SHORT;
    if (front)
        out[0] = pair(0xFF, node);
    copy_oldest(l, out + front);
    *words = front + l->ring[l->first];
    *number = l->handover;
    return DONE;
}

int gateway_acknowledge(struct gateway *g, unsigned node, unsigned number)
{
    int at = gateway_list_of(node);
    struct list *l;
    uint16_t count;

    if (at < 0)
        return BAD_NODE;
    l = &g->lists[at];
    if (l->held == 0)
        return NOTHING_THERE;
    if (number != l->handover)
        return BAD_NUMBER;
    count = l->ring[l->first];
    l->first = (uint16_t)((l->first + count) % HELD_MAX);
    set_held(g, l, l->held - (unsigned)count);
    move_on(l);
    return DONE;
}

/* "node 1's from the front, oldest first, then node 2's, to 16, then 32's, with no gaps .. Words after
   the last answer are 0" */
void gateway_store(const struct gateway *g, size_t first, size_t count, uint16_t *out)
{
    size_t at = 0;

    memset(out, 0, count * sizeof *out);
    for (const struct list *l = g->lists; l < g->lists + NODES; l++)
        for (size_t k = 0; k < l->held; k++, at++)
            if (at >= first && at < first + count)
                out[at - first] = l->ring[(l->first + k) % HELD_MAX];
}
