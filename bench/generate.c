/* Chance and packets. */
#include "generate.h"

#include <string.h>

/* splitmix64 */
uint64_t rng_next(struct rng *r)
{
    uint64_t z = r->state += 0x9E3779B97F4A7C15u;

    z = (z ^ z >> 30) * 0xBF58476D1CE4E5B9u;
    z = (z ^ z >> 27) * 0x94D049BB133111EBu;
    return z ^ z >> 31;
}

uint32_t rng_below(struct rng *r, uint32_t n)
{
    return (uint32_t)((rng_next(r) >> 32) * n >> 32);
}

bool rng_chance(struct rng *r, unsigned percent)
{
    return rng_below(r, 100) < percent;
}

static const uint8_t reader_commands[] = {4, 5, 5, 5, 6, 6, 7, 8, 0x0D, 0x0D, 0x54};
static const uint8_t gateway_commands[] = {0x11, 0x11, 0x21, 0x21, 0x60, 0x61, 0x79};

static unsigned pick_timeout(struct rng *r)
{
    static const uint16_t edges[] = {0, 1, 65534, 65535};

    return rng_chance(r, 93) ? 1 + rng_below(r, 3000) : RNG_ONE_OF(r, edges);
}

static unsigned pick_size(struct rng *r, unsigned most)
{
    if (rng_chance(r, 40))
        return 1 + rng_below(r, most < 9 ? most : 9);
    return rng_chance(r, 25) ? most : 1 + rng_below(r, most);
}

/* A range of at most `most` bytes: mostly within the plaque, else at or past an edge. */
static void pick_range(struct rng *r, unsigned length, unsigned most, unsigned *start, unsigned *size)
{
    static const uint16_t edges[] = {0, 1, 254, 255, 256, 257, 300, 1023, 1024, 1025, 65535};
    unsigned dice = rng_below(r, 100);

    if (length == 0)
        length = 1 + rng_below(r, 1024);
    *size = pick_size(r, length < most ? length : most);
    *start = rng_below(r, length - *size + 1);
    if (dice < 70)
        return;
    if (dice < 82)
        *start = length - *size;
    else if (dice < 90)
        *start = length - *size + 1;
    else if (dice < 93)
        *start = rng_below(r, 65536);
    else
        *size = RNG_ONE_OF(r, edges);
}

static void pick_reading(struct rng *r, unsigned length, unsigned *delay, unsigned *start,
                         unsigned *size)
{
    static const uint16_t delays[] = {0, 0, 1, 1, 2, 3, 59, 60, 60, 61, 256, 65535};

    pick_range(r, length, 255, start, size);
    *delay = RNG_ONE_OF(r, delays);
    if (*delay > 60 && rng_chance(r, 70))
        *delay = 1 + rng_below(r, 60);
    if (rng_chance(r, 15))              /* a stop, mostly a sound one */
        *delay = *start = *size = 0;
    if (rng_chance(r, 2))
        *size = 0;
    if (rng_chance(r, 4) && *size <= 1024)
        *start = 1024 - *size + rng_below(r, 2);
}

static unsigned pick_name_length(struct rng *r)
{
    static const uint16_t edges[] = {0, 1, 63, 64, 65, 66, 256, 65535};

    return rng_chance(r, 85) ? 1 + rng_below(r, 64) : RNG_ONE_OF(r, edges);
}

/* Data bytes two to a word, 00 after an odd last one; as many words as fit. */
static void put_data(struct rng *r, struct draft *d, unsigned bytes, size_t most)
{
    size_t words = (bytes + 1u) / 2;

    if (words > most - d->count)
        words = most - d->count;
    for (size_t i = 0; i < words; i++)
        d->words[d->count + i] = (uint16_t)rng_next(r);
    if (bytes % 2 == 1 && words == (bytes + 1u) / 2)
        d->words[d->count + words - 1] &= 0xFF00;
    d->count += words;
}

void draft_command(struct rng *r, struct draft *d, unsigned node, unsigned command,
                   const struct plaques *p, size_t most)
{
    unsigned length = node <= READERS ? p->length[node] : 0;
    unsigned timeout = 0, start = 0, size = 0, data = 0;

    if (command >= 4 && command <= 8)
        timeout = pick_timeout(r);
    if (command >= 4 && command <= 6)
        pick_range(r, length, command == 4 ? 1024 : 255, &start, &size);
    if (command == 0x0D)
        pick_reading(r, length, &timeout, &start, &size);
    if (command == 0x21)
        size = pick_name_length(r);
    if (command == 4)
        data = 1;
    if (command == 6 || command == 0x21)
        data = size;
    d->words[1] = (uint16_t)(0xAA00 | command);
    d->words[2] = (uint16_t)node;
    d->words[3] = (uint16_t)timeout;
    d->words[4] = (uint16_t)start;
    d->words[5] = (uint16_t)size;
    d->count = 6;
    put_data(r, d, data, most);
    d->words[0] = (uint16_t)d->count;
}

/* A reader with a plaque, if a few tries find one. */
static unsigned pick_reader(struct rng *r, const struct plaques *p)
{
    unsigned node = 1 + rng_below(r, READERS);

    for (int tries = 0; tries < 12 && p->length[node] == 0; tries++)
        node = 1 + rng_below(r, READERS);
    return rng_chance(r, 88) ? node : 1 + rng_below(r, READERS);
}

void draft_any(struct rng *r, struct draft *d, const struct plaques *p, size_t most)
{
    unsigned node = rng_chance(r, 84) ? pick_reader(r, p) : GATEWAY_NODE;
    bool table_of_readers = (node == GATEWAY_NODE) == rng_chance(r, 2);
    unsigned command = table_of_readers ? RNG_ONE_OF(r, reader_commands)
                                        : RNG_ONE_OF(r, gateway_commands);

    draft_command(r, d, node, command, p, most);
}

unsigned pick_bad_node(struct rng *r)
{
    static const uint8_t nodes[] = {0, 17, 18, 31, 33, 48, 64, 127, 128, 254, 255};

    return rng_chance(r, 80) ? RNG_ONE_OF(r, nodes) : rng_below(r, 256);
}

static void damage_length(struct rng *r, struct draft *d, size_t most)
{
    if (d->count > 6 && rng_chance(r, 50))
        d->count--;
    else if (d->count < most)
        d->words[d->count++] = rng_chance(r, 70) ? 0 : (uint16_t)rng_next(r);
    d->words[0] = (uint16_t)d->count;
}

static void damage_once(struct rng *r, struct draft *d, size_t most)
{
    static const uint8_t commands[] = {0, 1, 2, 3, 4, 5, 6, 7, 8, 9, 0x0A, 0x0C, 0x0D, 0x0E, 0x10,
        0x11, 0x12, 0x1A, 0x1B, 0x20, 0x21, 0x22, 0x2A, 0x53, 0x54, 0x55, 0x5F, 0x60, 0x61, 0x62,
        0x78, 0x79, 0x7A, 0x92, 0xC0, 0xFF};
    uint32_t at = 1 + rng_below(r, (uint32_t)d->count - 1);

    switch (rng_below(r, 9)) {
    case 0: d->words[at] ^= (uint16_t)(1u << rng_below(r, 16)); break;
    case 1: d->words[2] = (uint16_t)((d->words[2] & 0xFF00) | pick_bad_node(r)); break;
    case 2: d->words[2] = (uint16_t)rng_below(r, 34); break;
    case 3: d->words[1 + rng_below(r, 2)] ^= (uint16_t)(rng_below(r, 256) << 8); break;
    case 4: d->words[1] = (uint16_t)(0xAA00 | RNG_ONE_OF(r, commands)); break;
    case 5: d->words[3 + rng_below(r, 3)] = (uint16_t)rng_below(r, 3); break;
    case 6: d->words[3 + rng_below(r, 3)] = (uint16_t)rng_next(r); break;
    case 7: d->words[d->count - 1] ^= 1; break;
    default: damage_length(r, d, most); break;
    }
}

/* Often two faults at once, for the order of the refusals. */
void draft_damage(struct rng *r, struct draft *d, size_t most)
{
    damage_once(r, d, most);
    if (rng_chance(r, 40))
        damage_once(r, d, most);
}

struct stamp pick_stamp(struct rng *r, unsigned percent_bad)
{
    static const uint8_t days[] = {31, 29, 31, 30, 31, 30, 31, 31, 30, 31, 30, 31};
    static const uint8_t edges[] = {0, 12, 13, 23, 24, 28, 29, 30, 31, 32, 59, 60, 61, 255};
    struct stamp s;
    unsigned last;

    s.month = (uint8_t)(1 + rng_below(r, 12));
    last = days[s.month - 1];
    s.day = (uint8_t)(rng_chance(r, 20) ? last : 1 + rng_below(r, last));
    s.hour = (uint8_t)(rng_chance(r, 10) ? 23 : rng_below(r, 24));
    s.minute = (uint8_t)(rng_chance(r, 10) ? 59 : rng_below(r, 60));
    s.second = (uint8_t)(rng_chance(r, 10) ? 59 : rng_below(r, 60));
    if (!rng_chance(r, percent_bad))
        return s;
    switch (rng_below(r, 7)) {
    case 0: s.month = RNG_ONE_OF(r, edges); break;
    case 1: s.day = RNG_ONE_OF(r, edges); break;
    case 2: s.hour = RNG_ONE_OF(r, edges); break;
    case 3: s.minute = RNG_ONE_OF(r, edges); break;
    case 4: s.second = RNG_ONE_OF(r, edges); break;
    case 5: s.month = 2, s.day = (uint8_t)(28 + rng_below(r, 4)); break;
    default: s.day = (uint8_t)(last + 1); break;
    }
    return s;
}
