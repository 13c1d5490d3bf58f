/* Seeded inputs for the two sides: run files and conversations. The same seed gives the same bytes on
   every machine. */
#ifndef BENCH_GENERATE_H
#define BENCH_GENERATE_H

#include <stdbool.h>
#include <stddef.h>
#include <stdint.h>

#include "plain/gateway.h"

/* ---- Chance (generate.c) */

struct rng {
    uint64_t state;
};

uint64_t rng_next(struct rng *r);
uint32_t rng_below(struct rng *r, uint32_t n);
bool rng_chance(struct rng *r, unsigned percent);
/* One of the count values at a. */
#define RNG_ONE_OF(r, a) ((a)[rng_below((r), (uint32_t)(sizeof(a) / sizeof *(a)))])

/* ---- Packets (generate.c) */

/* The plaque length at each node, 0 for none, so that most packets fit. Index is the node. */
struct plaques {
    uint16_t length[GATEWAY_NODE + 1];
};

/* A command packet in register form. */
struct draft {
    uint16_t words[256];
    size_t count;
};

enum { NIGHT_WORDS = 134, CONSOLE_WORDS = 250 };

/* Most drafts are sound and within the plaque; some are at or past a limit. No draft has more than
   `most` words, but its Overall Length is always its count. */
void draft_command(struct rng *r, struct draft *d, unsigned node, unsigned command,
                   const struct plaques *p, size_t most);
void draft_any(struct rng *r, struct draft *d, const struct plaques *p, size_t most);
/* Spoils something; Overall Length stays the count. */
void draft_damage(struct rng *r, struct draft *d, size_t most);
struct stamp pick_stamp(struct rng *r, unsigned percent_bad);
unsigned pick_bad_node(struct rng *r);

/* ---- Run files (generate_night.c) */

enum { FILE_ROOM = 70000 };

size_t generate_file(uint64_t seed, uint8_t *out);
/* The file with the largest listing: as many reads of 255 bytes as 65,536 bytes can hold. */
size_t generate_largest_file(uint64_t seed, unsigned plaque_length, uint8_t *out);
/* A sound file of exactly 65,536 bytes, all commands mixed. */
size_t generate_mixed_file(uint64_t seed, uint8_t *out);

/* ---- Conversations (generate_console.c) */

enum { TALK_ROOM = 16000000, TALK_LINES = 200000 };

struct talk {
    uint8_t *text;              /* TALK_ROOM bytes */
    size_t used;
    uint8_t *whom;              /* TALK_LINES: the node each line is for, 0 for nobody */
    size_t lines;
};

void generate_talk(uint64_t seed, struct talk *t);
/* A conversation of that many lines of mixed calls. */
void generate_long_talk(uint64_t seed, size_t lines, struct talk *t);
/* Some readers flood, others and node 32 are gentle: whenever an answer of theirs is due, it and the
   words held are at most 134. Returns the gentle readers, bit n for node n. Every line has one line out. */
uint32_t generate_flood(uint64_t seed, struct talk *t);

#endif
