/* Plays the same inputs through all sides in one process and prints their times and ratios: plain C as it was measured from the start
   (-O2, a hex digit at a time), plain C compiled as hard as ours (-O3, hex by pairs), and ours. Built with BEFORE, an earlier build of ours
   runs with them. With an input and a side (`speed mixed ours`) it plays that once, for a count of instructions. */
#define _POSIX_C_SOURCE 199309L

#include <stdio.h>
#include <stdlib.h>
#include <string.h>
#include <time.h>

#include "generate.h"
#include "ours.h"
#include "plain/console.h"
#include "plain/night.h"

enum { ROUNDS = 25, SPAN_MS = 2000, LINES = 100000 };

typedef size_t play_fn(const uint8_t *in, size_t n, uint8_t *out, size_t cap);

play_fn hard_night, hard_console;
#ifdef BEFORE
play_fn before_night, before_console;
#endif

enum { PLAIN, HARD, OURS, EARLIER };

static const struct {
    const char *name;
    play_fn *night, *console;
} players[] = {
    {"plain", plain_night, plain_console},
    {"hard", hard_night, hard_console},
    {"ours", rashdumof_night, rashdumof_console},
#ifdef BEFORE
    {"before", before_night, before_console},
#endif
};

enum { SIDES = sizeof players / sizeof *players };

struct side {
    play_fn *play;
    uint8_t *out;
    size_t written;
    double best;
};

static double now_ms(void)
{
    struct timespec t;

    clock_gettime(CLOCK_MONOTONIC, &t);
    return 1000.0 * (double)t.tv_sec + (double)t.tv_nsec / 1e6;
}

static void *room_for(size_t n)
{
    void *p = malloc(n);

    if (p == NULL) {
        fputs("speed: out of memory\n", stderr);
        exit(2);
    }
    return p;
}

/* One run that is not timed, so that the output's pages are there; then they are cleared. */
static void warm_up(struct side *s, const uint8_t *in, size_t n, size_t room)
{
    s->out = room_for(room);
    s->written = s->play(in, n, s->out, room);
    memset(s->out, 0, s->written);
}

static void time_once(struct side *s, const uint8_t *in, size_t n, size_t room)
{
    double began = now_ms(), took;

    s->written = s->play(in, n, s->out, room);
    took = now_ms() - began;
    if (s->best == 0 || took < s->best)
        s->best = took;
}

/* All sides in turn, each round beginning with another, for 2 seconds at least, so that the processor's clock has settled for short inputs
   too; the best of all rounds counts. */
static bool race(const char *what, bool night, const uint8_t *in, size_t n, size_t room)
{
    struct side sides[SIDES] = {0};
    bool same = true;

    for (int i = 0; i < SIDES; i++) {
        sides[i].play = night ? players[i].night : players[i].console;
        warm_up(&sides[i], in, n, room);
    }
    double began = now_ms();
    for (int round = 0; round < ROUNDS || now_ms() - began < SPAN_MS; round++)
        for (int i = 0; i < SIDES; i++)
            time_once(&sides[(round + i) % SIDES], in, n, room);
    for (int i = 1; i < SIDES; i++)
        same &= sides[i].written == sides[PLAIN].written
            && memcmp(sides[i].out, sides[PLAIN].out, sides[PLAIN].written) == 0;
    printf("%-30s plain %8.3f ms  -O3 %8.3f ms  ours %8.3f ms  ours/plain %5.2f  ours/-O3 %5.2f", what, sides[PLAIN].best, sides[HARD].best,
           sides[OURS].best, sides[OURS].best / sides[PLAIN].best, sides[OURS].best / sides[HARD].best);
    if ((int)EARLIER < (int)SIDES)
        printf("  before %8.3f ms  ours/before %5.2f", sides[SIDES - 1].best, sides[OURS].best / sides[SIDES - 1].best);
    puts(same ? "" : "  (OUTPUTS DIFFER)");
    for (int i = 0; i < SIDES; i++)
        free(sides[i].out);
    return same;
}

/* An input played once by one side: what a count of instructions is made of. */
static int play_once(const char *side, bool night, const uint8_t *in, size_t n, size_t room)
{
    for (int i = 0; i < SIDES; i++)
        if (strcmp(players[i].name, side) == 0)
            return (night ? players[i].night : players[i].console)(in, n, room_for(room), room) == 0;
    fprintf(stderr, "speed: no such side: %s\n", side);
    return 2;
}

int main(int count, char **words)
{
    static uint8_t file[FILE_ROOM];
    struct talk t = {room_for(TALK_ROOM), 0, room_for(TALK_LINES), 0};
    const char *only = count == 3 ? words[1] : "", *side = count == 3 ? words[2] : "";
    bool same;
    size_t n;

    n = generate_largest_file(1, DATA_MAX, file);
    if (strcmp(only, "largest") == 0)
        return play_once(side, true, file, n, NIGHT_LISTING_MAX);
    same = *only != 0 || race("night, the largest listing", true, file, n, NIGHT_LISTING_MAX);
    n = generate_mixed_file(1, file);
    if (strcmp(only, "mixed") == 0)
        return play_once(side, true, file, n, NIGHT_LISTING_MAX);
    same &= *only != 0 || race("night, 65,536 bytes mixed", true, file, n, NIGHT_LISTING_MAX);
    generate_long_talk(1, LINES, &t);
    if (t.lines != LINES) {
        fprintf(stderr, "speed: the conversation has %zu lines\n", t.lines);
        return 2;
    }
    if (*only != 0)
        return play_once(side, false, t.text, t.used, 64 * t.used + 1024);
    same &= race("console, 100,000 lines mixed", false, t.text, t.used, 64 * t.used + 1024);
    free(t.text);
    free(t.whom);
    return same ? 0 : 1;
}
