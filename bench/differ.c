/* Plays generated run files and conversations through both sides and compares every byte; and strikes
   out the other readers' calls from flooded conversations (document 00, demand 3). */
#include <stdio.h>
#include <stdlib.h>
#include <string.h>

#include "generate.h"
#include "ours.h"
#include "plain/console.h"
#include "plain/night.h"

enum { SHOWN = 10, SHOWN_BYTES = 1500 };        /* differences shown, and bytes of each side */

typedef size_t play_fn(const uint8_t *in, size_t n, uint8_t *out, size_t cap);

struct buffer {
    uint8_t *bytes;
    size_t n, room;
};

struct options {
    uint64_t files, talks, floods, seed;
    bool night, console;
};

static struct buffer plain_out, ours_out;
static struct buffer struck_in, struck_out, kept_out;

/* Room for so many bytes; what was in the buffer is lost. */
static void make_room(struct buffer *b, size_t room)
{
    b->n = 0;
    if (b->room >= room)
        return;
    free(b->bytes);
    b->bytes = malloc(room);
    b->room = room;
    if (b->bytes == NULL) {
        fputs("differ: out of memory\n", stderr);
        exit(2);
    }
}

static void append(struct buffer *b, const uint8_t *bytes, size_t n)
{
    memcpy(b->bytes + b->n, bytes, n);
    b->n += n;
}

static void play(play_fn *side, const uint8_t *in, size_t n, struct buffer *out, size_t room)
{
    make_room(out, room);
    out->n = side(in, n, out->bytes, room);
    if (out->n > room) {
        printf("a side says it wrote %zu bytes into %zu\n", out->n, room);
        out->n = room;
    }
}

static size_t console_room(size_t n) { return 64 * n + 1024; }

static bool same(const struct buffer *a, const struct buffer *b)
{
    return a->n == b->n && memcmp(a->bytes, b->bytes, a->n) == 0;
}

/* ---- Showing a difference */

static size_t first_difference(const struct buffer *a, const struct buffer *b)
{
    size_t i = 0;

    while (i < a->n && i < b->n && a->bytes[i] == b->bytes[i])
        i++;
    return i;
}

/* A short output whole; of a long one the lines about the place. */
static void show(const char *side, const struct buffer *b, size_t place)
{
    size_t from = b->n <= SHOWN_BYTES || place < SHOWN_BYTES / 2 ? 0 : place - SHOWN_BYTES / 2;
    size_t n = b->n - from < SHOWN_BYTES ? b->n - from : SHOWN_BYTES;

    printf("---- %s, %zu bytes", side, b->n);
    if (n < b->n)
        printf(", here %zu from byte %zu", n, from);
    putchar('\n');
    fwrite(b->bytes + from, 1, n, stdout);
    putchar('\n');
}

static void save(const char *name, const uint8_t *bytes, size_t n)
{
    FILE *f = fopen(name, "wb");

    if (f == NULL || fwrite(bytes, 1, n, f) != n)
        printf("could not write %s\n", name);
    if (f != NULL)
        fclose(f);
}

static void report(const char *what, uint64_t seed, const uint8_t *in, size_t n,
                   const struct buffer *a, const struct buffer *b)
{
    char name[80];
    size_t place = first_difference(a, b);

    snprintf(name, sizeof name, "differ-%s-%llu.in", what, (unsigned long long)seed);
    save(name, in, n);
    printf("%s of seed %llu differs at byte %zu of the output; its input is in %s\n", what,
           (unsigned long long)seed, place, name);
    show("plain", a, place);
    show("ours", b, place);
}

/* ---- The three comparisons; each prints its last line and returns how many differ */

static uint64_t compare_files(const struct options *o)
{
    static uint8_t file[FILE_ROOM];
    uint64_t differ = 0;

    for (uint64_t i = 0; i < o->files; i++) {
        size_t n = generate_file(o->seed + i, file);

        play(plain_night, file, n, &plain_out, NIGHT_LISTING_MAX);
        play(rashdumof_night, file, n, &ours_out, NIGHT_LISTING_MAX);
        if (!same(&plain_out, &ours_out) && differ++ < SHOWN)
            report("night", o->seed + i, file, n, &plain_out, &ours_out);
    }
    printf("%llu files, %llu differ\n", (unsigned long long)o->files, (unsigned long long)differ);
    return differ;
}

static uint64_t compare_talks(const struct options *o, struct talk *t)
{
    uint64_t differ = 0;

    for (uint64_t i = 0; i < o->talks; i++) {
        generate_talk(o->seed + i, t);
        play(plain_console, t->text, t->used, &plain_out, console_room(t->used));
        play(rashdumof_console, t->text, t->used, &ours_out, console_room(t->used));
        if (!same(&plain_out, &ours_out) && differ++ < SHOWN)
            report("console", o->seed + i, t->text, t->used, &plain_out, &ours_out);
    }
    printf("%llu conversations, %llu differ\n", (unsigned long long)o->talks,
           (unsigned long long)differ);
    return differ;
}

/* Calls for other readers are struck out; those for i, for node 32 and for nobody are kept. */
static bool is_kept(unsigned whom, unsigned i)
{
    return whom == 0 || whom == GATEWAY_NODE || whom == i;
}

/* The lines of `from` (one to each line of the conversation) that are kept. */
static void keep_lines(const struct talk *t, unsigned i, const uint8_t *from, size_t n,
                       struct buffer *to)
{
    const uint8_t *end = from + n;

    make_room(to, n + 1);
    for (size_t line = 0; line < t->lines && from < end; line++) {
        const uint8_t *feed = memchr(from, '\n', (size_t)(end - from));
        size_t length = (size_t)((feed != NULL ? feed + 1 : end) - from);

        if (is_kept(t->whom[line], i))
            append(to, from, length);
        from += length;
    }
}

static bool struck_differs(const struct talk *t, unsigned i, uint64_t seed, bool show_it)
{
    keep_lines(t, i, t->text, t->used, &struck_in);
    keep_lines(t, i, ours_out.bytes, ours_out.n, &kept_out);
    play(rashdumof_console, struck_in.bytes, struck_in.n, &struck_out, console_room(struck_in.n));
    if (same(&kept_out, &struck_out))
        return false;
    if (show_it) {
        printf("reader %u, its lines in the whole conversation (as plain) and alone (as ours):\n", i);
        report("struck-out", seed, t->text, t->used, &kept_out, &struck_out);
    }
    return true;
}

static uint64_t compare_struck_out(const struct options *o, struct talk *t)
{
    uint64_t differ = 0;

    for (uint64_t k = 0; k < o->floods; k++) {
        uint32_t gentle = generate_flood(o->seed + k, t);
        bool differs = false;

        play(rashdumof_console, t->text, t->used, &ours_out, console_room(t->used));
        for (unsigned i = 1; i <= READERS; i++)
            if (gentle >> i & 1)
                differs |= struck_differs(t, i, o->seed + k, !differs && differ < SHOWN);
        differ += differs;
    }
    printf("%llu struck-out conversations, %llu differ\n", (unsigned long long)o->floods,
           (unsigned long long)differ);
    return differ;
}

/* ---- */

static int usage(void)
{
    fputs("usage: differ [--files N] [--talks M] [--floods K] [--seed S] [--only night|console]\n",
          stderr);
    return 2;
}

static bool read_options(int argc, char **argv, struct options *o)
{
    for (int i = 1; i < argc; i += 2) {
        const char *name = argv[i], *value = argv[i + 1];

        if (i + 1 == argc)
            return false;
        if (strcmp(name, "--only") == 0 && strcmp(value, "night") == 0)
            o->console = false;
        else if (strcmp(name, "--only") == 0 && strcmp(value, "console") == 0)
            o->night = false;
        else if (strcmp(name, "--files") == 0)
            o->files = strtoull(value, NULL, 10);
        else if (strcmp(name, "--talks") == 0)
            o->talks = strtoull(value, NULL, 10);
        else if (strcmp(name, "--floods") == 0)
            o->floods = strtoull(value, NULL, 10);
        else if (strcmp(name, "--seed") == 0)
            o->seed = strtoull(value, NULL, 10);
        else
            return false;
    }
    return true;
}

int main(int argc, char **argv)
{
    struct options o = {100000, 20000, 2000, 1, true, true};
    struct talk t = {malloc(TALK_ROOM), 0, malloc(TALK_LINES), 0};
    uint64_t differ = 0;

    if (!read_options(argc, argv, &o))
        return usage();
    if (t.text == NULL || t.whom == NULL) {
        fputs("differ: out of memory\n", stderr);
        return 2;
    }
    if (o.night)
        differ += compare_files(&o);
    if (o.console) {
        differ += compare_talks(&o, &t);
        differ += compare_struck_out(&o, &t);
    }
    free(t.text);
    free(t.whom);
    return differ == 0 ? 0 : 1;
}
