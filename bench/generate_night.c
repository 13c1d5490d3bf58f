/* Run files: sound, damaged and at the edges. */
#include "generate.h"

#include <string.h>

#include "plain/night.h"

enum { NOTED = 48 };

/* A file in the making, with the places of its first records so that damage can aim. */
struct file {
    struct rng r;
    uint8_t *out;
    size_t n;
    struct plaques plaques;
    size_t plaque_at[NOTED], command_at[NOTED];
    size_t plaque_count, command_count, command_count_at;
    unsigned bad_stamps;                /* percent */
};

static void put(struct file *f, unsigned byte) { f->out[f->n++] = (uint8_t)byte; }

static void put_pair(struct file *f, unsigned value)
{
    put(f, value >> 8);
    put(f, value & 0xFF);
}

static void set_pair(struct file *f, size_t at, unsigned value)
{
    f->out[at] = (uint8_t)(value >> 8);
    f->out[at + 1] = (uint8_t)value;
}

static void open_file(struct file *f, uint64_t seed, uint8_t *out)
{
    memset(f, 0, sizeof *f);
    f->r.state = seed;
    f->out = out;
    f->bad_stamps = 3;
    put_pair(f, 0);                     /* the plaque count, set in open_commands */
}

static void put_plaque(struct file *f, unsigned node, unsigned length)
{
    if (f->plaque_count < NOTED)
        f->plaque_at[f->plaque_count] = f->n;
    f->plaque_count++;
    put(f, node);
    put_pair(f, length);
    for (unsigned i = 0; i < ID_BYTES + length; i++)
        put(f, rng_below(&f->r, 256));
    if (node >= 1 && node <= READERS)
        f->plaques.length[node] = (uint16_t)length;
}

static void open_commands(struct file *f)
{
    set_pair(f, 0, (unsigned)f->plaque_count);
    f->command_count_at = f->n;
    put_pair(f, 0);                     /* the command count, set in close_file */
}

static void put_record(struct file *f, const struct draft *d)
{
    struct stamp s = pick_stamp(&f->r, f->bad_stamps);

    if (f->command_count < NOTED)
        f->command_at[f->command_count] = f->n;
    f->command_count++;
    put(f, s.month), put(f, s.day), put(f, s.hour), put(f, s.minute), put(f, s.second);
    for (size_t i = 0; i < d->count; i++)
        put_pair(f, d->words[i]);
}

static size_t close_file(struct file *f)
{
    set_pair(f, f->command_count_at, (unsigned)f->command_count);
    return f->n;
}

static unsigned pick_length(struct rng *r)
{
    static const uint16_t edges[] = {1, 2, 254, 255, 256, 1023, 1024};

    return rng_chance(r, 75) ? 1 + rng_below(r, 80) : RNG_ONE_OF(r, edges);
}

static void put_some(struct file *f, unsigned plaques, unsigned commands, unsigned damage)
{
    struct draft d;

    for (unsigned i = 0; i < plaques; i++)
        put_plaque(f, 1 + (plaques > 12 ? i % READERS : rng_below(&f->r, READERS)),
                   pick_length(&f->r));
    open_commands(f);
    for (unsigned i = 0; i < commands; i++) {
        draft_any(&f->r, &d, &f->plaques, NIGHT_WORDS);
        if (rng_chance(&f->r, damage))
            draft_damage(&f->r, &d, NIGHT_WORDS);
        put_record(f, &d);
    }
}

static void put_sound(struct file *f)
{
    unsigned plaques = rng_chance(&f->r, 92) ? rng_below(&f->r, 6) : 16 + rng_below(&f->r, 4);
    unsigned commands = rng_chance(&f->r, 95) ? rng_below(&f->r, 32) : rng_below(&f->r, 150);

    put_some(f, plaques, commands, rng_chance(&f->r, 50) ? 10 : 35);
}

/* ---- Damage */

static void damage_plaque(struct file *f)
{
    static const uint8_t nodes[] = {0, 17, 32, 33, 255, 16, 1};
    static const uint16_t lengths[] = {0, 1025, 1024, 1, 255, 65535};
    size_t known = f->plaque_count < NOTED ? f->plaque_count : NOTED;
    size_t at;

    if (known == 0)
        return;
    at = f->plaque_at[rng_below(&f->r, (uint32_t)known)];
    if (rng_chance(&f->r, 50))
        f->out[at] = RNG_ONE_OF(&f->r, nodes);
    else
        set_pair(f, at + 1, RNG_ONE_OF(&f->r, lengths));
}

static void damage_command_length(struct file *f)
{
    static const uint16_t lengths[] = {0, 1, 5, 6, 7, 8, 133, 134, 135, 136, 255, 256, 65535};
    size_t known = f->command_count < NOTED ? f->command_count : NOTED;
    size_t at;

    if (known == 0)
        return;
    at = f->command_at[rng_below(&f->r, (uint32_t)known)];
    set_pair(f, at + 5, RNG_ONE_OF(&f->r, lengths));
    if (rng_chance(&f->r, 20))
        f->out[at] = 13;
}

static void damage_count(struct file *f)
{
    size_t at = rng_chance(&f->r, 50) ? 0 : f->command_count_at;
    unsigned count = (unsigned)f->out[at] << 8 | f->out[at + 1];

    switch (rng_below(&f->r, 5)) {
    case 0: count++; break;
    case 1: count = count > 0 ? count - 1 : 0; break;
    case 2: count = 0; break;
    case 3: count = 65535; break;
    default: count = rng_below(&f->r, 40); break;
    }
    set_pair(f, at, count);
}

static void damage_bits(struct file *f)
{
    unsigned bits = 1 + rng_below(&f->r, 8);

    while (bits-- > 0)
        f->out[rng_below(&f->r, (uint32_t)f->n)] ^= (uint8_t)(1u << rng_below(&f->r, 8));
}

static void damage_file(struct file *f)
{
    unsigned spare;

    switch (rng_below(&f->r, 7)) {
    case 0: f->n = rng_below(&f->r, (uint32_t)f->n); break;
    case 1: f->n -= 1 + rng_below(&f->r, f->n > 20 ? 20 : (uint32_t)f->n); break;
    case 2:
        for (spare = 1 + rng_below(&f->r, 20); spare > 0; spare--)
            put(f, rng_chance(&f->r, 50) ? 0 : rng_below(&f->r, 256));
        break;
    case 3: damage_count(f); break;
    case 4: damage_plaque(f); break;
    case 5: damage_command_length(f); break;
    default: damage_bits(f); break;
    }
}

/* ---- The edges */

/* A record of exactly `bytes`, an odd number from 17 to 273: a search or a write. */
static void put_exact_record(struct file *f, size_t bytes)
{
    struct draft d;
    unsigned data = (unsigned)(bytes - 17);

    d.count = 6 + data / 2;
    memset(d.words, 0, sizeof d.words);
    d.words[0] = (uint16_t)d.count;
    d.words[1] = data > 0 ? 0xAA06 : 0xAA08;
    d.words[2] = (uint16_t)(1 + rng_below(&f->r, READERS));
    d.words[3] = 1;
    d.words[5] = (uint16_t)(data > 255 ? 255 : data);
    for (unsigned i = 0; i < data / 2; i++)
        d.words[6 + i] = (uint16_t)(rng_next(&f->r) & (data > 255 ? 0xFF00 : 0xFFFF));
    put_record(f, &d);
}

/* Fills the file to exactly 65,536 bytes. Records have odd sizes, so an even rest takes two, and an
   odd one that is too long for one record takes three. */
static void fill_up(struct file *f)
{
    struct draft d;
    size_t left;

    while (NIGHT_FILE_MAX - f->n > 600) {
        draft_any(&f->r, &d, &f->plaques, NIGHT_WORDS);
        put_record(f, &d);
    }
    while ((left = NIGHT_FILE_MAX - f->n) > 0) {
        if (left % 2 == 0 || left > 273)
            left = left / (left % 2 == 1 ? 3 : 2) | 1;
        put_exact_record(f, left < 273 ? left : 273);
    }
}

size_t generate_mixed_file(uint64_t seed, uint8_t *out)
{
    struct file f;

    open_file(&f, seed, out);
    for (unsigned node = 1; node <= READERS; node++)
        if (node % 4 != 0)
            put_plaque(&f, node, 100 + rng_below(&f.r, 400));
    open_commands(&f);
    fill_up(&f);
    return close_file(&f);
}

size_t generate_largest_file(uint64_t seed, unsigned plaque_length, uint8_t *out)
{
    struct file f;
    struct draft d = {{6, 0xAA05, 0, 1000, 0, 255}, 6};

    open_file(&f, seed, out);
    f.bad_stamps = 0;
    d.words[2] = (uint16_t)(1 + rng_below(&f.r, READERS));
    put_plaque(&f, d.words[2], plaque_length);
    open_commands(&f);
    while (f.n + 17 <= NIGHT_FILE_MAX) {
        d.words[4] = (uint16_t)rng_below(&f.r, plaque_length - 254);
        put_record(&f, &d);
    }
    return close_file(&f);
}

/* 3,854 searches and other commands of six words. */
static size_t generate_tiny(struct file *f)
{
    static const uint16_t commands[] = {0xAA08, 0xAA07, 0xAA08, 0xAA54, 0xAA0D};
    struct draft d = {{6}, 6};

    open_commands(f);
    while (f->n + 17 <= NIGHT_FILE_MAX) {
        d.words[1] = RNG_ONE_OF(&f->r, commands);
        d.words[2] = (uint16_t)(1 + rng_below(&f->r, READERS));
        d.words[3] = (d.words[1] & 0xFF) <= 8;
        put_record(f, &d);
    }
    return close_file(f);
}

static size_t generate_big(struct file *f, uint64_t seed)
{
    size_t n;

    switch (rng_below(&f->r, 6)) {
    case 0: return generate_largest_file(seed, 255, f->out);
    case 1: return generate_largest_file(seed, 1024, f->out);
    case 2: return generate_tiny(f);
    case 3: return generate_mixed_file(seed, f->out);
    case 4:                             /* a byte too long */
        n = generate_mixed_file(seed, f->out);
        f->out[n] = 0;
        return n + 1;
    default:                            /* as long as may be, with bytes left */
        n = generate_mixed_file(seed, f->out);
        set_pair(f, 0, 0);
        set_pair(f, 2, rng_below(&f->r, 3));
        return n;
    }
}

static size_t generate_small(struct file *f)
{
    unsigned count = rng_below(&f->r, 6);

    f->n = 0;
    for (unsigned i = 0; i < count; i++)
        put(f, rng_chance(&f->r, 75) ? 0 : rng_below(&f->r, 256));
    if (count == 4 && rng_chance(&f->r, 50))
        f->out[3] = 1;
    return f->n;
}

size_t generate_file(uint64_t seed, uint8_t *out)
{
    struct file f;
    uint32_t dice;

    open_file(&f, seed, out);
    dice = rng_below(&f.r, 1000);
    if (dice < 8)
        return generate_big(&f, seed);
    if (dice < 40)
        return generate_small(&f);
    put_sound(&f);
    close_file(&f);
    if (dice < 370)
        damage_file(&f);
    if (dice < 80 && f.n > 0)
        damage_file(&f);
    return f.n;
}
