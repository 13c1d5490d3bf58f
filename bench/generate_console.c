/* Conversations for the console. The plain gateway plays each line beside the generator, so that it
   knows what is pending where, and by which handover number it can be acknowledged. */
#include "generate.h"

#include <string.h>

#include "plain/console.h"

struct maker {
    struct rng r;
    struct talk *t;
    struct gateway g;
    uint8_t line[6000];
    size_t n;
    bool lower;                 /* hex digits of this line in lower case */
    uint32_t nodes;             /* the nodes this conversation favours, bit n for node n */
    uint32_t tried[READERS + 1];        /* the clock of each reader's last check, refused or not */
    unsigned looks;             /* percent of the lines that look at the store; they show every node */
};

/* How often each kind of line comes, in parts of their sum. */
struct mood {
    unsigned command, check, arrive, leave, collect, acknowledge, fill, odd;
    unsigned damage;            /* percent of the command packets */
};

static void open_talk(struct maker *m, uint64_t seed, struct talk *t)
{
    m->r.state = seed;
    m->t = t;
    m->n = 0;
    m->lower = false;
    m->nodes = 0;
    m->looks = 0;
    memset(m->tried, 0, sizeof m->tried);
    t->used = 0;
    t->lines = 0;
    gateway_fresh(&m->g);
}

static bool is_full(const struct talk *t)
{
    return t->used + sizeof ((struct maker *)0)->line + 1 > TALK_ROOM || t->lines >= TALK_LINES;
}

/* ---- Lines */

static void add_byte(struct maker *m, unsigned byte) { m->line[m->n++] = (uint8_t)byte; }

static void add_string(struct maker *m, const char *s)
{
    while (*s != '\0')
        add_byte(m, (unsigned char)*s++);
}

static void start_line(struct maker *m, const char *word)
{
    m->n = 0;
    m->lower = rng_chance(&m->r, 10);
    add_string(m, word);
}

/* Ends the line, for that node (0 for nobody), and plays it on the model. */
static void end_line(struct maker *m, unsigned whom)
{
    struct talk *t = m->t;
    uint8_t out[TEXT_LINE_MAX];
    struct text scratch = {out, 0, sizeof out};

    if (is_full(t))
        return;
    console_line(&m->g, m->line, m->n, &scratch);
    memcpy(t->text + t->used, m->line, m->n);
    t->used += m->n;
    t->text[t->used++] = '\n';
    t->whom[t->lines++] = (uint8_t)whom;
}

/* A blank and a number, now and then with leading zeros up to ten digits. */
static void add_number(struct maker *m, uint32_t value)
{
    char digits[10];
    unsigned n = 0, zeros = 0;

    do
        digits[n++] = (char)('0' + value % 10);
    while ((value /= 10) > 0);
    if (rng_chance(&m->r, 2))
        zeros = rng_below(&m->r, 11 - n);
    add_byte(m, ' ');
    while (zeros-- > 0)
        add_byte(m, '0');
    while (n > 0)
        add_byte(m, (unsigned char)digits[--n]);
}

static void add_digit(struct maker *m, unsigned value)
{
    add_byte(m, (unsigned char)(m->lower ? "0123456789abcdef" : "0123456789ABCDEF")[value & 15]);
}

static void add_word(struct maker *m, unsigned word)
{
    add_byte(m, ' ');
    for (int shift = 12; shift >= 0; shift -= 4)
        add_digit(m, word >> shift);
}

static void add_random_bytes(struct maker *m, unsigned count)
{
    add_byte(m, ' ');
    if (count == 0)
        add_byte(m, '-');
    for (unsigned i = 0; i < 2 * count; i++)
        add_digit(m, rng_below(&m->r, 16));
}

static void add_stamp(struct maker *m, unsigned percent_bad)
{
    struct stamp s = pick_stamp(&m->r, percent_bad);

    add_number(m, s.month);
    add_number(m, s.day);
    add_number(m, s.hour);
    add_number(m, s.minute);
    add_number(m, s.second);
}

/* ---- What the model knows */

static struct plaques plaques_of(const struct gateway *g)
{
    struct plaques p = {{0}};

    for (unsigned i = 0; i < READERS; i++)
        p.length[i + 1] = g->readers[i].length;
    return p;
}

static unsigned held_at(const struct gateway *g, unsigned node)
{
    return g->lists[gateway_list_of(node)].held;
}

static unsigned pick_favourite(struct maker *m)
{
    unsigned node = 1 + rng_below(&m->r, READERS);

    while (m->nodes != 0 && (m->nodes >> node & 1) == 0 && rng_chance(&m->r, 97))
        node = 1 + rng_below(&m->r, READERS);
    return node;
}

static unsigned any_node(struct maker *m)
{
    if (rng_chance(&m->r, 3))
        return pick_bad_node(&m->r);
    return rng_chance(&m->r, 12) ? GATEWAY_NODE : pick_favourite(m);
}

/* Mostly a node with something pending. */
static unsigned pending_node(struct maker *m)
{
    unsigned at = rng_below(&m->r, NODES);

    for (int i = 0; i < NODES && rng_chance(&m->r, 98); i++, at = (at + 1) % NODES)
        if (m->g.lists[at].held > 0)
            return at == READERS ? GATEWAY_NODE : at + 1;
    return any_node(m);
}

static unsigned whom_of_node(unsigned node)
{
    return gateway_list_of(node) < 0 ? 0 : node;
}

static unsigned whom_of_reader(unsigned node)
{
    return node == GATEWAY_NODE ? 0 : whom_of_node(node);
}

/* ---- The six calls */

static void say_packet(struct maker *m, const struct draft *d, unsigned percent_bad)
{
    bool framed = rng_chance(&m->r, 40);
    unsigned node = d->count > 2 ? d->words[2] & 0xFF : 0;
    unsigned front = 0xFF00 | node;

    start_line(m, "command");
    add_stamp(m, percent_bad > 0 ? 2 : 0);
    add_string(m, framed ? " framed" : " register");
    if (framed && rng_chance(&m->r, percent_bad))
        front ^= 1u << rng_below(&m->r, 16);
    if (framed && !rng_chance(&m->r, percent_bad / 10))
        add_word(m, front);
    else if (framed)                    /* its words stand one too early, so word 03 is another */
        node = d->count > 3 ? d->words[3] & 0xFF : 0;
    for (size_t i = 0; i < d->count; i++)
        add_word(m, d->words[i]);
    end_line(m, whom_of_node(node));
}

static void say_command(struct maker *m, unsigned damage)
{
    struct plaques p = plaques_of(&m->g);
    struct draft d;

    draft_any(&m->r, &d, &p, CONSOLE_WORDS);
    if ((d.words[2] >= 1 && d.words[2] <= READERS) && rng_chance(&m->r, 15))
        d.words[2] = (uint16_t)pick_favourite(m);
    if (rng_chance(&m->r, damage))
        draft_damage(&m->r, &d, CONSOLE_WORDS);
    if (rng_chance(&m->r, damage / 5))
        d.words[0] ^= (uint16_t)(1u << rng_below(&m->r, 9));
    if (rng_chance(&m->r, damage / 10))
        d.count = rng_below(&m->r, (uint32_t)d.count);
    say_packet(m, &d, damage);
}

/* A clock around the moment at which a repeat ends to be one. */
static uint32_t pick_clock(struct maker *m, const struct reader *r, uint32_t tried)
{
    static const uint32_t around[] = {0, 1, 998, 999, 1000, 1001, UINT32_MAX, UINT32_MAX - 999,
        0x80000000u, 0x7FFFFFFFu};
    static const uint32_t starts[] = {0, 1, 500, UINT32_MAX, UINT32_MAX - 1, UINT32_MAX - 700,
        UINT32_MAX - 59999, 0x80000000u};
    uint32_t delay = 1000u * r->delay;

    if (!r->reported)
        return rng_chance(&m->r, 80) ? RNG_ONE_OF(&m->r, starts) : (uint32_t)rng_next(&m->r);
    switch (rng_below(&m->r, 7)) {
    case 0: return r->reported_clock + RNG_ONE_OF(&m->r, around);
    case 1: return r->reported_clock + delay;
    case 2: return r->reported_clock + delay - 1;
    case 3: return r->reported_clock + delay + rng_below(&m->r, 3) - 1;
    case 4: return r->reported_clock + rng_below(&m->r, delay + 2000);
    case 5: return tried + rng_below(&m->r, 3);
    default: return (uint32_t)rng_next(&m->r);
    }
}

static void say_check_at(struct maker *m, unsigned node, unsigned percent_bad)
{
    uint32_t clock = (uint32_t)rng_next(&m->r);

    if (node >= 1 && node <= READERS) {
        clock = pick_clock(m, &m->g.readers[node - 1], m->tried[node]);
        m->tried[node] = clock;
    }
    start_line(m, "check");
    add_number(m, node);
    add_stamp(m, percent_bad);
    add_number(m, clock);
    end_line(m, whom_of_reader(node));
}

static void add_id(struct maker *m)
{
    static const char *const known[] = {" E0040100002E16AD", " E0040100002E16AE", " 0000000000000000",
        " E0040100002E16AD"};

    if (rng_chance(&m->r, 75))
        add_string(m, RNG_ONE_OF(&m->r, known));
    else if (rng_chance(&m->r, 90))
        add_random_bytes(m, ID_BYTES);
    else
        add_random_bytes(m, rng_below(&m->r, 17));
}

static void say_arrive_at(struct maker *m, unsigned node, unsigned length)
{
    start_line(m, "arrive");
    add_number(m, node);
    add_id(m);
    add_random_bytes(m, length);
    end_line(m, whom_of_reader(node));
}

static unsigned pick_plaque_length(struct rng *r)
{
    static const uint16_t edges[] = {0, 1, 255, 256, 1024, 1025, 2047};

    return rng_chance(r, 94) ? 1 + rng_below(r, 60) : RNG_ONE_OF(r, edges);
}

static void say_leave_at(struct maker *m, unsigned node)
{
    start_line(m, "leave");
    add_number(m, node);
    end_line(m, whom_of_reader(node));
}

static void say_collect_at(struct maker *m, unsigned node)
{
    start_line(m, "collect");
    add_number(m, node);
    add_string(m, rng_chance(&m->r, 50) ? " framed" : " register");
    end_line(m, whom_of_node(node));
}

static void say_acknowledge_at(struct maker *m, unsigned node, unsigned percent_wrong)
{
    int at = gateway_list_of(node);
    uint32_t number = at < 0 ? 1 : m->g.lists[at].handover;

    if (rng_chance(&m->r, percent_wrong)) {
        switch (rng_below(&m->r, 5)) {
        case 0: number = 0; break;
        case 1: number = (number + 1) & 0xFFFF; break;
        case 2: number = (number - 1) & 0xFFFF; break;
        case 3: number = at < 0 ? 0 : m->g.lists[at].count; break;  /* one of the bench's errors */
        default: number = rng_below(&m->r, 65536); break;
        }
    }
    start_line(m, "acknowledge");
    add_number(m, node);
    add_number(m, number);
    end_line(m, whom_of_node(node));
}

/* ---- The store */

static unsigned words_held(const struct maker *m)
{
    unsigned words = 0;

    for (int i = 0; i < NODES; i++)
        words += m->g.lists[i].held;
    return words;
}

static void say_store(struct maker *m, unsigned first, unsigned count)
{
    start_line(m, "store");
    add_number(m, first);
    add_number(m, count);
    end_line(m, 0);
}

/* Mostly around the words in use, at times at a limit or past it. */
static void say_look(struct maker *m)
{
    static const unsigned limits[][2] = {{0, 128}, {0, 129}, {0, 0}, {4095, 1}, {4096, 1}, {4095, 2},
                                         {3968, 128}, {3969, 128}, {65535, 1}, {0, 65536}};
    unsigned words = words_held(m) + 16, first = rng_below(&m->r, words < 4096 ? words : 4096);
    unsigned left = 4096 - first < 128 ? 4096 - first : 128;

    if (rng_chance(&m->r, 10)) {
        const unsigned *l = limits[rng_below(&m->r, sizeof limits / sizeof *limits)];

        say_store(m, l[0], l[1]);
    } else {
        say_store(m, first, 1 + rng_below(&m->r, left));
    }
}

/* All words that are in use, and those behind them. */
static void say_whole_store(struct maker *m)
{
    unsigned words = words_held(m);

    for (unsigned first = 0; first <= words && first < 4096 && !is_full(m->t); first += 128)
        say_store(m, first, 128);
}

/* ---- Room */

/* A read (or a search) at a reader with a plaque, or set name and get name at node 32, whose answer has
   `wanted` words where the commands allow it. */
static void say_answer_of(struct maker *m, unsigned node, unsigned wanted)
{
    struct draft d = {{6, 0xAA08, 0, 1}, 6};

    d.words[2] = (uint16_t)node;
    if (node == GATEWAY_NODE) {
        d.words[1] = wanted > 6 ? 0xAA11 : rng_chance(&m->r, 30) ? 0xAA60 : 0xAA21;
        d.words[3] = 0;
        if (d.words[1] == 0xAA21) {
            d.words[0] = (uint16_t)(d.count = 7);
            d.words[5] = 2;
            d.words[6] = (uint16_t)rng_next(&m->r);
        }
    } else if (wanted > 6) {
        d.words[1] = 0xAA05;
        d.words[5] = (uint16_t)(2 * (wanted - 6) - (wanted == 134 ? 1 : rng_below(&m->r, 2)));
    }
    say_packet(m, &d, 0);
}

/* The words that the node may still take by document 01. */
static unsigned room_at(const struct gateway *g, unsigned node)
{
    unsigned held = held_at(g, node);
    unsigned charge = held > SHARE ? held : SHARE;
    unsigned most = STORE_WORDS - g->charges + charge;

    return (most < HELD_MAX ? most : HELD_MAX) - held;
}

/* An answer that just fits, just doesn't, or any. */
static void say_fill_at(struct maker *m, unsigned node)
{
    unsigned room = room_at(&m->g, node), wanted;

    switch (rng_below(&m->r, 6)) {
    case 0: wanted = room; break;
    case 1: wanted = room + 1; break;
    case 2: wanted = room > 6 ? room - rng_below(&m->r, 7) : 6; break;
    case 3: wanted = 6 + rng_below(&m->r, 3); break;
    default: wanted = 134; break;
    }
    if (wanted < 6 || wanted > 134)
        wanted = rng_chance(&m->r, 50) ? 134 : 6 + rng_below(&m->r, 129);
    say_answer_of(m, node, wanted);
}

/* Collects, and mostly acknowledges, all that is pending. */
static void drain(struct maker *m)
{
    for (unsigned at = 0; at < NODES; at++) {
        unsigned node = at == READERS ? GATEWAY_NODE : at + 1;

        while (m->g.lists[at].held > 0 && !is_full(m->t)) {
            say_collect_at(m, node);
            say_acknowledge_at(m, node, 3);
        }
        if (rng_chance(&m->r, 20))
            say_collect_at(m, node);
    }
}

/* ---- Lines that are none */

static void insert_byte(struct maker *m, size_t at, unsigned byte)
{
    memmove(m->line + at + 1, m->line + at, m->n - at);
    m->line[at] = (uint8_t)byte;
    m->n++;
}

static void delete_byte(struct maker *m, size_t at)
{
    memmove(m->line + at, m->line + at + 1, m->n - at - 1);
    m->n--;
}

/* A sound line to spoil, not played yet. */
static void draft_line(struct maker *m)
{
    unsigned node = 1 + rng_below(&m->r, READERS);
    struct plaques p = plaques_of(&m->g);
    struct draft d;

    switch (rng_below(&m->r, 6)) {
    case 0:
        start_line(m, "command");
        add_stamp(m, 0);
        add_string(m, " register");
        draft_any(&m->r, &d, &p, 20);
        for (size_t i = 0; i < d.count; i++)
            add_word(m, d.words[i]);
        break;
    case 1:
        start_line(m, "check");
        add_number(m, node);
        add_stamp(m, 0);
        add_number(m, (uint32_t)rng_next(&m->r));
        break;
    case 2: start_line(m, "arrive"), add_number(m, node), add_id(m), add_random_bytes(m, 5); break;
    case 3: start_line(m, "leave"), add_number(m, node); break;
    case 4: start_line(m, "collect"), add_number(m, node), add_string(m, " framed"); break;
    default: start_line(m, "acknowledge"), add_number(m, node), add_number(m, 1); break;
    }
}

/* The place of a blank in the line, or its end. */
static size_t some_blank(struct maker *m)
{
    size_t at = rng_below(&m->r, (uint32_t)m->n);

    while (at < m->n && m->line[at] != ' ')
        at++;
    return at;
}

static void say_spoiled(struct maker *m)
{
    static const uint8_t strange[] = {0, 9, 11, 12, 13, 27, 0x7F, 0x80, 0xA0, 0xC2, 0xFF, ' ', '-',
        '+', '0', '9', 'A', 'f', 'g', 'G', '#', '/', ':', '@', '`'};
    size_t at;

    draft_line(m);
    at = rng_below(&m->r, (uint32_t)m->n);
    switch (rng_below(&m->r, 10)) {
    case 0: insert_byte(m, some_blank(m), ' '); break;
    case 1: add_byte(m, ' '); break;
    case 2: add_byte(m, '\r'); break;
    case 3: insert_byte(m, at, RNG_ONE_OF(&m->r, strange)); break;
    case 4: m->line[at] = RNG_ONE_OF(&m->r, strange); break;
    case 5: delete_byte(m, at); break;
    case 6: m->n = at; break;
    case 7: m->line[0] = (uint8_t)(m->line[0] - 'a' + 'A'); break;
    case 8: insert_byte(m, 0, ' '); break;
    default: m->line[at] ^= (uint8_t)(1u << rng_below(&m->r, 8)); break;
    }
    if (memchr(m->line, '\n', m->n) == NULL)
        end_line(m, 0);
}

/* A check or a command with that number in one place of its stamp. */
static void say_stamp_with(struct maker *m, const char *number)
{
    bool check = rng_chance(&m->r, 50);
    unsigned place = rng_below(&m->r, 5);

    start_line(m, check ? "check 1" : "command");
    for (unsigned i = 0; i < 5; i++)
        add_string(m, i == place ? number : " 1");
    add_string(m, check ? " 0" : " register 0006 AA08 0001 0001 0000 0000");
    end_line(m, 0);
}

static void say_number_at_edge(struct maker *m)
{
    static const char *const numbers[] = {" 0", " 255", " 256", " 0000000255", " 00000000255",
        " 65535", " 65536", " 0000065535", " 00000065535", " 4294967295", " 4294967296",
        " 9999999999", " 10000000000", " 18446744073709551617", " +1", " -1", " 0x1", " 1.", "",
        " ", " 1 ", " 340282366920938463463374607431768211457", " 01", " 0000000001",
        " 00000000001", " 257", " 99999"};
    const char *number = RNG_ONE_OF(&m->r, numbers);

    switch (rng_below(&m->r, 8)) {
    case 0: start_line(m, "acknowledge 1"), add_string(m, number); break;
    case 1: start_line(m, "acknowledge"), add_string(m, number), add_string(m, " 1"); break;
    case 2: start_line(m, "leave"), add_string(m, number); break;
    case 3: start_line(m, "check 1 1 1 1 1 1"), add_string(m, number); break;
    case 4: case 5: case 6: say_stamp_with(m, number); return;
    default: start_line(m, "collect"), add_string(m, number), add_string(m, " register"); break;
    }
    end_line(m, 0);
}

/* Words of three and five digits, up to 257 of them. */
static void say_odd_words(struct maker *m)
{
    static const uint16_t counts[] = {0, 1, 5, 6, 7, 134, 135, 255, 256, 257, 258, 400};
    unsigned count = RNG_ONE_OF(&m->r, counts);
    bool framed = rng_chance(&m->r, 50);
    size_t middle;

    start_line(m, "command");
    add_stamp(m, 2);
    add_string(m, framed ? " framed" : " register");
    middle = m->n;
    for (unsigned i = 0; i < count; i++)
        add_word(m, framed && i == 0 ? 0xFF01 : i == framed ? count - framed : i == 1u + framed
                 ? 0xAA06 : i == 2u + framed ? 1 : i == 3u + framed ? 1 : 0);
    if (count > 0 && rng_chance(&m->r, 40)) {
        middle += 1 + 5 * (size_t)rng_below(&m->r, count);
        if (rng_chance(&m->r, 50))
            delete_byte(m, middle);
        else
            insert_byte(m, middle, rng_chance(&m->r, 80) ? '0' : 'g');
    }
    end_line(m, 0);
}

static void say_odd_bytes(struct maker *m)
{
    static const uint16_t ids[] = {0, 1, 7, 8, 8, 8, 8, 9, 15, 16, 17, 20};
    static const uint16_t plaques[] = {0, 1, 2, 1023, 1024, 1025, 2046, 2047, 2048, 2100};

    start_line(m, "arrive");
    add_number(m, any_node(m));
    add_random_bytes(m, RNG_ONE_OF(&m->r, ids));
    if (rng_chance(&m->r, 10))
        delete_byte(m, m->n - 1);
    add_random_bytes(m, RNG_ONE_OF(&m->r, plaques));
    if (rng_chance(&m->r, 10))
        delete_byte(m, m->n - 1);
    if (rng_chance(&m->r, 5))
        add_string(m, "-");
    end_line(m, 0);
}

/* Lines of 4,400 bytes and about it; only a comment of that length can be told from an over-long line. */
static void say_long(struct maker *m)
{
    static const uint16_t lengths[] = {4399, 4400, 4400, 4401, 4401, 4402, 5900};
    static const uint8_t bytes[] = {'#', 'x', ' ', '0', 'A'};
    size_t length = RNG_ONE_OF(&m->r, lengths);
    unsigned byte = RNG_ONE_OF(&m->r, bytes);

    if (rng_chance(&m->r, 60))
        start_line(m, "#");
    else
        draft_line(m);
    while (m->n < length)
        add_byte(m, byte);
    end_line(m, 0);
}

static void say_stray(struct maker *m)
{
    static const char *const lines[] = {"", "#", "# a comment", " # no comment", "#collect 1 framed",
        "command", "command ", "commands 1 1 1 1 1 register", "Command 1 1 1 1 1 register",
        "command 1 1 1 1 1 Register", "command 1 1 1 1 1 register", "command 1 1 1 1 1 framed",
        "command 2 30 1 1 1 framed", "command 1 1 1 1 1 register ", "command 1 1 1 1 1",
        "command 1 1 1 1 register", "command 1 1 1 1 1 1 register", "command 1 1 1 1 1 frame",
        "command 1 1 1 1 1 framed FF01", "collect 1 framedx", "collect 1 framed framed",
        "collect 1", "collect framed", "collect", "leave", "leave 1 1", "leave -", "leaves 1",
        "check 1", "check 1 1 1 1 1 1", "check 1 1 1 1 1 1 1 1", "check 32 1 1 1 1 1 1",
        "check 0 2 30 0 0 0 0", "arrive 1", "arrive 1 -", "arrive 1 - -", "arrive 32 - -",
        "arrive 1 -- -", "arrive 1 -1 -", "arrive 1 - 00", "arrive 1 0011223344556677 -",
        "arrive 1 0011223344556677 - ", "arrive 1 0011223344556677  11", "acknowledge 1",
        "acknowledge 1 1 1", "acknowledge", "ack 1 1", "done", "quit", " ", "\r", "\t", "-"};

    start_line(m, RNG_ONE_OF(&m->r, lines));
    end_line(m, 0);
}

static void say_odd(struct maker *m)
{
    switch (rng_below(&m->r, 12)) {
    case 0: case 1: case 2: case 3: say_spoiled(m); break;
    case 4: case 5: say_number_at_edge(m); break;
    case 6: say_odd_words(m); break;
    case 7: say_odd_bytes(m); break;
    case 8: say_long(m); break;
    default: say_stray(m); break;
    }
}

/* ---- Whole conversations */

static unsigned sum_of(const struct mood *w)
{
    return w->command + w->check + w->arrive + w->leave + w->collect + w->acknowledge + w->fill
        + w->odd;
}

static void say_one(struct maker *m, const struct mood *w)
{
    unsigned dice = rng_below(&m->r, sum_of(w));

    if (rng_chance(&m->r, m->looks)) {
        say_look(m);
        return;
    }
    if (dice < w->command)
        say_command(m, w->damage);
    else if ((dice -= w->command) < w->check)
        say_check_at(m, rng_chance(&m->r, 96) ? pick_favourite(m) : any_node(m), 3);
    else if ((dice -= w->check) < w->arrive)
        say_arrive_at(m, rng_chance(&m->r, 96) ? pick_favourite(m) : any_node(m),
                      pick_plaque_length(&m->r));
    else if ((dice -= w->arrive) < w->leave)
        say_leave_at(m, rng_chance(&m->r, 96) ? pick_favourite(m) : any_node(m));
    else if ((dice -= w->leave) < w->collect)
        say_collect_at(m, pending_node(m));
    else if ((dice -= w->collect) < w->acknowledge)
        say_acknowledge_at(m, pending_node(m), 12);
    else if ((dice -= w->acknowledge) < w->fill)
        say_fill_at(m, rng_chance(&m->r, 90) ? pick_favourite(m) : GATEWAY_NODE);
    else
        say_odd(m);
}

static void say_many(struct maker *m, const struct mood *w, size_t lines)
{
    while (lines-- > 0 && !is_full(m->t))
        say_one(m, w);
}

/* A few nodes, so that things meet. */
static void favour(struct maker *m, unsigned count)
{
    while (count-- > 0)
        m->nodes |= 1u << (1 + rng_below(&m->r, READERS));
}

static void arrive_at_favoured(struct maker *m, unsigned least, unsigned more)
{
    for (unsigned node = 1; node <= READERS; node++)
        if (m->nodes >> node & 1)
            say_arrive_at(m, node, least + rng_below(&m->r, more));
}

static void talk_mixed(struct maker *m)
{
    static const struct mood mood = {40, 10, 8, 3, 12, 22, 0, 3, 12};

    favour(m, 1 + rng_below(&m->r, 5));
    if (rng_chance(&m->r, 60))
        arrive_at_favoured(m, 1, 60);
    say_many(m, &mood, 20 + rng_below(&m->r, 150));
}

/* Fills some nodes to their limit and all to 4,096, then frees and fills in any order. */
static void talk_rooms(struct maker *m)
{
    static const struct mood fill = {8, 2, 0, 0, 2, 2, 60, 0, 2};
    static const struct mood free_some = {5, 2, 0, 0, 5, 50, 6, 0, 2};
    static const struct mood both = {18, 4, 1, 1, 5, 25, 40, 1, 5};
    struct draft d;
    struct plaques p = {{0}};

    m->nodes = rng_chance(&m->r, 40) ? 0x1FFFE : 0;
    favour(m, 3 + rng_below(&m->r, 4));
    arrive_at_favoured(m, 255, rng_chance(&m->r, 80) ? 1 : 400);
    draft_command(&m->r, &d, GATEWAY_NODE, 0x21, &p, CONSOLE_WORDS);
    say_packet(m, &d, 0);
    for (unsigned rounds = 1 + rng_below(&m->r, 3); rounds > 0; rounds--) {
        say_many(m, &fill, 20 + rng_below(&m->r, 60));
        say_whole_store(m);
        say_many(m, &free_some, rng_below(&m->r, 30));
        say_many(m, &both, rng_below(&m->r, 60));
    }
    say_whole_store(m);
}

/* One more answer at the node, towards exactly `upto` held words; false once it is there. */
static bool say_towards(struct maker *m, unsigned node, unsigned upto)
{
    unsigned held = held_at(&m->g, node);
    unsigned left = upto > held ? upto - held : 0, most;

    if (left < 6)
        return false;
    most = left < 134 ? left : 134;
    if (left >= 12)                     /* leave nothing, or enough for another */
        most = rng_chance(&m->r, 70) || left > 134 ? 6 + rng_below(&m->r, most - 11) : left;
    say_answer_of(m, node, node == GATEWAY_NODE ? 6 : most);
    return true;
}

/* The whole store in use, every node at its share and some far over it, then freed and filled in any
   order: an answer that has room by the charges must find it, whatever the gaps. */
static void talk_full(struct maker *m)
{
    static const struct mood change = {3, 1, 0, 0, 3, 45, 45, 0, 2};
    unsigned node, lines;

    m->nodes = 0x1FFFE;
    arrive_at_favoured(m, 255, 1);
    for (lines = 300; lines > 0; lines--) {
        node = rng_chance(&m->r, 10) ? GATEWAY_NODE : pick_favourite(m);
        say_towards(m, node, SHARE);
    }
    m->nodes = 0;
    favour(m, 2 + rng_below(&m->r, 3));
    for (lines = 100; lines > 0; lines--) {
        node = pick_favourite(m);
        say_towards(m, node, held_at(&m->g, node) + room_at(&m->g, node));
    }
    say_whole_store(m);
    m->nodes = rng_chance(&m->r, 50) ? 0x1FFFE : m->nodes;
    say_many(m, &change, 50 + rng_below(&m->r, 150));
    say_whole_store(m);
}

static void talk_continuous(struct maker *m)
{
    static const struct mood mood = {8, 50, 12, 4, 4, 18, 0, 1, 4};
    struct plaques p;
    struct draft d;

    favour(m, 1 + rng_below(&m->r, 3));
    arrive_at_favoured(m, 1, 40);
    p = plaques_of(&m->g);
    for (unsigned node = 1; node <= READERS; node++)
        for (unsigned times = m->nodes >> node & 1 ? 2 : 0; times > 0; times--) {
            draft_command(&m->r, &d, node, 0x0D, &p, CONSOLE_WORDS);
            say_packet(m, &d, 0);
        }
    say_many(m, &mood, 30 + rng_below(&m->r, 200));
}

/* Continuous reading where there is often no room: what a refused check, start or stop must not change. */
static void talk_repeats(struct maker *m)
{
    static const struct mood mood = {2, 0, 1, 1, 3, 14, 16, 0, 2};
    struct draft d = {{6, 0xAA0D}, 6};
    unsigned node;

    favour(m, 1 + rng_below(&m->r, 2));
    arrive_at_favoured(m, 255, 2);
    for (unsigned lines = 60 + rng_below(&m->r, 200); lines > 0; lines--) {
        uint32_t dice = rng_below(&m->r, 100);

        node = pick_favourite(m);
        d.words[2] = (uint16_t)node;
        d.words[3] = (uint16_t)(rng_chance(&m->r, 80) ? 1 + rng_below(&m->r, 60) : 0);
        d.words[5] = (uint16_t)(rng_chance(&m->r, 80) ? 1 + rng_below(&m->r, 255) : 255);
        if (dice < 45)
            say_check_at(m, node, 1);
        else if (dice < 55)
            say_packet(m, &d, 0);
        else
            say_one(m, &mood);
    }
}

/* So many answers at one node that its instance count wraps. */
static void talk_counts(struct maker *m)
{
    unsigned node = rng_chance(&m->r, 20) ? GATEWAY_NODE : 1 + rng_below(&m->r, READERS);
    unsigned answers = 250 + rng_below(&m->r, 320);
    static const struct mood mood = {20, 10, 5, 2, 10, 20, 0, 1, 10};

    if (node != GATEWAY_NODE && rng_chance(&m->r, 50))
        say_arrive_at(m, node, 200);
    while (answers-- > 0) {
        say_answer_of(m, node, 6 + rng_below(&m->r, 3));
        if (rng_chance(&m->r, 90))
            say_acknowledge_at(m, node, 1);
        while (held_at(&m->g, node) > 700 && !is_full(m->t))
            say_acknowledge_at(m, node, 0);
        if (rng_chance(&m->r, 3))
            say_one(m, &mood);
    }
}

/* Reports at one reader, each acknowledged, until its handover number has passed 65,535. */
static void talk_handover(struct maker *m)
{
    unsigned node = 1 + rng_below(&m->r, READERS);
    unsigned more = rng_below(&m->r, 300);
    struct draft d = {{6, 0xAA0D, 0, 0, 0, 1}, 6};

    d.words[2] = (uint16_t)node;
    say_arrive_at(m, node, 1);
    say_packet(m, &d, 0);
    for (unsigned i = 0; i < 65400 + more && !is_full(m->t); i++) {
        say_check_at(m, node, 0);
        say_acknowledge_at(m, node, i > 65300);
    }
    for (unsigned i = 0; i < 400 && !is_full(m->t); i++) {
        say_check_at(m, node, 0);
        if (rng_chance(&m->r, 10))
            say_collect_at(m, node);
        say_acknowledge_at(m, node, 10);
    }
}

static void talk_odd(struct maker *m)
{
    static const struct mood mood = {20, 4, 6, 2, 6, 10, 0, 50, 10};

    favour(m, 1 + rng_below(&m->r, 3));
    say_many(m, &mood, 20 + rng_below(&m->r, 60));
}

/* The last line may lack its line feed, and lines may be empty. */
static void end_talk(struct maker *m)
{
    struct talk *t = m->t;

    if (rng_chance(&m->r, 60))
        drain(m);
    if (t->used > 0 && rng_chance(&m->r, 10))
        t->used--;
    else if (rng_chance(&m->r, 5))
        t->text[t->used++] = '\n';
}

void generate_talk(uint64_t seed, struct talk *t)
{
    static struct maker m;
    uint32_t dice;

    open_talk(&m, seed, t);
    m.looks = 8;
    dice = rng_below(&m.r, 4000);
    if (seed % 5000 == 0)               /* long, so there are few of them */
        talk_handover(&m);
    else if (dice < 150)
        talk_counts(&m);
    else if (dice < 1500)
        talk_mixed(&m);
    else if (dice < 2300)
        talk_rooms(&m);
    else if (dice < 2500)
        talk_full(&m);
    else if (dice < 3000)
        talk_continuous(&m);
    else if (dice < 3300)
        talk_repeats(&m);
    else
        talk_odd(&m);
    end_talk(&m);
}

void generate_long_talk(uint64_t seed, size_t lines, struct talk *t)
{
    static struct maker m;
    static const struct mood mood = {34, 10, 3, 1, 22, 22, 7, 1, 4};

    open_talk(&m, seed, t);
    favour(&m, 12);
    arrive_at_favoured(&m, 255, 2);
    say_many(&m, &mood, lines - t->lines);
}

/* ---- Floods */

/* No answer to this packet has more words. */
static unsigned most_words(const struct draft *d)
{
    unsigned size = d->words[5] > 255 ? 255 : d->words[5];

    switch (d->words[1]) {
    case 0xAA05: return 6 + (size + 1) / 2 > 7 ? 6 + (size + 1) / 2 : 7;
    case 0xAA07: return 10;
    case 0xAA11: return 6 + NAME_MAX / 2;
    default: return 7;
    }
}

/* A call at a gentle node, unless its answer could bring it over 134: then an acknowledgement. */
static void say_gently(struct maker *m, unsigned node)
{
    static const uint8_t commands[] = {4, 5, 5, 6, 7, 8, 0x0D, 0x54};
    static const uint8_t at_gateway[] = {0x11, 0x11, 0x11, 0x21, 0x21, 0x60};
    struct plaques p = plaques_of(&m->g);
    unsigned command = RNG_ONE_OF(&m->r, commands);
    struct draft d;

    if (node == GATEWAY_NODE)           /* seldom 61 or 79, which end a flood */
        command = rng_chance(&m->r, 95) ? RNG_ONE_OF(&m->r, at_gateway)
                : rng_chance(&m->r, 50) ? 0x61 : 0x79;
    draft_command(&m->r, &d, node, command, &p, CONSOLE_WORDS);
    if (held_at(&m->g, node) + most_words(&d) <= SHARE)
        say_packet(m, &d, 0);
    else
        say_acknowledge_at(m, node, 5);
}

static void check_gently(struct maker *m, unsigned node)
{
    if (held_at(&m->g, node) + 6 + (m->g.readers[node - 1].size + 1u) / 2 <= SHARE)
        say_check_at(m, node, 1);
    else
        say_acknowledge_at(m, node, 5);
}

static void play_gentle(struct maker *m, unsigned node)
{
    uint32_t dice = rng_below(&m->r, 100);

    if (dice < 40)
        say_gently(m, node);
    else if (dice < 60)
        say_acknowledge_at(m, node, 15);
    else if (dice < 75)
        say_collect_at(m, node);
    else if (node == GATEWAY_NODE)
        say_gently(m, node);
    else if (dice < 90)
        check_gently(m, node);
    else if (dice < 97)
        say_arrive_at(m, node, pick_plaque_length(&m->r));
    else
        say_leave_at(m, node);
}

static void play_flooder(struct maker *m, unsigned node)
{
    struct draft d = {{6, 0xAA0D, 0, 0, 0, 255}, 6};

    d.words[2] = (uint16_t)node;
    switch (rng_below(&m->r, 10)) {
    case 0: say_packet(m, &d, 0); break;
    case 1: case 2: case 3: say_check_at(m, node, 1); break;
    case 4: say_acknowledge_at(m, node, 10); break;
    case 5: say_arrive_at(m, node, rng_chance(&m->r, 70) ? 255 : pick_plaque_length(&m->r)); break;
    default: say_fill_at(m, node); break;
    }
}

static void say_to_nobody(struct maker *m)
{
    unsigned node = pick_bad_node(&m->r);

    switch (rng_below(&m->r, 3)) {
    case 0: say_collect_at(m, node); break;
    case 1: say_leave_at(m, rng_chance(&m->r, 50) ? GATEWAY_NODE : node); break;
    default: say_answer_of(m, node == GATEWAY_NODE ? 0 : node, 6); break;
    }
}

uint32_t generate_flood(uint64_t seed, struct talk *t)
{
    static struct maker m;
    uint32_t gentle = 0, kept;
    unsigned lines;

    open_talk(&m, seed, t);
    for (int i = 0; i < 4; i++)
        gentle |= 1u << (1 + rng_below(&m.r, READERS));
    m.nodes = 0x1FFFE & ~gentle;
    arrive_at_favoured(&m, 255, 2);
    kept = gentle;
    for (lines = 150 + rng_below(&m.r, 250); lines > 0; lines--) {
        unsigned node = 1 + rng_below(&m.r, READERS);
        uint32_t dice = rng_below(&m.r, 100);

        if (dice < 15)
            play_gentle(&m, GATEWAY_NODE);
        else if (dice < 18)
            say_to_nobody(&m);
        else if (gentle >> node & 1)
            play_gentle(&m, node);
        else
            play_flooder(&m, node);
        if (gentle >> node & 1 && held_at(&m.g, node) > SHARE)
            kept &= ~(1u << node);
    }
    return held_at(&m.g, GATEWAY_NODE) > SHARE ? 0 : kept;
}
