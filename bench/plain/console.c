#include "console.h"

#include <string.h>

enum { PACKET_WORDS = 256, ID_MAX = 16, BYTES_MAX = 2047, DIGITS_MAX = 10, SHOWN_MAX = 128 };

/* What is left of a line. Each field but the first stands behind exactly one blank. */
struct line {
    const uint8_t *at, *end;
};

static bool blank(struct line *l)
{
    if (l->at == l->end || *l->at != ' ')
        return false;
    l->at++;
    return true;
}

/* What follows the word is left to the next field, which wants a blank, or to ended(). */
static bool word(struct line *l, const char *s)
{
    size_t n = strlen(s);

    if ((size_t)(l->end - l->at) < n || memcmp(l->at, s, n) != 0)
        return false;
    l->at += n;
    return true;
}

/* A blank and a decimal number: "of one to ten digits, leading zeros allowed". */
static bool number(struct line *l, uint64_t most, uint32_t *value)
{
    uint64_t v = 0;
    int digits = 0;

    if (!blank(l))
        return false;
    while (l->at < l->end && *l->at >= '0' && *l->at <= '9' && digits <= DIGITS_MAX) {
        v = 10 * v + (*l->at++ - '0');
        digits++;
    }
    *value = (uint32_t)v;
    return digits >= 1 && digits <= DIGITS_MAX && v <= most;
}

static bool node(struct line *l, uint32_t *value) { return number(l, 255, value); }

static bool stamp(struct line *l, struct stamp *s)
{
    uint8_t *parts[5] = {&s->month, &s->day, &s->hour, &s->minute, &s->second};
    uint32_t value;

    for (int i = 0; i < 5; i++) {
        if (!number(l, 255, &value))
            return false;
        *parts[i] = (uint8_t)value;
    }
    return true;
}

static bool form(struct line *l, enum form *f)
{
    if (!blank(l))
        return false;
    *f = word(l, "framed") ? FRAMED : REGISTER;
    return *f == FRAMED || word(l, "register");
}

/* Hex digits of either case: their value, with IS_HEX set. */
enum { IS_HEX = 0x10 };
static const uint8_t hex[256] = {
    ['0'] = 0x10, ['1'] = 0x11, ['2'] = 0x12, ['3'] = 0x13, ['4'] = 0x14, ['5'] = 0x15,
    ['6'] = 0x16, ['7'] = 0x17, ['8'] = 0x18, ['9'] = 0x19,
    ['A'] = 0x1A, ['B'] = 0x1B, ['C'] = 0x1C, ['D'] = 0x1D, ['E'] = 0x1E, ['F'] = 0x1F,
    ['a'] = 0x1A, ['b'] = 0x1B, ['c'] = 0x1C, ['d'] = 0x1D, ['e'] = 0x1E, ['f'] = 0x1F
};

static bool is_hex(const uint8_t *s, size_t digits)
{
    unsigned all = IS_HEX;

    while (digits > 0)
        all &= hex[s[--digits]];
    return all != 0;
}

static unsigned hex_byte(const uint8_t *s)
{
    return (hex[s[0]] & 15u) << 4 | (hex[s[1]] & 15u);
}

/* A blank and an even number of hex digits in one piece, or `-` for none. */
static bool bytes(struct line *l, size_t most, uint8_t *out, size_t *count)
{
    size_t n = 0;

    *count = 0;
    if (!blank(l))
        return false;
    if (word(l, "-"))
        return true;
    for (; n < most && l->end - l->at >= 2 && is_hex(l->at, 2); l->at += 2)
        out[n++] = (uint8_t)hex_byte(l->at);
    *count = n;
    return n > 0;
}

/* The rest of the line as words, each a blank and four hex digits. */
static bool words(struct line *l, uint16_t *out, size_t *count)
{
    size_t n = 0;

    for (; l->at < l->end; l->at += 4) {
        if (n == PACKET_WORDS || l->end - l->at < 5 || !blank(l) || !is_hex(l->at, 4))
            return false;
        out[n++] = (uint16_t)(hex_byte(l->at) << 8 | hex_byte(l->at + 2));
    }
    *count = n;
    return true;
}

static bool ended(const struct line *l) { return l->at == l->end; }

/* ---- Lines out */

static void say(struct text *t, const char *s)
{
    text_string(t, s);
    text_byte(t, '\n');
}

static void say_result(struct text *t, int result, const char *done)
{
    if (result == DONE) {
        say(t, done);
    } else if (result == QUIET) {
        say(t, "quiet");
    } else {
        text_string(t, "refused ");
        text_number(t, (unsigned)result);
        text_byte(t, '\n');
    }
}

static void say_collected(struct text *t, unsigned handover, const uint16_t *w, size_t count)
{
    text_string(t, "collected ");
    text_number(t, handover);
    text_byte(t, ' ');
    text_words(t, w, count);
    text_byte(t, '\n');
}

/* ---- The six calls, and a look at the store; each is false if its line is none */

static bool play_command(struct gateway *g, struct line *l, struct text *t)
{
    struct stamp when;
    enum form f;
    uint16_t w[PACKET_WORDS];
    size_t count;

    if (!stamp(l, &when) || !form(l, &f) || !words(l, w, &count))
        return false;
    say_result(t, gateway_command(g, &when, f, w, count), "queued");
    return true;
}

static bool play_check(struct gateway *g, struct line *l, struct text *t)
{
    struct stamp when;
    uint32_t at, clock;

    if (!node(l, &at) || !stamp(l, &when) || !number(l, UINT32_MAX, &clock) || !ended(l))
        return false;
    say_result(t, gateway_check(g, at, &when, clock), "queued");
    return true;
}

static bool play_arrive(struct gateway *g, struct line *l, struct text *t)
{
    uint8_t id[ID_MAX], plaque[BYTES_MAX];
    size_t id_length, length;
    uint32_t at;

    if (!node(l, &at) || !bytes(l, ID_MAX, id, &id_length)
        || !bytes(l, BYTES_MAX, plaque, &length) || !ended(l))
        return false;
    say_result(t, gateway_arrive(g, at, id, id_length, plaque, length), "done");
    return true;
}

static bool play_leave(struct gateway *g, struct line *l, struct text *t)
{
    uint32_t at;

    if (!node(l, &at) || !ended(l))
        return false;
    say_result(t, gateway_leave(g, at), "done");
    return true;
}

static bool play_collect(struct gateway *g, struct line *l, struct text *t)
{
    uint16_t w[COLLECT_MAX];
    size_t count;
    uint32_t at;
    unsigned handover;
    enum form f;
    int result;

    if (!node(l, &at) || !form(l, &f) || !ended(l))
        return false;
    result = gateway_collect(g, at, f, w, COLLECT_MAX, &count, &handover);
    if (result == DONE)
        say_collected(t, handover, w, count);
    else
        say_result(t, result, "");
    return true;
}

static bool play_acknowledge(struct gateway *g, struct line *l, struct text *t)
{
    uint32_t at, handover;

    if (!node(l, &at) || !number(l, 65535, &handover) || !ended(l))
        return false;
    say_result(t, gateway_acknowledge(g, at, handover), "done");
    return true;
}

/* Document 02, E8: "FIRST and FIRST + COUNT within the store, COUNT 1 to 128" */
static bool play_store(const struct gateway *g, struct line *l, struct text *t)
{
    uint16_t w[SHOWN_MAX];
    uint32_t first, count;

    if (!number(l, STORE_WORDS - 1, &first) || !number(l, SHOWN_MAX, &count) || !ended(l)
        || count == 0 || first + count > STORE_WORDS)
        return false;
    gateway_store(g, first, count, w);
    text_string(t, "store ");
    text_words(t, w, count);
    text_byte(t, '\n');
    return true;
}

static bool play_call(struct gateway *g, struct line *l, struct text *t)
{
    if (word(l, "command"))
        return play_command(g, l, t);
    if (word(l, "check"))
        return play_check(g, l, t);
    if (word(l, "arrive"))
        return play_arrive(g, l, t);
    if (word(l, "leave"))
        return play_leave(g, l, t);
    if (word(l, "collect"))
        return play_collect(g, l, t);
    if (word(l, "store"))
        return play_store(g, l, t);
    return word(l, "acknowledge") && play_acknowledge(g, l, t);
}

/* "First of all its length is looked at", then whether it is passed over. */
void console_line(struct gateway *g, const uint8_t *line, size_t n, struct text *t)
{
    struct line l = {line, line + n};

    if (n > CONSOLE_LINE_MAX) {
        say(t, "unreadable");
        return;
    }
    if (n == 0 || line[0] == '#')
        return;
    if (!play_call(g, &l, t))
        say(t, "unreadable");
}

size_t plain_console(const uint8_t *in, size_t n, uint8_t *out, size_t cap)
{
    struct gateway g;
    struct text t = {out, 0, cap};
    const uint8_t *end = in + n;

    gateway_fresh(&g);
    while (in < end && text_has_line(&t)) {
        const uint8_t *feed = memchr(in, '\n', (size_t)(end - in));
        size_t length = (size_t)((feed != NULL ? feed : end) - in);

        console_line(&g, in, length, &t);
        in += length + (feed != NULL);
    }
    return t.used;
}
