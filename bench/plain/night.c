#include "night.h"

#include "gateway.h"
#include "text.h"

/* What is left of the file. */
struct view {
    const uint8_t *at;
    size_t left;
};

/* The next n bytes, or NULL if the file ends within them. */
static const uint8_t *take(struct view *v, size_t n)
{
    const uint8_t *bytes = v->at;

    if (v->left < n)
        return NULL;
    v->at += n;
    v->left -= n;
    return bytes;
}

static unsigned number_at(const uint8_t *bytes) { return (unsigned)bytes[0] << 8 | bytes[1]; }

static bool take_count(struct view *v, unsigned *count)
{
    const uint8_t *bytes = take(v, 2);

    if (bytes == NULL)
        return false;
    *count = number_at(bytes);
    return true;
}

/* "plaques (node, length in 2 bytes, ID, bytes)"; the call itself judges node and length. */
static bool play_plaque(struct gateway *g, struct view *v)
{
    const uint8_t *head = take(v, 3 + ID_BYTES);
    const uint8_t *bytes;

    if (head == NULL)
        return false;
    bytes = take(v, number_at(head + 1));
    return bytes != NULL
        && gateway_arrive(g, head[0], head + 3, ID_BYTES, bytes, number_at(head + 1)) == DONE;
}

static bool play_plaques(struct gateway *g, struct view *v)
{
    unsigned count;

    if (!take_count(v, &count))
        return false;
    while (count-- > 0)
        if (!play_plaque(g, v))
            return false;
    return true;
}

/* "commands (five stamp bytes, a register packet)"; an Overall Length outside 6 to 134 breaks the
   file before anything of the command is judged. */
static bool take_command(struct view *v, struct stamp *when, uint16_t *words, size_t *count)
{
    const uint8_t *s = take(v, 5);
    const uint8_t *bytes;

    if (s == NULL || v->left < 2)
        return false;
    *when = (struct stamp){s[0], s[1], s[2], s[3], s[4]};
    *count = number_at(v->at);
    if (*count < 6 || *count > ANSWER_MAX)
        return false;
    bytes = take(v, 2 * *count);
    if (bytes == NULL)
        return false;
    for (size_t i = 0; i < *count; i++)
        words[i] = (uint16_t)number_at(bytes + 2 * i);
    return true;
}

/* "each command's answer is collected in register form and acknowledged" */
static void list_answer(struct gateway *g, unsigned node, struct text *t)
{
    uint16_t words[COLLECT_MAX];
    size_t count;
    unsigned number;

    if (gateway_collect(g, node, REGISTER, words, COLLECT_MAX, &count, &number) != DONE)
        return;
    text_words(t, words, count);
    text_byte(t, '\n');
    gateway_acknowledge(g, node, number);
}

/* One command, one line; false if the file breaks here. */
static bool play_command(struct gateway *g, struct view *v, struct text *t)
{
    struct stamp when;
    uint16_t words[ANSWER_MAX];
    size_t count;
    int result;

    if (!take_command(v, &when, words, &count))
        return false;
    result = gateway_command(g, &when, REGISTER, words, count);
    if (result == DONE) {
        list_answer(g, words[2] & 0xFF, t);
    } else {
        text_string(t, "refused ");
        text_number(t, (unsigned)result);
        text_byte(t, '\n');
    }
    return true;
}

/* The listing but for its line `broken`; true if the file is whole. */
static bool play_file(struct gateway *g, struct view *v, struct text *t)
{
    unsigned count;

    if (!play_plaques(g, v) || !take_count(v, &count))
        return false;
    text_string(t, "commands ");
    text_number(t, count);
    text_byte(t, '\n');
    while (count-- > 0 && text_has_line(t))
        if (!play_command(g, v, t))
            return false;
    return v->left == 0;
}

size_t plain_night(const uint8_t *file, size_t n, uint8_t *out, size_t cap)
{
    struct gateway g;
    struct view v = {file, n};
    struct text t = {out, 0, cap};

    if (!text_has_line(&t))
        return 0;
    gateway_fresh(&g);
    if (n > NIGHT_FILE_MAX || !play_file(&g, &v, &t))
        if (text_has_line(&t))
            text_string(&t, "broken\n");
    return t.used;
}
