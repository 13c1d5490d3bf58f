#include "text.h"

#include <string.h>

bool text_has_line(const struct text *t)
{
    return t->room - t->used >= TEXT_LINE_MAX;
}

void text_byte(struct text *t, char c)
{
    t->out[t->used++] = (uint8_t)c;
}

void text_string(struct text *t, const char *s)
{
    size_t n = strlen(s);

    memcpy(t->out + t->used, s, n);
    t->used += n;
}

void text_number(struct text *t, unsigned value)
{
    char digits[10];
    size_t n = 0;

    do
        digits[n++] = (char)('0' + value % 10);
    while ((value /= 10) > 0);
    while (n > 0)
        text_byte(t, digits[--n]);
}

#ifdef PAIRS
/* The two digits of every byte, filled at the first use: quicker than a digit at a time. */
static const uint8_t *pairs(void)
{
    static const char hex[] = "0123456789ABCDEF";
    static uint8_t table[512];

    if (table[0] == 0)
        for (size_t i = 0; i < 256; i++) {
            table[2 * i] = (uint8_t)hex[i >> 4];
            table[2 * i + 1] = (uint8_t)hex[i & 15];
        }
    return table;
}

static uint8_t *put_word(uint8_t *at, uint16_t word)
{
    memcpy(at, pairs() + 2 * (word >> 8), 2);
    memcpy(at + 2, pairs() + 2 * (word & 255), 2);
    return at + 4;
}
#else
static uint8_t *put_word(uint8_t *at, uint16_t word)
{
    static const char hex[] = "0123456789ABCDEF";

    *at++ = (uint8_t)hex[word >> 12];
    *at++ = (uint8_t)hex[word >> 8 & 15];
    *at++ = (uint8_t)hex[word >> 4 & 15];
    *at++ = (uint8_t)hex[word & 15];
    return at;
}
#endif

void text_words(struct text *t, const uint16_t *words, size_t count)
{
    uint8_t *at = t->out + t->used;

    for (size_t i = 0; i < count; i++) {
        if (i > 0)
            *at++ = ' ';
        at = put_word(at, words[i]);
    }
    t->used = (size_t)(at - t->out);
}
