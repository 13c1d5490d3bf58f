/* Lines of text into a lent buffer. */
#ifndef PLAIN_TEXT_H
#define PLAIN_TEXT_H

#include <stdbool.h>
#include <stddef.h>
#include <stdint.h>

/* The longest line out: `collected 65535`, 135 words of a blank and four digits, a line feed. */
enum { TEXT_LINE_MAX = 15 + 135 * 5 + 1 };

struct text {
    uint8_t *out;
    size_t used, room;
};

/* True if one more line surely fits. Asked once a line, so that nothing else has to be. */
bool text_has_line(const struct text *t);
void text_string(struct text *t, const char *s);
void text_number(struct text *t, unsigned value);
void text_byte(struct text *t, char c);

/* Words as four upper-case hex digits each, one blank between. */
void text_words(struct text *t, const uint16_t *words, size_t count);

#endif
