/* The bench console: calls as lines of text, by console.md. */
#ifndef PLAIN_CONSOLE_H
#define PLAIN_CONSOLE_H

#include "gateway.h"
#include "text.h"

enum { CONSOLE_LINE_MAX = 4400 };

/* Plays one line (without its line feed) and writes its line out, if it has one. */
void console_line(struct gateway *g, const uint8_t *line, size_t n, struct text *t);

/* Plays a whole conversation on a fresh gateway and returns the bytes written. In a buffer that is
   too short the output ends after the last whole line that surely fits. */
size_t plain_console(const uint8_t *in, size_t n, uint8_t *out, size_t cap);

#endif
