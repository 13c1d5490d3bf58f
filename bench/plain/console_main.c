/* plain-console: the bench console on standard input and output. */
#include "console.h"

#include <stdio.h>

static struct gateway gateway;

/* Reads up to a line feed or the end; of an over-long line one byte more than allowed is kept, which
   is enough to see that it is. False at the end of the input. */
static bool read_line(uint8_t *line, size_t *n)
{
    int c = getchar();

    *n = 0;
    if (c == EOF)
        return false;
    for (; c != EOF && c != '\n'; c = getchar())
        if (*n <= CONSOLE_LINE_MAX)
            line[(*n)++] = (uint8_t)c;
    return true;
}

int main(void)
{
    uint8_t line[CONSOLE_LINE_MAX + 1], out[TEXT_LINE_MAX];
    size_t n;

    gateway_fresh(&gateway);
    while (read_line(line, &n)) {
        struct text t = {out, 0, sizeof out};

        console_line(&gateway, line, n, &t);
        /* "Each line out is written before the next line is waited for" */
        if (fwrite(out, 1, t.used, stdout) != t.used || fflush(stdout) != 0)
            return 1;
    }
    return 0;
}
