/* plain-night [FILE]: the listing of a run file, or of standard input. */
#include "night.h"

#include <stdio.h>

static uint8_t file[NIGHT_FILE_MAX + 1];        /* one more shows a file that is too long */
static uint8_t listing[NIGHT_LISTING_MAX];

int main(int argc, char **argv)
{
    FILE *in = stdin;
    size_t n, written;

    if (argc > 2) {
        fputs("usage: plain-night [FILE]\n", stderr);
        return 2;
    }
    if (argc == 2 && (in = fopen(argv[1], "rb")) == NULL) {
        perror(argv[1]);
        return 1;
    }
    n = fread(file, 1, sizeof file, in);
    if (ferror(in)) {
        perror("plain-night");
        return 1;
    }
    written = plain_night(file, n, listing, sizeof listing);
    return fwrite(listing, 1, written, stdout) == written && fflush(stdout) == 0 ? 0 : 1;
}
