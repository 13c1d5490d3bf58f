/* A night run: a run file played on a fresh gateway. */
#ifndef PLAIN_NIGHT_H
#define PLAIN_NIGHT_H

#include <stddef.h>
#include <stdint.h>

/* The largest listing is under 2,600,000 bytes: about 3,840 answers of 134 words. */
enum { NIGHT_FILE_MAX = 65536, NIGHT_LISTING_MAX = 2600000 };

/* Writes the listing of the run file and returns its length in bytes. In a buffer that is too short
   the listing ends after the last whole line that surely fits. */
size_t plain_night(const uint8_t *file, size_t n, uint8_t *out, size_t cap);

#endif
