/* The proved side, from crates/rashdumof/out/librashdumof.a: a slice is a pointer and a length. Its lent memory is its own, cleared in each call, as
   the plain side clears its own. */
#ifndef BENCH_OURS_H
#define BENCH_OURS_H

#include <stddef.h>
#include <stdint.h>

size_t rashdumof_night(const uint8_t *file, size_t file_len, uint8_t *out, size_t out_len);

size_t rashdumof_console(const uint8_t *in, size_t in_len, uint8_t *out, size_t out_len);

#endif
