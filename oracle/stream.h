/* What both formats of recorded calls share (vectors/src/record.rs, vectors/src/drive/record.rs). */
#ifndef STREAM_H
#define STREAM_H
#include <stddef.h>
#include <stdint.h>

/* A lent response or reply before the call. */
static inline uint8_t as_lent(size_t i) { return (uint8_t)(0x5A + i); }

static inline size_t big_endian(const uint8_t *b, int width) {
    size_t n = 0;
    while (width-- > 0) n = n << 8 | *b++;
    return n;
}
#endif
