/* Chance, for the programs that make random calls: the same from the same seed. */
#ifndef CHANCE_H
#define CHANCE_H
#include <stddef.h>
#include <stdint.h>
#include <string.h>

static uint64_t chance_state;

static inline uint64_t chance(void) { /* splitmix64 */
    uint64_t z = chance_state += 0x9E3779B97F4A7C15u;
    z = (z ^ z >> 30) * 0xBF58476D1CE4E5B9u;
    z = (z ^ z >> 27) * 0x94D049BB133111EBu;
    return z ^ z >> 31;
}

static inline size_t below(size_t n) { return (size_t)(chance() % n); }
static inline int percent(size_t n) { return below(100) < n; }
static inline size_t near(size_t n, size_t reach) {
    size_t x = n + below(2 * reach + 1);
    return x < reach ? 0 : x - reach;
}
#define PICK(...) ((const size_t[]){__VA_ARGS__}[below(sizeof((const size_t[]){__VA_ARGS__}) / sizeof(size_t))])

static inline void random_bytes(uint8_t *bytes, size_t len) {
    for (size_t i = 0; i < len; i += 8) {
        uint64_t eight = chance();
        memcpy(bytes + i, &eight, len - i < 8 ? len - i : 8);
    }
}

/* Body or frame cut, lengthened, or one bit turned. */
static inline void damage(uint8_t *bytes, size_t *len) {
    switch (below(4)) {
    case 0: *len = below(*len + 1); break;
    case 1: for (size_t more = 1 + below(4); more-- > 0;) bytes[(*len)++] = (uint8_t)chance(); break;
    case 2: *len += *len % 2 + (percent(20) ? below(250) : 0); break; /* whatever stands there */
    default: if (*len > 0) bytes[below(*len)] ^= (uint8_t)(1 << below(8)); break;
    }
}

#endif
