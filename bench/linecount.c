/* What linecount does, in plain C, for docs/COST.md: by the direct search (-DDIRECT) or by sums, as the proved program
 * does it. Logs as document 02, 2026-12, has them; all of it is read before anything is counted. */
#include <stdint.h>
#include <stdio.h>
#include <stdlib.h>
#include <string.h>
#include <unistd.h>

enum { LEAST = 4, MOST = 256, RECORD_MOST = 4096 };
static const uint64_t log_most = 4294967295;

struct counted {
    uint64_t frames, inside;
};

static unsigned shift(unsigned c) { return c & 1 ? c >> 1 ^ 0xA001 : c >> 1; }

#ifdef DIRECT
static uint16_t step[256];

static void prepare(void) {
    for (unsigned i = 0; i < 256; i++) {
        unsigned c = i;
        for (int k = 0; k < 8; k++) c = shift(c);
        step[i] = (uint16_t)c;
    }
}

static unsigned over(unsigned c, uint8_t b) { return c >> 8 ^ step[(c ^ b) & 255]; }

/* The shortest frame that begins here, or 0. */
static size_t shortest(const uint8_t *from, size_t left) {
    unsigned c = over(over(0xFFFF, from[0]), from[1]);
    for (size_t n = LEAST; n <= left && n <= MOST; n++) {
        if (from[n - 2] == (c & 255) && from[n - 1] == c >> 8) return n;
        c = over(c, from[n - 2]);
    }
    return 0;
}

static struct counted count(const uint8_t *record, size_t len) {
    struct counted c = {0, 0};
    for (size_t at = 0; at + LEAST <= len;) {
        size_t n = shortest(record + at, len - at);
        c.frames += n > 0;
        c.inside += n;
        at += n > 0 ? n : 1;
    }
    return c;
}
#else
static uint16_t power[2 * (RECORD_MOST + 1)][16], opening[RECORD_MOST + 1], sum[RECORD_MOST + 1], nearest[65536];
static uint32_t counts[RECORD_MOST + 1];

static void prepare(void) {
    for (unsigned h = 0; h < 16; h++) {
        unsigned c = h << 4;
        for (int m = 0; m < 2 * (RECORD_MOST + 1); m++) {
            power[m][h] = (uint16_t)c;
            for (int k = 0; k < 4; k++) c = shift(c);
        }
    }
    unsigned c = 0xFFFF;
    for (int n = 0; n <= RECORD_MOST; n++) {
        opening[n] = (uint16_t)c;
        for (int k = 0; k < 8; k++) c = shift(c);
    }
}

static struct counted count(const uint8_t *record, size_t len) {
    uint16_t z = 0;
    uint32_t c = 0;
    sum[0] = 0;
    counts[0] = 0;
    for (size_t k = 1; k <= len; k++) {
        uint8_t b = record[len - k];
        sum[k] = z ^= power[2 * k][b >> 4] ^ power[2 * k + 1][b & 15];
        if (k >= LEAST) {
            nearest[sum[k - LEAST]] = (uint16_t)(k - LEAST);
            uint16_t w = z ^ opening[k];
            size_t h = nearest[w];
            if (k - LEAST - h <= MOST - LEAST && sum[h] == w) c = counts[h] + 65536 + (uint32_t)(k - h);
        }
        counts[k] = c;
    }
    return (struct counted){c >> 16, c & 65535};
}
#endif

static uint8_t *whole(size_t *len) {
    size_t room = 1 << 16;
    uint8_t *log = malloc(room);
    ssize_t got;
    for (*len = 0; log != NULL && (got = read(0, log + *len, room - *len)) > 0;) {
        *len += (size_t)got;
        if (*len == room) log = realloc(log, room *= 2);
    }
    return log;
}

/* How many bytes the record has, or -1 after a line that refuses the log. */
static long weigh(const uint8_t *l, size_t left, uint64_t at) {
    size_t n = left < 4 ? 0 : (size_t)l[2] << 8 | l[3];
    if (l[0] != 0x4D || (left > 1 && l[1] != 0x42)) printf("bad mark at %llu\n", (unsigned long long)at);
    else if (left < 4 || n > RECORD_MOST || left < 4 + n) printf("bad record at %llu\n", (unsigned long long)at);
    else if (at + 4 + n > log_most) printf("too long\n");
    else return (long)n;
    return -1;
}

int main(void) {
    size_t len, at = 0;
    uint64_t records = 0, frames = 0, inside = 0, other = 0;
    const uint8_t *log = whole(&len);
    if (log == NULL) return 1;
    prepare();
    while (at < len) {
        long n = weigh(log + at, len - at, at);
        if (n < 0) return 0;
        struct counted c = count(log + at + 4, (size_t)n);
        records++;
        frames += c.frames;
        inside += c.inside;
        other += (uint64_t)n - c.inside;
        at += 4 + (size_t)n;
    }
    printf("records %llu\nframes %llu\nframe bytes %llu\nother bytes %llu\n", (unsigned long long)records,
        (unsigned long long)frames, (unsigned long long)inside, (unsigned long long)other);
    return 0;
}
