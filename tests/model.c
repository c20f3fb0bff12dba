/* Document 01's driver, with document 02's functions 22 and 23, its switch for lower case and the cells that a result
 * names, written from the pages and from nothing else: one bit or byte at a time, no cleverness. The fuzz compares the
 * proved library with it. */
#include "asked.h"
#include <string.h>

typedef struct dalonjang_result result;

uint16_t model_crc(const uint8_t *bytes, size_t n) {
    unsigned crc = 0xFFFF;
    for (size_t i = 0; i < n; i++) {
        crc ^= bytes[i];
        for (int k = 0; k < 8; k++) crc = crc % 2 == 1 ? crc / 2 ^ 0xA001 : crc / 2;
    }
    return (uint16_t)crc;
}

static int place_in(const char *digits, uint8_t c) {
    const char *at = c == 0 ? NULL : strchr(digits, c);
    return at == NULL ? -1 : (int)(at - digits);
}

static int digit(uint8_t c, uint8_t hex) { /* -1: it is none */
    int place = place_in("0123456789ABCDEF", c);
    return place < 0 && hex == 1 ? place_in("0123456789abcdef", c) : place;
}

static int sum(const uint8_t *bytes, size_t n) {
    int total = 0;
    for (size_t i = 0; i < n; i++) total += bytes[i];
    return total % 256;
}

int model_unwrap(uint8_t transport, uint8_t hex, const uint8_t *f, size_t len, uint8_t *body, size_t *n) {
    switch (transport) {
    case 0:
        if (len < 4 || len > 256) return 5;
        *n = len - 2;
        memcpy(body, f, *n);
        return model_crc(f, *n) == f[len - 1] * 256 + f[len - 2] ? 0 : 6;
    case 1:
        if (len < 1 + 6 + 2 || len > 1 + 508 + 2 || len % 2 == 0) return 5;
        if (f[0] != ':' || f[len - 2] != '\r' || f[len - 1] != '\n') return 5;
        for (size_t i = 1; i < len - 2; i++)
            if (digit(f[i], hex) < 0) return 5;
        for (size_t i = 0; i < (len - 3) / 2; i++)
            body[i] = (uint8_t)(16 * digit(f[2 * i + 1], hex) + digit(f[2 * i + 2], hex));
        *n = (len - 3) / 2 - 1;
        return sum(body, *n + 1) == 0 ? 0 : 6;
    default:
        if (len < 8 || len > 260 || f[2] != 0 || f[3] != 0 || word(f + 4) != len - 6) return 5;
        *n = len - 6;
        memcpy(body, f + 6, *n);
        return 0;
    }
}

size_t model_wrap(uint8_t transport, const uint8_t *tag, const uint8_t *body, size_t n, uint8_t *r) {
    switch (transport) {
    case 1:
        r[0] = ':';
        for (size_t i = 0; i <= n; i++) {
            int byte = i < n ? body[i] : (256 - sum(body, n)) % 256;
            r[2 * i + 1] = (uint8_t)"0123456789ABCDEF"[byte / 16];
            r[2 * i + 2] = (uint8_t)"0123456789ABCDEF"[byte % 16];
        }
        memcpy(r + 2 * n + 3, "\r\n", 2);
        return 2 * n + 5;
    case 2:
        r[0] = tag[0], r[1] = tag[1], r[2] = 0, r[3] = 0;
        r[4] = (uint8_t)(n / 256), r[5] = (uint8_t)(n % 256);
        memcpy(r + 6, body, n);
        return n + 6;
    default:
        memcpy(r, body, n);
        r[n] = (uint8_t)(model_crc(body, n) % 256), r[n + 1] = (uint8_t)(model_crc(body, n) / 256);
        return n + 2;
    }
}

static int bit(const uint8_t *table, size_t cell) { return table[cell / 8] >> cell % 8 & 1; }

static void set_bit(uint8_t *table, size_t cell, int value) {
    if (bit(table, cell) != value) table[cell / 8] ^= (uint8_t)(1 << cell % 8);
}

static int table_of(uint8_t f) { /* -1: the function is not served */
    return f == 1 || f == 5 || f == 15 ? COILS : f == 3 || f == 6 || f == 16 || f == 22 || f == 23 ? HOLDINGS
           : f == 2 ? DISCRETES : f == 4 ? INPUTS : -1;
}

int model_length_right(const uint8_t *b, size_t n) {
    switch (b[1]) {
    case 15: case 16: return n >= 7 && n == 7u + b[6];
    case 22: return n == 8;
    case 23: return n >= 11 && n == 11u + b[10];
    default: return n == 6;
    }
}

int model_value_right(const uint8_t *b) {
    size_t count = word(b + 4);
    switch (b[1]) {
    case 1: case 2: return count >= 1 && count <= 2000;
    case 3: case 4: return count >= 1 && count <= 125;
    case 5: return count == 0xFF00 || count == 0;
    case 15: return count >= 1 && count <= 1968 && b[6] == (count + 7) / 8;
    case 16: return count >= 1 && count <= 123 && b[6] == 2 * count;
    case 23: return count >= 1 && count <= 125 && word(b + 8) >= 1 && word(b + 8) <= 121 && b[10] == 2 * word(b + 8);
    default: return 1;
    }
}

int model_inside(const uint8_t *b, size_t cells) {
    int one = b[1] == 5 || b[1] == 6 || b[1] == 22;
    if (b[1] == 23 && word(b + 6) + word(b + 8) > cells) return 0;
    return word(b + 2) + (one ? 1 : word(b + 4)) <= cells;
}

/* A bit stays where A has a one; elsewhere it becomes B's. */
static void mask(uint8_t *cell, const uint8_t *a, const uint8_t *b) {
    for (size_t i = 0; i < 16; i++)
        if (!bit(a, i)) set_bit(cell, i, bit(b, i));
}

/* Serves a right request and writes the reply's bytes from the unit on; answers how many. */
static size_t serve(const struct asked *a, int tab, const uint8_t *b, uint8_t *r) {
    uint8_t *table = a->table[tab].bytes;
    size_t start = word(b + 2), count = word(b + 4), bytes = b[1] <= 2 ? (count + 7) / 8 : 2 * count;
    memcpy(r, b, 6);
    if (b[1] <= 4 || b[1] == 23) r[2] = (uint8_t)bytes;
    switch (b[1]) {
    case 1: case 2:
        memset(r + 3, 0, bytes); /* pad bits zero */
        for (size_t i = 0; i < count; i++) set_bit(r + 3, i, bit(table, start + i));
        return 3 + bytes;
    case 3: case 4: memcpy(r + 3, table + 2 * start, bytes); return 3 + bytes;
    case 5: set_bit(table, start, count != 0); return 6;
    case 6: memcpy(table + 2 * start, b + 4, 2); return 6;
    case 15:
        for (size_t i = 0; i < count; i++) set_bit(table, start + i, bit(b + 7, i));
        return 6;
    case 22:
        mask(table + 2 * start, b + 4, b + 6);
        memcpy(r, b, 8);
        return 8;
    case 23: /* the write first */
        memcpy(table + 2 * word(b + 6), b + 11, b[10]);
        memcpy(r + 3, table + 2 * start, bytes);
        return 3 + bytes;
    default: memcpy(table + 2 * start, b + 7, bytes); return 6;
    }
}

static size_t wrap(const struct asked *a, const uint8_t *body, size_t n) {
    return model_wrap(a->setup.transport, a->frame.bytes, body, n, a->reply.bytes);
}

/* The cells that a served request writes, by the number of the function that reads their table. */
static void name_cells(result *r, const uint8_t *b) {
    const uint8_t *range = b[1] == 23 ? b + 6 : b + 2; /* 23 says first what it reads */
    if (b[1] <= 4) return;
    r->table = b[1] == 5 || b[1] == 15 ? 1 : 3;
    r->first = (uint16_t)word(range);
    r->count = b[1] == 15 || b[1] == 16 || b[1] == 23 ? (uint16_t)word(range + 2) : 1;
}

result model_drive(const struct asked *a) {
    uint8_t b[256], r[256];
    size_t n = 0;
    if (a->setup.transport > 2 || a->setup.hex > 1) return silent(10, 0);
    for (int t = 0; t < TABLES; t++) {
        size_t cells = cells_of(a->setup, t), bytes = t == COILS || t == DISCRETES ? (cells + 7) / 8 : 2 * cells;
        if (cells > 65536 || a->table[t].len < bytes) return silent(10, 0);
    }
    if (a->reply.len < (a->setup.transport == 1 ? 511 : 260)) return silent(9, 0);
    int wrong = model_unwrap(a->setup.transport, a->setup.hex, a->frame.bytes, a->frame.len, b, &n);
    if (wrong) return silent(wrong, 0);
    int broadcast = a->list.len > 0 && memchr(a->list.bytes, b[0], a->list.len) != NULL;
    if (!broadcast && b[0] != a->setup.unit) return silent(4, 0);
    if (b[1] >= 128) return silent(8, 0);
    int code = 0, tab = table_of(b[1]);
    if (tab < 0) code = 1;
    else if (broadcast && (b[1] <= 4 || b[1] == 23)) return silent(3, 0);
    else if (!model_length_right(b, n)) return silent(7, 0);
    else if (!model_value_right(b)) code = 3;
    else if (!model_inside(b, cells_of(a->setup, tab))) code = 2;
    if (code && broadcast) return silent(3, code);
    result given = silent(code ? 2 : broadcast ? 1 : 0, code);
    if (code) {
        given.length = wrap(a, (uint8_t[]){b[0], (uint8_t)(b[1] + 128), (uint8_t)code}, 3);
        return given;
    }
    n = serve(a, tab, b, r);
    name_cells(&given, b);
    if (!broadcast) given.length = wrap(a, r, n);
    return given;
}
