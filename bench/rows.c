#include "rows.h"
#include <string.h>

static unsigned bit_at(const struct row *row, size_t i) {
    return (unsigned)((row->start + i) * 2654435761u >> 13 ^ row->turn) & 1;
}

static unsigned word_at(const struct row *row, size_t i) {
    return (unsigned)((row->start + i) * 40503u + row->turn * 259u) & 0xFFFF;
}

uint16_t value_of(const struct row *row, size_t i) {
    int bits = row->function == 1 || row->function == 5 || row->function == 15;
    return (uint16_t)(bits ? bit_at(row, i) : word_at(row, i));
}

static size_t put_word(uint8_t *at, size_t value) {
    at[0] = (uint8_t)(value >> 8);
    at[1] = (uint8_t)value;
    return 2;
}

/* So many words of a row as they travel. Answers how many bytes. */
static size_t put_words(uint8_t *at, const struct row *row, size_t count) {
    size_t n = 0;
    for (size_t i = 0; i < count; i++) n += put_word(at + n, word_at(row, i));
    return n;
}

/* The cells of a row as they travel: bits eight to a byte, lowest first, or words. Answers how many bytes. */
static size_t put_cells(uint8_t *at, const struct row *row) {
    size_t n;
    if (row->function == 3 || row->function == 16 || row->function == 23) return put_words(at, row, row->count);
    n = (row->count + 7) / 8;
    memset(at, 0, n);
    for (size_t i = 0; i < row->count; i++) at[i / 8] |= (uint8_t)(bit_at(row, i) << i % 8);
    return n;
}

/* From the unit on, without check. */
static size_t put_request(uint8_t *body, const struct row *row) {
    size_t value = row->count;
    if (row->function == 5) value = bit_at(row, 0) ? 0xFF00 : 0;
    if (row->function == 6) value = word_at(row, 0);
    if (row->function == 22) value = 0; /* no bit stays, so that the cell is B then; the cost is that of every mask */
    body[0] = row->how == FOREIGN ? OTHER_UNIT : row->how == BROADCAST ? EVERYONE : UNIT;
    body[1] = (uint8_t)row->function;
    put_word(body + 2, row->start);
    put_word(body + 4, value);
    if (row->function < 15) return 6;
    if (row->function == 22) return 6 + put_word(body + 6, word_at(row, 0));
    if (row->function == 23) {
        put_word(body + 6, row->start);
        put_word(body + 8, row->count - KEPT);
        body[10] = (uint8_t)put_words(body + 11, row, row->count - KEPT);
        return 11u + body[10];
    }
    body[6] = (uint8_t)put_cells(body + 7, row);
    return 7u + body[6];
}

static size_t put_reply(uint8_t *body, const struct row *row) {
    if (row->count == 0 || row->start + row->count > row->cells) {
        body[0] = UNIT;
        body[1] = (uint8_t)(row->function + 128);
        body[2] = row->count == 0 ? 3 : 2;
        return 3;
    }
    size_t asked = put_request(body, row);
    if (row->function == 22) return asked;
    if (row->function > 4 && row->function != 23) return 6;
    body[2] = (uint8_t)put_cells(body + 3, row);
    return 3u + body[2];
}

uint16_t plain_crc(const uint8_t *bytes, size_t n) {
    unsigned crc = 0xFFFF;
    for (size_t i = 0; i < n; i++) {
        crc ^= bytes[i];
        for (int k = 0; k < 8; k++) crc = crc & 1 ? crc >> 1 ^ 0xA001 : crc >> 1;
    }
    return (uint16_t)crc;
}

static size_t put_text(uint8_t *at, const uint8_t *body, size_t n) {
    static const char digit[] = "0123456789ABCDEF";
    uint8_t *p = at, lrc = 0;
    *p++ = ':';
    for (size_t i = 0; i <= n; i++) {
        uint8_t byte = i < n ? body[i] : lrc;
        *p++ = (uint8_t)digit[byte >> 4];
        *p++ = (uint8_t)digit[byte & 15];
        lrc = (uint8_t)(lrc - byte);
    }
    *p++ = '\r';
    *p++ = '\n';
    return (size_t)(p - at);
}

static struct line wrapped(int kind, const uint8_t *body, size_t n) {
    struct line line = {{0}, 0};
    if (kind == ASCII) {
        line.len = put_text(line.bytes, body, n);
    } else if (kind == TCP) {
        put_word(line.bytes, 7); /* the transaction */
        put_word(line.bytes + 4, n);
        memcpy(line.bytes + 6, body, n);
        line.len = 6 + n;
    } else {
        uint16_t crc = plain_crc(body, n);
        memcpy(line.bytes, body, n);
        line.bytes[n] = (uint8_t)crc;
        line.bytes[n + 1] = (uint8_t)(crc >> 8);
        line.len = n + 2;
    }
    return line;
}

/* The last byte of the check, on ASCII its last digit, is another one. */
static void spoil(struct line *line, int kind) {
    uint8_t *last = line->bytes + line->len - (kind == ASCII ? 3 : 1);
    *last = kind == ASCII ? (*last == '0' ? '1' : '0') : (uint8_t)(*last ^ 1);
}

/* The letters of a text are small. */
static void make_small(struct line *line) {
    for (size_t i = 0; i < line->len; i++)
        if (line->bytes[i] >= 'A' && line->bytes[i] <= 'F') line->bytes[i] = (uint8_t)(line->bytes[i] + 'a' - 'A');
}

struct line request_of(const struct row *row) {
    uint8_t body[MOST];
    size_t n = put_request(body, row);
    struct line line = wrapped(row->kind, body, n);
    if (row->how == SPOILT) spoil(&line, row->kind);
    if (row->how == SMALL) make_small(&line);
    return line;
}

struct line reply_of(const struct row *row) {
    uint8_t body[MOST];
    if (row->how != OURS && row->how != SMALL) return (struct line){{0}, 0};
    size_t n = put_reply(body, row);
    return wrapped(row->kind, body, n);
}
