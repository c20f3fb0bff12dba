/* The calls of fuzz_ask.c, drawn by chance: requests to be built, and replies to be read. */
#ifndef FUZZ_ASK_DRAW_H
#define FUZZ_ASK_DRAW_H
#include "asking.h"
#include "chance.h"
#include "fence.h"

enum { REQUEST, RESPONSE, VALUES, BUFFERS, MOST_VALUES = 2100 };

static struct asking call; /* as given to the library, in fenced rooms */
static uint8_t *room[BUFFERS];
static unsigned long number; /* of the call */

static struct slice buffer(const struct asking *a, int i) {
    return i == REQUEST ? a->request : i == RESPONSE ? a->response
           : (struct slice){(uint8_t *)a->values, 2 * a->values_len};
}

/* Bytes in their room. */
static uint8_t *lend(int which, const void *bytes, size_t len) {
    uint8_t *lent = place(room[which], len, number);
    if (bytes != NULL) memcpy(lent, bytes, len);
    else random_bytes(lent, len);
    return lent;
}

static void lend_values(const uint16_t *values, size_t len) {
    call.values_len = len;
    call.values = (uint16_t *)(void *)lend(VALUES, values, 2 * len);
}

static size_t most_of(size_t func) {
    return func <= 2 ? 2000 : func <= 4 || func == 23 ? 125 : func == 15 ? 1968 : func == 16 ? 123 : 1;
}

static size_t random_count(size_t most) {
    return percent(60) ? 1 + below(most) : percent(60) ? near(most, 1) : percent(60) ? below(3) : below(2048);
}

static uint16_t random_start(size_t cells) {
    return (uint16_t)(percent(60) ? below(65536) : 65536 - cells + (percent(50) ? 0 : below(3)));
}

/* --- requests to be built ----------------------------------------------------------------------------------------- */

/* A buffer for the frame of a body of so many bytes, mostly long enough. */
static void lend_request(size_t body) {
    size_t ascii = call.to.proto == DALONJANG_ASCII;
    size_t len = ascii ? 2 * body + 5 : body + (call.to.proto == DALONJANG_TCP ? 6 : 2);
    len = percent(60) ? len + below(20) : percent(60) ? near(len, 2) : below(600);
    call.request = (struct slice){lend(REQUEST, NULL, len), len};
    call.response = (struct slice){NULL, 0};
}

static void random_mask(void) {
    call.call = MASK;
    call.reg = random_start(1), call.and_mask = (uint16_t)chance(), call.or_mask = (uint16_t)chance();
    lend_values(NULL, 0);
    lend_request(8);
}

static void random_exchange(void) {
    size_t n = random_count(121);
    call.call = SET_GET;
    call.count = (uint16_t)random_count(125);
    call.reg = random_start(call.count), call.write_reg = random_start(n);
    if (percent(30)) call.write_reg = (uint16_t)near(call.reg, 3);
    lend_values(NULL, n);
    lend_request(11 + 2 * n);
}

static void random_build(void) {
    static uint16_t values[MOST_VALUES];
    int set = percent(60);
    call.call = set ? SET : GET;
    call.func = (uint8_t)(percent(3) ? chance() : set ? PICK(5, 6, 15, 15, 16, 16) : 1 + below(4));
    size_t n = random_count(most_of(call.func));
    if (percent(1) && !set) n = below(65536);
    call.count = (uint16_t)n;
    call.reg = random_start(n > 65536 ? 1 : n);
    random_bytes((uint8_t *)values, 2 * n > sizeof values ? 0 : 2 * n);
    for (size_t i = 0; set && (call.func == 5 || call.func == 15) && i < n; i++) values[i] &= 1;
    if (set && n > 0 && percent(3)) values[below(n)] = (uint16_t)PICK(2, 255, 256, 0xFF00, 65535);
    lend_values(values, set ? n : 0);
    lend_request(!set ? 6 : call.func == 15 ? 7 + (n + 7) / 8 : call.func == 16 ? 7 + 2 * n : 6);
}

/* --- replies to be read ------------------------------------------------------------------------------------------- */

static uint8_t sent[1024], heard[1024]; /* bodies */
static size_t sent_len, heard_len;

static void put_sent(size_t value) {
    sent[sent_len++] = (uint8_t)(value >> 8);
    sent[sent_len++] = (uint8_t)value;
}

/* So many cells, mostly few and within the most. */
static size_t cells_sent(size_t most) {
    return percent(92) ? 1 + below(percent(70) && most > 40 ? 40 : most) : random_count(most);
}

static size_t start_sent(size_t n) {
    size_t start = random_start(n);
    return percent(95) && start + n > 65536 ? 0 : start;
}

/* The byte count, mostly the right one, and so many bytes. */
static void put_data(size_t bytes) {
    sent[sent_len++] = (uint8_t)(percent(4) ? near(bytes, 1) : bytes);
    if (bytes > 255) bytes = 255;
    random_bytes(sent + sent_len, bytes);
    sent_len += bytes;
}

static void random_request(void) {
    size_t func = percent(96) ? PICK(1, 2, 3, 4, 5, 6, 15, 16, 22, 23)
                  : percent(50) ? PICK(0, 7, 14, 17, 21, 24, 129, 131) : below(256);
    size_t n = cells_sent(most_of(func)), written = cells_sent(121);
    sent[0] = (uint8_t)PICK(0, 1, 17, 247, 255), sent[1] = (uint8_t)func;
    sent_len = 2;
    put_sent(start_sent(func == 5 || func == 6 || func == 22 ? 1 : n));
    put_sent(func == 5 ? (percent(95) ? PICK(0, 0xFF00) : chance()) : func == 6 || func == 22 ? chance() : n);
    if (func == 15 || func == 16) put_data(func == 15 ? (n + 7) / 8 : 2 * n);
    if (func == 22) put_sent(chance());
    if (func == 23) put_sent(start_sent(written)), put_sent(written), put_data(2 * written);
}

/* The right answer to it, or an exception. */
static void random_answer(void) {
    size_t cells = word(sent + 4), bytes = sent[1] <= 2 ? (cells + 7) / 8 : 2 * cells;
    memcpy(heard, sent, 8);
    heard_len = sent[1] == 22 ? 8 : 6;
    if (percent(15)) {
        heard[1] |= 128;
        heard[2] = (uint8_t)(percent(90) ? 1 + below(11) : PICK(0, 255, 128));
        heard_len = 3;
    } else if ((sent[1] >= 1 && sent[1] <= 4) || sent[1] == 23) {
        if (bytes > 252) bytes = 252;
        heard[2] = (uint8_t)bytes;
        random_bytes(heard + 3, bytes);
        heard_len = 3 + bytes;
    }
}

/* One thing of it is another's. */
static void another(uint8_t *tag) {
    size_t fewer = heard[2];
    switch (below(8)) {
    case 0: tag[below(2)] ^= (uint8_t)(1 << below(8)); break;
    case 1: heard[0] ^= (uint8_t)(1 << below(8)); break;
    case 2: heard[1] = (uint8_t)(percent(50) ? 1 + below(23) : heard[1] ^ (uint8_t)(1 << below(8))); break;
    case 3: heard[2] = (uint8_t)near(heard[2], 2); break;
    case 4: /* another byte count, and as many bytes */
        heard[2] = (uint8_t)near(fewer, 2);
        heard_len = 3u + heard[2];
        break;
    case 5: heard[2 + below(heard[1] == 22 ? 6 : 4)] ^= (uint8_t)(1 << below(8)); break;
    default: damage(heard, &heard_len); break;
    }
}

static void random_reading(void) {
    static uint8_t frame[2][2048];
    uint8_t tag[2] = {(uint8_t)(call.to.tr_id >> 8), (uint8_t)call.to.tr_id};
    call.call = READ;
    random_request();
    random_answer();
    if (percent(2)) damage(sent, &sent_len);
    size_t n = model_wrap(call.to.proto, tag, sent, sent_len, frame[0]);
    if (percent(40)) another(tag);
    size_t m = model_wrap(call.to.proto, tag, heard, heard_len, frame[1]);
    if (percent(2)) damage(frame[0], &n);
    if (percent(10)) damage(frame[1], &m);
    if (percent(2)) random_bytes(frame[1], m = below(percent(80) ? 20 : 600));
    call.request = (struct slice){lend(REQUEST, frame[0], n), n};
    call.response = (struct slice){lend(RESPONSE, frame[1], m), m};
    size_t cells = word(sent + 4), wanted = (sent[1] > 4 && sent[1] != 23) || cells > 2000 ? 0 : cells;
    lend_values(NULL, percent(70) ? wanted : percent(50) ? near(wanted, 1) : below(MOST_VALUES));
}
#endif
