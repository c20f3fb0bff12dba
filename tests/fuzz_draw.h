/* The calls of fuzz.c, drawn by chance: setups on both sides of every limit, and frames for them. */
#ifndef FUZZ_DRAW_H
#define FUZZ_DRAW_H
#include "asked.h"
#include "chance.h"
#include "fence.h"

enum { LIST = TABLES, FRAME, REPLY, BUFFERS };

static struct asked call; /* as given to the library, in fenced rooms */
static uint8_t *room[BUFFERS];
static uint8_t body[600]; /* the request from the unit byte on, before the check is made */
static size_t body_len;
static unsigned long number; /* of the call */

static struct slice *buffer(struct asked *a, int i) {
    return i < TABLES ? &a->table[i] : i == LIST ? &a->list : i == FRAME ? &a->frame : &a->reply;
}

/* A lent buffer of so many bytes, in its room, of random content. */
static void lend(int which, size_t len) {
    struct slice *s = buffer(&call, which);
    *s = (struct slice){place(room[which], len, number), len};
    uint8_t even = (uint8_t)PICK(0, 255);
    if (percent(30)) {
        memset(s->bytes, even, len);
        return;
    }
    random_bytes(s->bytes, len);
}

/* --- setups --------------------------------------------------------------------------------------------------- */

static void random_setup(void) {
    call.setup.transport = (uint8_t)(percent(1) ? PICK(3, 4, 128, 255) : below(3));
    call.setup.unit = (uint8_t)(percent(60) ? 1 : chance());
    call.setup.hex = (uint8_t)(percent(1) ? PICK(2, 3, 128, 255) : below(2));
    for (int t = 0; t < TABLES; t++) {
        int bits = t == COILS || t == DISCRETES, large = below(bits ? 500 : 4000) == 0;
        size_t cells = large ? near(65535, 1) : percent(20) ? PICK(125, 126, 1968, 1969, 2000, 2001, 2007) : below(140);
        if (below(600) == 0) cells = 65537;
        size_t need = bits ? (cells + 7) / 8 : 2 * cells;
        if (below(600) == 0) cells = PICK(65537, SIZE_MAX, SIZE_MAX / 2 + 1); /* in a short slice */
        *cells_in(&call.setup, t) = cells;
        lend(t, percent(70) ? need : below(300) == 0 && need > 0 ? need - 1 : need + below(4));
    }
    lend(LIST, percent(50) ? 1 : below(4));
    for (size_t i = 0; i < call.list.len; i++)
        call.list.bytes[i] = (uint8_t)(percent(70) ? 0 : percent(10) ? call.setup.unit : chance());
    size_t wanted = call.setup.transport == DALONJANG_ASCII ? 511 : 260;
    lend(REPLY, percent(2) ? wanted - 1 - (percent(30) ? below(wanted) : 0) : wanted + (percent(30) ? below(300) : 0));
}

/* --- frames --------------------------------------------------------------------------------------------------- */

static void put_word(size_t value) {
    body[body_len++] = (uint8_t)(value >> 8);
    body[body_len++] = (uint8_t)value;
}

/* So many cells of a table, mostly within it and the most that a function may name, often just at these limits. */
static size_t random_count(size_t cells, size_t most) {
    return percent(80) ? 1 + below(cells < most ? cells + 1 : most)
           : percent(50) ? PICK(0, most, most + 1) : below(65536);
}

static size_t random_start(size_t cells, size_t extent) {
    size_t last = cells > extent ? cells - extent : 0;
    return percent(70) ? below(last + 1) : percent(60) ? near(last, 1)
           : percent(50) ? near(65536 - extent, 1) : below(65536);
}

/* The byte count, mostly the right one, and its bytes. */
static void put_data(size_t bytes) {
    if (percent(6)) bytes = percent(60) ? near(bytes, 2) : below(256);
    if (bytes > 255) bytes = 255;
    body[body_len++] = (uint8_t)bytes;
    for (size_t i = 0; i < bytes; i++) body[body_len++] = (uint8_t)chance();
}

/* The write of function 23, often over what it reads. */
static void put_write(size_t cells, size_t read_start) {
    size_t count = random_count(cells, 121), start = random_start(cells, count);
    put_word(percent(40) ? near(read_start, 3) : start);
    put_word(count);
    put_data(2 * count);
}

/* A request, mostly within its table and its limits, often just at them. */
static void random_body(void) {
    static const uint8_t table_of[24] = {[1] = COILS, DISCRETES, HOLDINGS, INPUTS, COILS, HOLDINGS, [15] = COILS,
                                         HOLDINGS, [22] = HOLDINGS, HOLDINGS};
    size_t function = percent(92) ? PICK(1, 2, 3, 4, 5, 6, 15, 15, 16, 16, 22, 22, 23, 23, 23)
                      : percent(60) ? PICK(0, 7, 14, 17, 21, 24, 43, 127, 128, 255) : below(256);
    size_t most = function <= 2 ? 2000 : function <= 4 || function == 23 ? 125 : function == 15 ? 1968 : 123;
    size_t cells = cells_of(call.setup, function <= 23 ? table_of[function] : 0);
    if (cells > 65536) cells = 65536;
    size_t count = random_count(cells, most);
    size_t start = random_start(cells, function == 5 || function == 6 || function == 22 ? 1 : count);
    if (function == 5) count = percent(90) ? PICK(0, 0xFF00) : PICK(1, 0xFF01, 0xFEFF, 0xFE00, 0x0100, 0x00FF);
    if (function == 6 || function == 22) count = chance();
    body_len = 0;
    int listed = call.list.len > 0 && percent(90);
    body[body_len++] = (uint8_t)(percent(85) ? call.setup.unit : listed ? call.list.bytes[0] : chance());
    body[body_len++] = (uint8_t)function;
    put_word(start);
    put_word(count);
    if (function == 15 || function == 16) put_data(function == 15 ? (count + 7) / 8 : 2 * count);
    if (function == 22) put_word(chance());
    if (function == 23) put_write(cells, start);
}

/* The body as a frame of the transport; answers its length. */
static size_t sent(uint8_t *f) {
    uint8_t tag[2] = {0};
    for (int i = 0; call.setup.transport == DALONJANG_TCP && i < 2; i++) tag[i] = (uint8_t)chance();
    return model_wrap(call.setup.transport, tag, body, body_len, f);
}

/* Text in lower case: all of it, about half of its letters, or one. */
static void random_case(uint8_t *text, size_t n) {
    size_t how = below(3), one = below(n);
    for (size_t i = 0; i < n; i++)
        if (text[i] >= 'A' && text[i] <= 'F' && (how == 0 || (how == 1 ? percent(50) : i == one))) text[i] += 'a' - 'A';
}

static void random_frame(void) {
    static uint8_t f[2048];
    size_t n;
    memset(body, 0, sizeof body);
    if (percent(3)) { /* noise */
        n = below(percent(80) ? 20 : 600);
        for (size_t i = 0; i < n; i++)
            f[i] = percent(50) ? (uint8_t)chance() : (uint8_t)":\r\n0123456789ABCDEFabcdef/@G`g"[below(30)];
    } else {
        random_body();
        if (percent(8)) damage(body, &body_len); /* the check is made afterwards, and is right */
        if (percent(2)) body_len = PICK(254, 255, 298); /* RTU frames of 256, 257 and 300 bytes */
        n = sent(f);
        int text = call.setup.transport == DALONJANG_ASCII;
        if (text && percent(call.setup.hex == DALONJANG_STRICT ? 4 : 50)) random_case(f, n);
        if (percent(8)) damage(f, &n);
        if (percent(1) && n > 9) memcpy(f + n - 3, (const char *[]){"\n\r0", "a\r\n", "\r\n\0"}[below(3)], 3);
    }
    lend(FRAME, n);
    memcpy(call.frame.bytes, f, n);
}
#endif
