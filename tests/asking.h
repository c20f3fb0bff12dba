/* One call of the asking side as a record, for the programs that test it. Built with -DFAULT=21 to 32 the library's
 * answer is made slightly wrong on its way back, to show that a program sees it. */
#ifndef ASKING_H
#define ASKING_H
#include "asked.h"
#include <string.h>

enum asking_call { GET, SET, READ, MASK, SET_GET };

struct asking {
    enum asking_call call;
    struct dalonjang_request to;     /* of READ the transport alone */
    uint8_t func;                    /* GET and SET */
    uint16_t reg, count;             /* reg: all but READ; count: GET and SET_GET */
    uint16_t and_mask, or_mask;      /* MASK */
    uint16_t write_reg;              /* SET_GET */
    struct slice request, response;  /* READ reads both, all others write the request */
    uint16_t *values;                /* SET and SET_GET read them, READ writes them */
    size_t values_len;
};

/* What comes of it: the frame's length or the count of values, the kind or outcome, and an exception's code. */
struct told {
    size_t n;
    uint8_t kind, code;
};

/* The same by document 02's words, written plainly (model_ask.c). */
struct told model_ask(const struct asking *a);

static inline struct told asked_of(const struct asking *a) {
    if (a->call == READ) {
        struct dalonjang_reading r = dalonjang_parse_response(a->to.proto, a->request.bytes, a->request.len,
            a->response.bytes, a->response.len, a->values, a->values_len);
        return (struct told){r.count, r.outcome, r.code};
    }
    uint8_t *to = a->request.bytes;
    size_t room = a->request.len;
    struct dalonjang_answer r =
        a->call == GET ? dalonjang_generate_get(a->to, a->func, a->reg, a->count, to, room)
        : a->call == SET ? dalonjang_generate_set(a->to, a->func, a->reg, a->values, a->values_len, to, room)
        : a->call == MASK ? dalonjang_generate_mask(a->to, a->reg, a->and_mask, a->or_mask, to, room)
        : dalonjang_generate_set_get(a->to, a->reg, a->count, a->write_reg, a->values, a->values_len, to, room);
    return (struct told){r.value, r.kind, 0};
}

/* The reading of a reply in which one byte is what it should be. */
static inline struct told mended(const struct asking *a, size_t at, uint8_t byte) {
    uint8_t reply[260];
    struct asking b = *a;
    if (a->response.len > sizeof reply) return (struct told){0, DALONJANG_NOT_MY_REPLY, 0};
    memcpy(reply, a->response.bytes, a->response.len);
    reply[at] = byte;
    b.response.bytes = reply;
    return asked_of(&b);
}

/* A wrong builder's frame, on TCP. */
static inline struct told built_all_the_same(const struct asking *a) {
    const uint8_t frame[12] = {(uint8_t)(a->to.tr_id >> 8), (uint8_t)a->to.tr_id, 0, 0, 0, 6, a->to.unit_id, a->func,
        (uint8_t)(a->reg >> 8), (uint8_t)a->reg, (uint8_t)(a->count >> 8), (uint8_t)a->count};
    memcpy(a->request.bytes, frame, 12);
    return (struct told){12, DALONJANG_KIND_VALUE, 0};
}

/* The answer as a slightly wrong client would give it, on TCP. */
static inline struct told spoilt_reading(const struct asking *a, struct told t) {
    const uint8_t *sent = a->request.bytes, *heard = a->response.bytes;
    if (t.kind == DALONJANG_NO_ROOM && FAULT == 30 && a->response.len == 9 && heard[7] == sent[7] + 128
        && memcmp(sent, heard, 2) == 0 && sent[6] == heard[6]) /* the room is tested after the reply */
        return (struct told){0, DALONJANG_EXCEPTION, heard[8]};
    if (t.kind != DALONJANG_NOT_MY_REPLY) return t;
    switch (FAULT) {
    case 24: return mended(a, 1, sent[1]); /* the low byte of the transaction is not compared */
    case 25: return mended(a, 6, sent[6]); /* nor the unit */
    case 26: /* what stands behind the reply's own byte count is shown */
        if (sent[7] > 2 && a->response.len > 10 && heard[7] == sent[7] && a->response.len == 9u + heard[8]
            && memcmp(sent, heard, 2) == 0 && sent[6] == heard[6] && a->values_len > 0) {
            a->values[0] = (uint16_t)(heard[9] << 8 | heard[10]);
            t = (struct told){1, DALONJANG_ANSWERED, 0};
        }
        return t;
    case 27: return sent[7] < 5 || a->response.len != 12 ? t : mended(a, 11, sent[11]); /* five bytes of an echo */
    case 28: /* an exception of another function is told, as in the crate */
        if (a->response.len == 9 && heard[7] > 128 && heard[8] > 0 && memcmp(sent, heard, 2) == 0 && sent[6] == heard[6])
            t = (struct told){0, DALONJANG_EXCEPTION, heard[8]};
        return t;
    case 29: /* a value is written before the reply is known to be ours */
        if (a->values_len > 0) a->values[0] ^= 1;
        return t;
    case 31: return sent[7] != 22 || a->response.len != 14 ? t : mended(a, 13, sent[13]); /* seven bytes of a mask's */
    default: return t;
    }
}

static inline struct told spoilt_frame(const struct asking *a, struct told t) {
    switch (FAULT) {
    case 21: /* pad bits are ones */
        if (t.kind == 0 && a->func == 15) a->request.bytes[t.n - 1] |= (uint8_t)~(0xFF >> (8 - a->values_len % 8) % 8);
        break;
    case 22: /* 65,535 + 2 wraps */
        if (t.kind == DALONJANG_KIND_BAD_REQUEST && a->call == GET && a->reg == 65535 && a->count == 2
            && a->func >= 1 && a->func <= 4 && a->request.len >= 12) t = built_all_the_same(a);
        break;
    case 23: /* the most that a frame can have is wanted of the buffer */
        if (t.kind == 0 && a->request.len < 260) t = (struct told){0, DALONJANG_KIND_NO_ROOM, 0};
        break;
    case 32: /* the two masks change places */
        for (size_t i = 10; t.kind == 0 && a->call == MASK && i < 12; i++) {
            uint8_t low = a->request.bytes[i];
            a->request.bytes[i] = a->request.bytes[i + 2], a->request.bytes[i + 2] = low;
        }
        break;
    default: break;
    }
    return t;
}

static inline struct told ask(const struct asking *a) {
    struct told t = asked_of(a);
    if (FAULT < 21 || a->to.proto != DALONJANG_TCP) return t;
    return a->call == READ ? spoilt_reading(a, t) : spoilt_frame(a, t);
}
#endif
