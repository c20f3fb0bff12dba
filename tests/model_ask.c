/* The asking side as document 02 has it (2026-02 and 2026-05), written from the page and from nothing else: one value at
 * a time. The random calls compare the proved library with it. */
#include "asking.h"

enum { NO_ROOM = 9, BAD_REQUEST = 11, NOT_MY_REPLY = 12 };

static struct told refused(uint8_t kind) { return (struct told){0, kind, 0}; }

/* Whether a body says one of the ten requests, its values within the documents' rules and no cell beyond 65,535. */
static int is_request(const uint8_t *b, size_t n) {
    int known = b[1] >= 1 && (b[1] <= 6 || b[1] == 15 || b[1] == 16 || b[1] == 22 || b[1] == 23);
    return known && model_length_right(b, n) && model_value_right(b) && model_inside(b, 65536);
}

static void put_word(uint8_t *at, size_t value) { at[0] = (uint8_t)(value / 256), at[1] = (uint8_t)(value % 256); }

/* The body as a frame, if there is room for it. */
static struct told framed(const struct asking *a, const uint8_t *body, size_t n) {
    uint8_t tag[2], frame[600];
    put_word(tag, a->to.tr_id);
    size_t len = model_wrap(a->to.proto, tag, body, n, frame);
    if (len > a->request.len) return refused(NO_ROOM);
    memcpy(a->request.bytes, frame, len);
    return (struct told){len, 0, 0};
}

static struct told get(const struct asking *a) {
    uint8_t body[6] = {a->to.unit_id, a->func};
    put_word(body + 2, a->reg), put_word(body + 4, a->count);
    if (a->to.proto > 2 || a->func > 4 || !is_request(body, 6)) return refused(BAD_REQUEST);
    return framed(a, body, 6);
}

/* Functions 5 and 6 take exactly one value, 15 and 16 as many as there are. */
static struct told set(const struct asking *a) {
    uint8_t body[260] = {a->to.unit_id, a->func};
    int bits = a->func == 5 || a->func == 15, one = a->func == 5 || a->func == 6;
    size_t count = a->values_len, bytes = bits ? (count + 7) / 8 : 2 * count;
    if (a->to.proto > 2 || !(one || a->func == 15 || a->func == 16)) return refused(BAD_REQUEST);
    if (one ? count != 1 : count < 1 || count > (bits ? 1968 : 123)) return refused(BAD_REQUEST);
    for (size_t i = 0; bits && i < count; i++)
        if (a->values[i] > 1) return refused(BAD_REQUEST);
    if (a->reg + count > 65536) return refused(BAD_REQUEST);
    put_word(body + 2, a->reg);
    put_word(body + 4, !one ? count : bits ? 0xFF00u * a->values[0] : a->values[0]);
    if (one) return framed(a, body, 6);
    body[6] = (uint8_t)bytes;
    for (size_t i = 0; i < count; i++)
        if (bits) body[7 + i / 8] |= (uint8_t)(a->values[i] << i % 8);
        else put_word(body + 7 + 2 * i, a->values[i]);
    return framed(a, body, 7 + bytes);
}

static struct told mask(const struct asking *a) {
    uint8_t body[8] = {a->to.unit_id, 22};
    put_word(body + 2, a->reg), put_word(body + 4, a->and_mask), put_word(body + 6, a->or_mask);
    return a->to.proto > 2 ? refused(BAD_REQUEST) : framed(a, body, 8);
}

static struct told set_get(const struct asking *a) {
    uint8_t body[260] = {a->to.unit_id, 23};
    if (a->to.proto > 2 || a->values_len > 121) return refused(BAD_REQUEST);
    put_word(body + 2, a->reg), put_word(body + 4, a->count), put_word(body + 6, a->write_reg);
    put_word(body + 8, a->values_len);
    body[10] = (uint8_t)(2 * a->values_len);
    for (size_t i = 0; i < a->values_len; i++) put_word(body + 11 + 2 * i, a->values[i]);
    if (!is_request(body, 11u + body[10])) return refused(BAD_REQUEST);
    return framed(a, body, 11u + body[10]);
}

/* The first that is wrong decides: the request, the room for the values, the reply's frame, whose reply it is. */
static struct told read_reply(const struct asking *a) {
    uint8_t asked[256], reply[256];
    size_t n = 0, m = 0;
    if (a->to.proto > 2) return refused(BAD_REQUEST);
    int unsent = model_unwrap(a->to.proto, DALONJANG_STRICT, a->request.bytes, a->request.len, asked, &n);
    if (unsent || !is_request(asked, n)) return refused(BAD_REQUEST);
    int reads = asked[1] <= 4 || asked[1] == 23, bits = asked[1] <= 2;
    size_t echo = asked[1] == 22 ? 8 : 6;
    size_t count = reads ? word(asked + 4) : 0, bytes = bits ? (count + 7) / 8 : 2 * count;
    if (a->values_len < count) return refused(NO_ROOM);
    int wrong = model_unwrap(a->to.proto, DALONJANG_STRICT, a->response.bytes, a->response.len, reply, &m);
    if (wrong) return refused((uint8_t)wrong);
    if (a->to.proto == 2 && memcmp(a->request.bytes, a->response.bytes, 2) != 0) return refused(NOT_MY_REPLY);
    if (reply[0] != asked[0]) return refused(NOT_MY_REPLY);
    if (m == 3 && reply[1] == asked[1] + 128 && reply[2] != 0) return (struct told){0, 2, reply[2]};
    if (!reads) return m == echo && memcmp(reply, asked, m) == 0 ? (struct told){0, 0, 0} : refused(NOT_MY_REPLY);
    if (m != 3 + bytes || reply[1] != asked[1] || reply[2] != bytes) return refused(NOT_MY_REPLY);
    for (size_t i = 0; i < count; i++)
        a->values[i] = (uint16_t)(bits ? reply[3 + i / 8] >> i % 8 & 1 : word(reply + 3 + 2 * i));
    return (struct told){count, 0, 0};
}

struct told model_ask(const struct asking *a) {
    switch (a->call) {
    case GET: return get(a);
    case SET: return set(a);
    case MASK: return mask(a);
    case SET_GET: return set_get(a);
    default: return read_reply(a);
    }
}
