/* One call of dalonjang_drive by field, for the programs that test it, on a board and beside the Rust too, and the same by
 * the collector; no other place of theirs makes these calls. Built with -DFAULT=1 to 7 or 10 to 18 the driver's answer is
 * made slightly wrong on its way there or back, and the collector's with 8, 9 and 19, to show that a program sees it. */
#ifndef ASKED_H
#define ASKED_H
#include "record.h"
#include <stdio.h>
#include <string.h>

#ifndef FAULT
#define FAULT 0
#endif

struct asked {
    struct dalonjang_setup setup;
    struct slice list, table[TABLES], frame, reply;
};

/* Document 01's driver, written plainly (model.c). */
struct dalonjang_result model_drive(const struct asked *a);
uint16_t model_crc(const uint8_t *bytes, size_t n);
/* A frame's bytes from the unit on, without check, go to `body`. Answers 0 where the frame is right, else the outcome.
 * With hex 1 the digits of ASCII text may stand in either case. */
int model_unwrap(uint8_t transport, uint8_t hex, const uint8_t *frame, size_t len, uint8_t *body, size_t *n);
/* Puts header and check around a body; answers the frame's length. The tag is TCP's transaction number. */
size_t model_wrap(uint8_t transport, const uint8_t *tag, const uint8_t *body, size_t n, uint8_t *frame);
/* Whether a body has the length that a request of its function, which is served, has. */
int model_length_right(const uint8_t *body, size_t n);
/* Whether counts, byte count or coil value of a request of the right length are within their limits. */
int model_value_right(const uint8_t *body);
/* Whether all cells that such a request names are among the first so many. */
int model_inside(const uint8_t *body, size_t cells);

static inline size_t word(const uint8_t *bytes) { return (size_t)bytes[0] << 8 | bytes[1]; }

/* No reply, and no cell written. */
static inline struct dalonjang_result silent(int outcome, int code) {
    return (struct dalonjang_result){.outcome = (uint8_t)outcome, .code = (uint8_t)code};
}

/* The first number in which two results differ, or NULL. */
static inline const char *other_number(struct dalonjang_result a, struct dalonjang_result b) {
#define OTHER(of, name, bytes) if (a.name != b.name) return "the result's " #name;
    RESULT_NUMBERS(OTHER, )
#undef OTHER
    return a.length != b.length ? "the result's length" : NULL;
}
static inline int same_result(struct dalonjang_result a, struct dalonjang_result b) { return !other_number(a, b); }

#define SAY(of, name, bytes) printf(", " #name " %u", (unsigned)(of).name);
static inline void print_setup(struct dalonjang_setup s) {
    printf("cells %zu %zu %zu %zu", s.coil_cells, s.discrete_cells, s.holding_cells, s.input_cells);
    SETUP_NUMBERS(SAY, s)
}

static inline void print_result(const char *whose, struct dalonjang_result r) {
    printf("\n  %s: length %zu", whose, r.length);
    RESULT_NUMBERS(SAY, r)
}
#undef SAY

/* The reply of a served write, on TCP. */
static inline struct dalonjang_result echoed(const struct asked *a, struct dalonjang_result r) {
    for (size_t i = 0; i < 12; i++) a->reply.bytes[i] = a->frame.bytes[i];
    a->reply.bytes[5] = 6;
    r.length = 12, r.outcome = DALONJANG_ANSWERED, r.code = 0;
    return r;
}

/* The holdings that a frame of function 23 reads, as they are before it, on TCP. */
static inline void keep_old(const struct asked *a, uint8_t *old) {
    const uint8_t *body = a->frame.bytes + 6;
    if (a->setup.transport != DALONJANG_TCP || a->frame.len < 12 || body[1] != 23 || word(body + 4) > 125) return;
    size_t from = 2 * word(body + 2), bytes = 2 * word(body + 4);
    if (from + bytes <= a->table[HOLDINGS].len) memcpy(old, a->table[HOLDINGS].bytes + from, bytes);
}

static inline int is_small(uint8_t c) { return c >= 'a' && c <= 'f'; }

/* A reply as a driver would write it that goes by the tester: in lower case where the request has such a digit. */
static inline void answer_small(const struct asked *a, size_t length) {
    int small = 0;
    for (size_t i = 0; i < a->frame.len; i++) small |= is_small(a->frame.bytes[i]);
    for (size_t i = 0; small && i < length; i++)
        if (a->reply.bytes[i] >= 'A') a->reply.bytes[i] += 'a' - 'A';
}

/* The switch as a driver would have it that is always lenient, or that looks at it where text is read alone. */
static inline uint8_t switch_of(const struct asked *a) {
    if (FAULT == 13 && a->setup.hex == DALONJANG_STRICT) return DALONJANG_LENIENT;
    return FAULT == 15 && a->setup.transport != DALONJANG_ASCII ? DALONJANG_STRICT : a->setup.hex;
}

/* The answer as a slightly wrong driver would give it; fault 3 on RTU, 14 on ASCII, the others on TCP. */
static inline struct dalonjang_result spoilt(const struct asked *a, struct dalonjang_result r, const uint8_t *old) {
    if (FAULT == 14 && a->setup.transport == DALONJANG_ASCII) answer_small(a, r.length);
    if (FAULT == 0 || a->setup.transport != (FAULT == 3 ? DALONJANG_RTU : DALONJANG_TCP) || a->frame.len < 4
        || (FAULT != 3 && a->frame.len < 12)) return r;
    const uint8_t *body = a->frame.bytes + (FAULT == 3 ? 0 : 6);
    size_t function = body[1], start = word(body + 2), count = FAULT == 3 ? 0 : word(body + 4);
    uint8_t *reply = a->reply.bytes;
    switch (FAULT) {
    case 1: /* the coils before the first one in its byte are lost */
        if (r.outcome <= DALONJANG_BROADCAST_DONE && function == 15)
            a->table[COILS].bytes[start / 8] &= (uint8_t)(0xFF << start % 8);
        break;
    case 2: /* 65,535 + 1 wraps to 0, which is within the table */
        if (r.outcome == DALONJANG_EXCEPTION && r.code == DALONJANG_ILLEGAL_DATA_ADDRESS && start == 65535
            && (count == 1 || function == 5 || function == 6)) r = echoed(a, r);
        break;
    case 3: /* an unknown function is answered before the check, as in the crate */
        if (r.outcome == DALONJANG_FRAME_CHECK && body[0] == a->setup.unit && function > 6 && function < 15) {
            reply[0] = a->setup.unit, reply[1] = (uint8_t)(function + 128), reply[2] = DALONJANG_ILLEGAL_FUNCTION;
            uint16_t crc = model_crc(reply, 3);
            reply[3] = (uint8_t)crc, reply[4] = (uint8_t)(crc >> 8);
            r = silent(DALONJANG_EXCEPTION, DALONJANG_ILLEGAL_FUNCTION);
            r.length = 5;
        }
        break;
    case 4: /* function 16 stores what its byte count says, whatever its count, as in the crate */
        if (r.outcome == DALONJANG_EXCEPTION && r.code == DALONJANG_ILLEGAL_DATA_VALUE && function == 16 && count >= 1
            && count <= 123 && body[6] % 2 == 0 && start + body[6] / 2u <= a->setup.holding_cells) {
            for (size_t i = 0; i < body[6]; i++) a->table[HOLDINGS].bytes[2 * start + i] = body[7 + i];
            r = echoed(a, r);
        }
        break;
    case 5: /* the reply is one byte longer */
        if (r.outcome == DALONJANG_ANSWERED) r.length++;
        break;
    case 6: /* a broadcast is answered */
        if (r.outcome == DALONJANG_BROADCAST_DONE) r = echoed(a, r);
        break;
    case 7: /* a TCP frame above 256 bytes is broken, as in the crate */
        if (a->frame.len > 256) r = silent(DALONJANG_FRAME_BROKEN, 0);
        break;
    case 10: /* function 23 reads before it writes */
        if (r.outcome == DALONJANG_ANSWERED && function == 23) memcpy(reply + 9, old, 2 * count);
        break;
    case 11: /* a mask write has A in place of not A */
        if (r.outcome <= DALONJANG_BROADCAST_DONE && function == 22)
            for (size_t i = 0; i < 2; i++) {
                uint8_t *byte = a->table[HOLDINGS].bytes + 2 * start + i;
                *byte = (uint8_t)((*byte & body[4 + i]) | (body[6 + i] & body[4 + i]));
            }
        break;
    case 12: /* function 23 writes before its read range is tested */
        if (r.outcome == DALONJANG_EXCEPTION && r.code == DALONJANG_ILLEGAL_DATA_ADDRESS && function == 23
            && word(body + 6) + word(body + 8) <= a->setup.holding_cells)
            memcpy(a->table[HOLDINGS].bytes + 2 * word(body + 6), body + 11, body[10]);
        break;
    case 16: /* function 23 names what it reads */
        if (r.outcome == DALONJANG_ANSWERED && function == 23) r.first = (uint16_t)start, r.count = (uint16_t)count;
        break;
    case 17: /* the first cell that is named is off by one */
        if (r.table != DALONJANG_NO_TABLE) r.first++;
        break;
    case 18: /* a write that is refused names its cells all the same, as `changes` of the crate does */
        if (r.outcome == DALONJANG_EXCEPTION && function == 16)
            r.table = DALONJANG_HOLDINGS, r.first = (uint16_t)start, r.count = (uint16_t)count;
        break;
    default: break;
    }
    return r;
}

static inline struct dalonjang_unit unit_of(const struct asked *a) {
    const struct slice *t = a->table;
    struct dalonjang_unit unit = {.setup = a->setup, .list = a->list.bytes, .list_len = a->list.len,
        .coils = t[COILS].bytes, .coils_len = t[COILS].len, .discretes = t[DISCRETES].bytes,
        .discretes_len = t[DISCRETES].len, .holdings = t[HOLDINGS].bytes, .holdings_len = t[HOLDINGS].len,
        .inputs = t[INPUTS].bytes, .inputs_len = t[INPUTS].len};
    unit.setup.hex = switch_of(a);
    return unit;
}

/* Through dalonjang_serve, so that it is tested too. */
static inline struct dalonjang_result drive(const struct asked *a) {
    struct dalonjang_unit unit = unit_of(a);
    uint8_t old[250];
    if (FAULT == 10) keep_old(a, old);
    return spoilt(a, dalonjang_serve(&unit, a->frame.bytes, a->frame.len, a->reply.bytes, a->reply.len), old);
}

/* --- the collector ------------------------------------------------------------------------------------------------ */

static inline struct dalonjang_answer offer(struct slice collector, struct slice bytes) {
    struct dalonjang_answer r = dalonjang_offer(collector.bytes, collector.len, bytes.bytes, bytes.len);
    if (FAULT == 8 && r.value == 257) collector.bytes[1] = 0, r.value = 256; /* the 257th byte is lost */
    return r;
}

/* The frame of `a` is not looked at. Through dalonjang_serve_quiet, so that it is tested too. */
static inline struct dalonjang_result quiet(const struct asked *a, struct slice collector) {
    struct dalonjang_unit unit = unit_of(a);
    uint8_t low = collector.len > 1 ? collector.bytes[1] : 0;
    struct dalonjang_result r =
        dalonjang_serve_quiet(&unit, collector.bytes, collector.len, a->reply.bytes, a->reply.len);
    if (FAULT == 9 && r.outcome == DALONJANG_BAD_SETUP) collector.bytes[1] = low; /* a refusal does not empty */
    if (FAULT == 19) r.table = DALONJANG_NO_TABLE, r.first = 0, r.count = 0; /* what was written is not passed on */
    return r;
}
#endif
