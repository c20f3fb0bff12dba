/* The driver's cases, each on tables and a reply buffer laid afresh, and a case as a call. */
#include "kat.h"
#include "kat_rows.h"
#include <stdio.h>
#include <string.h>

#define MOST 140000

/* The call of a row, its tables and its reply buffer laid afresh. */
static struct asked laid(const struct setup *s, int transport, struct slice frame) {
    static uint8_t lent[TABLES][MOST], list[8], room[1024];
    size_t width = s->room < 0 ? 0 : s->room > 0 ? (size_t)s->room : transport == DALONJANG_ASCII ? 511 : 260;
    struct asked a = {.setup = s->numbers, .frame = frame, .reply = slice(room, width)};
    a.setup.transport = (uint8_t)transport;
    a.list = slice(list, bytes_of(s->list, list));
    for (int t = 0; t < TABLES; t++) a.table[t] = slice(lent[t], bytes_of(s->table[t], lent[t]));
    for (size_t i = 0; i < width; i++) room[i] = as_lent(i);
    return a;
}

static int equal(struct slice s, const uint8_t *bytes) { return s.len == 0 || memcmp(s.bytes, bytes, s.len) == 0; }

void call_case(const struct row *row, const struct asked *a, struct slice reply) {
    static uint8_t after[TABLES][MOST], asked_bytes[1024];
    for (int t = 0; t < TABLES; t++)
        if (a->table[t].len > 0) memcpy(after[t], a->table[t].bytes, a->table[t].len);
    bytes_of(row->now, after[row->table] + row->at);
    if (a->frame.len > 0) memcpy(asked_bytes, a->frame.bytes, a->frame.len);
    struct dalonjang_result r = drive(a);
    const char *other = other_number(r, wanted(row, reply.len));
    if (other != NULL) different(row->name, other);
    if (!equal(reply, a->reply.bytes)) different(row->name, "the reply");
    for (size_t i = reply.len; i < a->reply.len; i++)
        if (a->reply.bytes[i] != as_lent(i)) different(row->name, "a byte after the reply");
    for (int t = 0; t < TABLES; t++)
        if (!equal(a->table[t], after[t])) different(row->name, "a table");
    if (!equal(a->frame, asked_bytes)) different(row->name, "the frame afterwards");
    checks++;
}

size_t wrapped(int transport, const uint8_t *body, size_t n, uint8_t *frame) {
    size_t len = 0;
    unsigned sum = 0;
    if (n == 0) return 0;
    if (transport == DALONJANG_TCP) {
        memcpy(frame, (uint8_t[]){0x12, 0x34, 0, 0, (uint8_t)(n >> 8), (uint8_t)n}, 6);
        memcpy(frame + 6, body, n);
        return n + 6;
    }
    if (transport == DALONJANG_RTU) {
        memcpy(frame, body, n);
        frame[n] = (uint8_t)model_crc(body, n);
        frame[n + 1] = (uint8_t)(model_crc(body, n) >> 8);
        return n + 2;
    }
    frame[len++] = ':';
    for (size_t i = 0; i <= n; i++) {
        char pair[3];
        unsigned byte = i < n ? body[i] : (0x100 - sum % 0x100) % 0x100;
        sum += byte;
        snprintf(pair, sizeof pair, "%02X", byte);
        memcpy(frame + len, pair, 2);
        len += 2;
    }
    memcpy(frame + len, "\r\n", 2);
    return len + 2;
}

/* Of the text's letters so many are left, and the next is made small, from the first on. */
static void in_small(uint8_t *text, size_t len, size_t left) {
    size_t letters = 0;
    for (size_t i = 0; i < len; i++)
        if (text[i] >= 'A' && text[i] <= 'F' && letters++ % (left + 1) == 0) text[i] += 'a' - 'A';
}

static void each_of_row(each_case *each, const struct row *row) {
    static uint8_t body[1024], frame[1024], reply_body[1024], reply[1024];
    for (const char *on = row->on; *on != 0; on++) {
        int whole = *on < 'a';
        int transport = strchr("rR", *on) ? DALONJANG_RTU : strchr("tT", *on) ? DALONJANG_TCP : DALONJANG_ASCII;
        size_t n = bytes_of(row->ask, body), m = bytes_of(row->reply, reply_body);
        size_t len = whole ? n : wrapped(transport, body, n, frame);
        size_t want = whole ? m : wrapped(transport, reply_body, m, reply);
        if (strchr("sm", *on)) in_small(frame, len, *on == 'm');
        struct asked a = laid(row->setup, transport, slice(whole ? body : frame, len));
        each(row, &a, slice(whole ? reply_body : reply, want));
    }
}

static void each_setup(each_case *each) {
    static uint8_t body[16], frame[64], reply[64];
    for (size_t i = 0; i < CASES(setups); i++) {
        int t = setups[i].setup.numbers.transport, outcome = setups[i].outcome;
        struct row row = {.name = setups[i].name, .outcome = outcome, .now = ""};
        size_t len = wrapped(t > 2 ? 2 : t, body, bytes_of("01 03 0000 0002", body), frame);
        size_t want = outcome != 0 ? 0 : wrapped(t, body, bytes_of("01 03 04 0102 0304", body), reply);
        struct asked a = laid(&setups[i].setup, t, slice(frame, len));
        each(&row, &a, slice(reply, want));
    }
}

void driver_cases(each_case *each) {
    for (size_t i = 0; i < CASES(rows); i++) each_of_row(each, &rows[i]);
    each_setup(each);
}
