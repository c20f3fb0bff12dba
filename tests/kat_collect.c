/* The collector's cases: bytes are offered, and the line falls quiet. The collector and the groups of bytes stand
 * against pages that cannot be touched. The whole result and every lent byte are compared. */
#include "fence.h"
#include "kat.h"

/* Bytes offered: the answer, a kind and how many are held. Without bytes the line falls quiet, on a transport and with
 * room for a reply: the outcome and its code, the reply, the holdings then, and which of them are named; and with a
 * switch for lower case. */
struct event {
    const char *bytes;
    int kind;
    size_t held;
    int transport;
    size_t room;
    int outcome, code;
    const char *reply, *holdings;
    uint16_t first, count;
    uint8_t hex;
};

#define BRINGS(offered, answer, now) {.bytes = offered, .kind = answer, .held = now}
#define FALLS(on, width, gives, exception, answer, then) \
    {.transport = on, .room = width, .outcome = gives, .code = exception, .reply = answer, .holdings = then}
#define SWITCHED(to, gives) {.hex = to, .room = 260, .outcome = gives, .holdings = BEFORE}
#define WRITES(to, width, gives, answer) \
    {.hex = to, .room = width, .outcome = gives, .reply = answer, .holdings = AFTER, .first = 2, .count = 1}
#define SERVES(room) WRITES(0, room, 0, GOOD)
#define BEFORE "0102 0304 0000 FFFF"
#define AFTER "0102 0304 1234 FFFF"
#define GOOD "01 06 0002 1234 257D"
#define LONGEST "01 07 00*252 1F9D"

static const struct {
    const char *name, *collector; /* as it is lent */
    struct event events[6];
    int count;
} cases[] = {
    {"in three groups", "00*259", {BRINGS("01", 0, 1), BRINGS("06 0002 1234 25", 0, 7), BRINGS("7D", 0, 8),
        SERVES(260), FALLS(0, 260, 13, 0, "", AFTER)}, 5},
    {"with empty groups", "00*259", {BRINGS("", 0, 0), BRINGS(GOOD, 0, 8), BRINGS("", 0, 8), SERVES(511)}, 4},
    {"a broadcast", "00*259", {BRINGS("00 06 0002 1234 24AC", 0, 8), WRITES(0, 260, 1, "")}, 2},
    {"a read", "00*259", {BRINGS("01 03 0000 0002 C40B", 0, 8),
        FALLS(0, 260, 0, 0, "01 03 04 0102 0304 5B3C", BEFORE)}, 2},
    {"256 bytes", "00*259", {BRINGS(LONGEST, 0, 256), FALLS(0, 260, 2, 1, "01 87 01 8230", BEFORE)}, 2},
    {"257 bytes", "00*259", {BRINGS(LONGEST, 0, 256), BRINGS("00", 0, 257), FALLS(0, 260, 5, 0, "", BEFORE),
        BRINGS(GOOD, 0, 8), SERVES(260)}, 5},
    {"300 bytes", "00*259", {BRINGS("01*300", 0, 257), FALLS(0, 260, 5, 0, "", BEFORE), BRINGS(GOOD, 0, 8),
        SERVES(260)}, 4},
    {"more after 257 bytes", "00*259", {BRINGS("01*257", 0, 257), BRINGS("02*40", 0, 257),
        FALLS(0, 259, 9, 0, "", BEFORE), FALLS(0, 260, 13, 0, "", BEFORE)}, 4},
    {"on TCP", "00*259", {BRINGS(GOOD, 0, 8), FALLS(2, 260, 10, 0, "", BEFORE), FALLS(0, 260, 13, 0, "", BEFORE)}, 3},
    {"on ASCII", "00*259", {BRINGS("':010300000002FA\r\n", 0, 17), FALLS(1, 511, 10, 0, "", BEFORE),
        BRINGS(GOOD, 0, 8), SERVES(260)}, 4},
    {"room 259", "00*259", {BRINGS(GOOD, 0, 8), FALLS(0, 259, 9, 0, "", BEFORE), FALLS(0, 260, 13, 0, "", BEFORE)}, 3},
    {"nothing held before all else", "00*259", {FALLS(9, 0, 13, 0, "", BEFORE)}, 1},
    {"lenient", "00*259", {BRINGS(GOOD, 0, 8), WRITES(1, 260, 0, GOOD)}, 2},
    {"switch 2", "00*259", {BRINGS(GOOD, 0, 8), SWITCHED(2, 10), SWITCHED(0, 13)}, 3},
    {"nothing held before the switch", "00*259", {SWITCHED(2, 13)}, 1},
    {"a wrong check", "00*259", {BRINGS("01 06 0002 1234 257E", 0, 8), FALLS(0, 260, 6, 0, "", BEFORE)}, 2},
    {"three bytes", "00*259", {BRINGS("01 06 00", 0, 3), FALLS(0, 260, 5, 0, "", BEFORE)}, 2},
    {"a collector of 258 bytes", "0008 01 06 0002 1234 257D 00*248", {BRINGS("01", 21, 0),
        FALLS(0, 260, 13, 0, "", BEFORE)}, 2},
    {"no collector", "", {BRINGS("01", 21, 0), FALLS(0, 260, 13, 0, "", BEFORE)}, 2},
    {"a collector of 300 bytes", "00*2 5A*298", {BRINGS(GOOD, 0, 8), BRINGS("00*292", 0, 257),
        FALLS(0, 260, 5, 0, "", BEFORE), BRINGS(GOOD, 0, 8), SERVES(260)}, 5},
    {"a count of 257", "0101 00*257", {BRINGS("00", 0, 257), FALLS(0, 260, 5, 0, "", BEFORE)}, 2},
    {"a count of 258 holds nothing", "0102 00*257", {FALLS(0, 260, 13, 0, "", BEFORE), BRINGS(GOOD, 0, 8),
        SERVES(260)}, 3},
};

static const char *running;
static void touched(const char *what) { different(running, what); }

/* What the collector must hold after an offer: the count, and behind what it held the bytes that there is place for. */
static void collected(uint8_t *want, size_t had, struct slice bytes, size_t held) {
    if (held > had) memcpy(want + 2 + had, bytes.bytes, held - had);
    want[0] = (uint8_t)(held >> 8), want[1] = (uint8_t)held;
}

void collector_cases(void) {
    static uint8_t *room, *group, list[] = {0}, coils[2], holdings[8], after[8], want[512], text[512], reply[1024];
    if (room == NULL) room = fenced(), group = fenced();
    watch_fences(touched);
    for (size_t i = 0; i < CASES(cases); i++) {
        running = cases[i].name;
        size_t len = bytes_of(cases[i].collector, want), had = len >= 259 && word(want) <= 257 ? word(want) : 0;
        struct slice collector = {place(room, len, i), len};
        memcpy(collector.bytes, want, len);
        bytes_of(BEFORE, holdings);
        for (int k = 0; k < cases[i].count; k++) {
            const struct event *e = &cases[i].events[k];
            if (e->bytes != NULL) {
                size_t n = bytes_of(e->bytes, text);
                struct slice bytes = {memcpy(place(group, n, i), text, n), n};
                struct dalonjang_answer a = offer(collector, bytes);
                if (a.kind != e->kind || a.value != e->held) different(running, "how many are held");
                if (e->kind == 0) collected(want, had, bytes, e->held);
                had = e->held;
            } else {
                struct asked a = {.setup = {.transport = (uint8_t)e->transport, .unit = 1, .hex = e->hex,
                    .coil_cells = 16, .holding_cells = 4}, .list = {list, 1}, .reply = slice(reply, e->room),
                    .table = {[COILS] = {coils, 2}, [HOLDINGS] = {holdings, 8}}};
                for (size_t b = 0; b < sizeof reply; b++) reply[b] = as_lent(b);
                struct dalonjang_result r = quiet(&a, collector);
                size_t n = bytes_of(e->reply, text);
                const char *other = other_number(r, (struct dalonjang_result){.length = n, .code = (uint8_t)e->code,
                    .outcome = (uint8_t)e->outcome, .table = named(HOLDINGS, e->count), .first = e->first,
                    .count = e->count});
                if (other != NULL) different(running, other);
                if (memcmp(reply, text, n) != 0) different(running, "the reply");
                for (size_t b = n; b < sizeof reply; b++)
                    if (reply[b] != as_lent(b)) different(running, "a byte after the reply");
                if (e->outcome != DALONJANG_NOTHING_HELD) want[0] = want[1] = 0, had = 0;
            }
            bytes_of(e->bytes != NULL ? "" : e->holdings, memcpy(after, holdings, sizeof after));
            if (memcmp(holdings, after, sizeof after) != 0 || coils[0] + coils[1] != 0) different(running, "a table");
            if (len > 0 && memcmp(collector.bytes, want, len) != 0) different(running, "the collector");
            if (!margin_untouched(collector.bytes, len, i)) different(running, "a byte beside the collector");
            checks++;
        }
        memset(collector.bytes, UNTOUCHED, len);
    }
}
