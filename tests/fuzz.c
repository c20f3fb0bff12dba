/* fuzz [N [SEED]]: N random calls of dalonjang_drive (1,000,000 if not said): setups on both sides of every limit,
 * frames built right and then damaged, ASCII in either case, and plain noise. Each frame is then cut into groups, offered
 * to a collector and closed by a quiet line, which must come to the same on RTU, and to BadSetup elsewhere. After each
 * call it is checked
 *   - that nothing outside the lent buffers was touched: every buffer stands against a page that cannot be,
 *   - what the header promises of every call, without asking what the right answer is: above all that every bit and byte
 *     of a table outside the cells that the result names is as it was,
 *   - that the whole result, reply and tables are those of the model, document 01's driver written plainly.
 * Status: 0 all right and, from 100,000 calls on, every outcome came up and every function was served, also in lower
 * case; 1 a difference; 2 wrong arguments. */
#include "fuzz_draw.h"

enum { OUTCOMES = 11, MOST_GROUP = 40 };

static const char *const outcome_name[OUTCOMES] = {"answered", "broadcast done", "exception", "broadcast ignored",
    "foreign", "frame broken", "frame check", "wrong length", "bad function", "no room", "bad setup"};
static const char *const buffer_name[BUFFERS] = {"coils", "discretes", "holdings", "inputs", "list", "frame", "reply"};

static uint8_t before[BUFFERS][ROOM], expected[BUFFERS][ROOM];
static uint8_t *collector_room, *group_room, collector_before[300]; /* fenced as well */
static struct slice collector;
static unsigned long collector_number; /* the call for which it was placed */
static unsigned long seed = 1;

/* --- what must hold -------------------------------------------------------------------------------------------- */

static void different(const char *what, const struct dalonjang_result *r) {
    printf("different at call %lu (seed %lu): %s\n  ", number, seed, what);
    print_setup(call.setup);
    if (r != NULL) print_result("given", *r);
    for (int i = 0; i < BUFFERS; i++) {
        print_bytes(buffer_name[i], before[i], buffer(&call, i)->len);
        if (r != NULL) print_bytes("  after", buffer(&call, i)->bytes, buffer(&call, i)->len);
    }
    puts("");
    fflush(stdout);
    _exit(1);
}

static void touched(const char *what) { different(what, NULL); }

/* On ASCII: whether a digit stands there in lower case. */
static int has_small(const uint8_t *text, size_t n) {
    for (size_t i = 0; i < n && call.setup.transport == DALONJANG_ASCII; i++)
        if (is_small(text[i])) return 1;
    return 0;
}

/* Byte i of the request in a served frame, from the unit on. */
static uint8_t request_byte(size_t i) {
    char pair[3] = {0};
    uint8_t transport = call.setup.transport;
    if (transport != DALONJANG_ASCII) return before[FRAME][i + (transport == DALONJANG_TCP ? 6 : 0)];
    return (uint8_t)strtoul(memcpy(pair, before[FRAME] + 1 + 2 * i, 2), NULL, 16);
}

/* By the result alone: the table that it names, -1 for none, and the bits of it that may have changed. */
static int named(struct dalonjang_result r, size_t *from, size_t *to) {
    size_t width = r.table == DALONJANG_COILS ? 1 : 16;
    *from = r.first * width;
    *to = *from + r.count * width;
    return r.table == DALONJANG_NO_TABLE ? -1 : r.table == DALONJANG_COILS ? COILS : HOLDINGS;
}

/* Whether a result may name these cells: none, or after a request that was served so many as one can write, all of them
 * in the table. */
static int may_name(struct dalonjang_result r) {
    if (r.table == DALONJANG_NO_TABLE) return r.first == 0 && r.count == 0;
    if (r.table != DALONJANG_COILS && r.table != DALONJANG_HOLDINGS) return 0;
    size_t most = r.table == DALONJANG_COILS ? 1968 : 123;
    return r.outcome <= DALONJANG_BROADCAST_DONE && r.count >= 1 && r.count <= most
        && (size_t)r.first + r.count <= cells_of(call.setup, r.table == DALONJANG_COILS ? COILS : HOLDINGS);
}

/* No bit of this table changed but those from `from` on and before `to`; in registers the bytes are whole. */
static int kept(int table, size_t from, size_t to) {
    const uint8_t *old = before[table], *new = call.table[table].bytes;
    size_t len = call.table[table].len;
    if (to > 8 * len || memcmp(old, new, from / 8) != 0) return 0;
    for (size_t i = from / 8; i < len && i <= to / 8; i++)
        for (size_t k = 0; k < 8; k++)
            if ((8 * i + k < from || 8 * i + k >= to) && (old[i] ^ new[i]) >> k & 1) return 0;
    return to / 8 + 1 >= len || memcmp(old + to / 8 + 1, new + to / 8 + 1, len - to / 8 - 1) == 0;
}

/* What the header promises of every call. */
static const char *broken_promise(struct dalonjang_result r) {
    int replied = r.outcome == DALONJANG_ANSWERED || r.outcome == DALONJANG_EXCEPTION;
    int coded = r.outcome == DALONJANG_EXCEPTION || r.outcome == DALONJANG_BROADCAST_IGNORED;
    size_t from = 0, to = 0;
    for (int i = 0; i < BUFFERS; i++)
        if (!margin_untouched(buffer(&call, i)->bytes, buffer(&call, i)->len, number))
            return "bytes beside a lent buffer changed";
    if (r.outcome >= OUTCOMES) return "no such outcome";
    if (replied ? r.length == 0 || r.length > call.reply.len : r.length != 0) return "a length that cannot be";
    if (coded ? r.code > 3 || (r.code == 0 && replied) : r.code != 0) return "a code that cannot be";
    if (memcmp(call.reply.bytes + r.length, before[REPLY] + r.length, call.reply.len - r.length) != 0)
        return "reply bytes after its length changed";
    if (has_small(call.reply.bytes, r.length)) return "a reply that is not in capitals";
    if (!may_name(r)) return "cells are named that cannot be";
    int table = named(r, &from, &to);
    for (int i = 0; i < REPLY; i++)
        if (i != table && memcmp(buffer(&call, i)->bytes, before[i], buffer(&call, i)->len) != 0)
            return "a buffer changed that must not";
    if (table >= 0 && !kept(table, from, to)) return "a cell, spare bit or spare byte outside the named range changed";
    return NULL;
}

static void check(struct dalonjang_result r) {
    const char *broken = broken_promise(r);
    if (broken != NULL) different(broken, &r);
    struct asked a = call;
    for (int i = 0; i < BUFFERS; i++) buffer(&a, i)->bytes = memcpy(expected[i], before[i], buffer(&a, i)->len);
    struct dalonjang_result e = model_drive(&a);
    if (!same_result(r, e)) {
        print_result("model", e);
        puts("");
        different("not the model's answer", &r);
    }
    for (int i = 0; i < BUFFERS; i++)
        if (memcmp(expected[i], buffer(&call, i)->bytes, buffer(&call, i)->len) != 0) {
            printf("%s", buffer_name[i]);
            print_bytes("model's", expected[i], buffer(&call, i)->len);
            puts("");
            different("not the model's bytes", &r);
        }
}

/* --- the same by the collector --------------------------------------------------------------------------------- */

/* What stands in it is from the call before, which must have emptied it; now and then it is lent afresh, with a count
 * of 0 or one that none may have, or too short. */
static void lend_collector(void) {
    size_t len = percent(2) ? below(259) : 259 + (percent(20) ? below(4) : 0);
    if (len != collector.len || percent(10)) {
        if (collector.bytes != NULL) memset(collector.bytes, UNTOUCHED, collector.len);
        collector = (struct slice){place(collector_room, len, number), len};
        collector_number = number;
        for (size_t i = 0; i < len; i++) collector.bytes[i] = (uint8_t)chance();
        if (len >= 2) memcpy(collector.bytes, (const char *[]){"\0\0", "\1\2", "\2\0", "\377\377"}[below(4)], 2);
    }
    memcpy(collector_before, collector.bytes, collector.len);
}

/* The frame in groups of 0 to 40 bytes, each in its own fenced place. Answers what is wrong. */
static const char *offer_frame(void) {
    size_t at = 0;
    do {
        size_t left = call.frame.len - at, n = below(MOST_GROUP + 1), held;
        if (n > left) n = left;
        struct slice group = {memcpy(place(group_room, n, number), before[FRAME] + at, n), n};
        at += n;
        held = collector.len < 259 ? 0 : at < 257 ? at : 257;
        struct dalonjang_answer a = offer(collector, group);
        if (a.kind != (collector.len < 259 ? DALONJANG_KIND_OOB : 0) || a.value != held)
            return "a wrong number is held";
        if (memcmp(group.bytes, before[FRAME] + at - n, n) != 0) return "the bytes offered changed";
        if (!margin_untouched(group.bytes, n, number)) return "bytes beside the bytes offered changed";
        memset(group.bytes, UNTOUCHED, n);
    } while (at < call.frame.len);
    return NULL;
}

/* After the call of the driver, which gave r and left its buffers so. */
static void collect(struct dalonjang_result r) {
    int held = call.frame.len > 0 && collector.len >= 259;
    for (int i = 0; i < BUFFERS; i++) {
        struct slice *s = buffer(&call, i);
        memcpy(expected[i], held && call.setup.transport == DALONJANG_RTU ? s->bytes : before[i], s->len);
        memcpy(s->bytes, before[i], s->len);
    }
    if (call.setup.transport != DALONJANG_RTU) r = silent(DALONJANG_BAD_SETUP, 0);
    if (!held) r = silent(DALONJANG_NOTHING_HELD, 0);
    const char *wrong = offer_frame();
    if (wrong != NULL) different(wrong, NULL);
    uint8_t high = collector.len > 0 ? collector.bytes[0] : 0, low = collector.len > 1 ? collector.bytes[1] : 0;
    struct dalonjang_result c = quiet(&call, collector);
    if (!same_result(c, r)) different("not so by the collector", &c);
    for (int i = 0; i < BUFFERS; i++)
        if (memcmp(expected[i], buffer(&call, i)->bytes, buffer(&call, i)->len) != 0
            || !margin_untouched(buffer(&call, i)->bytes, buffer(&call, i)->len, number))
            different("not these bytes by the collector", &c);
    if (held) high = low = 0;
    if ((collector.len > 0 && collector.bytes[0] != high) || (collector.len > 1 && collector.bytes[1] != low))
        different("the collector is not empty", &c);
    size_t kept = held ? 2 + (call.frame.len < 257 ? call.frame.len : 257) : 2;
    if (collector.len > kept && memcmp(collector.bytes + kept, collector_before + kept, collector.len - kept) != 0)
        different("the collector changed behind its bytes", &c);
    if (!margin_untouched(collector.bytes, collector.len, collector_number))
        different("bytes beside the collector changed", &c);
}

int main(int argc, char **argv) {
    static const uint8_t functions[] = {1, 2, 3, 4, 5, 6, 15, 16, 22, 23};
    unsigned long calls = argc > 1 ? strtoul(argv[1], NULL, 10) : 1000000, count[OUTCOMES] = {0};
    unsigned long served[2][256] = {{0}}; /* in capitals, and with a digit in lower case */
    if (argc > 2) seed = strtoul(argv[2], NULL, 10);
    if (calls == 0 || argc > 3) {
        fputs("usage: fuzz [N [SEED]]\n", stderr);
        return 2;
    }
    chance_state = seed;
    watch_fences(touched);
    for (int i = 0; i < BUFFERS; i++) room[i] = fenced();
    collector_room = fenced(), group_room = fenced();
    for (number = 0; number < calls; number++) {
        random_setup();
        random_frame();
        for (int i = 0; i < BUFFERS; i++) memcpy(before[i], buffer(&call, i)->bytes, buffer(&call, i)->len);
        struct dalonjang_result r = drive(&call);
        check(r);
        count[r.outcome]++;
        if (r.outcome == DALONJANG_ANSWERED) served[has_small(before[FRAME], call.frame.len)][request_byte(1)]++;
        lend_collector();
        collect(r);
        for (int i = 0; i < BUFFERS; i++) memset(buffer(&call, i)->bytes, UNTOUCHED, buffer(&call, i)->len);
    }
    printf("%lu calls, all as model and header say, and so by the collector:", calls);
    for (int o = 0; o < OUTCOMES; o++) printf("%s %s %lu", o == 0 ? "" : ",", outcome_name[o], count[o]);
    puts("");
    for (int o = 0; o < OUTCOMES; o++)
        if (count[o] == 0 && calls >= 100000) {
            printf("the outcome \"%s\" never came up\n", outcome_name[o]);
            return 1;
        }
    for (size_t i = 0; i < 2 * sizeof functions; i++)
        if (served[i % 2][functions[i / 2]] == 0 && calls >= 100000) {
            printf("function %u was never served%s\n", functions[i / 2], i % 2 == 1 ? " in lower case" : "");
            return 1;
        }
    return 0;
}
