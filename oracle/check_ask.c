/* check_ask N: makes the calls of the asking side recorded on standard input (the format is in
 * vectors/src/asking/record.rs) and compares answer, frame, values and every lent byte with what is expected. Each buffer
 * stands against a page that cannot be touched.
 * Status: 0 all equal and at least N calls, 1 a difference, 2 a short or malformed stream.
 * Built with -DFAULT=21 to 29 the library's answer is made slightly wrong (../tests/asking.h), to show that it is seen. */
#include "../tests/asking.h"
#include "../tests/fence.h"
#include "stream.h"

enum { REQUEST, RESPONSE, VALUES, BUFFERS, HEAD = 19, KINDS = 13 };

static const char *const buffer_name[BUFFERS] = {"request", "response", "values"};

static struct record {
    struct asking call;
    uint8_t otherwise; /* than the crate */
    struct told told;
    size_t len[BUFFERS];
    uint8_t before[BUFFERS][ROOM], after[BUFFERS][ROOM];
} record;
static unsigned long number; /* of the record, from 0 */

static int got_bytes(uint8_t *bytes, size_t len) { return len <= ROOM && fread(bytes, 1, len, stdin) == len; }

/* So many values, high byte first, as this machine has them. */
static int got_words(uint8_t *bytes, size_t count) {
    uint8_t two[2];
    for (size_t i = 0; i < count; i++) {
        if (!got_bytes(two, 2)) return 0;
        uint16_t value = (uint16_t)big_endian(two, 2);
        memcpy(bytes + 2 * i, &value, 2);
    }
    return 1;
}

/* The rest of a record, whose head this is. */
static int rest_of(const uint8_t *head) {
    struct record *r = &record;
    struct asking *a = &r->call;
    *a = (struct asking){.call = head[0], .to = {(uint16_t)big_endian(head + 2, 2), head[4], head[1]}, .func = head[5],
        .reg = (uint16_t)big_endian(head + 6, 2), .count = (uint16_t)big_endian(head + 8, 2)};
    r->otherwise = head[10];
    r->told = (struct told){big_endian(head + 13, 2), head[11], head[12]};
    r->len[REQUEST] = big_endian(head + 15, 2);
    r->len[RESPONSE] = big_endian(head + 17, 2);
    a->values_len = a->call == GET ? 0 : a->count;
    r->len[VALUES] = 2 * a->values_len;
    if (a->call > READ || r->told.kind >= KINDS) return 0;
    for (size_t i = 0; i < r->len[REQUEST]; i++) r->before[REQUEST][i] = as_lent(i);
    for (size_t i = 0; i < a->values_len; i++)
        memcpy(r->before[VALUES] + 2 * i, (uint16_t[]){(uint16_t)(0x5A5A + i)}, 2);
    if (a->call == SET && !got_words(r->before[VALUES], a->values_len)) return 0;
    if (a->call == READ && !got_bytes(r->before[REQUEST], r->len[REQUEST])) return 0;
    memcpy(r->after[REQUEST], r->before[REQUEST], r->len[REQUEST]);
    if (a->call != READ && !got_bytes(r->after[REQUEST], r->told.n)) return 0;
    if (!got_bytes(r->before[RESPONSE], r->len[RESPONSE])) return 0;
    memcpy(r->after[RESPONSE], r->before[RESPONSE], r->len[RESPONSE]);
    memcpy(r->after[VALUES], r->before[VALUES], r->len[VALUES]);
    return a->call != READ || got_words(r->after[VALUES], r->told.n);
}

/* 1: a record was read, 0: the stream ended before one. */
static int next_record(void) {
    uint8_t head[HEAD];
    size_t got = fread(head, 1, sizeof head, stdin);
    if (got == 0) return 0;
    if (got == sizeof head && rest_of(head)) return 1;
    fprintf(stderr, "check_ask: record %lu is short or malformed\n", number);
    exit(2);
}

static void print_call(const char *what) {
    const struct asking *a = &record.call;
    printf("%s at record %lu: call %u, transport %u, unit %u, transaction %u, function %u, reg %u, count %u", what,
           number, a->call, a->to.proto, a->to.unit_id, a->to.tr_id, a->func, a->reg, a->count);
    for (int i = 0; i < BUFFERS; i++) print_bytes(buffer_name[i], record.before[i], record.len[i]);
    printf("\n  expected: %u, code %u, %zu (%s)", record.told.kind, record.told.code, record.told.n,
           record.otherwise == 0 ? "the crate's" : "document 02's, not the crate's");
}

static int equal(uint8_t *const *lent, struct told t) {
    if (t.kind != record.told.kind || t.code != record.told.code || t.n != record.told.n) return 0;
    for (int i = 0; i < BUFFERS; i++)
        if (memcmp(lent[i], record.after[i], record.len[i]) != 0 || !margin_untouched(lent[i], record.len[i], number))
            return 0;
    return 1;
}

int main(int argc, char **argv) {
    static char stream[1 << 16];
    unsigned long wanted = argc == 2 ? strtoul(argv[1], NULL, 10) : 0, built = 0, shown = 0, otherwise = 0;
    if (wanted == 0) {
        fputs("usage: check_ask N <RECORDS\n", stderr);
        return 2;
    }
    setvbuf(stdin, stream, _IOFBF, sizeof stream);
    watch_fences(print_call);
    uint8_t *room[BUFFERS], *lent[BUFFERS];
    for (int i = 0; i < BUFFERS; i++) room[i] = fenced();
    for (; next_record(); number++) {
        struct asking *a = &record.call;
        for (int i = 0; i < BUFFERS; i++)
            lent[i] = memcpy(place(room[i], record.len[i], number), record.before[i], record.len[i]);
        a->request = (struct slice){lent[REQUEST], record.len[REQUEST]};
        a->response = (struct slice){lent[RESPONSE], record.len[RESPONSE]};
        a->values = (uint16_t *)(void *)lent[VALUES];
        struct told t = ask(a);
        if (!equal(lent, t)) {
            print_call("different");
            printf("\n  given: %u, code %u, %zu", t.kind, t.code, t.n);
            for (int i = 0; i < BUFFERS; i++)
                if (memcmp(lent[i], record.after[i], record.len[i]) != 0) {
                    printf("\n%s:", buffer_name[i]);
                    print_bytes("expected", record.after[i], record.len[i]);
                    print_bytes("given   ", lent[i], record.len[i]);
                }
            puts("");
            return 1;
        }
        for (int i = 0; i < BUFFERS; i++) memset(lent[i], UNTOUCHED, record.len[i]);
        built += a->call != READ && t.kind == 0;
        shown += a->call == READ && t.kind == 0;
        otherwise += record.otherwise != 0;
    }
    if (number < wanted) {
        fprintf(stderr, "check_ask: %lu records came, %lu were expected\n", number, wanted);
        return 2;
    }
    printf("%lu calls, %lu as the crate's, %lu as document 02 has them: %lu frames built, %lu replies read as values\n",
           number, number - otherwise, otherwise, built, shown);
    return 0;
}
