/* check_drive N: makes the calls of dalonjang_drive recorded on standard input (../tests/record.h has the format, written
 * by vectors/src/drive/record.rs) and compares the whole result and every lent byte with what is expected. Each buffer
 * stands against a page that cannot be touched.
 * Status: 0 all equal and at least N calls, 1 a difference, 2 a short or malformed stream.
 * Built with -DFAULT=1 to 7, 10 to 14 or 16 to 18 the library's answer is made slightly wrong (../tests/asked.h), to
 * show that it is seen. */
#include "../tests/asked.h"
#include "../tests/fence.h"
#include "stream.h"

enum { LIST = TABLES, FRAME, REPLY, BUFFERS, OUTCOMES = 9 };

static const char *const outcome_name[OUTCOMES] = {"answered", "broadcast done", "exception", "broadcast ignored",
    "foreign", "frame broken", "frame check", "wrong length", "bad function"};
static const char *const buffer_name[BUFFERS] = {"coils", "discretes", "holdings", "inputs", "list", "frame", "reply"};

static struct record {
    struct driven_record is;
    size_t len[BUFFERS];
    uint8_t before[BUFFERS][ROOM], after[BUFFERS][ROOM];
} record;
static unsigned long number; /* of the record, from 0 */

static int got_bytes(uint8_t *bytes, size_t len) { return len <= ROOM && fread(bytes, 1, len, stdin) == len; }

#define TAKE(of, name, bytes) (of).name = (__typeof__((of).name))big_endian(head, bytes), head += (bytes);
static void read_head(struct driven_record *is, const uint8_t *head) {
    DRIVEN_HEAD(TAKE, *is)
    for (int t = 0; t < TABLES; t++) *cells_in(&is->setup, t) = (size_t)is->lent[t].cells;
    is->told.length = (size_t)is->reply;
}

/* The rest of a record, whose head this is. */
static int rest_of(const uint8_t *head) {
    struct record *r = &record;
    read_head(&r->is, head);
    r->len[LIST] = (size_t)r->is.list;
    r->len[FRAME] = (size_t)r->is.frame;
    r->len[REPLY] = (size_t)r->is.room;
    for (int t = 0; t < TABLES; t++) r->len[t] = (size_t)r->is.lent[t].len;
    for (size_t i = 0; i < r->len[REPLY]; i++) r->before[REPLY][i] = as_lent(i);
    if (!got_bytes(r->before[LIST], r->len[LIST]) || !got_bytes(r->before[FRAME], r->len[FRAME])) return 0;
    for (int t = 0; t < TABLES; t++)
        if (!got_bytes(r->before[t], r->len[t])) return 0;
    for (int i = 0; i < BUFFERS; i++) memcpy(r->after[i], r->before[i], r->len[i]);
    return r->is.told.outcome < OUTCOMES && r->is.told.length <= r->len[REPLY]
        && got_bytes(r->after[REPLY], r->is.told.length)
        && (!(r->is.changing & 1) || got_bytes(r->after[COILS], r->len[COILS]))
        && (!(r->is.changing & 2) || got_bytes(r->after[HOLDINGS], r->len[HOLDINGS]));
}

/* 1: a record was read, 0: the stream ended before one. */
static int next_record(void) {
    uint8_t head[DRIVEN_BYTES];
    size_t got = fread(head, 1, sizeof head, stdin);
    if (got == 0) return 0;
    if (got == sizeof head && rest_of(head)) return 1;
    fprintf(stderr, "check_drive: record %lu is short or malformed\n", number);
    exit(2);
}

static void print_call(const char *what) {
    const struct record *r = &record;
    printf("%s at record %lu: ", what, number);
    print_setup(r->is.setup);
    for (int i = 0; i < REPLY; i++) print_bytes(buffer_name[i], r->before[i], r->len[i]);
    print_result("expected", r->is.told);
    printf(" (%s)", r->is.otherwise == 0 ? "the crate's" : "document 01's, not the crate's");
}

static int equal(const struct slice *lent, struct dalonjang_result r) {
    if (!same_result(r, record.is.told)) return 0;
    for (int i = 0; i < BUFFERS; i++)
        if (memcmp(lent[i].bytes, record.after[i], record.len[i]) != 0
            || !margin_untouched(lent[i].bytes, record.len[i], number)) return 0;
    return 1;
}

int main(int argc, char **argv) {
    static char stream[1 << 16];
    unsigned long wanted = argc == 2 ? strtoul(argv[1], NULL, 10) : 0, count[OUTCOMES] = {0}, otherwise = 0;
    if (wanted == 0) {
        fputs("usage: check_drive N <RECORDS\n", stderr);
        return 2;
    }
    setvbuf(stdin, stream, _IOFBF, sizeof stream);
    watch_fences(print_call);
    uint8_t *room[BUFFERS];
    for (int i = 0; i < BUFFERS; i++) room[i] = fenced();
    for (; next_record(); number++) {
        struct slice lent[BUFFERS];
        for (int i = 0; i < BUFFERS; i++) {
            lent[i] = (struct slice){place(room[i], record.len[i], number), record.len[i]};
            memcpy(lent[i].bytes, record.before[i], record.len[i]);
        }
        struct asked a = {.setup = record.is.setup, .list = lent[LIST], .frame = lent[FRAME], .reply = lent[REPLY]};
        memcpy(a.table, lent, sizeof a.table);
        struct dalonjang_result r = drive(&a);
        if (!equal(lent, r)) {
            print_call("different");
            print_result("given", r);
            for (int i = 0; i < BUFFERS; i++)
                if (memcmp(lent[i].bytes, record.after[i], record.len[i]) != 0) {
                    printf("\n%s:", buffer_name[i]);
                    print_bytes("expected", record.after[i], record.len[i]);
                    print_bytes("given   ", lent[i].bytes, record.len[i]);
                }
            puts("");
            return 1;
        }
        for (int i = 0; i < BUFFERS; i++) memset(lent[i].bytes, UNTOUCHED, lent[i].len);
        count[r.outcome]++;
        otherwise += record.is.otherwise != 0;
    }
    if (number < wanted) {
        fprintf(stderr, "check_drive: %lu records came, %lu were expected\n", number, wanted);
        return 2;
    }
    printf("%lu frames, %lu replies and tables as the crate's, %lu as document 01 has them:", number,
           number - otherwise, otherwise);
    for (int o = 0; o < OUTCOMES; o++) printf("%s %s %lu", o == 0 ? "" : ",", outcome_name[o], count[o]);
    puts("");
    return 0;
}
