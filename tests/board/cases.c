/* The list of the program `cases` (crates/cases/stdin, whose head says what a record is), made as calls on the board:
 * the whole result and every lent byte are compared. Each lent buffer has marked bytes on both sides; it ends at a
 * border behind which nothing may even be read, where the board has memory protection.
 * On the console: how many, and the deepest stack. Status: 0 all as the list says, 1 a difference. */
#include "../asked.h"
#include "board.h"
#include <stdlib.h>

enum { LIST = TABLES, FRAME, REPLY, BUFFERS, MARK = 0x5C, LENT = 0xA5, WIDE = 32, MOST = 2048 };

static unsigned number; /* of the case */

static void different(const char *what) {
    printf("case %u of the list: %s is not as it should be\n", number, what);
    exit(1);
}

/* --- the list ------------------------------------------------------------------------------------------------- */

static int file;
static uint8_t block[4096];
static size_t block_at, block_len;

static int character(void) {
    if (block_at == block_len) {
        block_len = read_file(file, block, sizeof block);
        block_at = 0;
    }
    return block_len == 0 ? -1 : block[block_at++];
}

/* The next that is no blank and in no comment; -1 at the end. */
static int next(void) {
    int c = character();
    while (c == ' ' || c == '\n' || c == '#') {
        while (c == '#' && character() != '\n') {}
        c = character();
    }
    return c;
}

static int ahead; /* the first digit of a record, where it was looked at */

static int digit(void) {
    int c = ahead != 0 ? ahead : next();
    ahead = 0;
    return c <= '9' ? c - '0' : c - 'A' + 10;
}

static uint64_t read_number(int width) { /* in bytes */
    uint64_t n = 0;
    for (int i = 0; i < 2 * width; i++) n = n << 4 | (uint64_t)digit();
    return n;
}

#define TAKE(of, name, bytes) (of).name = (__typeof__((of).name))read_number(bytes);
static void read_record(struct case_record *r) {
    static uint8_t bytes[PARTS][MOST];
    CASE_HEAD(TAKE, *r)
    for (int t = 0; t < TABLES; t++) /* SIZE_MAX is the most that can be said here */
        *cells_in(&r->setup, t) = r->lent[t].cells > SIZE_MAX ? SIZE_MAX : (size_t)r->lent[t].cells;
    for (int p = 0; p < PARTS; p++) r->part[p] = (struct slice){bytes[p], (size_t)read_number(PART_LENGTH)};
    for (int p = 0; p < PARTS; p++) {
        if (r->part[p].len > MOST) different("its length");
        for (size_t i = 0; i < r->part[p].len; i++) bytes[p][i] = (uint8_t)read_number(1);
    }
    r->told.length = r->part[PART_REPLY].len;
}

/* --- the lent buffers ------------------------------------------------------------------------------------------- */

static struct slice lent[BUFFERS];

/* All of them with their marks, one after another in the RAM that is left. */
static void lay(void) {
    uint8_t *at = area_low;
    for (uint32_t k = 0; k < BUFFERS; k++) {
        uintptr_t end = ((uintptr_t)at + WIDE + lent[k].len + WIDE - 1) / WIDE * WIDE;
        if (end + WIDE > (uintptr_t)area_top) different("the room for its tables");
        memset(at, MARK, end + WIDE - (uintptr_t)at);
        lent[k].bytes = (uint8_t *)end - lent[k].len;
        border(k, (uint8_t *)end);
        at = (uint8_t *)end + WIDE;
    }
}

static void look_at_marks(void) {
    for (int k = 0; k < BUFFERS; k++)
        for (size_t i = 0; i < WIDE; i++)
            if (lent[k].bytes[lent[k].len + i] != MARK || lent[k].bytes[-1 - (int)i] != MARK)
                different("a byte outside the lent buffers");
}

/* --- a case ----------------------------------------------------------------------------------------------------- */

static uint32_t deepest;

static struct dalonjang_result called(const struct asked *a) {
    paint_stack();
    close_borders();
    struct dalonjang_result r = drive(a);
    open_borders();
    uint32_t used = stack_used();
    if (used > deepest) deepest = used;
    return r;
}

static int holds(struct slice s, struct slice bytes) { return memcmp(s.bytes, bytes.bytes, bytes.len) == 0; }
static void fill(struct slice s, struct slice bytes) { memcpy(s.bytes, bytes.bytes, bytes.len); }

/* The byte i of a table afterwards. */
static uint8_t wanted(const struct case_record *r, size_t t, size_t i) {
    struct slice front = r->part[PART_FRONTS + t], changed = r->part[PART_CHANGED];
    if (t == r->changing && i >= r->from && i - r->from < changed.len) return changed.bytes[i - r->from];
    return i < front.len ? front.bytes[i] : (uint8_t)r->lent[t].fill;
}

static void make_case(void) {
    static struct case_record r;
    read_record(&r);
    struct slice list = r.part[PART_LIST], frame = r.part[PART_FRAME], reply = r.part[PART_REPLY];
    lent[LIST].len = list.len;
    lent[FRAME].len = frame.len;
    lent[REPLY].len = (size_t)r.room;
    for (int t = 0; t < TABLES; t++) lent[t].len = (size_t)r.lent[t].len;
    lay();
    fill(lent[LIST], list);
    fill(lent[FRAME], frame);
    memset(lent[REPLY].bytes, LENT, lent[REPLY].len);
    for (int t = 0; t < TABLES; t++) {
        memset(lent[t].bytes, (int)r.lent[t].fill, lent[t].len);
        fill(lent[t], r.part[PART_FRONTS + t]);
    }
    struct asked a = {.setup = r.setup, .list = lent[LIST], .frame = lent[FRAME], .reply = lent[REPLY]};
    memcpy(a.table, lent, sizeof a.table);

    const char *other = other_number(called(&a), r.told);
    if (other != NULL) different(other);
    if (!holds(lent[REPLY], reply)) different("the reply");
    for (size_t i = reply.len; i < lent[REPLY].len; i++)
        if (lent[REPLY].bytes[i] != LENT) different("a byte after the reply");
    if (!holds(lent[LIST], list)) different("the list");
    if (!holds(lent[FRAME], frame)) different("the frame");
    for (size_t t = 0; t < TABLES; t++)
        for (size_t i = 0; i < lent[t].len; i++)
            if (lent[t].bytes[i] != wanted(&r, t, i)) different("a table");
    look_at_marks();
}

int main(void) {
    file = open_file("stdin");
    if (file < 0) different("the list");
    while ((ahead = next()) >= 0) number++, make_case();
    printf("%u cases, stack %u\n", number, (unsigned)deepest);
    return 0;
}
