/* A case as a record of the program `cases`. */
#include "kat.h"
#include <stdio.h>

static const char *const head =
    "# Document 01's cases and both sides of its numbers: calls of the driver with what has to come of them,\n"
    "# one record a line in hex digits. Made by `kat list` (tests/kat.c, built by bin/driver-runs); not to be\n"
    "# edited by hand. A record has these numbers, each with its bytes, high byte first (tests/record.h):\n";

static void put_number(uint64_t n, int width) {
    while (width-- > 0) {
        uint32_t half = width < 4 ? (uint32_t)n : (uint32_t)(n >> 32); /* a Cortex-M0 shifts no 64 bits by itself */
        printf("%02X", (unsigned)(half >> 8 * (width % 4)) & 0xFF);
    }
}

static void put_bytes(struct slice s) {
    if (s.len > 0) putchar(' ');
    for (size_t i = 0; i < s.len; i++) put_number(s.bytes[i], 1);
}

/* What stands before the last byte and those equal to it. */
static struct slice front(struct slice s) {
    while (s.len > 1 && s.bytes[s.len - 2] == s.bytes[s.len - 1]) s.len--;
    return (struct slice){s.bytes, s.len > 0 ? s.len - 1 : 0};
}

#define SAY(of, name, bytes) printf(" " #name " %d", bytes);
void list_head(void) {
    fputs(head, stdout);
    fputs("#   setup:", stdout);
    SETUP_NUMBERS(SAY, )
    fputs("\n#   expected:", stdout);
    RESULT_NUMBERS(SAY, )
    fputs("\n#   the reply buffer's length, the table that changes, and the byte from which on:", stdout);
    CASE_NUMBERS(SAY, )
    fputs("\n#   of coils, discretes, holdings, inputs each, with the byte behind its front:", stdout);
    CASE_TABLE(SAY, )
    printf("\n#   the length (%d bytes) of each part, list, frame, reply, changed bytes, four fronts; and the parts\n",
           PART_LENGTH);
}
#undef SAY

/* In capitals. */
static void place(const char *name, int at) {
    for (; *name != 0; name++) putchar(*name >= 'a' && *name <= 'z' ? *name - 'a' + 'A' : *name);
    printf(" %d\n", at);
}

#define PLACE(of, name, bytes) place(#name, at), at += (bytes);
void list_layout(void) {
    int at = 0;
    SETUP_NUMBERS(PLACE, )
    RESULT_NUMBERS(PLACE, )
    CASE_NUMBERS(PLACE, )
    place("lent", at);
    at = 0;
    CASE_TABLE(PLACE, )
    place("lent_bytes", at);
    at = BYTES_OF(SETUP_NUMBERS) + BYTES_OF(RESULT_NUMBERS) + BYTES_OF(CASE_NUMBERS) + TABLES * at;
    place("lengths", at);
    place("parts", at + PARTS * PART_LENGTH);
    place("part_list", PART_LIST);
    place("part_frame", PART_FRAME);
    place("part_reply", PART_REPLY);
    place("part_changed", PART_CHANGED);
    place("part_fronts", PART_FRONTS);
    place("part_count", PARTS);
}
#undef PLACE

#define PUT(of, name, bytes) put_number((of).name, bytes), putchar(' ');
void list_case(const struct row *row, const struct asked *a, struct slice reply) {
    static uint8_t changed[1024];
    struct case_record r = {.setup = a->setup, .told = wanted(row, reply.len), .room = a->reply.len,
        .changing = (uint64_t)row->table, .from = row->at, .part = {[PART_LIST] = a->list, [PART_FRAME] = a->frame,
        [PART_REPLY] = reply, [PART_CHANGED] = {changed, bytes_of(row->now, changed)}}};
    for (int t = 0; t < TABLES; t++) {
        struct slice table = a->table[t];
        r.lent[t].len = table.len;
        r.lent[t].cells = cells_of(a->setup, t);
        r.lent[t].fill = table.len > 0 ? table.bytes[table.len - 1] : 0;
        r.part[PART_FRONTS + t] = front(table);
    }
    printf("# %u: %s, transport %d\n", ++checks, row->name, a->setup.transport);
    CASE_HEAD(PUT, r)
    for (size_t i = 0; i < PARTS; i++) put_number(r.part[i].len, PART_LENGTH);
    for (size_t i = 0; i < PARTS; i++) put_bytes(r.part[i]);
    putchar('\n');
}
