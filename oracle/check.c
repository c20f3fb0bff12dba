/* check N: makes the calls recorded on standard input (the formats are in vectors/src/record.rs and, from call 9 on,
 * vectors/src/tables/record.rs) and compares kind, value and every byte of the lent buffer or response and of the lent
 * table with what is expected; the input must be as it was. Each of the three ends at a page that cannot be touched,
 * every fifth time it begins after one; the bytes on the free side must be as they were.
 * Status: 0 all equal and at least N calls, 1 a difference, 2 a short or malformed stream.
 * Built with -DFAULT=1 to 23 that call is answered slightly wrong, to show that a difference is seen; with 24 to 26
 * calls 5, 7 and 8 go wrong by the switch for lower case. */
#include "../include/dalonjang.h"
#include "../tests/fence.h"
#include "probe.h"
#include "stream.h"

#ifndef FAULT
#define FAULT 0
#endif
#define SPOILT (FAULT == 24 ? 5 : FAULT == 25 ? 7 : FAULT == 26 ? 8 : FAULT) /* the call that goes wrong */
#define CALLS 24 /* one more than the last call number */

_Static_assert(sizeof(size_t) == 8 && sizeof(struct probe_answer) == 16, "x86-64");

static const char *const full_name[CALLS] = {"", "calc_crc16", "calc_lrc", "chr_to_hex", "hex_to_chr",
    "parse_ascii_frame", "generate_ascii_frame", "guess_request_frame_len", "guess_response_frame_len", "push",
    "extend", "resize", "cut_end", "clear", "get_coil", "set_coil", "get_coils_as_u8", "get_discretes_as_u8",
    "set_coils_from_u8", "get_holding", "set_holding", "get_holdings_as_u8", "get_inputs_as_u8",
    "set_holdings_from_u8"};
static const char *const short_name[CALLS] = {"", "crc", "lrc", "chr_to_hex", "hex_to_chr", "parse", "generate",
    "request", "response", "push", "extend", "resize", "cut_end", "clear", "get_coil", "set_coil", "get_coils",
    "get_discretes", "set_coils", "get_holding", "set_holding", "get_holdings", "get_inputs", "set_holdings"};

static struct record {
    uint8_t call, kind, hex;
    uint16_t small, reg;
    size_t data_len, len, size;          /* size: new_len, n or cells */
    size_t n, m, t, value;               /* n bytes of input, m of buffer, t of table */
    uint8_t input[ROOM], table[ROOM];    /* as lent */
    uint8_t buffer[ROOM], written[ROOM]; /* buffer and table as expected */
} record;
static unsigned long number; /* of the record, from 0 */

static int got_bytes(uint8_t *bytes, size_t len) { return len <= ROOM && fread(bytes, 1, len, stdin) == len; }

/* The rest of a record of modules 1 to 3, whose head this is. */
static int short_record(const uint8_t *head) {
    record.small = head[1];
    record.data_len = big_endian(head + 2, 2) == 65535 ? SIZE_MAX : big_endian(head + 2, 2);
    record.n = big_endian(head + 4, 2);
    record.m = big_endian(head + 6, 2);
    record.t = 0;
    record.kind = head[8];
    record.value = big_endian(head + 9, 2);
    return got_bytes(&record.hex, 1) && got_bytes(record.input, record.n) && got_bytes(record.buffer, record.m);
}

static int writes_a_table(void) {
    return record.call == 15 || record.call == 18 || record.call == 20 || record.call == 23;
}

/* The rest of a record of module 4, whose head begins with these eleven bytes. */
static int long_record(const uint8_t *begun) {
    uint8_t head[38];
    memcpy(head, begun, 11);
    if (!got_bytes(head + 11, sizeof head - 11)) return 0;
    record.reg = (uint16_t)big_endian(head + 1, 2);
    record.small = (uint16_t)big_endian(head + 3, 2);
    record.size = big_endian(head + 5, 8);
    record.len = big_endian(head + 13, 8);
    record.n = big_endian(head + 21, 4);
    record.m = big_endian(head + 25, 4);
    record.t = big_endian(head + 29, 4);
    record.kind = head[33];
    record.value = big_endian(head + 34, 4);
    if (!got_bytes(record.input, record.n) || !got_bytes(record.table, record.t)
        || !got_bytes(record.buffer, record.m)) return 0;
    if (writes_a_table()) return got_bytes(record.written, record.t);
    memcpy(record.written, record.table, record.t);
    return 1;
}

/* 1: a record was read, 0: the stream ended before one. */
static int next_record(void) {
    uint8_t head[11];
    size_t got = fread(head, 1, sizeof head, stdin);
    if (got == 0) return 0;
    record.call = head[0];
    if (got == sizeof head && record.call >= 1 && record.call < CALLS
        && (record.call <= 8 ? short_record(head) : long_record(head))) return 1;
    fprintf(stderr, "check: record %lu is short or malformed\n", number);
    exit(2);
}

static struct probe_answer ported(struct dalonjang_answer a) { return (struct probe_answer){a.value, a.kind}; }

/* A digit as the crate has it: its value alone, and a small letter is none. */
static struct probe_answer strictly(struct probe_answer a) {
    if (a.value >= 32) return (struct probe_answer){0, DALONJANG_KIND_FRAME_BROKEN};
    return (struct probe_answer){a.value % 16, a.kind};
}

static struct probe_answer ask(const uint8_t *input, uint8_t *buffer, uint8_t *table) {
    const struct record *r = &record;
    uint8_t small = (uint8_t)r->small, hex = r->hex;
    switch (r->call) {
    case 1: return (struct probe_answer){probe_calc_crc16(input, r->n, small), 0};
    case 2: return probe_calc_lrc(input, r->n, small);
    case 3: return hex == DALONJANG_STRICT ? strictly(probe_chr_to_hex(small)) : probe_chr_to_hex(small);
    case 4: return probe_hex_to_chr(small);
    case 5: return ported(dalonjang_parse_ascii_frame(input, r->n, r->data_len, buffer, r->m, small, hex));
    case 6: return ported(dalonjang_generate_ascii_frame(input, r->n, buffer, r->m));
    case 7: return ported(dalonjang_guess_request_frame_len(input, r->n, small, hex));
    case 8: return ported(dalonjang_guess_response_frame_len(input, r->n, small, hex));
    case 9: return probe_push(buffer, r->m, r->len, small);
    case 10: return probe_extend(buffer, r->m, r->len, input, r->n);
    case 11: return probe_resize(buffer, r->m, r->len, r->size, small);
    case 12: return probe_cut_end(buffer, r->m, r->len, r->size);
    case 13: return probe_clear(buffer, r->m, r->len);
    case 14: return probe_get_coil(table, r->t, r->size, r->reg);
    case 15: return probe_set_coil(table, r->t, r->size, r->reg, r->small != 0);
    case 16: return probe_get_coils_as_u8(table, r->t, r->size, r->reg, r->small, buffer, r->m, r->len);
    case 17: return probe_get_discretes_as_u8(table, r->t, r->size, r->reg, r->small, buffer, r->m, r->len);
    case 18: return probe_set_coils_from_u8(table, r->t, r->size, r->reg, r->small, input, r->n);
    case 19: return probe_get_holding(table, r->t, r->size, r->reg);
    case 20: return probe_set_holding(table, r->t, r->size, r->reg, r->small);
    case 21: return probe_get_holdings_as_u8(table, r->t, r->size, r->reg, r->small, buffer, r->m, r->len);
    case 22: return probe_get_inputs_as_u8(table, r->t, r->size, r->reg, r->small, buffer, r->m, r->len);
    default: return probe_set_holdings_from_u8(table, r->t, r->size, r->reg, input, r->n);
    }
}

/* The answer as a slightly wrong call would give it. */
static struct probe_answer spoilt(const uint8_t *input, uint8_t *buffer, uint8_t *table, struct probe_answer a) {
    const struct record *r = &record;
    size_t at; /* where the text goes on at position 255 */
    size_t end = r->reg + (size_t)r->small, place = r->reg / 8, bit = r->reg % 8;
    switch (SPOILT == r->call ? FAULT : 0) {
    case 1: /* the CRC of nothing is 0 */
        if (r->n == 0 || r->small == 0) a.value = 0;
        break;
    case 2: /* 256 less the sum, not wrapped */
        if (a.kind == 0 && a.value == 0) a.value = 256;
        break;
    case 3: /* a small letter is told as a capital */
        if (a.value >= 32) a.value -= 16;
        break;
    case 4: /* 201 is taken, wrapped */
        if (r->small == 201) a = (struct probe_answer){0, 0};
        break;
    case 5: /* the position is tested after the stop bytes */
        at = 2u * (255u - r->small) + (r->n > 0 && input[0] == ':');
        if (a.kind == 21 && r->m >= 255 && at < r->n && at < r->data_len
            && (input[at] == '\r' || input[at] == '\n' || input[at] == 0))
            a = (struct probe_answer){255u - r->small, 0};
        break;
    case 6: /* a NUL after the line */
        if (a.kind == 0 && a.value < r->m) buffer[a.value] = 0;
        break;
    case 7: /* a byte count of 247 is taken on RTU */
        if (r->small == 0 && r->n >= 7 && (input[1] == 15 || input[1] == 16) && input[6] == 247)
            a = (struct probe_answer){256, 0};
        break;
    case 8: /* an unknown function is FrameBroken though only two bytes have come */
        if (r->small == 0 && r->n == 2 && a.kind == 21 && input[1] > 6 && input[1] != 15 && input[1] != 16) a.kind = 23;
        break;
    case 9: /* a full response takes one more */
        if (r->len == r->m) a = (struct probe_answer){r->len + 1, 0};
        break;
    case 10: /* what fits is written before the room is tested */
        for (size_t i = 0; r->len <= r->m && i < r->n && i < r->m - r->len; i++) buffer[r->len + i] = input[i];
        break;
    case 11: /* the last byte is not filled */
        if (a.kind == 0 && r->size > r->len) buffer[r->size - 1] = as_lent(r->size - 1);
        break;
    case 12: /* below 0 it wraps */
        if (a.kind == 0) a.value = r->len - r->size;
        break;
    case 13: /* a length above the slice is taken */
        a = (struct probe_answer){0, 0};
        break;
    case 14: /* cells are counted in 16 bits */
        if (r->size == 65536) a = (struct probe_answer){0, 22};
        break;
    case 15: /* spare bits are cleared */
        if (a.kind == 0 && r->size % 8 != 0) table[r->size / 8] &= (uint8_t)((1u << r->size % 8) - 1);
        break;
    case 16: /* the last byte is not masked */
        if (a.kind == 0 && r->small % 8 != 0 && bit == 0) buffer[a.value - 1] = table[place + r->small / 8];
        break;
    case 17: /* the end of the range wraps at 16 bits */
        if (a.kind == 22 && end >= 65536 && end % 65536 <= r->size) a = (struct probe_answer){r->len, 0};
        break;
    case 18: /* the first byte's lower neighbours are lost */
        if (a.kind == 0 && r->small != 0) table[place] &= (uint8_t)(0xFFu << bit);
        break;
    case 19: /* the low byte stands first */
        a.value = a.value >> 8 | (a.value & 255) << 8;
        break;
    case 20: /* one cell after the last is taken */
        if (r->reg == r->size && 2 * r->size + 2 <= r->t) {
            table[2 * r->size] = (uint8_t)(r->small >> 8);
            table[2 * r->size + 1] = (uint8_t)r->small;
            a.kind = 0;
        }
        break;
    case 21: /* the room is tested before the range */
        if (a.kind == 22 && r->m - r->len < 2u * r->small) a.kind = 21;
        break;
    case 22: /* what fits is pushed before the room runs out, as in the crate */
        for (size_t i = 0; a.kind == 21 && r->len <= r->m && i < r->m - r->len; i++)
            buffer[r->len + i] = table[2u * r->reg + i];
        break;
    case 23: /* the pairs before an odd byte are stored, as in the crate */
        if (r->n % 2 == 1 && r->reg + r->n / 2 <= r->size && r->size <= r->t / 2)
            memcpy(table + 2u * r->reg, input, r->n - 1);
        break;
    case 24: /* a strict line may have lower case */
        if (r->hex == DALONJANG_STRICT) {
            uint8_t pos = (uint8_t)r->small;
            a = ported(dalonjang_parse_ascii_frame(input, r->n, r->data_len, buffer, r->m, pos, DALONJANG_LENIENT));
        }
        break;
    case 25: /* the transport is looked at before the switch */
        if (r->hex > DALONJANG_LENIENT && r->small > DALONJANG_TCP) a.kind = DALONJANG_KIND_BAD_SETUP;
        break;
    case 26: /* another switch is lenient */
        if (r->hex > DALONJANG_LENIENT)
            a = ported(dalonjang_guess_response_frame_len(input, r->n, (uint8_t)r->small, DALONJANG_LENIENT));
        break;
    }
    return a;
}

static void print_after(const char *name, const uint8_t *expected, const uint8_t *given, size_t len) {
    size_t i = 0;
    while (i < len && expected[i] == given[i]) i++;
    if (i < len) printf("\n  %s: byte %zu is %02X, expected %02X", name, i, given[i], expected[i]);
}

static void print_call(const char *what) {
    const struct record *r = &record;
    printf("%s at record %lu: call %u, %s, ", what, number, r->call, full_name[r->call]);
    if (r->call <= 8) printf("small argument %u, switch %u, data_len %zu", r->small, r->hex, r->data_len);
    else if (r->call <= 13) printf("len %zu, value %u, new_len or n %zu", r->len, r->small, r->size);
    else printf("cells %zu, reg %u, value or count %u, len %zu", r->size, r->reg, r->small, r->len);
    printf(", input of %zu, buffer of %zu, table of %zu", r->n, r->m, r->t);
    print_bytes("input", r->input, r->n);
    print_bytes("table", r->table, r->t);
}

int main(int argc, char **argv) {
    static char stream[1 << 16];
    unsigned long wanted = argc == 2 ? strtoul(argv[1], NULL, 10) : 0, count[CALLS] = {0};
    if (wanted == 0) {
        fputs("usage: check N <RECORDS\n", stderr);
        return 2;
    }
    setvbuf(stdin, stream, _IOFBF, sizeof stream);
    watch_fences(print_call);
    uint8_t *input_room = fenced(), *buffer_room = fenced(), *table_room = fenced();
    for (; next_record(); number++) {
        uint8_t *input = place(input_room, record.n, number), *buffer = place(buffer_room, record.m, number);
        uint8_t *table = place(table_room, record.t, number);
        memcpy(input, record.input, record.n);
        memcpy(table, record.table, record.t);
        for (size_t i = 0; i < record.m; i++) buffer[i] = as_lent(i);
        struct probe_answer a = spoilt(input, buffer, table, ask(input, buffer, table));
        if (a.kind != record.kind || a.value != record.value || memcmp(input, record.input, record.n) != 0
            || memcmp(buffer, record.buffer, record.m) != 0 || memcmp(table, record.written, record.t) != 0
            || !margin_untouched(input, record.n, number) || !margin_untouched(buffer, record.m, number)
            || !margin_untouched(table, record.t, number)) {
            print_call("different");
            printf("\n  expected: kind %u, value %zu; given: kind %u, value %zu", record.kind, record.value,
                   a.kind, a.value);
            print_after("input", record.input, input, record.n);
            print_after("buffer", record.buffer, buffer, record.m);
            print_after("table", record.written, table, record.t);
            print_bytes("input afterwards", input, record.n);
            print_bytes("buffer expected ", record.buffer, record.m);
            print_bytes("buffer given    ", buffer, record.m);
            print_bytes("table expected  ", record.written, record.t);
            print_bytes("table given     ", table, record.t);
            puts("");
            return 1;
        }
        memset(input, UNTOUCHED, record.n);
        memset(buffer, UNTOUCHED, record.m);
        memset(table, UNTOUCHED, record.t);
        count[record.call]++;
    }
    if (number < wanted) {
        fprintf(stderr, "check: %lu records came, %lu were expected\n", number, wanted);
        return 2;
    }
    printf("%lu calls, all equal:", number);
    for (int call = 1; call < CALLS; call++)
        if (count[call] > 0) printf(" %s %lu", short_name[call], count[call]);
    puts("");
    return 0;
}
