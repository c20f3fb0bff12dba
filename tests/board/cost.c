/* What a request costs on the board. The file `rows` has a line for each: transport, to whom and how, function, start
 * and count, as bench/loop.h reads them. Each is made once and its reply compared; then FEW times, and twice as often:
 * the difference, in ticks of the processor's clock for FEW requests, goes to the console, a line for each row.
 * Status: 0 all replies were right, 1 one was not, or a line is no row. */
#include "../../bench/rows.h"
#include "board.h"
#include "dalonjang.h"
#include <stdio.h>
#include <stdlib.h>
#include <string.h>

enum { FEW = 4, CELLS = 10000 };

static _Alignas(PAGE) uint8_t coils[CELLS / 8], discretes[CELLS / 8], holdings[2 * CELLS], inputs[2 * CELLS],
    reply[DALONJANG_REPLY_ROOM_ASCII];
static const uint8_t everyone[] = {0};
static struct dalonjang_unit unit = {.setup = {.unit = UNIT, .coil_cells = CELLS, .discrete_cells = CELLS,
    .holding_cells = CELLS, .input_cells = CELLS}, .list = everyone, .list_len = sizeof everyone,
    .coils = coils, .coils_len = sizeof coils, .discretes = discretes, .discretes_len = sizeof discretes,
    .holdings = holdings, .holdings_len = sizeof holdings, .inputs = inputs, .inputs_len = sizeof inputs};
static struct line request, wanted;

__attribute__((noinline)) static uint32_t took(int calls) {
    start_timer(0xFFFFFF);
    for (int i = 0; i < calls; i++) dalonjang_serve(&unit, request.bytes, request.len, reply, sizeof reply);
    return timer_ran();
}

/* The answer to row is the right one. */
static void try_one(const struct row *row) {
    request = request_of(row);
    wanted = reply_of(row);
    size_t n = dalonjang_serve(&unit, request.bytes, request.len, reply, sizeof reply).length;
    if (n == wanted.len && memcmp(reply, wanted.bytes, n) == 0) return;
    printf("wrong reply to function %u, start %u, count %u\n", (unsigned)row->function, (unsigned)row->start,
        (unsigned)row->count);
    exit(1);
}

/* A read is of cells that have been written, in two requests where one does not hold them; of function 23, those that it
 * does not write itself. */
static void measure(struct row *row) {
    int bits = row->function == 1, both = row->function == 23;
    size_t most = bits ? 1000 : 100;
    unit.setup.transport = (uint8_t)row->kind;
    unit.setup.hex = row->how == SMALL;
    if ((row->function < 5 || both) && row->start + row->count <= row->cells)
        for (size_t done = both ? row->count - KEPT : 0; done < row->count; done += most) {
            struct row part = *row;
            part.function = bits ? 15 : 16;
            part.start += done;
            part.count = row->count - done < most ? row->count - done : most;
            try_one(&part);
        }
    try_one(row);
    uint32_t once = took(FEW);
    printf("%u\n", (unsigned)(took(2 * FEW) - once));
}

/* Which of these words the text goes on with, or how many there are if none; then it goes on behind its blank. */
static int word_of(char **at, const char *const *words, int many) {
    char *end = strchr(*at, ' ');
    int n = 0;
    if (end == NULL) return many;
    *end = 0;
    while (n < many && strcmp(*at, words[n]) != 0) n++;
    *at = end + 1;
    return n;
}

int main(void) {
    static const char *const kinds[] = {"rtu", "ascii", "tcp"};
    static const char *const hows[] = {"ours", "foreign", "broadcast", "spoilt", "small"};
    static char text[16384];
    int file = open_file("rows");
    size_t len = file < 0 ? 0 : read_file(file, text, sizeof text - 1);
    struct row row = {.cells = CELLS};
    for (char *at = text; at < text + len; at++) { /* behind the line's end */
        row.kind = word_of(&at, kinds, CRC);
        row.how = word_of(&at, hows, SMALL + 1);
        if (row.kind == CRC || row.how > SMALL) return 1;
        row.function = strtoul(at, &at, 10);
        row.start = strtoul(at + 1, &at, 10);
        row.count = strtoul(at + 1, &at, 10);
        if (*at != '\n') return 1;
        row.turn++;
        measure(&row);
    }
    return len == 0;
}
