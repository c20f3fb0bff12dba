/* A Modbus RTU station on the board's UART, with the unit and the tables of document 01's cases. Bytes are collected by
 * the library, as in examples/gauge.c, and where the line has been quiet for long enough the frame is served. What became
 * of it goes to the console as a line: outcome, length of the reply, length of the frame; table, first cell and count of
 * what it wrote.
 * 3.5 characters are 2 ms at 19,200; to an emulator a frame's bytes come less evenly, so QUIET_MS is given. */
#include "board.h"
#include "dalonjang.h"
#include <stdio.h>

static const uint8_t everyone[] = {0};
static uint8_t coils[2], holdings[8] = {1, 2, 3, 4, 0, 0, 0xFF, 0xFF};
static const struct dalonjang_unit station = {
    .setup = {.transport = DALONJANG_RTU, .unit = 1, .coil_cells = 16, .holding_cells = 4},
    .list = everyone, .list_len = sizeof everyone,
    .coils = coils, .coils_len = sizeof coils, .holdings = holdings, .holdings_len = sizeof holdings};
static uint8_t collector[DALONJANG_COLLECTOR], reply[DALONJANG_REPLY_ROOM];
static size_t have;

static void uart_byte(uint8_t byte) { have = dalonjang_offer(collector, sizeof collector, &byte, 1).value; }

static void line_quiet(void) {
    struct dalonjang_result r = dalonjang_serve_quiet(&station, collector, sizeof collector, reply, sizeof reply);
    for (size_t i = 0; i < r.length; i++) uart_put(reply[i]);
    printf("%u %u %u", (unsigned)r.outcome, (unsigned)r.length, (unsigned)have);
    printf(" %u %u %u\n", (unsigned)r.table, (unsigned)r.first, (unsigned)r.count);
    have = 0;
}

int main(void) {
    say("ready\n");
    for (;;) {
        int byte = uart_get();
        if (byte >= 0) {
            uart_byte((uint8_t)byte);
            start_timer(QUIET_MS * 1000 * TICKS_PER_US);
        } else if (timer_over()) {
            line_quiet();
        } else {
            idle();
        }
    }
}
