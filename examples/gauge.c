/* A booster gauge on an RTU line: all the code that a unit needs around the library. The calibration bench writes the
 * pressure points (holdings 0 to 7), the dash reads the pressure (input 0) and the warning lamp (discrete 0), and says
 * whether it wants the lamp (coil 0).
 *
 * The board calls uart_bytes() with what an interrupt brings, line_quiet() when nothing came for 3.5 characters, and
 * pressure() with each measurement; it has uart_send(), and keep_point(), which keeps a point over a loss of power. The
 * UART's interrupt is off while line_quiet() runs. */
#include "dalonjang.h"

void uart_send(const uint8_t *bytes, size_t len); /* the board's */
void keep_point(size_t n, uint16_t point);

enum { UNIT = 1, POINTS = 8 };

static const uint8_t everyone[] = {0};
static uint8_t lamp_wanted[1], lamp[1], points[2 * POINTS], reading[2]; /* the four tables */
static const struct dalonjang_unit gauge = {
    .setup = {.transport = DALONJANG_RTU, .unit = UNIT, .coil_cells = 1, .discrete_cells = 1, .holding_cells = POINTS,
              .input_cells = 1},
    .list = everyone, .list_len = sizeof everyone, .coils = lamp_wanted, .coils_len = sizeof lamp_wanted,
    .discretes = lamp, .discretes_len = sizeof lamp, .holdings = points, .holdings_len = sizeof points,
    .inputs = reading, .inputs_len = sizeof reading};
static uint8_t collector[DALONJANG_COLLECTOR], reply[DALONJANG_REPLY_ROOM];

void uart_bytes(const uint8_t *bytes, size_t len) { dalonjang_offer(collector, sizeof collector, bytes, len); }

void line_quiet(void) {
    struct dalonjang_result r = dalonjang_serve_quiet(&gauge, collector, sizeof collector, reply, sizeof reply);
    if (r.table == DALONJANG_HOLDINGS) /* these points are new, and no others */
        for (size_t n = r.first; n < (size_t)r.first + r.count; n++)
            keep_point(n, (uint16_t)(points[2 * n] << 8 | points[2 * n + 1]));
    if (r.length > 0) uart_send(reply, r.length);
}

void pressure(uint16_t raw) {
    size_t n = raw >> 13; /* eight ranges, one pressure point each */
    reading[0] = points[2 * n];
    reading[1] = points[2 * n + 1];
    lamp[0] = lamp_wanted[0] & (raw < 0x1000);
}
