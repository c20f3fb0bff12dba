/* A row of the table of costs: one request on one transport, and the reply that any Modbus server must give to it. */
#ifndef ROWS_H
#define ROWS_H
#include <stddef.h>
#include <stdint.h>

/* The numbers of include/dalonjang.h; and the check alone, of `count` bytes; and those of a collector: `count` bytes
 * offered, and a quiet line with the request as an RTU frame held. */
enum { RTU, ASCII, TCP, CRC, OFFER, QUIET };
enum { UNIT = 1, OTHER_UNIT = 2, EVERYONE = 0, MOST = 520 };
/* To our unit; to another; to all; to ours, with a wrong check; to ours, in small letters, which is lenient ASCII; built
 * by the asking side, its reply read there. */
enum { OURS, FOREIGN, BROADCAST, SPOILT, SMALL, BUILT, HEARD };
enum { KEPT = 4 }; /* what function 23 reads and does not write, the last cells of its row */
enum { PAGE = 4096 }; /* tables and buffers start at a page: the cost of a copy depends on where it starts */

struct row {
    int kind, how;
    size_t function, start, count, cells; /* every table has so many cells; function 23 writes KEPT fewer than it reads */
    size_t turn;                          /* from turn to turn all cells have other values */
};

/* A frame as it is sent. */
struct line {
    _Alignas(PAGE) uint8_t bytes[MOST];
    size_t len;
};

/* What the row asks; what a write carries are its cells' values in this turn. */
struct line request_of(const struct row *row);

/* What must come back when the cells have these values, or the exception if there are none or they are not all in the
 * table; nothing, unless it is to our unit and whole. In capitals, however it was asked. */
struct line reply_of(const struct row *row);

/* What the row's cell i holds in this turn, 0 or 1 for a coil. */
uint16_t value_of(const struct row *row, size_t i);

uint16_t plain_crc(const uint8_t *bytes, size_t n);
#endif
