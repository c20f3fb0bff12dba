/* gauge_board: a board for examples/gauge.c: the bench writes the points and a coil, a pressure is measured, the dash
 * reads it, and exactly those points are kept that a frame wrote. Whole frames with their CRC, written down here;
 * nothing is worked out.
 * Status: 0 the gauge answers and keeps as it should, 1 it does not. */
#include <stdint.h>
#include <stdio.h>
#include <string.h>

void uart_bytes(const uint8_t *bytes, size_t len);
void line_quiet(void);
void pressure(uint16_t raw);

static uint8_t sent[256], kept[256]; /* of a point its number and two bytes are kept */
static size_t sent_len, kept_len;

void uart_send(const uint8_t *bytes, size_t len) {
    memcpy(sent, bytes, len);
    sent_len = len;
}

void keep_point(size_t n, uint16_t point) {
    const uint8_t entry[] = {(uint8_t)n, (uint8_t)(point >> 8), (uint8_t)point};
    memcpy(kept + kept_len, entry, sizeof entry);
    kept_len += sizeof entry;
}

static int is(const char *what, const char *name, const uint8_t *got, size_t len, const char *wanted, size_t all) {
    int right = len == all && memcmp(got, wanted, len) == 0;
    if (!right) printf("wrong: %s %s\n", what, name);
    return right;
}

/* Bytes come in groups of one to three, then the line is quiet; an empty reply is none. */
static void comes(const char *request, size_t len) {
    sent_len = kept_len = 0;
    for (size_t i = 0, n; i < len; i += n) {
        n = 1 + i % 3 < len - i ? 1 + i % 3 : len - i;
        uart_bytes((const uint8_t *)request + i, n);
    }
    line_quiet();
}
#define KEEPS(name, request, reply, points) (comes(request, sizeof request - 1), \
    is("the gauge's reply to", name, sent, sent_len, reply, sizeof reply - 1) \
        & is("the points kept after", name, kept, kept_len, points, sizeof points - 1))
#define ANSWERS(name, request, reply) KEEPS(name, request, reply, "")

int main(void) {
    int right = KEEPS("the bench's points", "\x01\x10\x00\x00\x00\x02\x04\x00\x2A\x01\x00\xD3\xF7",
        "\x01\x10\x00\x00\x00\x02\x41\xC8", "\x00\x00\x2A\x01\x01\x00");
    right &= ANSWERS("the lamp's coil", "\x00\x05\x00\x00\xFF\x00\x8D\xEB", "");
    pressure(0x0800);
    right &= ANSWERS("a read of the pressure", "\x01\x04\x00\x00\x00\x01\x31\xCA", "\x01\x04\x02\x00\x2A\x38\xEF");
    right &= ANSWERS("a read of the lamp", "\x01\x02\x00\x00\x00\x01\xB9\xCA", "\x01\x02\x01\x01\x60\x48");
    pressure(0x3000);
    right &= ANSWERS("the next pressure", "\x01\x04\x00\x00\x00\x01\x31\xCA", "\x01\x04\x02\x01\x00\xB8\xA0");
    right &= ANSWERS("a ninth point", "\x01\x06\x00\x08\x00\x01\xC9\xC8", "\x01\x86\x02\xC3\xA1");
    right &= KEEPS("a mask of a point", "\x01\x16\x00\x01\x00\xF2\x00\x25\xAB\xEE",
        "\x01\x16\x00\x01\x00\xF2\x00\x25\xAB\xEE", "\x01\x00\x05");
    right &= KEEPS("two points for two others", "\x01\x17\x00\x00\x00\x02\x00\x06\x00\x02\x04\x11\x11\x22\x22\x8A\xEA",
        "\x01\x17\x04\x00\x2A\x00\x05\x18\xEC", "\x06\x11\x11\x07\x22\x22");
    right &= KEEPS("a point for all units", "\x00\x06\x00\x03\x00\x07\x39\xD9", "", "\x03\x00\x07");
    for (int i = 0; i < 300; i++) uart_bytes((const uint8_t *)"\1", 1);
    right &= ANSWERS("an overlong frame", "", "");
    right &= ANSWERS("a quiet line", "", "");
    right &= ANSWERS("the frame after it", "\x01\x02\x00\x00\x00\x01\xB9\xCA", "\x01\x02\x01\x00\xA1\x88");
    if (right) puts("11 frames and a quiet line, each answered and its points kept as they should be");
    return !right;
}
