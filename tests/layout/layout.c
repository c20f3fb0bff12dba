/* Whether every field and number comes through the C boundary, in and out. All values differ from each other and have
 * bits in every byte, so that one taken for another is seen. Status: 0 all do, 1 one does not. */
#include "layout.h"
#include <stdio.h>
#include <stdlib.h>

static unsigned checks;

static void is(const char *what, size_t value, size_t wanted) {
    checks++;
    if (value == wanted) return;
    printf("wrong: %s is %u, where %u was passed\n", what, (unsigned)value, (unsigned)wanted);
    exit(1);
}

static void structs(void) {
    const size_t most = (size_t)-1;
    struct layout_setup s = {201, 202, 203, most - 4, {most / 3, most / 5}, 0xBEEF, most / 7};
    struct layout_told t = layout_setup(s, 0xA51C);
    is("a length in a struct of 16 bytes", t.length, s.last);
    is("the first byte of a setup", t.outcome, s.a);
    is("the second byte of a setup", t.code, s.b);
    is("the third byte of a setup", t.table, s.c);
    is("a number of 16 bits", t.first, 0xA51C);
    is("a field of 16 bits", t.count, s.rule);
    struct layout_long l = layout_window(77, s, 0x89ABCDEF);
    is("a field of a struct in a struct", l.length, s.window.first);
    is("a number of 8 bits before a struct", l.outcome, 77);
    is("a field of an answer of 24 bytes", l.first, 258);
    is("the field after it", l.count, 772);
    is("the field after that", l.covered, s.rule);
    is("a number of 32 bits after a struct", l.wide, 0x89ABCDEF);
    struct layout_short o = layout_short(211, (struct layout_window){most / 11, 7}, 0xB5D7);
    is("the length of an answer of two numbers", o.value, most / 11);
    is("the byte after it", o.kind, 211); /* it is 0 where a number came otherwise */
    struct layout_small m = layout_small((struct layout_small){0xE9, 0xD8C7}, 0x9F8E7D6C, (struct layout_one){0xB6A5});
    is("the byte of an answer of 4 bytes", m.a, 0xE9);
    is("a struct of one number", m.b, 0xB6A5);
    is("an answer of one number", layout_one((struct layout_one){0x9C8B}, (struct layout_small){0x87, 0xF6E5}).a, 0xF6E5);
    is("the second field of a struct in a struct", layout_count(s), s.window.count);
    is("the first length of a setup", layout_cells(3, s), s.cells);
}

static void slices(void) {
    uint16_t values[5] = {0x0102, 0x0304, 0xFEDC, 0x8001, 0x7FFE};
    uint8_t request[3] = {1, 2, 3};
    struct layout_asked to = {0xD1E2, 0xF3, 0x94};
    struct layout_told t = layout_asked(to, values, 5, 0x9C63, request, sizeof request);
    is("the length of a slice", t.length, 5);
    is("a byte in a struct of 4", t.outcome, to.unit);
    is("the byte after it", t.code, to.kind);
    is("a constant of the crate", t.table, 9);
    is("the 16 bits before them", t.first, to.number);
    is("a number between slices", t.count, 0x9C63);
    for (size_t i = 0; i < 5; i++) is("a value of a slice", layout_value(values, 5, i), values[i]);
    is("a value after the end", layout_value(values, 4, 4), 0);
    is("one of a slice that starts nowhere", layout_value(NULL, 0, 0), 0);
    const uint8_t bytes[3] = {0x9A, 0xBC, 0xDE};
    is("what is said of a byte of a slice", layout_byte(bytes, 3, 1), 0xBC01);
    is("of the byte after it", layout_byte(bytes, 3, 2), 0x02DE);
    is("of one after the end", layout_byte(bytes, 2, 2), 0xA55A);
    is("a place in a slice", layout_put(values, 5, 3, 0xC0DE), 1);
    is("the value put there", values[3], 0xC0DE);
    is("the value before it", values[2], 0xFEDC);
    is("the value after it", values[4], 0x7FFE);
    is("a place after the end", layout_put(values, 3, 3, 0xFFFF), 0);
    is("what stands there", values[3], 0xC0DE);
    is("a number as the answer", layout_kind(0xEE, 0xF00D), 0xF00D);
}

int main(void) {
    structs();
    slices();
    printf("%u values, each where it belongs\n", checks);
    return 0;
}
