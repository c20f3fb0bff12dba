/* The calls of tests/layout/crate.txt, as include/dalonjang.h has those of the library. */
#include <stddef.h>
#include <stdint.h>

struct layout_asked { uint16_t number; uint8_t unit, kind; };
struct layout_window { size_t first, count; };
struct layout_setup {
    uint8_t a, b, c;
    size_t cells;
    struct layout_window window;
    uint16_t rule;
    size_t last;
};
struct layout_told { size_t length; uint8_t outcome, code, table; uint16_t first, count; };
struct layout_short { size_t value; uint8_t kind; };
struct layout_small { uint8_t a; uint16_t b; };
struct layout_one { uint16_t a; };
struct layout_long { size_t length; uint8_t outcome; uint16_t first, count, covered; uint32_t wide; };

struct layout_told layout_setup(struct layout_setup s, uint16_t x);
struct layout_long layout_window(uint8_t k, struct layout_setup s, uint32_t y);
struct layout_short layout_short(uint8_t k, struct layout_window w, uint16_t n);
struct layout_small layout_small(struct layout_small s, uint32_t x, struct layout_one o);
struct layout_one layout_one(struct layout_one o, struct layout_small s);
size_t layout_count(struct layout_setup s);
size_t layout_cells(size_t a, struct layout_setup s);
struct layout_told layout_asked(struct layout_asked to, const uint16_t *values, size_t values_len, uint16_t n,
    uint8_t *request, size_t request_len);
uint16_t layout_kind(uint8_t a, uint16_t b);
uint16_t layout_value(const uint16_t *values, size_t values_len, size_t at);
uint16_t layout_byte(const uint8_t *bytes, size_t bytes_len, uint8_t at);
uint8_t layout_put(uint16_t *values, size_t values_len, size_t at, uint16_t v);
