/* The proved library under measure, called as firmware calls it. */
#include "../include/dalonjang.h"
#include "../oracle/probe.h"
#include "rows.h"

static _Alignas(PAGE) uint8_t coils[8192], discretes[8192], holdings[131072], inputs[131072],
    answer[DALONJANG_REPLY_ROOM_ASCII], collector[DALONJANG_COLLECTOR];
static const uint8_t everyone[] = {0};

static struct dalonjang_unit unit; /* made before the first call of a row, as firmware makes it once */

static int start(const struct row *row) {
    size_t cells = row->cells, bits = (cells + 7) / 8;
    unit = (struct dalonjang_unit){
        .setup = {.transport = row->kind > CRC ? DALONJANG_RTU : (uint8_t)row->kind, .unit = UNIT,
                  .hex = row->how == SMALL, .coil_cells = cells, .discrete_cells = cells, .holding_cells = cells,
                  .input_cells = cells},
        .list = everyone, .list_len = sizeof everyone, .coils = coils, .coils_len = bits, .discretes = discretes,
        .discretes_len = bits, .holdings = holdings, .holdings_len = 2 * cells, .inputs = inputs,
        .inputs_len = 2 * cells};
    return cells <= DALONJANG_MOST_CELLS;
}

static const uint8_t *reply(void) { return answer; }

static inline size_t serve(const struct row *row, const struct line *request) {
    (void)row;
    return dalonjang_serve(&unit, request->bytes, request->len, answer, sizeof answer).length;
}

static uint16_t crc(const uint8_t *bytes, size_t n) { return probe_calc_crc16(bytes, n, (uint8_t)n); }

#define COLLECTS
static inline size_t take(const uint8_t *bytes, size_t n) {
    return dalonjang_offer(collector, sizeof collector, bytes, n).value;
}
static inline void hold(size_t n) { collector[0] = 0, collector[1] = (uint8_t)n; }
static inline size_t close(void) {
    return dalonjang_serve_quiet(&unit, collector, sizeof collector, answer, sizeof answer).length;
}

#define ASKS
static struct dalonjang_request to = {7, UNIT, 0};
static _Alignas(PAGE) uint8_t built[MOST];
static _Alignas(PAGE) uint16_t heard[2000], given[2000];
static size_t built_len;

static void ready(const struct row *row) {
    to.proto = (uint8_t)row->kind;
    for (size_t i = 0; i < row->count; i++) given[i] = value_of(row, i);
}

static inline size_t build(const struct row *row) {
    uint8_t func = (uint8_t)row->function;
    uint16_t reg = (uint16_t)row->start;
    struct dalonjang_answer a = func <= 4
        ? dalonjang_generate_get(to, func, reg, (uint16_t)row->count, built, sizeof built)
        : dalonjang_generate_set(to, func, reg, given, row->count, built, sizeof built);
    return built_len = a.value;
}

static inline size_t hear(const struct row *row, const struct line *reply) {
    (void)row;
    return dalonjang_parse_response(to.proto, built, built_len, reply->bytes, reply->len, heard, 2000).count;
}

#include "loop.h"
