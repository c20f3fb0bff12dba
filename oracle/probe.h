/* The ported calls of modules 1 and 4 by name, as the static library `probe` exports them for the runs beside the Rust; those
 * of modules 2 and 3 are in include/dalonjang.h.
 * A slice is a pointer, then a length. */
#ifndef PROBE_H
#define PROBE_H
#include <stdbool.h>
#include <stddef.h>
#include <stdint.h>

/* kind 0: value holds; else kind is document 01's number of the refusal and value is 0 */
struct probe_answer {
    size_t value;
    uint8_t kind;
};

uint16_t probe_calc_crc16(const uint8_t *frame, size_t frame_len, uint8_t data_length);
struct probe_answer probe_calc_lrc(const uint8_t *frame, size_t frame_len, uint8_t data_length);
struct probe_answer probe_chr_to_hex(uint8_t c); /* value: 16 x kind + digit; 0 number, 1 capital, 2 small letter */
struct probe_answer probe_hex_to_chr(uint8_t h);

/* The bounded response: len of the response_len lent bytes are held. value: the new len */
struct probe_answer probe_push(uint8_t *response, size_t response_len, size_t len, uint8_t value);
struct probe_answer probe_extend(uint8_t *response, size_t response_len, size_t len,
                                 const uint8_t *other, size_t other_len);
struct probe_answer probe_resize(uint8_t *response, size_t response_len, size_t len, size_t new_len, uint8_t value);
struct probe_answer probe_cut_end(const uint8_t *response, size_t response_len, size_t len, size_t n);
struct probe_answer probe_clear(const uint8_t *response, size_t response_len, size_t len);

/* The lent tables. value: the cell (get_coil, get_holding), the response's new len (get_*_as_u8) or 0 (set_*) */
struct probe_answer probe_get_coil(const uint8_t *table, size_t table_len, size_t cells, uint16_t reg);
struct probe_answer probe_set_coil(uint8_t *table, size_t table_len, size_t cells, uint16_t reg, bool value);
struct probe_answer probe_get_coils_as_u8(const uint8_t *table, size_t table_len, size_t cells, uint16_t reg,
                                          uint16_t count, uint8_t *response, size_t response_len, size_t len);
struct probe_answer probe_get_discretes_as_u8(const uint8_t *table, size_t table_len, size_t cells, uint16_t reg,
                                              uint16_t count, uint8_t *response, size_t response_len, size_t len);
struct probe_answer probe_set_coils_from_u8(uint8_t *table, size_t table_len, size_t cells, uint16_t reg,
                                            uint16_t count, const uint8_t *values, size_t values_len);
struct probe_answer probe_get_holding(const uint8_t *table, size_t table_len, size_t cells, uint16_t reg);
struct probe_answer probe_set_holding(uint8_t *table, size_t table_len, size_t cells, uint16_t reg, uint16_t value);
struct probe_answer probe_get_holdings_as_u8(const uint8_t *table, size_t table_len, size_t cells, uint16_t reg,
                                             uint16_t count, uint8_t *response, size_t response_len, size_t len);
struct probe_answer probe_get_inputs_as_u8(const uint8_t *table, size_t table_len, size_t cells, uint16_t reg,
                                           uint16_t count, uint8_t *response, size_t response_len, size_t len);
struct probe_answer probe_set_holdings_from_u8(uint8_t *table, size_t table_len, size_t cells, uint16_t reg,
                                               const uint8_t *values, size_t values_len);
#endif
