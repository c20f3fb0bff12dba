/* A call of the driver and the result that is expected, as a record of numbers and bytes. Each list below has numbers in
 * their order: whose it is, its name, its bytes, high byte first. Whoever writes, reads, compares or prints a record goes
 * through the lists, so that a number more of a setup or of a result is a word more here.
 *   A case is a record of the program `cases`, in hex digits: kat_list.c writes it, board/cases.c and board/line.py read
 *   it, and so does crates/cases/src/fields.rt, whose constants bin/driver-runs holds against `kat layout`.
 *   A driven is a record of the runs beside the Rust, in bytes: oracle/vectors/src/drive/record.rs writes it, and
 *   oracle/check_drive.c reads it. */
#ifndef RECORD_H
#define RECORD_H
#include "../include/dalonjang.h"

enum { COILS, DISCRETES, HOLDINGS, INPUTS, TABLES };

struct slice {
    uint8_t *bytes;
    size_t len;
};

/* Of the setup, but for the cells, which stand with each table; and of the result, but for the length of the reply. */
#define SETUP_NUMBERS(X, of) X(of, transport, 1) X(of, unit, 1) X(of, hex, 1)
#define RESULT_NUMBERS(X, of) X(of, outcome, 1) X(of, code, 1) X(of, table, 1) X(of, first, 2) X(of, count, 2)
#define EACH_TABLE(NUMBERS, X, of) \
    NUMBERS(X, (of)[COILS]) NUMBERS(X, (of)[DISCRETES]) NUMBERS(X, (of)[HOLDINGS]) NUMBERS(X, (of)[INPUTS])

/* A case: the length of the reply buffer, the table that changes and the byte from which on; for each table its length,
 * its cells, and the byte that fills it behind its front; then the length of each part, in two bytes, and the parts. */
#define CASE_NUMBERS(X, of) X(of, room, 2) X(of, changing, 1) X(of, from, 4)
#define CASE_TABLE(X, of) X(of, len, 4) X(of, cells, 8) X(of, fill, 1)
#define CASE_HEAD(X, r) \
    SETUP_NUMBERS(X, (r).setup) RESULT_NUMBERS(X, (r).told) CASE_NUMBERS(X, r) EACH_TABLE(CASE_TABLE, X, (r).lent)
enum { PART_LIST, PART_FRAME, PART_REPLY, PART_CHANGED, PART_FRONTS, PARTS = PART_FRONTS + TABLES, PART_LENGTH = 2 };

/* A driven: whether reply and tables are document 01's, and the crate's differ; which tables change, 1 the coils, 2 the
 * holdings; the lengths of list, frame, reply buffer and reply; for each table its cells and its length. Then list,
 * frame, the four tables, the reply, and the tables that change as they are afterwards. */
#define DRIVEN_NUMBERS(X, of) \
    X(of, otherwise, 1) X(of, changing, 1) X(of, list, 1) X(of, frame, 2) X(of, room, 2) X(of, reply, 2)
#define DRIVEN_TABLE(X, of) X(of, cells, 4) X(of, len, 4)
#define DRIVEN_HEAD(X, r) \
    SETUP_NUMBERS(X, (r).setup) RESULT_NUMBERS(X, (r).told) DRIVEN_NUMBERS(X, r) EACH_TABLE(DRIVEN_TABLE, X, (r).lent)

#define NUMBER(of, name, bytes) uint64_t name;
struct case_record {
    struct dalonjang_setup setup;
    struct dalonjang_result told;
    CASE_NUMBERS(NUMBER, )
    struct { CASE_TABLE(NUMBER, ) } lent[TABLES];
    struct slice part[PARTS];
};
struct driven_record {
    struct dalonjang_setup setup;
    struct dalonjang_result told;
    DRIVEN_NUMBERS(NUMBER, )
    struct { DRIVEN_TABLE(NUMBER, ) } lent[TABLES];
};
#undef NUMBER

/* How many bytes a list of numbers has. */
#define BYTES(of, name, bytes) + (bytes)
#define BYTES_OF(NUMBERS) (0 NUMBERS(BYTES, ))
#define DRIVEN_BYTES (BYTES_OF(SETUP_NUMBERS) + BYTES_OF(RESULT_NUMBERS) + BYTES_OF(DRIVEN_NUMBERS) \
    + TABLES * BYTES_OF(DRIVEN_TABLE))

/* The cells of a table by its number, to be set and to be read. */
static inline size_t *cells_in(struct dalonjang_setup *s, int table) {
    return table == COILS ? &s->coil_cells : table == DISCRETES ? &s->discrete_cells
         : table == HOLDINGS ? &s->holding_cells : &s->input_cells;
}
static inline size_t cells_of(struct dalonjang_setup s, int table) { return *cells_in(&s, table); }
#endif
