/* What the files of kat share: kat.c starts and counts; kat_drive.c has the driver's cases, from kat_rows.h,
 * kat_collect.c the collector's, kat_ask.c the asking side's, and kat_calls.c the header's other five calls; kat_list.c
 * writes the list. */
#ifndef KAT_H
#define KAT_H
#include "asked.h"

#define CASES(rows) (sizeof(rows) / sizeof(rows)[0])

extern unsigned checks; /* made so far, or cases written */

/* Says so and ends the program. */
_Noreturn void different(const char *name, const char *what);

/* Bytes from text: pairs of hex digits, blanks between them as you like, and *n for the last byte n times in all; after
 * a ' the characters themselves; none from NULL. Answers how many. */
size_t bytes_of(const char *text, uint8_t *bytes);

/* What a lent buffer holds before a call. */
static inline uint8_t as_lent(size_t i) { return (uint8_t)(0x5A + i); }

/* A NULL where the slice is empty: the library must not mind. */
static inline struct slice slice(uint8_t *bytes, size_t len) { return (struct slice){len == 0 ? NULL : bytes, len}; }

/* What a row does not name is zero, and an empty slice. */
struct setup {
    struct dalonjang_setup numbers; /* a row's transports win over that here */
    const char *list, *table[TABLES]; /* spare bytes stand here too */
    int room; /* 0: just enough; below: none */
};

/* on: the transports, r RTU, a ASCII, t TCP; s ASCII asked in small letters, m with every other letter small. There
 * `ask` and `reply` go from the unit byte on and get header and check; under R, A and T they are the whole frames.
 * Afterwards `table` reads `now` from byte `at` on; all else stays. The result names `count` cells of that table from
 * `first` on, or none. */
struct row {
    const char *name, *on;
    const struct setup *setup;
    const char *ask;
    int outcome, code;
    const char *reply;
    int table;
    size_t at;
    const char *now;
    unsigned first, count;
};

/* The number by which a result names a table in which so many cells were written. */
static inline uint8_t named(int table, size_t count) {
    return count == 0 ? DALONJANG_NO_TABLE : table == COILS ? DALONJANG_COILS : DALONJANG_HOLDINGS;
}

/* The result that a row wants, with a reply of so many bytes. */
static inline struct dalonjang_result wanted(const struct row *row, size_t length) {
    return (struct dalonjang_result){.length = length, .outcome = (uint8_t)row->outcome, .code = (uint8_t)row->code,
        .table = named(row->table, row->count), .first = (uint16_t)row->first, .count = (uint16_t)row->count};
}

/* Each of the driver's cases, with its call and the reply that must come: made (kat_drive.c), or written as a record of
 * the program `cases` (kat_list.c). */
typedef void each_case(const struct row *row, const struct asked *a, struct slice reply);
void driver_cases(each_case *each);
each_case call_case, list_case;
void list_head(void);
/* Where each number of a record stands. */
void list_layout(void);

/* The collector's cases, and the other five calls. */
void collector_cases(void);
void other_calls(void);

/* The five calls of the asking side. */
void asking_cases(void);

/* Header and check around a body; answers the length. Nothing around nothing. The transaction is 1234. */
size_t wrapped(int transport, const uint8_t *body, size_t n, uint8_t *frame);
#endif
