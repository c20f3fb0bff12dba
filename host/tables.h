/* The four tables that are served, and their text: the cells that are not zero, for people to read and to write. */
#ifndef TABLES_H
#define TABLES_H
#include <stddef.h>
#include <stdint.h>
#include <stdio.h>

enum { COILS, DISCRETES, HOLDINGS, INPUTS, TABLES };
extern const char *const table_name[TABLES];

struct table {
    uint8_t *bytes; /* laid out as dalonjang.h says */
    size_t len, cells;
};

/* Bytes of a table, up to the one before `to`; none where that is 0. */
struct part {
    size_t from, to;
};

/* Every cell zero. Answers 0 where there is no memory. */
int tables_make(struct table tables[TABLES], const size_t cells[TABLES]);

/* Lays the rows of a text over the tables. Answers 0 after a line on standard error, where the text is not whole, or
 * names what the tables do not have. */
int tables_import(const char *path, struct table tables[TABLES]);
void tables_export(FILE *file, const struct table tables[TABLES]);
#endif
