#include "tables.h"
#include "basics.h"

#define FIRST_LINE "dalonjang tables"
#define LAST_LINE "end"
#define BLANKS " \t"
#define DATABASE "SQLite format 3"
enum { ROW = 16, LINE_ROOM = 4096 };

const char *const table_name[TABLES] = {"coils", "discretes", "holdings", "inputs"};

static int is_bits(int which) { return which == COILS || which == DISCRETES; }

int tables_make(struct table tables[TABLES], const size_t cells[TABLES]) {
    for (int t = 0; t < TABLES; t++) {
        size_t len = is_bits(t) ? (cells[t] + 7) / 8 : 2 * cells[t];
        tables[t] = (struct table){calloc(len + 1, 1), len, cells[t]}; /* no cells: still a pointer that is not NULL */
        if (tables[t].bytes == NULL) return 0;
    }
    return 1;
}

static size_t cell(const struct table tables[TABLES], int which, size_t n) {
    const uint8_t *bytes = tables[which].bytes;
    return is_bits(which) ? bytes[n / 8] >> n % 8 & 1u : (size_t)bytes[2 * n] << 8 | bytes[2 * n + 1];
}

static void put_cell(struct table tables[TABLES], int which, size_t n, size_t value) {
    uint8_t *bytes = tables[which].bytes;
    if (is_bits(which)) {
        bytes[n / 8] = (uint8_t)((bytes[n / 8] & ~(1u << n % 8)) | value << n % 8);
    } else {
        bytes[2 * n] = (uint8_t)(value >> 8);
        bytes[2 * n + 1] = (uint8_t)value;
    }
}

/* --- from text ---------------------------------------------------------------------------------------------------- */

/* A table's name, a cell, and the values of that cell and of those after it. Answers what is wrong, or NULL. */
static const char *take_row(struct table tables[TABLES], char *row) {
    char *rest = NULL, *word = strtok_r(row, BLANKS, &rest);
    int which = 0;
    size_t n, value;
    while (which < TABLES && strcmp(word, table_name[which]) != 0) which++;
    if (which == TABLES) return "neither coils, discretes, holdings nor inputs";
    if (!number(strtok_r(NULL, BLANKS, &rest), 0, 65535, &n)) return "no cell number from 0 to 65535";
    for (; (word = strtok_r(NULL, BLANKS, &rest)) != NULL; n++) {
        if (!number(word, 0, is_bits(which) ? 1 : 65535, &value)) return "not a value of this table";
        if (n >= tables[which].cells) return "a cell that the table does not have";
        put_cell(tables, which, n, value);
    }
    return NULL;
}

/* What is wrong with how a line ends, or NULL; its end is cut off. */
static const char *cut_end(char *line) {
    size_t len = strcspn(line, "\n");
    if (line[len] == 0) return "cut short, or longer than 4000 characters";
    if (len > 0 && line[len - 1] == '\r') return "it ends in CR LF; here lines end in LF alone";
    line[len] = 0;
    return NULL;
}

/* Answers what is wrong with the line `*at`, or NULL. */
static const char *take_rows(FILE *file, struct table tables[TABLES], unsigned *at) {
    char line[LINE_ROOM];
    const char *wrong = NULL;
    int ended = 0;
    for (*at = 1; fgets(line, sizeof line, file) != NULL; ++*at) {
        if (*at == 1 && strncmp(line, DATABASE, strlen(DATABASE)) == 0) return "a database: --image takes it";
        if ((wrong = cut_end(line)) != NULL) return wrong;
        if (*at == 1 && strcmp(line, FIRST_LINE) != 0) return "not '" FIRST_LINE "'";
        if (*at == 1 || line[0] == '#' || line[strspn(line, BLANKS)] == 0) continue;
        if (ended) return "a row after the line '" LAST_LINE "'";
        ended = strcmp(line, LAST_LINE) == 0;
        if (!ended && (wrong = take_row(tables, line)) != NULL) return wrong;
    }
    if (ferror(file)) return strerror(errno);
    return ended ? NULL : "no line '" LAST_LINE "': the text is not whole";
}

int tables_import(const char *path, struct table tables[TABLES]) {
    unsigned at = 0;
    FILE *file = fopen(path, "r");
    const char *wrong = file == NULL ? strerror(errno) : take_rows(file, tables, &at);
    int unreadable = file == NULL || ferror(file);
    if (wrong != NULL && unreadable) complain("%s cannot be read: %s", path, wrong);
    else if (wrong != NULL) complain("%s, line %u: %s", path, at, wrong);
    if (file != NULL) fclose(file);
    return wrong == NULL;
}

/* --- to text ------------------------------------------------------------------------------------------------------ */

void tables_export(FILE *file, const struct table tables[TABLES]) {
    fputs(FIRST_LINE "\n# written by --export, for --import; a remark in it is lost when it is written again\n", file);
    for (int t = 0; t < TABLES; t++) {
        for (size_t first = 0; first < tables[t].cells; first += ROW) {
            size_t end = first + ROW < tables[t].cells ? first + ROW : tables[t].cells, n = first;
            while (n < end && cell(tables, t, n) == 0) n++;
            if (n == end) continue;
            fprintf(file, "%s %zu", table_name[t], first);
            for (n = first; n < end; n++) fprintf(file, " %zu", cell(tables, t, n));
            fputc('\n', file);
        }
    }
    fputs(LAST_LINE "\n", file);
}
