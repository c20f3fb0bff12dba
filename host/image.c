#include "image.h"
#include "basics.h"
#include <limits.h>
#include <sqlite3.h>
#include <sys/stat.h>

#define MARK "1145129034" /* "DALJ" as a number: the application that a database belongs to */
enum { BLOCK = 256, BLOCKS = 1024 }; /* bytes of a block; the most blocks of a table, and some */

/* A lock that stands until the server ends, also against the next server; each commit is synced to the disk. */
static const char *const set_up = "PRAGMA locking_mode=EXCLUSIVE; PRAGMA journal_mode=WAL; PRAGMA synchronous=FULL;";

/* What every image has. Each start is counted, so that one which cannot be written is noticed before it is served. */
static const char *const begin = "BEGIN IMMEDIATE; PRAGMA application_id=" MARK ";"
    "CREATE TABLE IF NOT EXISTS blocks (place INTEGER PRIMARY KEY, bytes BLOB NOT NULL);"
    "CREATE TABLE IF NOT EXISTS about (what TEXT PRIMARY KEY, value);"
    "INSERT OR IGNORE INTO about VALUES ('note', 'written by the Dalonjang server; --export gives it as text'), ('starts', 0);"
    "UPDATE about SET value = value + 1 WHERE what = 'starts'; COMMIT;";

static size_t least(size_t a, size_t b) { return a < b ? a : b; }

static int fault(const struct image *i, const char *what) {
    int in_use = sqlite3_errcode(i->db) == SQLITE_BUSY;
    complain("the image %s %s: %s", i->path, what, in_use ? "another server has it in use" : sqlite3_errmsg(i->db));
    return 0;
}

static int run(struct image *i, const char *commands, const char *what) {
    return sqlite3_exec(i->db, commands, NULL, NULL, NULL) == SQLITE_OK || fault(i, what);
}

/* --- opening ------------------------------------------------------------------------------------------------------ */

/* What the file at `path` is, where it is no database and not new: in words, or NULL. */
static const char *otherwise(const char *path) {
    struct stat is;
    char head[32] = "";
    if (stat(path, &is) != 0) return errno == ENOENT ? NULL : strerror(errno);
    if (S_ISDIR(is.st_mode)) return "it is a directory";
    if (!S_ISREG(is.st_mode)) return "it is no file";
    FILE *file = fopen(path, "r");
    if (file == NULL) return strerror(errno);
    size_t got = fread(head, 1, sizeof head - 1, file);
    int unread = ferror(file);
    fclose(file);
    if (unread) return "it cannot be read";
    if (strncmp(head, "dalonjang tables", 16) == 0) return "it is text; --import takes it, and --image another file";
    return got == 0 || strncmp(head, "SQLite format 3", 15) == 0 ? NULL : "it is no image";
}

static int number_of(struct image *i, const char *query, int64_t *value) {
    sqlite3_stmt *asked;
    int done = sqlite3_prepare_v2(i->db, query, -1, &asked, NULL) == SQLITE_OK && sqlite3_step(asked) == SQLITE_ROW;
    if (done) *value = sqlite3_column_int64(asked, 0);
    sqlite3_finalize(asked);
    return done || fault(i, "cannot be used");
}

/* A database with tables that are not ours stays as it is. */
static int is_ours(struct image *i) {
    int64_t mark, tables;
    if (!number_of(i, "PRAGMA application_id", &mark)
        || !number_of(i, "SELECT count(*) FROM sqlite_master", &tables)) return 0;
    if (tables == 0 || mark == strtol(MARK, NULL, 10)) return 1;
    complain("the image %s cannot be used: it is a database of another program", i->path);
    return 0;
}

/* A value that the table has no cell for is refused: it would be lost. */
static int take_block(const struct image *i, struct table tables[TABLES], int64_t place, const uint8_t *bytes, size_t len) {
    int t = (int)(place / BLOCKS);
    size_t first = (size_t)(place % BLOCKS) * BLOCK, spare;
    if (place < 0 || t >= TABLES || len > BLOCK) {
        complain("the image %s cannot be used: it has a block that no table has", i->path);
        return 0;
    }
    for (size_t n = 0; n < len; n++) {
        size_t at = first + n, cell = t == COILS || t == DISCRETES ? 8 * at : at / 2;
        spare = (t == COILS || t == DISCRETES) && cell + 8 > tables[t].cells && at < tables[t].len
            ? bytes[n] >> (tables[t].cells - cell) : 0;
        if (at < tables[t].len) tables[t].bytes[at] = bytes[n];
        if ((at < tables[t].len || bytes[n] == 0) && spare == 0) continue;
        complain("the image %s has values in %s from %zu on, and that table has %zu cells (--%s)", i->path, table_name[t],
            spare != 0 ? tables[t].cells : cell, tables[t].cells, table_name[t]);
        return 0;
    }
    return 1;
}

static int take_blocks(struct image *i, struct table tables[TABLES]) {
    sqlite3_stmt *each;
    int step, fine = sqlite3_prepare_v2(i->db, "SELECT place, bytes FROM blocks", -1, &each, NULL) == SQLITE_OK;
    if (!fine) return fault(i, "cannot be used");
    while (fine && (step = sqlite3_step(each)) == SQLITE_ROW)
        fine = take_block(i, tables, sqlite3_column_int64(each, 0), sqlite3_column_blob(each, 1),
            (size_t)sqlite3_column_bytes(each, 1));
    if (fine && step != SQLITE_DONE) fine = fault(i, "cannot be read");
    sqlite3_finalize(each);
    return fine;
}

int image_open(struct image *i, const char *path, struct table tables[TABLES]) {
    const char *wrong = strlen(path) < PATH_MAX - 2 ? otherwise(path) : strerror(ENAMETOOLONG);
    char file[PATH_MAX];
    i->path = path;
    if (wrong != NULL) {
        complain("the image %s cannot be used: %s", path, wrong);
        return 0;
    }
    snprintf(file, sizeof file, "%s%s", path[0] == '/' ? "" : "./", path); /* else :memory: would be no file */
    if (sqlite3_open_v2(file, &i->db, SQLITE_OPEN_READWRITE | SQLITE_OPEN_CREATE, NULL) != SQLITE_OK)
        return fault(i, "cannot be used");
    if (!run(i, set_up, "cannot be used") || !is_ours(i) || !run(i, begin, "cannot be written")) return 0;
    if (sqlite3_prepare_v2(i->db, "INSERT OR REPLACE INTO blocks VALUES (?, ?)", -1, &i->put, NULL) != SQLITE_OK)
        return fault(i, "cannot be used");
    if (!take_blocks(i, tables)) return 0;
    for (int t = 0; t < TABLES; t++) {
        i->kept[t] = malloc(tables[t].len + 1);
        if (i->kept[t] == NULL) return 0;
        memcpy(i->kept[t], tables[t].bytes, tables[t].len);
    }
    return 1;
}

/* --- keeping ------------------------------------------------------------------------------------------------------ */

static int put_block(struct image *i, int t, size_t first, const uint8_t *bytes, size_t len) {
    int done = sqlite3_bind_int64(i->put, 1, (int64_t)t * BLOCKS + (int64_t)(first / BLOCK)) == SQLITE_OK
        && sqlite3_bind_blob(i->put, 2, bytes, (int)len, SQLITE_STATIC) == SQLITE_OK
        && sqlite3_step(i->put) == SQLITE_DONE;
    return (sqlite3_reset(i->put) == SQLITE_OK && done) || fault(i, "cannot be saved");
}

/* The blocks of these parts that differ from what stands there, in one transaction: all of them or none. */
int image_keep(struct image *i, const struct table tables[TABLES], const struct part parts[TABLES]) {
    int begun = 0, moved = 0;
    for (int t = 0; t < TABLES; t++) {
        for (size_t first = parts[t].from / BLOCK * BLOCK; first < parts[t].to; first += BLOCK) {
            size_t len = least(BLOCK, tables[t].len - first);
            const uint8_t *now = tables[t].bytes + first;
            if (memcmp(now, i->kept[t] + first, len) == 0) continue;
            if (!begun && !run(i, "BEGIN", "cannot be saved")) return 0;
            begun = 1;
            if (!put_block(i, t, first, now, len)) return 0;
            memcpy(i->kept[t] + first, now, len);
        }
    }
    if (!begun) return 1;
    if (!run(i, "COMMIT", "cannot be saved")) return 0;
    if (sqlite3_file_control(i->db, "main", SQLITE_FCNTL_HAS_MOVED, &moved) == SQLITE_OK && !moved) return 1;
    complain("the image %s cannot be saved: the file has been taken away", i->path);
    return 0;
}

void image_close(struct image *i) {
    sqlite3_finalize(i->put);
    sqlite3_close(i->db);
    for (int t = 0; t < TABLES; t++) free(i->kept[t]);
}
