/* The image: the tables on the disk, in a database of SQLite. A write costs the blocks that it changed, whatever the
 * size of the tables; after a kill or a loss of power every write is there whole or not at all. */
#ifndef IMAGE_H
#define IMAGE_H
#include "tables.h"

struct image {
    struct sqlite3 *db; /* NULL: there is no image */
    struct sqlite3_stmt *put;
    const char *path;
    uint8_t *kept[TABLES]; /* the tables as they stand in the image */
};

/* Opens or makes it, for this server alone, tries that it can be written, and lays its cells over the tables, which are
 * zero. Answers 0 after a line on standard error. */
int image_open(struct image *i, const char *path, struct table tables[TABLES]);
/* Writes what of these parts is not as it stands there, and looks at no other; when this answers 1 it is on the disk. 0
 * after a line on standard error. */
int image_keep(struct image *i, const struct table tables[TABLES], const struct part parts[TABLES]);
void image_close(struct image *i);
#endif
