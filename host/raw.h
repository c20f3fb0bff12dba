/* The raw log of RTU traffic (document 02, 2026-12), which linecount counts: records of the mark 4D 42, a length in two
 * bytes, and what came on a line between two silences, or a reply. */
#ifndef RAW_H
#define RAW_H
#include <stddef.h>
#include <stdint.h>

enum { RAW_MOST = 4096 }; /* bytes of a record */

/* What came on a line since the last silence. */
struct raw {
    uint8_t bytes[RAW_MOST];
    size_t len;
};

/* To a file, at its end. Without it nothing is kept. Answers 0 after a line on standard error. */
int raw_open(const char *path);
void raw_close(void);

void raw_hear(struct raw *r, const uint8_t *bytes, size_t len);
/* After the first `len` of what came the line was quiet: they are a record. */
void raw_quiet(struct raw *r, size_t len);
void raw_reply(const uint8_t *reply, size_t len);
#endif
