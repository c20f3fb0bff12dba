/* A serial line or pseudo terminal, as RTU or ASCII. */
#ifndef LINE_H
#define LINE_H
#include "options.h"
#include "outbox.h"
#include "raw.h"
#include "station.h"
#include <poll.h>

enum { MOST_PIECES = 16 };

struct line {
    int fd; /* -1: lost; it is tried again */
    struct port port;
    const char *device, *mode;
    size_t baud;
    int rs485;
    uint8_t in[512]; /* what came; on ASCII one more than the longest frame, on RTU what the collector took */
    size_t have;
    uint8_t collector[DALONJANG_COLLECTOR]; /* RTU: the library's own */
    int64_t pause, silence; /* in milliseconds: RTU, what ends a frame that is whole, and any; ASCII, what drops one */
    int paused;             /* RTU: the pause is over, and what came is not a whole frame */
    size_t piece[MOST_PIECES], pieces; /* RTU: where in `in` bytes stand that came after a pause */
    int64_t since;          /* when the last byte came or went, or the line was lost or tried */
    struct outbox out;
    struct raw raw; /* RTU, for the raw log */
};

/* Answers 0 after a line on standard error. */
int line_open(struct line *l, const struct station *s, const struct options *o, size_t which);
struct pollfd line_wants(const struct line *l);
int64_t line_due(const struct line *l);
void line_hear(struct line *l, short events, struct station *s, int64_t now);
void line_answer(struct line *l, struct station *s, int64_t now);
#endif
