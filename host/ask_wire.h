/* The way to the unit: a TCP connection or a serial line. Which bytes go over it, and what those that come mean, it does
 * not know. */
#ifndef ASK_WIRE_H
#define ASK_WIRE_H
#include "ask_options.h"

enum { WIRE_ROOM = 512 }; /* one more than the longest frame has */

struct wire {
    int fd;
    uint8_t transport;
    int64_t until, silence;  /* when the reply must be there; what ends an RTU reply, both in milliseconds */
    uint8_t in[WIRE_ROOM];
    size_t have;
    int closed;              /* the other side sends no more */
};

/* Answers 0 after a line on standard error. */
int wire_open(struct wire *l, const struct wanted *w);
int wire_send(struct wire *l, const uint8_t *bytes, size_t len);
/* Waits for what is more of the reply, or for its end: 1 more came, 0 nothing more comes. */
int wire_hear(struct wire *l);
/* Whether it is known where the reply ends, and it is there. An RTU reply has no such mark. */
int wire_is_whole(const struct wire *l);
/* After a broadcast, which nobody answers: the units on a serial line get time to do it before the next request. */
void wire_turn_around(struct wire *l);
/* Whatever was sent goes out before the way is closed. */
void wire_close(struct wire *l);
#endif
