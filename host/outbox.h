/* Replies on their way to a client or a line, which takes them when it can. */
#ifndef OUTBOX_H
#define OUTBOX_H
#include <errno.h>
#include <stdint.h>
#include <string.h>
#include <unistd.h>

struct outbox {
    uint8_t bytes[4096];
    size_t left;
};

static inline uint8_t *outbox_end(struct outbox *o) { return o->bytes + o->left; }
static inline size_t outbox_room(const struct outbox *o) { return sizeof o->bytes - o->left; }

/* Sends what the other side takes now. Answers how many bytes that were, or -1 where it takes no more at all. */
static inline ssize_t outbox_send(struct outbox *o, int fd) {
    ssize_t sent = o->left == 0 ? 0 : write(fd, o->bytes, o->left);
    if (sent < 0) return errno == EAGAIN || errno == EINTR ? 0 : -1;
    o->left -= (size_t)sent;
    memmove(o->bytes, o->bytes + sent, o->left);
    return sent;
}
#endif
