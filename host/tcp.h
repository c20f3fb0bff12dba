/* The TCP side: listeners and clients. A round of the host is: hear, keep the image, answer, welcome. */
#ifndef TCP_H
#define TCP_H
#include "options.h"
#include "outbox.h"
#include "station.h"
#include <poll.h>

enum {
    HEADER = 6,                          /* transaction, protocol, length */
    LENGTH_LEAST = 2, LENGTH_MOST = 254, /* of unit and request, by the TCP guide */
    FRAME_MOST = HEADER + LENGTH_MOST,
    MOST_LISTENERS = 8, /* a name may stand for several addresses */
    HOST_NAME = 64
};

struct client {
    int fd; /* -1: nobody in this place */
    char name[HOST_NAME + 16];
    uint8_t in[4 * FRAME_MOST];
    size_t have;
    struct outbox out;
    int deaf;      /* its stream cannot be followed any more: what comes is thrown away */
    int ended;     /* it sends no more */
    int has_asked; /* a frame came whole that was not broken */
    int64_t since; /* the last time that a frame was served, a reply was taken, or it began to send a frame */
    int64_t asked; /* the last time that it asked something, or came */
    uint64_t turn; /* which of all the clients' times that was: one millisecond may have several */
};

struct listener {
    int fd;
    char name[HOST_NAME + 16]; /* address and port */
};

struct tcp {
    struct port port;
    struct listener listener[MOST_LISTENERS];
    size_t listeners;
    int for_all;  /* others than this machine can come */
    struct client *client;
    size_t places;
    int64_t idle, patience; /* in milliseconds */
    uint64_t turns;         /* so far */
    int told;               /* that somebody waits for a place */
    int64_t look;           /* when to look whether somebody does */
};

/* Listens, and leaves the port in `o` where any was asked for. Answers 0 after a line on standard error. */
int tcp_open(struct tcp *t, const struct station *s, struct options *o);
/* Fills one pollfd for each listener and for each place. Answers how many. */
size_t tcp_wants(const struct tcp *t, struct pollfd *fds, int64_t now);
/* When something must happen although nothing comes. */
int64_t tcp_due(const struct tcp *t, int64_t now);
void tcp_hear(struct tcp *t, const struct pollfd *fds, struct station *s, int64_t now);
void tcp_answer(struct tcp *t, struct station *s, int64_t now);
/* New clients come last: whoever gives way to one has been heard, and was sent what was due to it. */
void tcp_welcome(struct tcp *t, const struct pollfd *fds, struct station *s, int64_t now);
void tcp_close(struct tcp *t);
#endif
