#include "ask_wire.h"
#include "basics.h"
#include "serial.h"
#include <fcntl.h>
#include <netdb.h>
#include <netinet/in.h>
#include <netinet/tcp.h>
#include <sys/socket.h>
#include <termios.h>
#include <unistd.h>

enum { TURNAROUND = 200 }; /* milliseconds; SER 2.4.1: typically 100 to 200 */

#define tell(...) (fprintf(stderr, "ask: " __VA_ARGS__), fputc('\n', stderr), 0)

/* --- opening ------------------------------------------------------------------------------------------------------ */

/* Waits for this, at the latest until then. Answers 0 where it did not come. */
static int ready(int fd, short events, int64_t until) {
    struct pollfd is = {fd, events, 0};
    for (;;) {
        int64_t left = until - clock_ms();
        int got = poll(&is, 1, left < 0 ? 0 : left > 60000 ? 60000 : (int)left);
        if (got > 0) return 1;
        if ((got == 0 && left <= 0) || (got < 0 && errno != EINTR)) return 0;
    }
}

/* One of the addresses that a name stands for. Answers -1, with errno, where nobody is there. */
static int connect_to(const struct addrinfo *a, int64_t until) {
    static const int on = 1;
    int why = 0, fd = socket(a->ai_family, SOCK_STREAM | SOCK_CLOEXEC | SOCK_NONBLOCK, 0);
    socklen_t len = sizeof why;
    if (fd < 0) return -1;
    if (connect(fd, a->ai_addr, a->ai_addrlen) != 0) why = errno;
    if (why == EINPROGRESS) {
        why = ETIMEDOUT;
        if (ready(fd, POLLOUT, until)) getsockopt(fd, SOL_SOCKET, SO_ERROR, &why, &len);
    }
    setsockopt(fd, IPPROTO_TCP, TCP_NODELAY, &on, sizeof on);
    if (why == 0) return fd;
    close(fd);
    errno = why;
    return -1;
}

static int open_tcp(struct wire *l, const struct wanted *w) {
    const struct addrinfo kind = {.ai_socktype = SOCK_STREAM};
    struct addrinfo *found = NULL;
    int wrong = getaddrinfo(w->host, w->port, &kind, &found);
    if (wrong != 0) return tell("%s: %s", w->host, gai_strerror(wrong));
    for (const struct addrinfo *a = found; a != NULL && l->fd < 0; a = a->ai_next) l->fd = connect_to(a, l->until);
    int why = errno;
    freeaddrinfo(found);
    return l->fd >= 0 || tell("%s port %s cannot be reached: %s", w->host, w->port, strerror(why));
}

int wire_open(struct wire *l, const struct wanted *w) {
    const char *wrong = NULL;
    int64_t characters = serial_characters(w->baud);
    *l = (struct wire){.fd = -1, .transport = w->to.proto, .until = clock_ms() + (int64_t)w->timeout};
    l->silence = w->silence > 0 ? (int64_t)w->silence : characters > BURSTS ? characters : BURSTS;
    if (w->device == NULL) return open_tcp(l, w);
    l->fd = serial_open(w->device, w->baud, w->mode, w->rs485, &wrong);
    return l->fd >= 0 || tell("the serial line %s cannot be used: %s", w->device, wrong);
}

/* --- sending and hearing ------------------------------------------------------------------------------------------- */

int wire_send(struct wire *l, const uint8_t *bytes, size_t len) {
    while (len > 0) {
        ssize_t sent = l->transport == DALONJANG_TCP ? send(l->fd, bytes, len, MSG_NOSIGNAL) : write(l->fd, bytes, len);
        if (sent > 0) bytes += sent, len -= (size_t)sent;
        else if (errno != EAGAIN && errno != EINTR) return tell("nothing can be sent: %s", strerror(errno));
        else if (!ready(l->fd, POLLOUT, l->until)) return tell("the request is not taken in time: timeout");
    }
    return 1;
}

/* TCP by the length in its header; a length that no frame has ends it at once. ASCII by its LF. */
int wire_is_whole(const struct wire *l) {
    if (l->transport == DALONJANG_ASCII) return l->have > 0 && (l->in[l->have - 1] == '\n' || l->have == WIRE_ROOM);
    if (l->transport == DALONJANG_RTU || l->have < 6) return 0;
    size_t len = 6 + ((size_t)l->in[4] << 8 | l->in[5]);
    return l->have >= len || len > WIRE_ROOM;
}

/* How much is taken at once: on TCP no byte beyond the frame, on ASCII one, so that the next line stays. */
static size_t wish(const struct wire *l) {
    if (l->transport == DALONJANG_ASCII) return 1;
    if (l->transport == DALONJANG_RTU) return WIRE_ROOM - l->have;
    return l->have < 6 ? 6 - l->have : 6 + ((size_t)l->in[4] << 8 | l->in[5]) - l->have;
}

int wire_hear(struct wire *l) {
    while (l->have < WIRE_ROOM && !l->closed) {
        int began = l->transport == DALONJANG_RTU && l->have > 0;
        if (!ready(l->fd, POLLIN, began ? earlier(l->until, clock_ms() + l->silence) : l->until)) return 0;
        ssize_t got = read(l->fd, l->in + l->have, wish(l));
        if (got < 0 && (errno == EAGAIN || errno == EINTR)) continue;
        l->closed = got <= 0;
        if (got <= 0) return 0;
        l->have += (size_t)got;
        if (l->transport != DALONJANG_ASCII) return 1;
        if (l->in[l->have - 1] == ':') l->in[0] = ':', l->have = 1; /* a colon begins a frame, whatever came before */
        if (l->in[0] != ':') l->have = 0;
        else return 1;
    }
    return 0;
}

void wire_turn_around(struct wire *l) {
    if (l->transport == DALONJANG_TCP) return;
    tcdrain(l->fd);
    poll(NULL, 0, TURNAROUND);
}

void wire_close(struct wire *l) {
    if (l->fd >= 0 && l->transport != DALONJANG_TCP) tcdrain(l->fd);
    if (l->fd >= 0) close(l->fd);
    l->fd = -1;
}
