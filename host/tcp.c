#include "tcp.h"
#include "basics.h"
#include <fcntl.h>
#include <netdb.h>
#include <netinet/in.h>
#include <netinet/tcp.h>
#include <sys/socket.h>

enum { GRACE = 1000 }; /* milliseconds for which a client that asked keeps its place */
static const int on = 1, send_room = 16384; /* replies that a client may leave untaken, beside those in its outbox */

/* --- listening ---------------------------------------------------------------------------------------------------- */

/* An address as people write it, with its port; that of IPv6 has brackets. */
static void name_of(const struct sockaddr *from, socklen_t len, char *name, size_t room) {
    char host[HOST_NAME] = "", port[8] = "";
    getnameinfo(from, len, host, sizeof host, port, sizeof port, NI_NUMERICHOST | NI_NUMERICSERV);
    snprintf(name, room, from->sa_family == AF_INET6 ? "[%s]:%s" : "%s:%s", host, port);
}

static int is_local(const struct sockaddr *at) {
    if (at->sa_family == AF_INET) return ntohl(((const struct sockaddr_in *)(const void *)at)->sin_addr.s_addr) >> 24 == 127;
    return IN6_IS_ADDR_LOOPBACK(&((const struct sockaddr_in6 *)(const void *)at)->sin6_addr);
}

/* One of the addresses that a name stands for; of several, each has its own kind alone. */
static int listen_on(struct tcp *t, const struct addrinfo *a, int several, struct options *o) {
    struct listener *l = &t->listener[t->listeners];
    struct sockaddr_storage here;
    socklen_t len = a->ai_addrlen;
    memcpy(&here, a->ai_addr, len);
    if (a->ai_family == AF_INET6) ((struct sockaddr_in6 *)(void *)&here)->sin6_port = htons((uint16_t)o->port);
    else ((struct sockaddr_in *)(void *)&here)->sin_port = htons((uint16_t)o->port);
    l->fd = socket(a->ai_family, SOCK_STREAM | SOCK_CLOEXEC | SOCK_NONBLOCK, 0);
    if (l->fd < 0 || setsockopt(l->fd, SOL_SOCKET, SO_REUSEADDR, &on, sizeof on) != 0
        || (a->ai_family == AF_INET6 && setsockopt(l->fd, IPPROTO_IPV6, IPV6_V6ONLY, &several, sizeof several) != 0)
        || bind(l->fd, (struct sockaddr *)&here, len) != 0 || listen(l->fd, 64) != 0
        || getsockname(l->fd, (struct sockaddr *)&here, &len) != 0) {
        int why = errno;
        if (l->fd >= 0) close(l->fd);
        errno = why;
        return 0;
    }
    t->listeners++;
    name_of((struct sockaddr *)&here, len, l->name, sizeof l->name);
    o->port = ntohs(a->ai_family == AF_INET6 ? ((struct sockaddr_in6 *)(void *)&here)->sin6_port
                                             : ((struct sockaddr_in *)(void *)&here)->sin_port);
    t->for_all |= !is_local((struct sockaddr *)&here);
    return 1;
}

static int listen_on_all(struct tcp *t, struct options *o) {
    const struct addrinfo wanted = {.ai_socktype = SOCK_STREAM};
    struct addrinfo *found = NULL;
    int wrong = getaddrinfo(o->address, NULL, &wanted, &found), fine = 1;
    if (wrong != 0) {
        complain("cannot listen on %s: %s", o->address, gai_strerror(wrong));
        return 0;
    }
    for (const struct addrinfo *a = found; fine && a != NULL && t->listeners < MOST_LISTENERS; a = a->ai_next)
        fine = listen_on(t, a, found->ai_next != NULL, o) || errno == EAFNOSUPPORT || errno == EADDRNOTAVAIL;
    fine = fine && t->listeners > 0; /* a machine without IPv6 may have names for it */
    if (!fine) complain("cannot listen on %s port %zu: %s", o->address, o->port, strerror(errno));
    freeaddrinfo(found);
    return fine;
}

int tcp_open(struct tcp *t, const struct station *s, struct options *o) {
    *t = (struct tcp){.port = station_port(s, o, DALONJANG_TCP, NULL),
        .idle = o->idle == 0 ? NEVER : (int64_t)o->idle * 1000, .patience = (int64_t)o->patience * 1000};
    if (o->no_tcp) return 1;
    t->client = calloc(o->clients, sizeof *t->client);
    t->places = t->client == NULL ? 0 : o->clients;
    for (size_t i = 0; i < t->places; i++) t->client[i].fd = -1;
    return t->places > 0 && listen_on_all(t, o);
}

/* --- one client --------------------------------------------------------------------------------------------------- */

/* It asked something, or came. */
static void note(struct tcp *t, struct client *c, int64_t now) {
    c->since = c->asked = now;
    c->turn = ++t->turns;
}

static void dismiss(struct client *c, struct station *s, const char *why) {
    log_event(s->log, c->name, why);
    close(c->fd);
    c->fd = -1;
}

/* Of the frame at the head of `in`, whose header is there: how many bytes follow; and whether none has so many. */
static size_t length_field(const struct client *c) { return (size_t)c->in[4] << 8 | c->in[5]; }
static int is_lost(size_t field) { return field < LENGTH_LEAST || field > LENGTH_MOST; }

/* Whether something can be given to the driver now, and there is room for its reply. */
static int is_ready(const struct client *c) {
    if (c->deaf || c->have < HEADER || outbox_room(&c->out) < DALONJANG_REPLY_ROOM) return 0;
    return c->have >= HEADER + length_field(c) || is_lost(length_field(c));
}

/* The next frame, of which the driver decides alone. The TCP guide has a frame of another protocol "simply discarded";
 * the driver calls it FrameBroken, gives no reply, and the client goes on, since the length tells where the next
 * frame begins. But a length that no Modbus frame has tells nothing: whatever it was meant to be, the place of the next
 * frame is lost. Then what is held goes to the driver, which calls it FrameBroken, and the client is let go after the
 * replies that are due to it. */
static void serve_next(struct tcp *t, struct client *c, struct station *s, int64_t now) {
    c->deaf = is_lost(length_field(c));
    size_t len = c->deaf ? c->have : HEADER + length_field(c);
    struct dalonjang_result r =
        station_serve(s, &t->port, c->name, c->in, len, outbox_end(&c->out), outbox_room(&c->out));
    c->out.left += r.length;
    c->have -= len;
    memmove(c->in, c->in + len, c->have);
    c->since = now;
    if (r.outcome == DALONJANG_FRAME_BROKEN) return; /* noise keeps no place */
    c->has_asked = 1;
    note(t, c, now);
}

static void receive(struct client *c, struct station *s, int64_t now) {
    size_t had = c->have;
    ssize_t got = recv(c->fd, c->in + c->have, sizeof c->in - c->have, 0);
    if (got < 0 && (errno == EAGAIN || errno == EINTR)) return;
    if (got < 0) {
        dismiss(c, s, "lost");
        return;
    }
    c->ended = got == 0;
    c->have = c->deaf ? 0 : c->have + (size_t)got;
    if (had == 0 && c->have > 0) c->since = now;
}

static int64_t due(const struct tcp *t, const struct client *c) {
    if (c->have > 0 || c->out.left > 0 || c->deaf) return c->since + t->patience;
    return t->idle == NEVER ? NEVER : c->since + t->idle;
}

static const char *reproach(const struct client *c) {
    if (c->deaf) return "closed, since its stream was no Modbus";
    if (c->out.left > 0) return "closed, since it does not take its replies";
    return c->have > 0 ? "closed, since its frame did not come to an end" : "closed, since it was silent too long";
}

/* Sends what is due, and lets it go where it has ended or must. A client whose stream broke hears first that no more
 * will come and has a while to take its replies: closed at once, with bytes unread, it would lose them. */
static void answer(struct tcp *t, struct client *c, struct station *s, int64_t now) {
    ssize_t sent = outbox_send(&c->out, c->fd);
    if (sent > 0) c->since = now;
    if (sent < 0) dismiss(c, s, "lost");
    else if (now >= due(t, c)) dismiss(c, s, reproach(c));
    else if (c->ended && c->out.left == 0 && !is_ready(c)) dismiss(c, s, "gone");
    else if (c->deaf == 1 && c->out.left == 0) {
        shutdown(c->fd, SHUT_WR);
        c->deaf = 2; /* told */
    }
}

/* --- all of them -------------------------------------------------------------------------------------------------- */

/* Who gives way first: one that never asked anything before one that did, then the longer silent, as the TCP guide has
 * it. So whoever connects and says nothing takes the place of another such. */
static int gives_way(const struct client *c, const struct client *other) {
    return c->has_asked != other->has_asked ? !c->has_asked : c->turn < other->turn;
}

/* The place for a new client, or NULL where it has to wait: nobody gives way within a second after it asked. */
static struct client *place(const struct tcp *t, int64_t now) {
    struct client *first = NULL;
    for (size_t i = 0; i < t->places; i++) {
        struct client *c = &t->client[i];
        if (c->fd < 0) return c;
        if (first == NULL || gives_way(c, first)) first = c;
    }
    return first != NULL && first->has_asked && now < first->asked + GRACE ? NULL : first;
}

/* Whoever waits for a place hears nothing meanwhile: the user is told, once until a client comes in again. */
static void tell_who_waits(struct tcp *t, int64_t now) {
    if (t->told || now < t->look || place(t, now) != NULL) return;
    t->look = now + GRACE;
    for (size_t i = 0; i < t->listeners && !t->told; i++) {
        struct pollfd waiting = {t->listener[i].fd, POLLIN, 0};
        t->told = poll(&waiting, 1, 0) > 0;
    }
    if (t->told) complain("a client waits, since all %zu places are taken by clients that ask (--clients)", t->places);
}

static int welcome(struct tcp *t, int listener, struct station *s, int64_t now) {
    struct sockaddr_storage from;
    socklen_t len = sizeof from;
    struct client *c = place(t, now);
    int fd = c == NULL ? -1 : accept(listener, (struct sockaddr *)&from, &len);
    if (fd < 0) return 0;
    if (c->fd >= 0) dismiss(c, s, "closed, since another came and all places were taken");
    memset(c, 0, sizeof *c);
    c->fd = fd;
    t->told = 0;
    note(t, c, now);
    memcpy(c->name, "tcp ", 4);
    name_of((struct sockaddr *)&from, len, c->name + 4, sizeof c->name - 4);
    log_event(s->log, c->name, "came");
    setsockopt(fd, IPPROTO_TCP, TCP_NODELAY, &on, sizeof on);
    setsockopt(fd, SOL_SOCKET, SO_KEEPALIVE, &on, sizeof on);
    setsockopt(fd, SOL_SOCKET, SO_SNDBUF, &send_room, sizeof send_room);
    if (fcntl(fd, F_SETFL, O_NONBLOCK) != 0 || fcntl(fd, F_SETFD, FD_CLOEXEC) != 0) dismiss(c, s, "lost");
    return 1;
}

size_t tcp_wants(const struct tcp *t, struct pollfd *fds, int64_t now) {
    short room = place(t, now) == NULL ? 0 : POLLIN;
    for (size_t i = 0; i < t->listeners; i++) *fds++ = (struct pollfd){t->listener[i].fd, room, 0};
    for (size_t i = 0; i < t->places; i++) {
        const struct client *c = &t->client[i];
        int reads = !c->ended && c->have < sizeof c->in, writes = c->out.left > 0 || is_ready(c);
        fds[i] = (struct pollfd){c->fd, (short)((reads ? POLLIN : 0) | (writes ? POLLOUT : 0)), 0};
    }
    return t->listeners + t->places;
}

/* Where a new client would have to wait, also when the first place can be had. */
int64_t tcp_due(const struct tcp *t, int64_t now) {
    int64_t first = NEVER;
    int full = t->places > 0 && place(t, now) == NULL;
    for (size_t i = 0; i < t->places; i++) {
        const struct client *c = &t->client[i];
        if (c->fd >= 0) first = earlier(first, due(t, c));
        if (full) first = earlier(first, c->asked + GRACE);
    }
    return first;
}

void tcp_hear(struct tcp *t, const struct pollfd *fds, struct station *s, int64_t now) {
    fds += t->listeners;
    for (size_t i = 0; i < t->places; i++) {
        struct client *c = &t->client[i];
        short events = fds[i].revents;
        if (c->fd < 0) continue;
        if (events & POLLERR) dismiss(c, s, "lost");
        else if (events & (POLLIN | POLLHUP) && !c->ended && c->have < sizeof c->in) receive(c, s, now);
        while (c->fd >= 0 && is_ready(c)) serve_next(t, c, s, now);
    }
}

void tcp_answer(struct tcp *t, struct station *s, int64_t now) {
    for (size_t i = 0; i < t->places; i++)
        if (t->client[i].fd >= 0) answer(t, &t->client[i], s, now);
}

/* One in a round, so that it is heard before another can take its place; the listeners by turns. */
void tcp_welcome(struct tcp *t, const struct pollfd *fds, struct station *s, int64_t now) {
    if (t->places > 0) tell_who_waits(t, now);
    for (size_t n = 0; n < t->listeners; n++) {
        size_t i = (t->turns + n) % t->listeners;
        if (fds[i].revents & POLLIN && welcome(t, t->listener[i].fd, s, now)) return;
    }
}

void tcp_close(struct tcp *t) {
    for (size_t i = 0; i < t->places; i++)
        if (t->client[i].fd >= 0) close(t->client[i].fd);
    for (size_t i = 0; i < t->listeners; i++) close(t->listener[i].fd);
    free(t->client);
}
