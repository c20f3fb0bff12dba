#include "line.h"
#include "basics.h"
#include "serial.h"

enum {
    RTU_LEAST = 4, RTU_MOST = 256,
    ASCII_SILENCE = 1000, /* SER 2.5.2.1: up to a second may pass between two characters */
    PATIENCE = 1000,      /* how long a line may take to send anything of a reply */
    RETRY = 500,          /* after which a lost line is tried again */
    CHUNK = 64            /* no more is read at once: the ASCII frames that end in it have room for their replies */
};

/* --- opening ------------------------------------------------------------------------------------------------------ */

/* Answers what is wrong, or NULL. */
static const char *start(struct line *l) {
    const char *wrong;
    l->fd = serial_open(l->device, l->baud, l->mode, l->rs485, &wrong);
    return wrong;
}

static int is_rtu(const struct line *l) { return l->port.unit.setup.transport == DALONJANG_RTU; }

int line_open(struct line *l, const struct station *s, const struct options *o, size_t which) {
    memset(l, 0, sizeof *l);
    l->device = o->line[which].device;
    l->port = station_port(s, o, o->line[which].transport, l->device);
    int rtu = is_rtu(l);
    l->mode = o->mode != NULL ? o->mode : serial_mode(o->line[which].transport);
    l->baud = o->baud;
    l->rs485 = o->rs485;
    l->pause = !rtu ? ASCII_SILENCE : o->silence > 0 ? (int64_t)o->silence : serial_characters(o->baud);
    l->silence = !rtu || o->silence > 0 || l->pause > BURSTS ? l->pause : BURSTS;
    const char *wrong = start(l);
    if (wrong != NULL) complain("the serial line %s cannot be used: %s", l->device, wrong);
    return wrong == NULL;
}

/* An adapter that was pulled out comes back under its name. What had come and was to go is lost with the line. */
static void lose(struct line *l, struct station *s, int64_t now) {
    log_event(s->log, l->port.name, "lost");
    complain("the serial line %s is lost; it is tried again twice a second", l->port.name);
    raw_quiet(&l->raw, l->raw.len);
    close(l->fd);
    l->fd = -1;
    l->have = l->pieces = l->out.left = 0;
    memset(l->collector, 0, sizeof l->collector);
    l->paused = 0;
    l->since = now;
}

static void try_again(struct line *l, struct station *s, int64_t now) {
    l->since = now;
    if (start(l) != NULL) return;
    log_event(s->log, l->port.name, "back");
    complain("the serial line %s is back", l->port.name);
}

/* --- frames ------------------------------------------------------------------------------------------------------- */

/* ASCII: what is held is one frame. */
static void serve_ascii(struct line *l, struct station *s) {
    struct outbox *out = &l->out;
    out->left +=
        station_serve(s, &l->port, l->port.name, l->in, l->have, outbox_end(out), outbox_room(out)).length;
    l->have = 0;
}

/* RTU: the first `len` of the bytes that came are one frame, after which the line was quiet; the others are offered
 * anew. */
static void serve_rtu(struct line *l, size_t len, struct station *s) {
    struct outbox *out = &l->out;
    if (len < l->have) {
        memset(l->collector, 0, sizeof l->collector);
        dalonjang_offer(l->collector, sizeof l->collector, l->in, len);
    }
    raw_quiet(&l->raw, len == l->have ? l->raw.len : len); /* of an overlong frame not all is held */
    uint8_t *reply = outbox_end(out);
    size_t replied = station_quiet(s, &l->port, l->collector, l->in, len, reply, outbox_room(out)).length;
    raw_reply(reply, replied);
    out->left += replied;
    l->have -= len;
    memmove(l->in, l->in + len, l->have);
    dalonjang_offer(l->collector, sizeof l->collector, l->in, l->have);
    size_t gone = 0;
    while (gone < l->pieces && l->piece[gone] <= len) gone++;
    l->pieces -= gone;
    for (size_t i = 0; i < l->pieces; i++) l->piece[i] = l->piece[gone + i] - len;
}

/* RTU: every byte up to the silence is one frame, which the library collects; what came after a pause is remembered as a
 * piece. Where the pieces are too long together, the first was a frame by itself. */
static void collect_rtu(struct line *l, const uint8_t *bytes, size_t len, struct station *s) {
    if (l->paused && l->pieces == MOST_PIECES) serve_rtu(l, l->piece[0], s);
    if (l->paused) l->piece[l->pieces++] = l->have;
    l->paused = 0;
    while (l->pieces > 0 && l->have + len > RTU_MOST) serve_rtu(l, l->piece[0], s);
    raw_hear(&l->raw, bytes, len);
    size_t held = dalonjang_offer(l->collector, sizeof l->collector, bytes, len).value;
    memcpy(l->in + l->have, bytes, held - l->have);
    l->have = held;
}

/* Whether these bytes end with the CRC of those before, low byte first (SER 2.5.1). */
static int is_whole(const uint8_t *bytes, size_t len) {
    if (len < RTU_LEAST || len > RTU_MOST) return 0;
    uint16_t crc = dalonjang_calc_crc16(bytes, len, (uint8_t)(len - 2));
    return bytes[len - 2] == (crc & 0xFF) && bytes[len - 1] == crc >> 8;
}

/* RTU: after a pause a frame whose CRC is right is over, from the beginning or from the last pause before which other
 * bytes came, as the replies of other units do. With a wrong one more may come: the bursts of an adapter have pauses in
 * them that the line had not. After the silence all is one frame. */
static void end_rtu(struct line *l, struct station *s, int over) {
    size_t from = 0;
    l->paused = 1;
    for (size_t i = 0; !is_whole(l->in + from, l->have - from); i++) {
        if (i == l->pieces) {
            if (over) serve_rtu(l, l->have, s);
            l->paused = !over;
            return;
        }
        from = l->piece[i];
    }
    if (from > 0) serve_rtu(l, from, s);
    serve_rtu(l, l->have, s);
    l->paused = 0;
}

/* ASCII: a colon begins a frame, whatever came before, and LF ends it (SER 2.5.2.1). What stands outside of frames is
 * skipped. The last byte of the room makes a frame FrameBroken; from there on only its end is looked for. */
static void collect_ascii(struct line *l, const uint8_t *bytes, size_t len, struct station *s) {
    for (size_t i = 0; i < len; i++) {
        if (bytes[i] == ':') l->have = 0;
        else if (l->have == 0) continue;
        if (l->have < sizeof l->in) l->in[l->have++] = bytes[i];
        if (bytes[i] == '\n') serve_ascii(l, s);
    }
}

struct pollfd line_wants(const struct line *l) {
    return (struct pollfd){l->fd, l->out.left > 0 ? POLLOUT : POLLIN, 0}; /* a frame waits for the reply before it */
}

int64_t line_due(const struct line *l) {
    if (l->fd < 0) return l->since + RETRY;
    if (l->out.left > 0) return l->since + PATIENCE;
    return l->have == 0 ? NEVER : l->since + (l->paused ? l->silence : l->pause);
}

/* The line is quiet when the time is over and still nothing can be read: bytes that came while the host was busy
 * elsewhere do not count as silence. */
void line_hear(struct line *l, short events, struct station *s, int64_t now) {
    uint8_t bytes[CHUNK];
    int over = l->have > 0 && now >= line_due(l);
    if (l->fd < 0 && now >= line_due(l)) try_again(l, s, now);
    if (l->fd < 0 || l->out.left > 0 || (!over && !(events & (POLLIN | POLLHUP | POLLERR)))) return;
    ssize_t got = read(l->fd, bytes, sizeof bytes);
    if (got > 0) {
        if (is_rtu(l)) collect_rtu(l, bytes, (size_t)got, s);
        else collect_ascii(l, bytes, (size_t)got, s);
        l->since = clock_ms();
    } else if (got == 0 || (errno != EAGAIN && errno != EINTR)) {
        lose(l, s, now);
    } else if (over && is_rtu(l)) {
        end_rtu(l, s, now >= l->since + l->silence);
    } else if (over) {
        log_event(s->log, l->port.name, "a frame that did not go on was dropped");
        l->have = 0;
    }
}

/* A reply that the line does not take is dropped: whoever asked has given up. */
void line_answer(struct line *l, struct station *s, int64_t now) {
    size_t left = l->out.left;
    if (l->fd < 0 || left == 0) return;
    ssize_t sent = outbox_send(&l->out, l->fd);
    if (sent > 0) l->since = now;
    if (sent < 0) lose(l, s, now);
    else if (l->out.left == left && now >= line_due(l)) {
        log_event(s->log, l->port.name, "a reply that was not taken was dropped");
        l->out.left = 0;
    }
}
