/* ask: asks a Modbus unit from the command line. Sockets and serial lines are this tool's; every byte of Modbus that goes
 * over them is built, and every byte that comes is judged, by the proved library. */
#include "ask_options.h"
#include "ask_wire.h"
#include "basics.h"

#define tell(...) (fprintf(stderr, "ask: " __VA_ARGS__), fputc('\n', stderr), 1)

/* APP 7. */
static const char *exception_name(uint8_t code) {
    static const char *const name[] = {[1] = "illegal function", [2] = "illegal data address",
        [3] = "illegal data value", [4] = "server device failure", [5] = "acknowledge", [6] = "server device busy",
        [8] = "memory parity error", [10] = "gateway path unavailable", [11] = "gateway target failed to respond"};
    return code < sizeof name / sizeof name[0] && name[code] != NULL ? name[code] : "a code of the unit's own";
}

static const char *refusal(uint8_t kind) {
    switch (kind) {
    case DALONJANG_FRAME_BROKEN: return "FrameBroken (5): what came is no frame";
    case DALONJANG_FRAME_CHECK: return "FrameCheck (6): the reply's CRC or LRC is wrong";
    case DALONJANG_NO_ROOM: return "NoRoom (9): there is no room for it";
    case DALONJANG_BAD_REQUEST:
        return "BadRequest (11): that cannot be asked; 1 to 2000 coils or discretes and 1 to 125 registers are read, 1 "
               "to 1968 coils of 0 or 1 and 1 to 123 registers, or 121 in an exchange, are written, up to cell 65535";
    default: return "NotMyReply (12): what came is no reply to this request";
    }
}

static void show(const char *what, const uint8_t *bytes, size_t len) {
    fprintf(stderr, "ask: %s", what);
    for (size_t i = 0; i < len; i++) fprintf(stderr, " %02X", bytes[i]);
    fputc('\n', stderr);
}

static struct dalonjang_answer build(const struct wanted *w, uint8_t *frame, size_t room) {
    if (w->func == 22) return dalonjang_generate_mask(w->to, w->first, w->masks[0], w->masks[1], frame, room);
    if (w->func == 23)
        return dalonjang_generate_set_get(w->to, w->first, w->count, w->write_first, w->values, w->write_count, frame,
            room);
    if (w->writes)
        return dalonjang_generate_set(w->to, w->func, w->write_first, w->values, w->write_count, frame, room);
    return dalonjang_generate_get(w->to, w->func, w->first, w->count, frame, room);
}

static struct dalonjang_reading judge(const struct wanted *w, const uint8_t *frame, size_t len, const struct wire *l) {
    return dalonjang_parse_response(w->to.proto, frame, len, l->in, l->have, w->values, w->writes ? 0 : MOST_READ);
}

static int is_told(struct dalonjang_reading r) {
    return r.outcome == DALONJANG_ANSWERED || r.outcome == DALONJANG_EXCEPTION;
}

/* Hears until the reply's end is there; an RTU reply ends where the library takes it, or with silence. */
static struct dalonjang_reading hear(const struct wanted *w, const uint8_t *frame, size_t len, struct wire *l) {
    struct dalonjang_reading r = judge(w, frame, len, l);
    while (!wire_is_whole(l) && wire_hear(l)) {
        r = judge(w, frame, len, l);
        if (l->transport == DALONJANG_RTU && is_told(r)) break;
    }
    return r;
}

/* What the reply says, and the status that it gives. */
static int report(const struct wanted *w, const struct wire *l, struct dalonjang_reading r) {
    if (l->have == 0) {
        if (l->closed) return tell("the other side closed and sent no reply");
        return tell("no reply within %zu milliseconds: timeout", w->timeout);
    }
    if (!is_told(r) && l->transport != DALONJANG_RTU && !wire_is_whole(l))
        return tell("the reply did not come to an end%s", l->closed ? ": the other side closed" : " in time: timeout");
    if (r.outcome == DALONJANG_EXCEPTION)
        return tell("unit %u refused: exception %u, %s", w->to.unit_id, r.code, exception_name(r.code));
    if (r.outcome != DALONJANG_ANSWERED) return tell("%s", refusal(r.outcome));
    if (w->func == 22) printf("masked: holding %u by 0x%04X and 0x%04X\n", w->first, w->masks[0], w->masks[1]);
    if (w->write_count > 0) printf("written: %zu %s from %u on\n", w->write_count, w->table, w->write_first);
    for (size_t i = 0; i < r.count; i++) printf("%s %zu %u\n", w->table, w->first + i, w->values[i]);
    return 0;
}

static int exchange(const struct wanted *w) {
    uint8_t frame[511];
    struct wire wire;
    struct dalonjang_answer built = build(w, frame, sizeof frame);
    if (built.kind != DALONJANG_KIND_VALUE) return tell("%s", refusal(built.kind));
    if (!wire_open(&wire, w)) return 1;
    if (w->frames) show("sent", frame, built.value);
    int sent = wire_send(&wire, frame, built.value), status = !sent;
    if (sent && w->writes && w->to.unit_id == 0) {
        puts("sent to unit 0: a broadcast, to which no reply is expected");
        wire_turn_around(&wire);
    } else if (sent) {
        struct dalonjang_reading r = hear(w, frame, built.value, &wire);
        if (w->frames) show("came", wire.in, wire.have);
        status = report(w, &wire, r);
    }
    wire_close(&wire);
    return status;
}

int main(int argc, char **argv) {
    struct wanted wanted;
    int status = wanted_read(&wanted, argc, argv);
    if (status < 0) status = exchange(&wanted);
    free(wanted.values);
    if (fflush(stdout) == 0 && !ferror(stdout)) return status;
    return tell("standard output cannot be written: %s", strerror(errno));
}
