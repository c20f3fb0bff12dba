#include "station.h"
#include "basics.h"

int station_open(struct station *s, const struct options *o) { return tables_make(s->table, o->cells); }

struct port station_port(const struct station *s, const struct options *o, uint8_t transport, const char *device) {
    static const char *const names[] = {[DALONJANG_RTU] = "rtu", [DALONJANG_ASCII] = "ascii", [DALONJANG_TCP] = "tcp"};
    const struct table *coils = &s->table[COILS], *discretes = &s->table[DISCRETES];
    const struct table *holdings = &s->table[HOLDINGS], *inputs = &s->table[INPUTS];
    struct port p = {.unit = {
        .setup = {.transport = transport, .unit = (uint8_t)o->unit, .hex = o->hex, .coil_cells = coils->cells,
                  .discrete_cells = discretes->cells, .holding_cells = holdings->cells, .input_cells = inputs->cells},
        .list = o->list, .list_len = o->list_len,
        .coils = coils->bytes, .coils_len = coils->len,
        .discretes = discretes->bytes, .discretes_len = discretes->len,
        .holdings = holdings->bytes, .holdings_len = holdings->len,
        .inputs = inputs->bytes, .inputs_len = inputs->len}};
    snprintf(p.name, sizeof p.name, "%s%s%s", names[transport], device != NULL ? " " : "", device != NULL ? device : "");
    return p;
}

/* Some clients ask unit 0 or 255 over TCP unless they are told otherwise, and would wait in vain. */
static void hint(struct station *s, const struct port *p, const char *from, uint8_t asked) {
    if ((asked != 0 && asked != 255) || s->hinted[asked]) return;
    s->hinted[asked] = 1;
    complain("%s asks unit %u and gets no reply: ours is %u (--unit %u%s would serve it)", from, asked,
        p->unit.setup.unit, asked, memchr(p->unit.list, asked, p->unit.list_len) ? " --broadcast none" : "");
}

/* Nor would a tester that sends a-f know why it gets no reply. */
static void hint_lower_case(struct station *s, const struct port *p, const char *from, const uint8_t *text, size_t len) {
    uint8_t body[255];
    if (s->hinted_lower_case || p->unit.setup.hex != DALONJANG_STRICT) return;
    if (dalonjang_parse_ascii_frame(text, len, len, body, sizeof body, 0, DALONJANG_STRICT).kind == 0) return;
    if (dalonjang_parse_ascii_frame(text, len, len, body, sizeof body, 0, DALONJANG_LENIENT).kind != 0) return;
    s->hinted_lower_case = 1;
    complain("%s sends digits in lower case and gets no reply (--hex lenient would serve it)", from);
}

static void widen(struct part *part, size_t from, size_t to) {
    if (part->to == 0 || from < part->from) part->from = from;
    if (to > part->to) part->to = to;
}

/* What a frame leaves behind besides its reply: counts, cells to be saved, a hint, a line in the log. */
static struct dalonjang_result noted(struct station *s, const struct port *p, const char *from, const uint8_t *frame,
    size_t len, uint8_t *reply, struct dalonjang_result r) {
    uint8_t transport = p->unit.setup.transport;
    size_t first = r.first, end = first + r.count;
    if (transport == DALONJANG_TCP && (r.outcome == DALONJANG_FOREIGN || r.outcome == DALONJANG_BROADCAST_IGNORED))
        hint(s, p, from, frame[6]); /* the unit, behind the header */
    if (transport == DALONJANG_ASCII && r.outcome == DALONJANG_FRAME_BROKEN) hint_lower_case(s, p, from, frame, len);
    s->served[r.outcome]++;
    if (r.table == DALONJANG_COILS) widen(&s->unsaved[COILS], first / 8, (end + 7) / 8);
    if (r.table == DALONJANG_HOLDINGS) widen(&s->unsaved[HOLDINGS], 2 * first, 2 * end);
    log_frame(s->log, from, frame, len, r, reply);
    return r;
}

struct dalonjang_result station_serve(struct station *s, const struct port *p, const char *from, const uint8_t *frame,
    size_t len, uint8_t *reply, size_t room) {
    return noted(s, p, from, frame, len, reply, dalonjang_serve(&p->unit, frame, len, reply, room));
}

struct dalonjang_result station_quiet(struct station *s, const struct port *p, uint8_t *collector, const uint8_t *frame,
    size_t len, uint8_t *reply, size_t room) {
    struct dalonjang_result r = dalonjang_serve_quiet(&p->unit, collector, DALONJANG_COLLECTOR, reply, room);
    return r.outcome == DALONJANG_NOTHING_HELD ? r : noted(s, p, p->name, frame, len, reply, r);
}

int station_keep(struct station *s) {
    if (s->image.db != NULL && !image_keep(&s->image, s->table, s->unsaved)) return 0;
    memset(s->unsaved, 0, sizeof s->unsaved);
    return 1;
}
