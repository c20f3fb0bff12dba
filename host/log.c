#include "log.h"
#include "basics.h"
#include "tables.h"

const char *const outcome_name[OUTCOMES] = {"Answered", "BroadcastDone", "Exception", "BroadcastIgnored", "Foreign",
    "FrameBroken", "FrameCheck", "WrongLength", "BadFunction", "NoRoom", "BadSetup"};

/* A line that grows; it has room for the longest frame and the longest reply in hex. */
struct text {
    char bytes[3072];
    size_t len;
};

#define put(t, ...) ((t)->len += (size_t)snprintf((t)->bytes + (t)->len, sizeof (t)->bytes - (t)->len, __VA_ARGS__))

static void put_head(struct text *t, const char *from) {
    struct timespec now;
    struct tm day;
    clock_gettime(CLOCK_REALTIME, &now);
    gmtime_r(&now.tv_sec, &day);
    t->len = strftime(t->bytes, sizeof t->bytes, "%Y-%m-%dT%H:%M:%S", &day);
    put(t, ".%03ldZ %s: ", now.tv_nsec / 1000000, from);
}

/* No more than a frame or a reply may have: a stream that broke is held by the kilobyte. */
static void put_hex(struct text *t, const uint8_t *bytes, size_t len) {
    size_t shown = len < 512 ? len : 512;
    for (size_t i = 0; i < shown; i++) put(t, "%02X", bytes[i]);
    if (shown < len) put(t, "..");
}

void log_event(struct voice *log, const char *from, const char *what) {
    struct text t;
    if (log == NULL) return;
    put_head(&t, from);
    put(&t, "%s", what);
    voice_line(log, "%s", t.bytes);
}

void log_frame(struct voice *log, const char *from, const uint8_t *frame, size_t len, struct dalonjang_result result,
    const uint8_t *reply) {
    const char *written = table_name[result.table == DALONJANG_COILS ? COILS : HOLDINGS];
    struct text t;
    if (log == NULL) return;
    put_head(&t, from);
    put_hex(&t, frame, len);
    put(&t, " %s", outcome_name[result.outcome]);
    if (result.code != 0) put(&t, " %u", result.code);
    if (result.count > 0) put(&t, ", wrote %s %u", written, result.first);
    if (result.count > 1) put(&t, " to %u", result.first + result.count - 1u);
    if (result.length > 0) {
        put(&t, ", reply ");
        put_hex(&t, reply, result.length);
    }
    voice_line(log, "%s", t.bytes);
}
