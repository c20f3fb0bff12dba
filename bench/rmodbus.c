/* The crate rmodbus under measure; rmodbus.rs is its chain and its client behind these functions. */
#include "rows.h"

struct crate;
struct crate *crate_new(void);
size_t crate_serve(struct crate *crate, int transport, const uint8_t *frame, size_t len);
const uint8_t *crate_reply(const struct crate *crate);
uint16_t crate_crc(const uint8_t *bytes, size_t n);

static struct crate *server;

/* The crate's storage has its sizes at compile time; it answers a count of 0 otherwise than the Modbus document, takes no
 * TCP frame above 256 bytes and no text in small letters, and does not know functions 22 and 23. */
static int start(const struct row *row) {
    server = crate_new();
    if (row->function > 16 || row->how == SMALL) return 0;
    return row->kind == CRC || (row->cells == 10000 && row->count > 0 && (row->kind != TCP || request_of(row).len <= 256));
}

static const uint8_t *reply(void) { return crate_reply(server); }

static inline size_t serve(const struct row *row, const struct line *request) {
    return crate_serve(server, row->kind, request->bytes, request->len);
}

static uint16_t crc(const uint8_t *bytes, size_t n) { return crate_crc(bytes, n); }

#define ASKS
size_t crate_build(struct crate *crate, int transport, const uint16_t *values, size_t function, size_t start, size_t n);
size_t crate_hear(struct crate *crate, int transport, const uint8_t *frame, size_t len);
const uint8_t *crate_built(const struct crate *crate, int transport);
const uint16_t *crate_heard(const struct crate *crate);

static const uint8_t *built;
static const uint16_t *heard;
static uint16_t given[2000];

static void ready(const struct row *row) {
    for (size_t i = 0; i < row->count; i++) given[i] = value_of(row, i);
    built = crate_built(server, row->kind);
    heard = crate_heard(server);
}

static inline size_t build(const struct row *row) {
    return crate_build(server, row->kind, given, row->function, row->start, row->count);
}

static inline size_t hear(const struct row *row, const struct line *reply) {
    return crate_hear(server, row->kind, reply->bytes, reply->len);
}

#include "loop.h"
