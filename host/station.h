/* What is served: four tables, and over them the unit of each port. Every frame of every line and client comes here, and
 * here alone the library serves. */
#ifndef STATION_H
#define STATION_H
#include "image.h"
#include "log.h"
#include "options.h"
#include "port.h"
#include "tables.h"

struct station {
    struct table table[TABLES];
    struct voice *log;  /* or NULL */
    struct image image; /* whose database is NULL where there is none */
    struct part unsaved[TABLES]; /* what was written since the image was saved */
    int hinted[256]; /* of these unit numbers it was said that nobody answers them */
    int hinted_lower_case;
    unsigned long served[OUTCOMES];
};

/* Tables of zeros. Answers 0 where there is no memory. */
int station_open(struct station *s, const struct options *o);

/* A port over these tables; `o` must stay, since it has the list. The device is a serial line's; TCP has none. */
struct port station_port(const struct station *s, const struct options *o, uint8_t transport, const char *device);

/* A frame that came by this port, from a client or the line. The reply stands in the first `length` bytes of `reply`. */
struct dalonjang_result station_serve(struct station *s, const struct port *p, const char *from, const uint8_t *frame,
    size_t len, uint8_t *reply, size_t room);

/* The same of an RTU line that is quiet: its collector, to which the bytes of this frame were offered, and no others. */
struct dalonjang_result station_quiet(struct station *s, const struct port *p, uint8_t *collector, const uint8_t *frame,
    size_t len, uint8_t *reply, size_t room);

/* To be called before replies go out, so that whatever a client was told is in the image. Answers 0 where it cannot be
 * saved. */
int station_keep(struct station *s);
#endif
