#include "ask_options.h"
#include "basics.h"
#include "serial.h"

#define wrong(...) (fprintf(stderr, "ask: " __VA_ARGS__), fputc('\n', stderr), 2)

static const char usage[] =
    "Usage: ask [OPTION].. read coils|discretes|holdings|inputs FIRST COUNT\n"
    "       ask [OPTION].. write coil|coils|holding|holdings FIRST VALUE..\n"
    "       ask [OPTION].. mask HOLDING AND OR\n"
    "       ask [OPTION].. exchange READ_FIRST COUNT WRITE_FIRST VALUE..\n"
    "Asks a Modbus unit and shows what it says, a line for each value: the table, the cell, the value.\n"
    "\n"
    "  --tcp        HOST:PORT over TCP; a name, an IPv4 address or an IPv6 address in brackets (127.0.0.1:1502; a HOST\n"
    "                        alone has port 502)\n"
    "  --rtu        DEVICE   over this serial line or pseudo terminal as RTU\n"
    "  --ascii      DEVICE   the same as ASCII\n"
    "  --baud       SPEED    speed of the serial line, 1200 to 4000000 as the system has them (19200)\n"
    "  --mode       MODE     data bits, parity, stop bits (8E1 for RTU, 7E1 for ASCII)\n"
    "  --rs485               let the serial driver switch the direction of an RS-485 line, where it can\n"
    "  --silence    NUMBER   milliseconds of silence after which what came is an RTU reply, right or wrong (50, or\n"
    "                        3.5 characters where they take longer)\n"
    "  --unit       NUMBER   the unit that is asked (1); to 0, a broadcast, a write gets no reply\n"
    "  --transaction NUMBER  the transaction number, on TCP (1)\n"
    "  --timeout    NUMBER   milliseconds that the reply may take (1000)\n"
    "  --many                one value too is written by functions 15 and 16, which write many\n"
    "  --frames              show the frames on standard error as they went and came\n"
    "  --version             which version this is\n"
    "  --help                this text\n"
    "\n"
    "Numbers are decimal or, after 0x, hex. Cells count from 0. A coil's value is 0 or 1.\n"
    "A mask keeps the bits of a holding where AND has a one, and makes the others OR's (function 22). An exchange writes\n"
    "holdings and then reads COUNT of them, in one request (function 23).\n"
    "Status: 0 the unit answered, 1 it refused, nothing right came, or nothing in time, 2 the command line is wrong.\n";

static int is(const char *a, const char *b) { return strcmp(a, b) == 0; }

/* HOST, HOST:PORT, [HOST] or [HOST]:PORT; an IPv6 address may stand alone. */
static int set_tcp(struct wanted *w, const char *value) {
    size_t port;
    const char *host = value, *end = value + strlen(value), *colon = strrchr(value, ':');
    const char *bracket = value[0] == '[' ? strchr(value, ']') : NULL;
    if (bracket != NULL) host++, colon = bracket[1] == ':' ? bracket + 1 : NULL;
    else if (colon != strchr(value, ':')) colon = NULL;
    if (bracket != NULL && bracket[1] != 0 && colon == NULL) return 0;
    size_t len = (size_t)((bracket != NULL ? bracket : colon != NULL ? colon : end) - host);
    if (len == 0 || len >= sizeof w->host || (value[0] == '[' && bracket == NULL)) return 0;
    if (!number(colon != NULL ? colon + 1 : "502", 1, 65535, &port)) return 0;
    memcpy(w->host, host, len);
    w->host[len] = 0;
    snprintf(w->port, sizeof w->port, "%zu", port);
    w->to.proto = DALONJANG_TCP;
    w->device = NULL;
    return 1;
}

static int set_device(struct wanted *w, uint8_t transport, const char *value) {
    w->to.proto = transport;
    return (w->device = value)[0] != 0;
}

static int set_number(const char *value, size_t most, uint16_t *number_of) {
    size_t n;
    if (!number(value, 0, most, &n)) return 0;
    *number_of = (uint16_t)n;
    return 1;
}

static int set_unit(struct wanted *w, const char *value) {
    uint16_t unit;
    if (!set_number(value, 255, &unit)) return 0;
    w->to.unit_id = (uint8_t)unit;
    return 1;
}

/* An option with a value. Answers 1 where it is taken, 0 where the value is wrong, -1 where there is no such option. */
static int take(struct wanted *w, const char *name, const char *value) {
    if (is(name, "tcp")) return value != NULL && set_tcp(w, value);
    if (is(name, "rtu")) return value != NULL && set_device(w, DALONJANG_RTU, value);
    if (is(name, "ascii")) return value != NULL && set_device(w, DALONJANG_ASCII, value);
    if (is(name, "baud")) return number(value, 1, 4000000, &w->baud) && serial_speed(w->baud) != 0;
    if (is(name, "mode")) return value != NULL && serial_is_mode(w->mode = value);
    if (is(name, "silence")) return number(value, 1, 10000, &w->silence);
    if (is(name, "unit")) return set_unit(w, value);
    if (is(name, "transaction")) return set_number(value, 65535, &w->to.tr_id);
    if (is(name, "timeout")) return number(value, 1, 3600000, &w->timeout);
    return -1;
}

/* The table of its name, one of a few cells or of one: answers the function that reads it, 0 for none. */
static uint8_t table_of(const char *name) {
    static const char *const tables[] = {"coils", "discretes", "holdings", "inputs"};
    for (uint8_t i = 0; i < 4; i++)
        if (is(name, tables[i])) return (uint8_t)(i + 1);
    return 0;
}

/* Those to be written, and room for all that can come. */
static int set_values(struct wanted *w, char **argv) {
    w->values = calloc(w->write_count > MOST_READ ? w->write_count : MOST_READ, sizeof *w->values);
    if (w->values == NULL) return wrong("there is no memory");
    for (size_t i = 0; i < w->write_count; i++)
        if (!set_number(argv[i], 65535, &w->values[i])) return wrong("%s: a value is a number from 0 to 65535", argv[i]);
    return -1;
}

static int read_what(struct wanted *w, int argc, char **argv) {
    if (argc != 4 || (w->func = table_of(argv[1])) == 0)
        return wrong("read coils|discretes|holdings|inputs FIRST COUNT is wanted (--help says more)");
    if (!set_number(argv[2], 65535, &w->first)) return wrong("%s: a cell is a number from 0 to 65535", argv[2]);
    if (!set_number(argv[3], 65535, &w->count)) return wrong("%s: a count is a number from 0 to 65535", argv[3]);
    w->table = argv[1];
    return set_values(w, NULL);
}

/* One value goes by functions 5 and 6, which write one, unless --many says otherwise. */
static int write_what(struct wanted *w, int argc, char **argv, int many) {
    int coils = argc > 1 && (is(argv[1], "coil") || is(argv[1], "coils"));
    if (argc < 4 || !(coils || is(argv[1], "holding") || is(argv[1], "holdings")))
        return wrong("write coil|coils|holding|holdings FIRST VALUE.. is wanted (--help says more)");
    if (!set_number(argv[2], 65535, &w->write_first)) return wrong("%s: a cell is a number from 0 to 65535", argv[2]);
    w->writes = 1;
    w->table = coils ? "coils" : "holdings";
    w->write_count = (size_t)argc - 3;
    many |= w->write_count > 1;
    w->func = coils ? (many ? 15 : 5) : many ? 16 : 6;
    return set_values(w, argv + 3);
}

static int mask_what(struct wanted *w, int argc, char **argv) {
    if (argc != 4) return wrong("mask HOLDING AND OR is wanted (--help says more)");
    if (!set_number(argv[1], 65535, &w->first)) return wrong("%s: a cell is a number from 0 to 65535", argv[1]);
    for (int i = 0; i < 2; i++)
        if (!set_number(argv[2 + i], 65535, &w->masks[i]))
            return wrong("%s: a mask is a number from 0 to 65535", argv[2 + i]);
    w->writes = 1;
    w->func = 22;
    w->table = "holdings";
    return -1;
}

static int exchange_what(struct wanted *w, int argc, char **argv) {
    if (argc < 5) return wrong("exchange READ_FIRST COUNT WRITE_FIRST VALUE.. is wanted (--help says more)");
    if (!set_number(argv[1], 65535, &w->first)) return wrong("%s: a cell is a number from 0 to 65535", argv[1]);
    if (!set_number(argv[2], 65535, &w->count)) return wrong("%s: a count is a number from 0 to 65535", argv[2]);
    if (!set_number(argv[3], 65535, &w->write_first)) return wrong("%s: a cell is a number from 0 to 65535", argv[3]);
    w->func = 23;
    w->table = "holdings";
    w->write_count = (size_t)argc - 4;
    return set_values(w, argv + 4);
}

int wanted_read(struct wanted *w, int argc, char **argv) {
    int i = 1, many = 0;
    *w = (struct wanted){.to = {.tr_id = 1, .unit_id = 1}, .baud = 19200, .timeout = 1000};
    set_tcp(w, "127.0.0.1:1502");
    for (; i < argc && strncmp(argv[i], "--", 2) == 0; i++) {
        if (is(argv[i], "--help")) return fputs(usage, stdout), 0;
        if (is(argv[i], "--version")) return puts("ask " DALONJANG_VERSION), 0;
        if (is(argv[i], "--many")) many = 1;
        else if (is(argv[i], "--frames")) w->frames = 1;
        else if (is(argv[i], "--rs485")) w->rs485 = 1;
        else {
            const char *name = argv[i], *value = argv[i + 1];
            int taken = take(w, name + 2, value);
            if (taken < 0) return wrong("%s: there is no such option (--help lists them)", name);
            if (value == NULL) return wrong("%s wants something after it", name);
            if (taken == 0) return wrong("%s %s: that cannot be (--help says more)", name, value);
            i++;
        }
    }
    if (w->mode == NULL) w->mode = serial_mode(w->to.proto);
    if (i < argc && is(argv[i], "read")) return read_what(w, argc - i, argv + i);
    if (i < argc && is(argv[i], "write")) return write_what(w, argc - i, argv + i, many);
    if (i < argc && is(argv[i], "mask")) return mask_what(w, argc - i, argv + i);
    if (i < argc && is(argv[i], "exchange")) return exchange_what(w, argc - i, argv + i);
    return wrong("read, write, mask or exchange is wanted, and what (--help says more)");
}
