#include "options.h"
#include "basics.h"
#include "dalonjang.h"
#include "serial.h"

/* An option that takes a number has its limits and its place here; every other has a function of its own. */
struct option {
    const char *name, *takes, *help;
    size_t least, most, place;
    int (*set)(struct options *o, const char *value);
};
#define NUMBER(name, help, least, most, field) \
    {name, "NUMBER", help, least, most, offsetof(struct options, field), NULL}
#define OTHER(name, takes, help, set) {name, takes, help, 0, 0, 0, set}

static int set_address(struct options *o, const char *value) { return (o->address = value)[0] != 0; }

static int set_no_tcp(struct options *o, const char *value) { return (void)value, o->no_tcp = 1; }
static int set_rs485(struct options *o, const char *value) { return (void)value, o->rs485 = 1; }
static int set_export(struct options *o, const char *value) { return (void)value, o->export = 1; }

/* Numbers with commas between them, or the word none. */
static int set_list(struct options *o, const char *value) {
    char text[1024], *rest = NULL;
    size_t unit, len = strlen(value);
    o->list_len = 0;
    if (strcmp(value, "none") == 0) return 1;
    if (len == 0 || len >= sizeof text || value[len - 1] == ',' || value[0] == ',' || strstr(value, ",,")) return 0;
    memcpy(text, value, len + 1);
    for (char *word = strtok_r(text, ",", &rest); word != NULL; word = strtok_r(NULL, ",", &rest)) {
        if (o->list_len == sizeof o->list || !number(word, 0, 255, &unit)) return 0;
        o->list[o->list_len++] = (uint8_t)unit;
    }
    return 1;
}

static int set_hex(struct options *o, const char *value) {
    o->hex = strcmp(value, "lenient") == 0 ? DALONJANG_LENIENT : DALONJANG_STRICT;
    return o->hex == DALONJANG_LENIENT || strcmp(value, "strict") == 0;
}

static int set_all_cells(struct options *o, const char *value) {
    size_t cells;
    if (!number(value, 0, DALONJANG_MOST_CELLS, &cells)) return 0;
    for (int t = 0; t < TABLES; t++) o->cells[t] = cells;
    return 1;
}

static int add_line(struct options *o, const char *device, uint8_t transport) {
    if (o->lines == MOST_LINES || device[0] == 0) return 0;
    o->line[o->lines].device = device;
    o->line[o->lines++].transport = transport;
    return 1;
}

static int set_rtu(struct options *o, const char *value) { return add_line(o, value, DALONJANG_RTU); }
static int set_ascii(struct options *o, const char *value) { return add_line(o, value, DALONJANG_ASCII); }

static int set_baud(struct options *o, const char *value) {
    return number(value, 1, 4000000, &o->baud) && serial_speed(o->baud) != 0;
}

static int set_mode(struct options *o, const char *value) {
    return serial_is_mode(o->mode = value);
}

static int set_image(struct options *o, const char *value) { return (o->image = value)[0] != 0; }
static int set_import(struct options *o, const char *value) { return (o->import = value)[0] != 0; }
static int set_log(struct options *o, const char *value) { return (o->log = value)[0] != 0; }
static int set_raw(struct options *o, const char *value) { return (o->raw = value)[0] != 0; }

static const struct option option[] = {
    OTHER("address", "ADDRESS", "listen on this IPv4 or IPv6 address or name (127.0.0.1; 0.0.0.0 or :: is all of this\n"
        "                       machine, and whoever reaches it can write: Modbus has no passwords)", set_address),
    NUMBER("port", "listen on this port (1502; 0 is any that is free)", 0, 65535, port),
    NUMBER("clients", "TCP clients at once (32); for one more, one that never asked goes, else the longest\n"
        "                       silent, but none that asked within the last second: then the new one waits",
        1, MOST_CLIENTS, clients),
    NUMBER("idle", "seconds after which a silent TCP client is closed (60; 0 is never)", 0, 1000000, idle),
    NUMBER("patience", "seconds that a frame may take to come, or its reply to be taken (5)", 1, 3600, patience),
    OTHER("no-tcp", NULL, "serve serial lines alone", set_no_tcp),
    OTHER("rtu", "DEVICE", "serve this serial line or pseudo terminal as RTU; may be given again", set_rtu),
    OTHER("ascii", "DEVICE", "the same as ASCII", set_ascii),
    OTHER("hex", "READING", "digits of the ASCII lines: strict, 0-9 and A-F, or lenient, a-f too, as some testers send\n"
        "                       them (strict); replies are in capitals", set_hex),
    OTHER("baud", "SPEED", "speed of the serial lines, 1200 to 4000000 as the system has them (19200)", set_baud),
    OTHER("mode", "MODE", "data bits, parity, stop bits (8E1 for RTU, 7E1 for ASCII)", set_mode),
    OTHER("rs485", NULL, "let the serial driver switch the direction of an RS-485 line, where it can", set_rs485),
    NUMBER("silence", "milliseconds of silence that end an RTU frame. Without it: 3.5 characters where the CRC\n"
        "                       is right by then, else 50, since USB adapters hold bytes back for 16", 1, 10000, silence),
    NUMBER("unit", "our unit number (1); 255 for clients that ask 255 unless told otherwise, 0 with\n"
        "                       --broadcast none for those that ask 0", 0, 255, unit),
    OTHER("broadcast", "LIST", "the broadcast numbers, as 0,255 or none (0)", set_list),
    OTHER("cells", "NUMBER", "cells of every table (1000)", set_all_cells),
    NUMBER("coils", "cells of this table", 0, DALONJANG_MOST_CELLS, cells[COILS]),
    NUMBER("discretes", "cells of this table", 0, DALONJANG_MOST_CELLS, cells[DISCRETES]),
    NUMBER("holdings", "cells of this table", 0, DALONJANG_MOST_CELLS, cells[HOLDINGS]),
    NUMBER("inputs", "cells of this table", 0, DALONJANG_MOST_CELLS, cells[INPUTS]),
    OTHER("image", "FILE", "keep the tables in this file, a database: every write is in it before it is answered",
        set_image),
    OTHER("import", "FILE", "lay the rows of this text over the tables first", set_import),
    OTHER("export", NULL, "write the tables as text to standard output, and serve nothing", set_export),
    OTHER("log", "FILE", "a line for each frame; - is standard output", set_log),
    OTHER("raw", "FILE", "what the RTU lines bring, and each reply, in records as linecount(1) counts them", set_raw),
};
enum { OPTIONS = sizeof option / sizeof option[0] };

static int help(void) {
    puts("Usage: dalonjang [OPTION]..\n"
         "A Modbus server, TCP and serial lines over one set of tables. Control-C ends it.\n");
    for (size_t i = 0; i < OPTIONS; i++)
        printf("  --%-9s %-8s %s\n", option[i].name, option[i].takes ? option[i].takes : "", option[i].help);
    puts("  --version            which version this is\n  --help               this text\n\n"
         "The text of --import and --export: 'dalonjang tables', then rows as 'holdings 10 258 772' (a table, a cell,\n"
         "the values from there on; # begins a remark), then 'end'. So discretes and inputs, which no client can write,\n"
         "get values: --import tables.txt --image tables.db lays them over the image and keeps them there.");
    return 0;
}

static int version(void) {
    puts("dalonjang-server " DALONJANG_VERSION);
    return 0;
}

/* The list wins over the unit number, so that a server whose number stands in it could never answer. */
static int can_answer(const struct options *o) {
    if (memchr(o->list, (int)o->unit, o->list_len) == NULL) return 1;
    complain("unit %zu is a broadcast number here, and a broadcast is never answered: another --unit, or --broadcast %s",
        o->unit, o->unit == 0 && o->list_len == 1 ? "none" : "without it");
    return 0;
}

static int has_rtu(const struct options *o) {
    for (size_t i = 0; i < o->lines; i++)
        if (o->line[i].transport == DALONJANG_RTU) return 1;
    complain("--raw logs RTU lines, and there is no --rtu");
    return 0;
}

static int take(struct options *o, const struct option *it, const char *value) {
    if (it->set != NULL && it->set(o, value)) return 1;
    if (it->set == NULL && number(value, it->least, it->most, (size_t *)(void *)((char *)o + it->place))) return 1;
    if (it->set != NULL) complain("--%s %s: that is no %s (--help says more)", it->name, value, it->takes);
    else complain("--%s %s: not a number from %zu to %zu", it->name, value, it->least, it->most);
    return 0;
}

int options_read(struct options *o, int argc, char **argv) {
    *o = (struct options){.port = 1502, .clients = 32, .idle = 60, .patience = 5, .unit = 1, .list = {0}, .list_len = 1,
        .baud = 19200};
    set_address(o, "127.0.0.1");
    set_all_cells(o, "1000");
    for (int i = 1; i < argc; i++) {
        size_t n = 0;
        if (strcmp(argv[i], "--help") == 0) return help();
        if (strcmp(argv[i], "--version") == 0) return version();
        while (n < OPTIONS && (strncmp(argv[i], "--", 2) != 0 || strcmp(argv[i] + 2, option[n].name) != 0)) n++;
        if (n == OPTIONS) {
            complain("%s: there is no such option (--help lists them)", argv[i]);
            return 2;
        }
        const char *value = option[n].takes == NULL ? "" : argv[++i];
        if (value == NULL) complain("--%s wants a %s after it", option[n].name, option[n].takes);
        if (value == NULL || !take(o, &option[n], value)) return 2;
    }
    if (!can_answer(o) || (o->raw != NULL && !has_rtu(o))) return 2;
    if (!o->no_tcp || o->lines > 0 || o->export) return -1;
    complain("--no-tcp leaves nothing to serve without --rtu or --ascii");
    return 2;
}
