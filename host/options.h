/* What the command line says. */
#ifndef OPTIONS_H
#define OPTIONS_H
#include "tables.h"

enum { MOST_LINES = 8, MOST_CLIENTS = 256 };

struct options {
    const char *address; /* a number or a name, as written */
    size_t port, clients, idle, patience; /* the last two in seconds; idle 0: for ever */
    int no_tcp;
    size_t unit;
    uint8_t hex; /* enum dalonjang_hex */
    uint8_t list[256];
    size_t list_len;
    size_t cells[TABLES];
    struct { const char *device; uint8_t transport; } line[MOST_LINES];
    size_t lines, baud, silence; /* silence in milliseconds; 0: as the speed asks */
    int rs485;                   /* the lines' drivers switch the direction */
    const char *mode;            /* 8E1 and the like, or NULL */
    const char *image, *import, *log, *raw; /* or NULL */
    int export;                  /* the tables are written as text, and nothing is served */
};

/* Answers -1 to go on; otherwise the status to end with, after --help or --version (0) or a line on what is wrong (2). */
int options_read(struct options *o, int argc, char **argv);
#endif
