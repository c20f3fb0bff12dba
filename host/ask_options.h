/* What the bench tool's command line says. */
#ifndef ASK_OPTIONS_H
#define ASK_OPTIONS_H
#include "dalonjang.h"

enum { MOST_READ = 2000 }; /* values that one reply can have */

struct wanted {
    struct dalonjang_request to;
    char host[256], port[8];      /* TCP */
    const char *device;           /* RTU and ASCII */
    size_t baud, silence;         /* silence in milliseconds; 0: as the speed asks */
    const char *mode;             /* 8E1 and the like */
    int rs485;
    size_t timeout;               /* in milliseconds */
    int frames;                   /* what goes and comes is shown */
    const char *table;            /* coils, discretes, holdings, inputs */
    uint8_t func;
    int writes;                   /* an echo comes back, and no values */
    uint16_t first, count;        /* cells to be read; the first alone for a mask */
    uint16_t write_first;
    size_t write_count;           /* cells to be written */
    uint16_t *values;             /* those to be written, with room for all that can come */
    uint16_t masks[2];            /* of a mask: which bits stay, and what the others become */
};

/* Answers -1 to go on; otherwise the status to end with, after --help or --version (0) or a line on what is wrong (2). */
int wanted_read(struct wanted *w, int argc, char **argv);
#endif
