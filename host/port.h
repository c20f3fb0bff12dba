/* A way by which frames come, the TCP side or a serial line, with the unit as it is served there: its setup is the port's
 * own, made once when the server starts, over tables that all ports share. */
#ifndef PORT_H
#define PORT_H
#include "dalonjang.h"

struct port {
    char name[64]; /* tcp, or rtu or ascii and the device */
    struct dalonjang_unit unit;
};
#endif
