/* A serial driver that switches the direction of an RS-485 line, as a library to be loaded before the C library: what
 * it is told is written to the file of the environment's TOLD. */
#define _GNU_SOURCE
#include <dlfcn.h>
#include <linux/serial.h>
#include <stdarg.h>
#include <stdio.h>
#include <stdlib.h>
#include <sys/ioctl.h>

static int take(const struct serial_rs485 *s) {
    FILE *told = fopen(getenv("TOLD"), "w");
    if (told == NULL) return -1;
    fprintf(told, "enabled %d, rts on send %d, rts after send %d, hears itself %d, delays %u %u\n",
        (s->flags & SER_RS485_ENABLED) != 0, (s->flags & SER_RS485_RTS_ON_SEND) != 0,
        (s->flags & SER_RS485_RTS_AFTER_SEND) != 0, (s->flags & SER_RS485_RX_DURING_TX) != 0,
        s->delay_rts_before_send, s->delay_rts_after_send);
    return fclose(told);
}

int ioctl(int fd, unsigned long request, ...) {
    va_list rest;
    va_start(rest, request);
    void *value = va_arg(rest, void *);
    va_end(rest);
    if (request == TIOCGRS485) {
        *(struct serial_rs485 *)value = (struct serial_rs485){.flags = SER_RS485_RTS_AFTER_SEND | SER_RS485_RX_DURING_TX,
            .delay_rts_before_send = 3, .delay_rts_after_send = 4};
        return 0;
    }
    if (request == TIOCSRS485) return take(value);
    int (*real)(int, unsigned long, ...) = (int (*)(int, unsigned long, ...))dlsym(RTLD_NEXT, "ioctl");
    return real(fd, request, value);
}
