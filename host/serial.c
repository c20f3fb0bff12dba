#include "serial.h"
#include "dalonjang.h"
#include <errno.h>
#include <fcntl.h>
#include <linux/serial.h>
#include <string.h>
#include <sys/ioctl.h>
#include <sys/stat.h>
#include <sys/sysmacros.h>
#include <termios.h>
#include <unistd.h>

unsigned serial_speed(size_t baud) {
    static const struct { unsigned baud, speed; } known[] = {{1200, B1200}, {2400, B2400}, {4800, B4800}, {9600, B9600},
        {19200, B19200}, {38400, B38400}, {57600, B57600}, {115200, B115200}, {230400, B230400}, {460800, B460800},
        {500000, B500000}, {576000, B576000}, {921600, B921600}, {1000000, B1000000}, {1152000, B1152000},
        {1500000, B1500000}, {2000000, B2000000}, {2500000, B2500000}, {3000000, B3000000}, {3500000, B3500000},
        {4000000, B4000000}};
    for (size_t i = 0; i < sizeof known / sizeof known[0]; i++)
        if (known[i].baud == baud) return known[i].speed;
    return 0;
}

int serial_is_mode(const char *mode) {
    return strlen(mode) == 3 && strchr("78", mode[0]) && strchr("NEO", mode[1]) && strchr("12", mode[2]);
}

const char *serial_mode(uint8_t transport) { return transport == DALONJANG_RTU ? "8E1" : "7E1"; }

/* SER 2.5.1.1: 3.5 characters of 11 bits, and 1.75 ms above 19200 baud; in whole milliseconds, rounded up. */
int64_t serial_characters(size_t baud) { return baud > 19200 ? 2 : (int64_t)((38500 + baud - 1) / baud); }

static int is_pseudo(int fd) {
    struct stat is;
    return fstat(fd, &is) == 0 && S_ISCHR(is.st_mode) && major(is.st_rdev) >= 136 && major(is.st_rdev) <= 143;
}

/* Bytes as they come, at this speed; mode as 8E1. A pseudo terminal, which has neither parity nor seven bits, is not
 * asked for them: the C library would call it an error. */
static int set_up(int fd, size_t baud, const char *mode) {
    struct termios t;
    if (tcgetattr(fd, &t) != 0) return 0;
    if (is_pseudo(fd)) mode = mode[2] == '2' ? "8N2" : "8N1";
    cfmakeraw(&t);
    t.c_cflag &= ~(tcflag_t)(CSIZE | PARENB | PARODD | CSTOPB);
    t.c_cflag |= CLOCAL | CREAD | (mode[0] == '7' ? CS7 : CS8) | (mode[2] == '2' ? CSTOPB : 0);
    if (mode[1] != 'N') {
        t.c_cflag |= PARENB | (mode[1] == 'O' ? PARODD : 0);
        t.c_iflag |= INPCK | IGNPAR; /* a byte of wrong parity is left out, and the frame fails its check */
    }
    t.c_cc[VMIN] = 1;
    t.c_cc[VTIME] = 0;
    cfsetispeed(&t, serial_speed(baud));
    cfsetospeed(&t, serial_speed(baud));
    return tcsetattr(fd, TCSANOW, &t) == 0 && tcflush(fd, TCIFLUSH) == 0;
}

/* The driver raises RTS while it sends, and does not hear itself; its delays stay as they are. */
static int set_direction(int fd) {
    struct serial_rs485 rs485;
    if (ioctl(fd, TIOCGRS485, &rs485) != 0) return 0;
    rs485.flags |= SER_RS485_ENABLED | SER_RS485_RTS_ON_SEND;
    rs485.flags &= ~(SER_RS485_RTS_AFTER_SEND | SER_RS485_RX_DURING_TX);
    return ioctl(fd, TIOCSRS485, &rs485) == 0;
}

int serial_open(const char *device, size_t baud, const char *mode, int rs485, const char **wrong) {
    int fd = open(device, O_RDWR | O_NOCTTY | O_NONBLOCK | O_CLOEXEC);
    *wrong = NULL;
    if (fd < 0 || !set_up(fd, baud, mode)) *wrong = strerror(errno);
    else if (rs485 && !set_direction(fd)) *wrong = "its driver does not switch the direction (--rs485)";
    if (*wrong == NULL) return fd;
    if (fd >= 0) close(fd);
    return -1;
}
