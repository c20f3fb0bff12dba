/* Serial lines and pseudo terminals as the server and the bench tool open them. */
#ifndef SERIAL_H
#define SERIAL_H
#include <stddef.h>
#include <stdint.h>

enum { BURSTS = 50 }; /* milliseconds: adapters on USB hand over what came every 16, and may come late */

/* The termios speed for so many baud; 0 where there is none. */
unsigned serial_speed(size_t baud);
/* Data bits, parity, stop bits, as 8E1. */
int serial_is_mode(const char *mode);
/* Of RTU and ASCII, where none is said. */
const char *serial_mode(uint8_t transport);
/* Milliseconds that 3.5 characters take. */
int64_t serial_characters(size_t baud);

/* Bytes as they come, at this speed, nothing of what came before. Answers -1 and what is wrong where it cannot be. */
int serial_open(const char *device, size_t baud, const char *mode, int rs485, const char **wrong);
#endif
