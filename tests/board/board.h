/* What a program on an emulated board has: an ARM MPS2 (AN385: Cortex-M3, AN386: Cortex-M4) or, built with
 * -DMICROBIT, a micro:bit (nRF51: Cortex-M0). Nothing but the compiler is from outside: start, UART, clock and what
 * little of a C library the programs and the compiler ask for are board.c and libc.c. */
#ifndef BOARD_H
#define BOARD_H
#include <stddef.h>
#include <stdint.h>

#ifdef MICROBIT
enum { TICKS_PER_US = 16 }; /* of the processor's clock, counted by SysTick */
#else
enum { TICKS_PER_US = 25 };
#endif

int uart_get(void); /* -1: nothing has come */
void uart_put(uint8_t byte);

/* One timer, of at most half a second: how long since it was started in ticks, whether it has run out. */
void start_timer(uint32_t ticks);
uint32_t timer_ran(void);
int timer_over(void); /* once: then not again until the next start */

void idle(void); /* until a byte comes or the timer runs out, or some earlier time */

/* The machine that emulates, by semihosting: its console, its files, the end of the program with a status of 0 or 1. */
void say(const char *text);
int open_file(const char *name); /* for reading; below 0: there is none */
size_t read_file(int file, void *to, size_t most);
_Noreturn void stop(int status);

/* The 32 bytes from here on, a multiple of 32, may not even be read: one of eight such borders. They hold between
 * close_borders and open_borders, on a board with a memory protection unit. */
void border(uint32_t number, const void *from);
void close_borders(void);
void open_borders(void);

/* How deep the stack goes: between paint_stack and stack_used, in bytes below the caller's frame. */
void paint_stack(void);
uint32_t stack_used(void);

extern uint8_t area_low[], area_top[]; /* what RAM is left (board.ld) */
#endif
