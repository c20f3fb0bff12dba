/* Lent buffers between pages that cannot be touched: each ends at one, or, every fifth time, begins after one; the
 * bytes on the free side must stay as they were. */
#ifndef FENCE_H
#define FENCE_H
#include <stdint.h>
#include <stdio.h>
#include <stdlib.h>
#include <string.h>
#ifdef __linux__
#include <signal.h>
#include <sys/mman.h>
#include <unistd.h>
#define ROOM 262144 /* more than a call is lent; whole pages on every kind of machine */
#else
#define ROOM 8192 /* a bare board has no pages: there only the bytes beside a buffer are looked at */
#endif
#define MARGIN 64   /* bytes looked at on the free side */
#define UNTOUCHED 0xC3
#define SHOWN 256 /* bytes of a buffer that are printed */

#ifdef __linux__
/* ROOM bytes between two pages that cannot be touched. */
static inline uint8_t *fenced(void) {
    uint8_t *p = mmap(NULL, 3 * ROOM, PROT_NONE, MAP_PRIVATE | MAP_ANONYMOUS, -1, 0);
    if (p == MAP_FAILED || mprotect(p + ROOM, ROOM, PROT_READ | PROT_WRITE) != 0) {
        fputs("no memory\n", stderr);
        exit(2);
    }
    return memset(p + ROOM, UNTOUCHED, ROOM);
}
#else
static inline uint8_t *fenced(void) {
    static uint8_t rooms[6][ROOM];
    static int taken;
    if (taken == 6) exit(2);
    return memset(rooms[taken++], UNTOUCHED, ROOM);
}
#endif

static inline int at_the_start(unsigned long number) { return number % 5 == 4; }

static inline uint8_t *place(uint8_t *room, size_t len, unsigned long number) {
    return at_the_start(number) ? room : room + ROOM - len;
}

static inline int margin_untouched(const uint8_t *placed, size_t len, unsigned long number) {
    static uint8_t untouched[MARGIN];
    if (untouched[0] == 0) memset(untouched, UNTOUCHED, MARGIN);
    size_t width = len + MARGIN <= ROOM ? MARGIN : ROOM - len;
    return memcmp(at_the_start(number) ? placed + len : placed - width, untouched, width) == 0;
}

#ifdef __linux__
static void (*tell_of_a_touch)(const char *what);

static inline void touched_a_fence(int signal_number) {
    (void)signal_number;
    tell_of_a_touch("a byte outside the lent buffers was touched");
    puts("");
    fflush(stdout);
    _exit(1);
}

/* From now on, where a fence is touched, `tell` prints the call and the program ends with status 1. */
static inline void watch_fences(void (*tell)(const char *what)) {
    tell_of_a_touch = tell;
    signal(SIGSEGV, touched_a_fence);
}
#else
static inline void watch_fences(void (*tell)(const char *what)) { (void)tell; }
#endif

static inline void print_bytes(const char *name, const uint8_t *bytes, size_t len) {
    printf("\n  %s", name);
    for (size_t i = 0; i < len && i < SHOWN; i++) printf(" %02X", bytes[i]);
    if (len > SHOWN) printf(" ..");
}
#endif
