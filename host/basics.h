/* What every part of the host uses: the clock, numbers in text, a word to the user. */
#ifndef BASICS_H
#define BASICS_H
#include "voice.h"
#include <errno.h>
#include <stdint.h>
#include <stdio.h>
#include <stdlib.h>
#include <string.h>
#include <time.h>

#define NEVER INT64_MAX

/* Milliseconds from some fixed point; a changed time of day does not move it. */
static inline int64_t clock_ms(void) {
    struct timespec t;
    clock_gettime(CLOCK_MONOTONIC, &t);
    return (int64_t)t.tv_sec * 1000 + t.tv_nsec / 1000000;
}

static inline int64_t earlier(int64_t a, int64_t b) { return a < b ? a : b; }

/* A number from `least` to `most`, decimal or, after 0x, hex. Answers 0 where the text is anything else. */
static inline int number(const char *text, size_t least, size_t most, size_t *value) {
    int hex = text != NULL && text[0] == '0' && (text[1] == 'x' || text[1] == 'X');
    const char *digits = hex ? text + 2 : text;
    size_t len = digits == NULL ? 0 : strlen(digits);
    if (len == 0 || len > 8 || strspn(digits, hex ? "0123456789abcdefABCDEF" : "0123456789") != len) return 0;
    *value = strtoul(digits, NULL, hex ? 16 : 10);
    return *value >= least && *value <= most;
}

/* One line on standard error. */
#define complain(...) voice_line(&to_errors, "dalonjang: " __VA_ARGS__)
#endif
