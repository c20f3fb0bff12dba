/* What the compiler takes from outside, and what the known answers (tests/kat.c) take of a C library. */
#include "board.h"
#include <stdarg.h>
#include <stdio.h>
#include <stdlib.h>
#include <string.h>

void *memset(void *to, int value, size_t n) {
    uint8_t *d = to;
    while (n-- > 0) *d++ = (uint8_t)value;
    return to;
}

void *memcpy(void *restrict to, const void *restrict from, size_t n) {
    uint8_t *d = to;
    const uint8_t *s = from;
    while (n-- > 0) *d++ = *s++;
    return to;
}

void *memmove(void *to, const void *from, size_t n) {
    uint8_t *d = to;
    const uint8_t *s = from;
    if (d <= s) return memcpy(to, from, n);
    while (n-- > 0) d[n] = s[n];
    return to;
}

int memcmp(const void *a, const void *b, size_t n) {
    const uint8_t *x = a, *y = b;
    for (; n > 0; n--, x++, y++)
        if (*x != *y) return *x - *y;
    return 0;
}

void *memchr(const void *from, int value, size_t n) {
    const uint8_t *s = from;
    for (; n > 0; n--, s++)
        if (*s == (uint8_t)value) return (void *)s;
    return NULL;
}

/* The same under ARM's names, with a word at a time where the address is known to allow it. */
void __aeabi_memset(void *to, size_t n, int value) { memset(to, value, n); }
void __aeabi_memclr(void *to, size_t n) { memset(to, 0, n); }
void __aeabi_memcpy(void *to, const void *from, size_t n) { memcpy(to, from, n); }
void __aeabi_memmove(void *to, const void *from, size_t n) { memmove(to, from, n); }

void __aeabi_memclr4(void *to, size_t n) {
    uint32_t *d = to;
    for (; n >= 4; n -= 4) *d++ = 0;
    memset(d, 0, n);
}

void __aeabi_memcpy4(void *to, const void *from, size_t n) {
    uint32_t *d = to;
    const uint32_t *s = from;
    for (; n >= 4; n -= 4) *d++ = *s++;
    memcpy(d, s, n);
}

void __aeabi_memclr8(void *to, size_t n) { __aeabi_memclr4(to, n); }
void __aeabi_memcpy8(void *to, const void *from, size_t n) { __aeabi_memcpy4(to, from, n); }
void __aeabi_memmove4(void *to, const void *from, size_t n) { memmove(to, from, n); }
void __aeabi_memmove8(void *to, const void *from, size_t n) { memmove(to, from, n); }

size_t strlen(const char *s) {
    size_t n = 0;
    while (s[n] != 0) n++;
    return n;
}

int strcmp(const char *a, const char *b) {
    while (*a != 0 && *a == *b) a++, b++;
    return (uint8_t)*a - (uint8_t)*b;
}

char *strchr(const char *s, int c) {
    while (*s != (char)c && *s != 0) s++;
    return *s == (char)c ? (char *)s : NULL;
}

unsigned long strtoul(const char *s, char **end, int base) {
    unsigned long n = 0;
    for (;; s++) {
        int digit = *s >= '0' && *s <= '9' ? *s - '0' : *s >= 'A' && *s <= 'F' ? *s - 'A' + 10 : base;
        if (digit >= base) break;
        n = n * (unsigned long)base + (unsigned long)digit;
    }
    if (end != NULL) *end = (char *)s;
    return n;
}

_Noreturn void exit(int status) { stop(status); }

/* Division, which a Cortex-M0 has not; only these programs take it. */
static unsigned divided(unsigned n, unsigned by, unsigned *rest) {
    unsigned q = 0;
    for (int i = 31; i >= 0; i--)
        if (n >> i >= by) n -= by << i, q |= 1u << i;
    *rest = n;
    return q;
}

unsigned __aeabi_uidiv(unsigned n, unsigned by) { return divided(n, by, &(unsigned){0}); }
unsigned long long __aeabi_uidivmod(unsigned n, unsigned by) { /* the quotient in r0, the rest in r1 */
    unsigned rest, whole = divided(n, by, &rest);
    return (unsigned long long)rest << 32 | whole;
}

/* %s, %d, %u, %X, with z and a width filled with zeros. */
static int print(char *to, size_t room, const char *format, va_list values) {
    size_t n = 0;
    for (; *format != 0; format++) {
        char digits[12], *text = digits + 11;
        size_t width = 0;
        if (*format != '%') {
            if (n + 1 < room) to[n] = *format;
            n++;
            continue;
        }
        for (format++; (*format >= '0' && *format <= '9') || *format == 'z'; format++)
            if (*format != 'z') width = width * 10 + (size_t)(*format - '0');
        *text = 0;
        if (*format == 's') {
            text = va_arg(values, char *);
        } else {
            unsigned value = va_arg(values, unsigned), digit;
            do {
                value = divided(value, *format == 'X' ? 16 : 10, &digit);
                *--text = "0123456789ABCDEF"[digit];
            } while (value != 0 || (size_t)(digits + 11 - text) < width);
        }
        for (; *text != 0; text++, n++)
            if (n + 1 < room) to[n] = *text;
    }
    if (room > 0) to[n < room ? n : room - 1] = 0;
    return (int)n;
}

int snprintf(char *to, size_t room, const char *format, ...) {
    va_list values;
    va_start(values, format);
    int n = print(to, room, format, values);
    va_end(values);
    return n;
}

int printf(const char *format, ...) {
    char line[256];
    va_list values;
    va_start(values, format);
    int n = print(line, sizeof line, format, values);
    va_end(values);
    say(line);
    return n;
}

int fputs(const char *text, FILE *to) {
    (void)to;
    say(text);
    return 0;
}

int puts(const char *text) { return printf("%s\n", text); }
int putchar(int c) { return printf("%s", (char[]){(char)c, 0}), c; }
