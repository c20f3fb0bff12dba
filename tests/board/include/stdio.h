#pragma once
#include <stddef.h>
typedef struct board_file FILE; /* all goes to the console */
#define stdout ((FILE *)0)
#define stderr ((FILE *)0)
int printf(const char *format, ...);
int snprintf(char *to, size_t room, const char *format, ...);
int fputs(const char *text, FILE *to);
int puts(const char *text);
int putchar(int c);
