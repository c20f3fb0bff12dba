/* The log: a line for each frame, and for each client that comes or goes. */
#ifndef LOG_H
#define LOG_H
#include "dalonjang.h"
#include "voice.h"

enum { OUTCOMES = 11 };
extern const char *const outcome_name[OUTCOMES]; /* as document 01 names them */

/* Nothing is written where `log` is NULL. */
void log_event(struct voice *log, const char *from, const char *what);
void log_frame(struct voice *log, const char *from, const uint8_t *frame, size_t len, struct dalonjang_result result,
    const uint8_t *reply);
#endif
