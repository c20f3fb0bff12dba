/* Lines of text for standard output, standard error and the log. Whoever reads them may stall, or the disk be full: a
 * line that is not taken waits here, one that finds no room is lost and counted, and nobody is kept waiting. */
#ifndef VOICE_H
#define VOICE_H
#include <poll.h>
#include <stddef.h>

struct voice {
    int fd;           /* -1: none, and nothing is said */
    int may_wait;     /* a write could stall: it is asked before, and little is written at once */
    const char *name; /* for the word on an error of it; NULL: there is nobody to tell */
    char bytes[1 << 17];
    size_t have;
    unsigned long lost; /* lines, since the last that found room */
    int failed;         /* the last write was an error, and that was told */
};

extern struct voice to_output, to_errors;

/* To be called first: standard streams that are closed become /dev/null, so that no socket or file takes their number
 * and gets their text. */
void voices_open(void);
/* To a file, at its end. Answers 0, with errno, where it cannot be written. */
int voice_open(struct voice *v, const char *path);

__attribute__((format(printf, 2, 3))) void voice_line(struct voice *v, const char *format, ...);
struct pollfd voice_wants(const struct voice *v);
/* Writes what is taken now. */
void voice_push(struct voice *v);
/* The last chance: waits for at most a second. */
void voice_end(struct voice *v);
#endif
