#include "voice.h"
#include "basics.h"
#include <fcntl.h>
#include <limits.h>
#include <stdarg.h>
#include <sys/stat.h>
#include <unistd.h>

enum { LAST_CHANCE = 1000 }; /* milliseconds */

struct voice to_output = {.fd = -1, .name = "standard output"}, to_errors = {.fd = -1};

/* A pipe or terminal is opened a second time, so that it does not wait and whoever else has it is not changed. What
 * cannot be opened so, as a socket, is asked before each write. */
static void take(struct voice *v, int fd, const char *again) {
    struct stat s;
    v->fd = fd;
    v->may_wait = fstat(fd, &s) == 0 && !S_ISREG(s.st_mode);
    if (!v->may_wait || !(S_ISFIFO(s.st_mode) || isatty(fd))) return;
    int own = open(again, O_WRONLY | O_NONBLOCK | O_NOCTTY | O_CLOEXEC);
    if (own < 0) return;
    v->fd = own;
    v->may_wait = 0;
}

void voices_open(void) {
    for (int fd = 0; fd <= 2; fd++)
        if (fcntl(fd, F_GETFD) < 0 && open("/dev/null", O_RDWR) != fd) _exit(1);
    take(&to_output, 1, "/proc/self/fd/1");
    take(&to_errors, 2, "/proc/self/fd/2");
}

int voice_open(struct voice *v, const char *path) {
    v->fd = open(path, O_WRONLY | O_APPEND | O_CREAT | O_NONBLOCK | O_NOCTTY | O_CLOEXEC, 0666);
    v->name = path;
    return v->fd >= 0;
}

static void add(struct voice *v, const char *line, size_t len) {
    if (len > sizeof v->bytes - v->have) {
        v->lost++;
        return;
    }
    memcpy(v->bytes + v->have, line, len);
    v->have += len;
}

/* Said once, until a write succeeds again. The lines that wait are lost. */
static void fail(struct voice *v, int why) {
    for (size_t i = 0; i < v->have; i++) v->lost += v->bytes[i] == '\n';
    v->have = 0;
    if (!v->failed && v->name != NULL) complain("%s cannot be written: %s", v->name, strerror(why));
    v->failed = 1;
}

static void send(struct voice *v) {
    while (v->fd >= 0 && v->have > 0) {
        struct pollfd ready = {v->fd, POLLOUT, 0};
        if (v->may_wait && poll(&ready, 1, 0) <= 0) return;
        ssize_t sent = write(v->fd, v->bytes, v->may_wait && v->have > PIPE_BUF ? PIPE_BUF : v->have);
        if (sent < 0 && (errno == EAGAIN || errno == EINTR)) return;
        if (sent < 0) {
            fail(v, errno);
            return;
        }
        v->failed = 0;
        v->have -= (size_t)sent;
        memmove(v->bytes, v->bytes + sent, v->have);
    }
}

/* Where lines were lost, one says how many before the next is written. */
static void own_up(struct voice *v) {
    char line[64];
    unsigned long lost = v->lost;
    if (lost == 0 || v->have > 0) return;
    v->lost = 0;
    add(v, line, (size_t)snprintf(line, sizeof line, "%lu lines are missing here\n", lost));
    send(v);
    if (v->failed) v->lost = lost;
}

void voice_push(struct voice *v) {
    send(v);
    own_up(v);
}

void voice_line(struct voice *v, const char *format, ...) {
    char line[4096];
    va_list values;
    if (v->fd < 0) return;
    va_start(values, format);
    int len = vsnprintf(line, sizeof line - 1, format, values);
    va_end(values);
    if (len < 0) return;
    size_t n = (size_t)len < sizeof line - 1 ? (size_t)len : sizeof line - 2;
    line[n++] = '\n';
    own_up(v);
    if (v->failed && v->lost > 0) v->lost++;
    else add(v, line, n);
    send(v);
}

struct pollfd voice_wants(const struct voice *v) {
    return (struct pollfd){v->have > 0 && !v->failed ? v->fd : -1, POLLOUT, 0};
}

void voice_end(struct voice *v) {
    int64_t until = clock_ms() + LAST_CHANCE;
    for (voice_push(v); v->fd >= 0 && v->have > 0 && !v->failed && clock_ms() < until; voice_push(v)) {
        struct pollfd ready = {v->fd, POLLOUT, 0};
        poll(&ready, 1, (int)(until - clock_ms()));
    }
}
