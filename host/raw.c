#include "raw.h"
#include "basics.h"
#include <fcntl.h>
#include <sys/stat.h>
#include <unistd.h>

static const off_t log_most = 4294967295; /* bytes that linecount takes */
static const char *name;
static int log_fd = -1, failed; /* failed: the last record is not in the log, and that was told */

/* A file, since a record is written whole or not at all, and whoever reads a pipe may stall. */
int raw_open(const char *path) {
    struct stat s;
    name = path;
    log_fd = open(path, O_WRONLY | O_APPEND | O_CREAT | O_NONBLOCK | O_NOCTTY | O_CLOEXEC, 0666);
    if (log_fd >= 0 && fstat(log_fd, &s) == 0 && S_ISREG(s.st_mode)) return 1;
    complain("the raw log %s cannot be written: %s", path, log_fd < 0 ? strerror(errno) : "it is no file");
    raw_close();
    return 0;
}

void raw_close(void) {
    if (log_fd >= 0) close(log_fd);
    log_fd = -1;
}

/* Said once, until a record is written again. */
static void fail(const char *why) {
    if (!failed) complain("the raw log %s lacks records from here on: %s", name, why);
    failed = 1;
}

/* A record that finds no room on the disk is taken back, so that those after it can be read. */
static void put(const uint8_t *bytes, size_t len) {
    uint8_t record[4 + RAW_MOST] = {0x4D, 0x42, (uint8_t)(len >> 8), (uint8_t)len};
    if (log_fd < 0 || len == 0) return;
    off_t end = lseek(log_fd, 0, SEEK_END);
    if (end + 4 + (off_t)len > log_most) {
        fail("it is full");
        return;
    }
    memcpy(record + 4, bytes, len);
    ssize_t written = write(log_fd, record, 4 + len);
    if (written == (ssize_t)(4 + len)) {
        failed = 0;
        return;
    }
    fail(strerror(written < 0 ? errno : ENOSPC));
    if (written > 0 && ftruncate(log_fd, end) != 0) raw_close();
}

/* What came without a silence for longer than a record is cut into several. */
void raw_hear(struct raw *r, const uint8_t *bytes, size_t len) {
    if (log_fd < 0) return;
    if (len > RAW_MOST - r->len) raw_quiet(r, r->len);
    memcpy(r->bytes + r->len, bytes, len);
    r->len += len;
}

void raw_quiet(struct raw *r, size_t len) {
    if (len > r->len) len = r->len;
    put(r->bytes, len);
    r->len -= len;
    memmove(r->bytes, r->bytes + len, r->len);
}

void raw_reply(const uint8_t *reply, size_t len) { put(reply, len); }
