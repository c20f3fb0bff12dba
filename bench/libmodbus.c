/* libmodbus under measure: modbus_receive and modbus_reply, or with -DREPLY_ALONE the second alone, which takes a whole
 * frame in memory and asks neither for its check nor for its unit. The five calls through which they reach a socket or a
 * serial line are replaced here by copies from and to memory, so that no system call is made. */
#include "rows.h"
#include <modbus.h>
#include <stdlib.h>
#include <string.h>
#include <sys/select.h>
#include <sys/socket.h>
#include <unistd.h>

static const uint8_t *arriving;
static size_t left, sent_len;
static _Alignas(PAGE) uint8_t received[MODBUS_MAX_ADU_LENGTH], sent[MOST];
static modbus_t *context;
static modbus_mapping_t *tables;

int select(int n, fd_set *r, fd_set *w, fd_set *e, struct timeval *t) {
    (void)n, (void)r, (void)w, (void)e, (void)t;
    return 1;
}

ssize_t recv(int fd, void *to, size_t n, int flags) {
    (void)fd, (void)flags;
    if (n > left) n = left;
    memcpy(to, arriving, n);
    arriving += n, left -= n;
    return (ssize_t)n;
}

ssize_t send(int fd, const void *from, size_t n, int flags) {
    (void)fd, (void)flags;
    memcpy(sent, from, n);
    sent_len = n;
    return (ssize_t)n;
}

ssize_t read(int fd, void *to, size_t n) { return recv(fd, to, n, 0); }
ssize_t write(int fd, const void *from, size_t n) { return send(fd, from, n, 0); }

#ifndef REPLY_ALONE
enum { REPLY_ALONE = 0 };
#endif

/* It has no ASCII, and its CRC cannot be called alone. On TCP it takes every unit number for its own; who is meant and
 * whether the check is right is the first call's question. */
static int serves(const struct row *row) {
    if (row->kind == TCP) return row->how == OURS;
    return row->kind == RTU && (row->how == OURS || row->how == BROADCAST || !REPLY_ALONE);
}

static int start(const struct row *row) {
    int cells = (int)row->cells;
    if (!serves(row)) return 0;
    context = row->kind == TCP ? modbus_new_tcp("127.0.0.1", 1502) : modbus_new_rtu("/dev/null", 9600, 'N', 8, 1);
    tables = modbus_mapping_new(cells, cells, cells, cells);
    if (!context || !tables || modbus_set_slave(context, UNIT) != 0) exit(2);
    modbus_set_socket(context, 900);               /* a number that nothing else has open */
    modbus_set_response_timeout(context, 0, 1); /* some refusals wait for that long */
    return 1;
}

static const uint8_t *reply(void) { return sent; }

static inline size_t serve(const struct row *row, const struct line *request) {
    (void)row;
    arriving = request->bytes, left = request->len, sent_len = 0;
    if (REPLY_ALONE) {
        modbus_reply(context, request->bytes, (int)request->len, tables);
        return sent_len;
    }
    int n = modbus_receive(context, received);
    if (n > 0) modbus_reply(context, received, n, tables);
    return sent_len;
}

static uint16_t crc(const uint8_t *bytes, size_t n) { return (void)bytes, (void)n, 0; }

#include "loop.h"
