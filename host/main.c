/* dalonjang-server: a Modbus server around the proved driver. One thread; a round waits for whatever comes first, hears
 * every client and line, saves the image if cells were written, only then sends the replies, and then lets new clients
 * in. */
#include "basics.h"
#include "line.h"
#include "options.h"
#include "raw.h"
#include "station.h"
#include "tcp.h"
#include <signal.h>
#include <sys/resource.h>

enum { SPARE_DESCRIPTORS = 24 }; /* for the standard streams, log, image, listeners */

struct host {
    struct station station;
    struct tcp tcp;
    struct line line[MOST_LINES];
    size_t lines;
    struct voice log; /* where it is a file */
    int wake; /* readable once the host shall end */
};

static int wake_up; /* the other end of `wake`, for the handler */

static void on_signal(int signal_number) {
    int before = errno;
    ssize_t written = write(wake_up, "", 1);
    (void)signal_number, (void)written; /* none, where the pipe is full: then it is awake already */
    errno = before;
}

static int watch_signals(struct host *h) {
    int ends[2];
    if (pipe(ends) != 0) return 0;
    h->wake = ends[0];
    wake_up = ends[1];
    signal(SIGPIPE, SIG_IGN);
    signal(SIGXFSZ, SIG_IGN); /* a file that must not grow is an error like a full disk */
    return signal(SIGINT, on_signal) != SIG_ERR && signal(SIGTERM, on_signal) != SIG_ERR;
}

/* --- start and end ------------------------------------------------------------------------------------------------ */

static int open_log(struct host *h, const char *path) {
    h->log.fd = -1;
    if (path == NULL) return 1;
    h->station.log = strcmp(path, "-") == 0 ? &to_output : &h->log;
    if (h->station.log == &to_output || voice_open(&h->log, path)) return 1;
    complain("the log %s cannot be written: %s", path, strerror(errno));
    return 0;
}

/* The image first, then the text over it, which the image is to have as well. */
static int fill_tables(struct station *s, const struct options *o) {
    if (o->image != NULL && !image_open(&s->image, o->image, s->table)) return 0;
    if (o->import != NULL && !tables_import(o->import, s->table)) return 0;
    for (int t = 0; t < TABLES; t++) s->unsaved[t].to = o->import != NULL ? s->table[t].len : 0;
    return station_keep(s);
}

/* Descriptors must not run out later: a client could then not be let in, nor an image saved. */
static int enough_descriptors(const struct options *o) {
    struct rlimit most;
    size_t needed = (o->no_tcp ? 0 : o->clients) + o->lines + SPARE_DESCRIPTORS;
    if (getrlimit(RLIMIT_NOFILE, &most) != 0 || most.rlim_cur >= needed) return 1;
    complain("--clients %zu needs %zu open files, and only %zu are allowed (ulimit -n)", o->clients, needed,
        (size_t)most.rlim_cur);
    return 0;
}

static int begin(struct host *h, struct options *o) {
    struct station *s = &h->station;
    if (!enough_descriptors(o)) return 0;
    if (!station_open(s, o) || !watch_signals(h)) {
        complain("%s", strerror(errno));
        return 0;
    }
    if (!open_log(h, o->log) || !fill_tables(s, o)) return 0;
    if (o->export) return 1;
    if (o->raw != NULL && !raw_open(o->raw)) return 0;
    for (; h->lines < o->lines; h->lines++)
        if (!line_open(&h->line[h->lines], s, o, h->lines)) return 0;
    return tcp_open(&h->tcp, s, o);
}

/* The first lines: where it listens, and a command to try. */
static void announce(const struct host *h, const struct options *o) {
    char text[2048];
    size_t len = 0;
#define ADD(...) (len += (size_t)snprintf(text + len, sizeof text - len, __VA_ARGS__))
    for (size_t i = 0; i < h->tcp.listeners; i++)
        voice_line(&to_output, "dalonjang: Modbus TCP on %s", h->tcp.listener[i].name);
    for (size_t i = 0; i < h->lines; i++)
        voice_line(&to_output, "dalonjang: serial line %s, %zu baud", h->line[i].port.name, o->baud);
    ADD("unit %zu, broadcast", o->unit);
    for (size_t i = 0; i < o->list_len; i++) ADD("%s%u", i == 0 ? " " : ",", o->list[i]);
    ADD("%s; cells:", o->list_len == 0 ? " none" : "");
    for (int t = 0; t < TABLES; t++) ADD(" %zu %s%s", o->cells[t], table_name[t], t + 1 < TABLES ? "," : "");
    voice_line(&to_output, "%s%s%s", text, o->image != NULL ? "; image " : "", o->image != NULL ? o->image : "");
    if (h->tcp.for_all)
        voice_line(&to_output, "note: whoever reaches this machine can read and write; Modbus has no passwords");
    const char *first = "-t 4 -r 1 -c 4 -1"; /* the first four holdings, once */
    const char *address = strcmp(o->address, "0.0.0.0") == 0 || strcmp(o->address, "::") == 0 ? "127.0.0.1" : o->address;
    if (!o->no_tcp)
        voice_line(&to_output, "try: mbpoll -m tcp -p %zu -a %zu %s %s", o->port, o->unit, first, address);
    else if (o->line[0].transport == DALONJANG_RTU)
        voice_line(&to_output, "try, at the other end: mbpoll -m rtu -b %zu -a %zu %s DEVICE", o->baud, o->unit, first);
    voice_line(&to_output, "Control-C ends it.");
}

static void end(struct host *h) {
    const char *comma = "";
    char text[1024];
    size_t len = 0;
    tcp_close(&h->tcp);
    for (size_t i = 0; i < h->lines; i++)
        if (h->line[i].fd >= 0) close(h->line[i].fd);
    text[0] = 0;
    for (int i = 0; i < OUTCOMES; i++) {
        if (h->station.served[i] == 0) continue;
        ADD("%s %lu %s", comma, h->station.served[i], outcome_name[i]);
        comma = ",";
    }
    voice_line(&to_output, "ended; frames served:%s", len == 0 ? " none" : text);
}

/* Whatever was said is out, if anybody takes it, and the image closed. */
static int finish(struct host *h, int status) {
    image_close(&h->station.image);
    raw_close();
    voice_end(&h->log);
    voice_end(&to_output);
    voice_end(&to_errors);
    return status;
}

/* --- the rounds --------------------------------------------------------------------------------------------------- */

static int timeout(const struct host *h, int64_t now) {
    int64_t due = tcp_due(&h->tcp, now);
    for (size_t i = 0; i < h->lines; i++) due = earlier(due, line_due(&h->line[i]));
    return due == NEVER ? -1 : due <= now ? 0 : (int)earlier(due - now, 60000);
}

/* Answers -1 to go on, or the status to end with. */
static int one_round(struct host *h) {
    struct pollfd fds[1 + 3 + MOST_LINES + MOST_LISTENERS + MOST_CLIENTS];
    struct voice *const voices[] = {&to_output, &to_errors, &h->log};
    struct pollfd *lines = fds + 4, *tcp = lines + h->lines;
    int64_t now = clock_ms();
    fds[0] = (struct pollfd){h->wake, POLLIN, 0};
    for (int i = 0; i < 3; i++) fds[1 + i] = voice_wants(voices[i]);
    for (size_t i = 0; i < h->lines; i++) lines[i] = line_wants(&h->line[i]);
    size_t count = 4 + h->lines + tcp_wants(&h->tcp, tcp, now);
    if (poll(fds, count, timeout(h, now)) < 0) return errno == EINTR ? -1 : 1;
    if (fds[0].revents != 0) return 0;
    now = clock_ms();
    for (int i = 0; i < 3; i++)
        if (fds[1 + i].revents != 0) voice_push(voices[i]);
    for (size_t i = 0; i < h->lines; i++) line_hear(&h->line[i], lines[i].revents, &h->station, now);
    tcp_hear(&h->tcp, tcp, &h->station, now);
    if (!station_keep(&h->station)) return 1; /* nobody is told that a write is done which is not kept */
    for (size_t i = 0; i < h->lines; i++) line_answer(&h->line[i], &h->station, now);
    tcp_answer(&h->tcp, &h->station, now);
    tcp_welcome(&h->tcp, tcp, &h->station, now);
    return -1;
}

static int export(const struct station *s) {
    tables_export(stdout, s->table);
    if (fflush(stdout) == 0 && !ferror(stdout)) return 0;
    complain("standard output cannot be written: %s", strerror(errno));
    return 1;
}

int main(int argc, char **argv) {
    static struct host host = {.log = {.fd = -1}};
    struct options options;
    voices_open();
    int status = options_read(&options, argc, argv);
    if (status < 0 && !begin(&host, &options)) status = 1;
    else if (status < 0 && options.export) status = export(&host.station);
    else if (status < 0) {
        announce(&host, &options);
        while (status < 0) status = one_round(&host);
        end(&host);
    }
    return finish(&host, status);
}
