/* The program around a server under measure. What includes this file has defined
 *     start(row)        makes the server ready, with tables of row->cells cells; 0 if it has no such call
 *     serve(row, line)  one request; the reply's length
 *     reply()           where the last reply stands
 *     crc(bytes, n)     the server's CRC
 * and, where it has a collector, COLLECTS and
 *     take(bytes, n)    bytes offered; how many are held then
 *     hold(n)           n bytes are held, which stand there already
 *     close()           the line is quiet; the reply's length
 * and, where ASKS is defined, of its asking side
 *     ready(row)        what is asked is known; as a client keeps it
 *     build(row)        one request; its length, at `built`
 *     hear(row, reply)  that request's reply; how many values it shows, at `heard`
 *
 * Standard input has a line for each row: rtu, ascii, tcp, crc, offer or quiet; ours, foreign, broadcast, spoilt, small,
 * built or heard; then function, start, count and cells. A row's request is made once and its reply compared, with a
 * write read back. Then it is made FEW times between two calls of
 * bench_mark, and twice as often between two more: whoever counts instructions divides the difference by FEW. Where
 * the server has no such call, nothing is between the marks.
 * Status: 0 all was as it must be, 1 a wrong reply or CRC, 2 a line that is no row. */
#include <stdio.h>
#include <stdlib.h>
#include <string.h>

enum { FEW = 4 };

void bench_mark(void);
__attribute__((noinline)) void bench_mark(void) { __asm__ volatile("" ::: "memory"); }

/* The server's answer to row is the right one. */
static void try_one(const struct row *row) {
    struct line request = request_of(row), wanted = reply_of(row);
    size_t n = serve(row, &request);
    if (n == wanted.len && memcmp(reply(), wanted.bytes, n) == 0) return;
    printf("wrong reply to function %zu, start %zu, count %zu: %zu bytes, where %zu are right\n",
        row->function, row->start, row->count, n, wanted.len);
    exit(1);
}

/* The same cells by another function; in one request, or in two. */
static void try_cells(const struct row *row, size_t function, size_t most) {
    struct row part = *row;
    part.how = OURS;
    part.function = function;
    part.count = row->count < most ? row->count : most;
    try_one(&part);
    part.start += part.count;
    part.count = row->count - part.count;
    if (part.count > 0) try_one(&part);
}

/* The cells that function 23 reads and does not write. */
static void try_kept(const struct row *row) {
    struct row kept = *row;
    kept.start += row->count - KEPT;
    kept.count = KEPT;
    try_cells(&kept, 16, KEPT);
}

static void try_row(const struct row *row) {
    int bits = row->function == 1 || row->function == 5 || row->function == 15;
    int done = row->how == OURS || row->how == SMALL || row->how == BROADCAST, reads = row->function < 5;
    int inside = done && row->count > 0 && row->start + row->count <= row->cells;
    if (inside && reads) try_cells(row, bits ? 15 : 16, bits ? 1000 : 100);
    if (inside && row->function == 23) try_kept(row);
    try_one(row);
    if (inside && !reads) try_cells(row, bits ? 1 : 3, bits ? 2000 : 125);
}

/* The same instructions for both numbers of calls. */
__attribute__((noinline)) static void make_calls(const struct row *row, const struct line *request, int calls) {
    bench_mark();
    for (int i = 0; i < calls; i++) serve(row, request);
    bench_mark();
}

__attribute__((noinline)) static void make_checks(const uint8_t *bytes, size_t n, int calls) {
    volatile uint16_t sum;
    bench_mark();
    for (int i = 0; i < calls; i++) sum = crc(bytes, n);
    bench_mark();
    (void)sum;
}

static void measure_row(const struct row *row) {
    static struct line request;
    try_row(row);
    request = request_of(row);
    make_calls(row, &request, FEW);
    make_calls(row, &request, 2 * FEW);
}

static void measure_crc(const struct row *row) {
    static uint8_t bytes[256];
    for (size_t i = 0; i < sizeof bytes; i++) bytes[i] = (uint8_t)(i * 37 + 11);
    if (crc(bytes, row->count) != plain_crc(bytes, row->count)) puts("wrong CRC"), exit(1);
    make_checks(bytes, row->count, FEW);
    make_checks(bytes, row->count, 2 * FEW);
}

#ifdef ASKS
__attribute__((noinline)) static void make_requests(const struct row *row, int calls) {
    bench_mark();
    for (int i = 0; i < calls; i++) build(row);
    bench_mark();
}

__attribute__((noinline)) static void make_readings(const struct row *row, const struct line *reply, int calls) {
    bench_mark();
    for (int i = 0; i < calls; i++) hear(row, reply);
    bench_mark();
}

/* The frame is the right one, and so are the values of a right reply. */
static void measure_asking(const struct row *row) {
    static struct line wanted, answer;
    wanted = request_of(row);
    ready(row);
    if (build(row) != wanted.len || memcmp(built, wanted.bytes, wanted.len) != 0) puts("a wrong request"), exit(1);
    struct row served = *row;
    served.how = OURS;
    answer = reply_of(&served);
    if (row->how == HEARD && hear(row, &answer) != row->count) puts("a reply is not read"), exit(1);
    for (size_t i = 0; row->how == HEARD && i < row->count; i++)
        if (heard[i] != value_of(row, i)) puts("a wrong value"), exit(1);
    for (int calls = FEW; calls <= 2 * FEW; calls *= 2)
        if (row->how == BUILT) make_requests(row, calls);
        else make_readings(row, &answer, calls);
}
#else
static void measure_nothing(void);
static void measure_asking(const struct row *row) { (void)row, measure_nothing(); }
#endif

static int place_of(const char *word, const char *const words[], int many) {
    int n = 0;
    while (n < many && strcmp(word, words[n]) != 0) n++;
    return n;
}

static void measure_nothing(void) {
    for (int i = 0; i < 4; i++) bench_mark();
}

#ifdef COLLECTS
__attribute__((noinline)) static void make_offers(const uint8_t *bytes, size_t n, int calls) {
    volatile size_t held;
    hold(0);
    bench_mark();
    for (int i = 0; i < calls; i++) held = take(bytes, n);
    bench_mark();
    if (held != n * (size_t)calls) puts("a wrong number is held"), exit(1);
}

__attribute__((noinline)) static void make_quiets(size_t n, int calls) {
    bench_mark();
    for (int i = 0; i < calls; i++) hold(n), close();
    bench_mark();
}

static void measure_collector(const struct row *row) {
    static struct line request;
    struct row whole = *row;
    whole.kind = RTU;
    request = request_of(&whole);
    if (row->kind == OFFER) {
        make_offers(request.bytes, row->count, FEW);
        make_offers(request.bytes, row->count, 2 * FEW);
        return;
    }
    struct line wanted = reply_of(&whole);
    try_row(&whole);
    hold(0);
    take(request.bytes, request.len);
    if (close() != wanted.len || memcmp(reply(), wanted.bytes, wanted.len) != 0) puts("wrong reply"), exit(1);
    make_quiets(request.len, FEW);
    make_quiets(request.len, 2 * FEW);
}
#else
static void measure_collector(const struct row *row) {
    (void)row;
    measure_nothing();
}
#endif

int main(void) {
    static const char *const kinds[] = {"rtu", "ascii", "tcp", "crc", "offer", "quiet"};
    static const char *const hows[] = {"ours", "foreign", "broadcast", "spoilt", "small", "built", "heard"};
    _Alignas(PAGE) char kind[8]; /* so the stack is at the same place in a page whatever the environment */
    char how[16];
    struct row row = {0};
    int n;
    while ((n = scanf("%7s %15s %zu %zu %zu %zu", kind, how, &row.function, &row.start, &row.count, &row.cells)) == 6) {
        row.kind = place_of(kind, kinds, QUIET + 1);
        row.how = place_of(how, hows, HEARD + 1);
        if (row.kind > QUIET || row.how > HEARD || row.count > 2000 || (row.kind == CRC && row.count > 255)) return 2;
        if (row.kind == OFFER && row.count > 256 / (2 * FEW)) return 2;
        row.turn++;
        if (!start(&row)) {
            measure_nothing();
        } else if (row.how >= BUILT) {
            measure_asking(&row);
        } else if (row.kind == CRC) {
            measure_crc(&row);
        } else if (row.kind > CRC) {
            measure_collector(&row);
        } else {
            measure_row(&row);
        }
    }
    return n == EOF ? 0 : 2;
}
