/* fuzz_ask [N [SEED]]: N random calls of the asking side (1,000,000 if not said): requests on both sides of every limit
 * into buffers of every length; replies that are right, of another transaction, unit, function, byte count or echo, cut,
 * damaged, and plain noise, into room for any number of values. After each call it is checked
 *   - that nothing outside the lent buffers was touched: every buffer stands against a page that cannot be,
 *   - what the header promises of every call, without asking what the right answer is,
 *   - that answer, frame and values are those of the model, document 02's asking side written plainly.
 * Every frame that was built is then served and its reply read: the values are the cells' contents.
 * Status: 0 all right and, from 100,000 calls on, every answer came up; 1 a difference; 2 wrong arguments. */
#include "fuzz_ask_draw.h"

static const char *const buffer_name[BUFFERS] = {"request", "response", "values"};
/* GET stands for SET as well. */
static const struct { int call; uint8_t kind; const char *name; } answers[] = {
    {GET, 0, "built"}, {GET, 9, "no room for the frame"}, {GET, 11, "bad request"}, {MASK, 0, "mask built"},
    {MASK, 9, "no room for a mask"}, {MASK, 11, "bad mask"}, {SET_GET, 0, "exchange built"},
    {SET_GET, 9, "no room for an exchange"}, {SET_GET, 11, "bad exchange"}, {READ, 0, "answered"},
    {READ, 2, "exception"}, {READ, 5, "frame broken"}, {READ, 6, "frame check"}, {READ, 9, "no room for values"},
    {READ, 11, "no request was sent"}, {READ, 12, "not my reply"}};
enum { ANSWERS = sizeof answers / sizeof answers[0] };

static uint8_t before[BUFFERS][ROOM], expected[BUFFERS][ROOM];
static unsigned long seed = 1, count[ANSWERS];

/* --- what must hold ------------------------------------------------------------------------------------------------ */

static void different(const char *what, const struct told *t) {
    static const char *const name[] = {"get", "set", "", "mask", "set_get"};
    printf("different at call %lu (seed %lu): %s\n  %s%s, transport %u, unit %u, transaction %u, function %u, reg %u, "
           "count %u, masks %u %u, write_reg %u, %zu values", number, seed, what,
           call.call == READ ? "parse_response" : "generate_", name[call.call], call.to.proto, call.to.unit_id,
           call.to.tr_id, call.func, call.reg, call.count, call.and_mask, call.or_mask, call.write_reg, call.values_len);
    if (t != NULL) printf("; answer %u, code %u, %zu", t->kind, t->code, t->n);
    for (int i = 0; i < BUFFERS; i++) {
        print_bytes(buffer_name[i], before[i], buffer(&call, i).len);
        if (t != NULL) print_bytes("  after", buffer(&call, i).bytes, buffer(&call, i).len);
    }
    puts("");
    fflush(stdout);
    _exit(1);
}

static void touched(const char *what) { different(what, NULL); }

/* What the header promises of every call. */
static const char *broken_promise(struct told t) {
    int written = call.call == READ ? VALUES : REQUEST;
    size_t front = t.kind != 0 ? 0 : call.call == READ ? 2 * t.n : t.n;
    for (int i = 0; i < BUFFERS; i++) {
        struct slice s = buffer(&call, i);
        size_t from = i == written ? front : 0;
        if (s.bytes != NULL && !margin_untouched(s.bytes, s.len, number)) return "bytes beside a lent buffer changed";
        if (from > s.len) return "a length that cannot be";
        if (s.len > 0 && memcmp(s.bytes + from, before[i] + from, s.len - from) != 0)
            return "a byte changed that must not";
    }
    if (t.kind != 0 && t.n != 0) return "a length with a refusal";
    if (call.call == READ ? (t.kind == 2) != (t.code != 0) : t.code != 0) return "a code that cannot be";
    return NULL;
}

static void check(struct told t) {
    const char *broken = broken_promise(t);
    if (broken != NULL) different(broken, &t);
    struct asking a = call;
    for (int i = 0; i < BUFFERS; i++) memcpy(expected[i], before[i], buffer(&call, i).len);
    a.request.bytes = expected[REQUEST], a.response.bytes = expected[RESPONSE];
    a.values = (uint16_t *)(void *)expected[VALUES];
    struct told e = model_ask(&a);
    if (t.kind != e.kind || t.code != e.code || t.n != e.n) {
        printf("model: answer %u, code %u, %zu\n", e.kind, e.code, e.n);
        different("not the model's answer", &t);
    }
    for (int i = 0; i < BUFFERS; i++)
        if (buffer(&call, i).len > 0 && memcmp(expected[i], buffer(&call, i).bytes, buffer(&call, i).len) != 0) {
            print_bytes("model's", expected[i], buffer(&call, i).len);
            puts("");
            different("not the model's bytes", &t);
        }
}

/* --- what was built, served and read back -------------------------------------------------------------------------- */

static uint8_t table[TABLES][131072]; /* of a unit that has every cell */

static size_t cell(int tab, size_t at) {
    return tab == COILS || tab == DISCRETES ? table[tab][at / 8] >> at % 8 & 1u : word(table[tab] + 2 * at);
}

/* The frame is served, and the reply read into `shown`; answers how many values. */
static size_t exchanged(size_t len, uint16_t *shown) {
    static uint8_t reply[511];
    const struct asked served = {
        .setup = {.transport = call.to.proto, .unit = call.to.unit_id, .hex = (uint8_t)below(2), .coil_cells = 65536,
                  .discrete_cells = 65536, .holding_cells = 65536, .input_cells = 65536},
        .table = {[COILS] = {table[COILS], 8192}, [DISCRETES] = {table[DISCRETES], 8192},
                  [HOLDINGS] = {table[HOLDINGS], 131072}, [INPUTS] = {table[INPUTS], 131072}},
        .frame = {call.request.bytes, len}, .reply = {reply, sizeof reply}};
    struct dalonjang_result r = drive(&served);
    struct asking a = {.call = READ, .to = call.to, .request = {call.request.bytes, len}, .response = {reply, r.length},
        .values = shown, .values_len = 2000};
    struct told t = ask(&a);
    if (r.outcome != DALONJANG_ANSWERED || t.kind != 0) different("what was built is not served and read", &t);
    return t.n;
}

/* A read shows the cells as they are then, a write was stored, a mask has left and set its bits. */
static void read_back(size_t len) {
    static uint16_t shown[2000];
    static int filled;
    if (!filled++)
        for (int t = 0; t < TABLES; t++) random_bytes(table[t], sizeof table[t]);
    int tab = call.func == 2 ? DISCRETES : call.func == 4 ? INPUTS
              : call.func == 1 || call.func == 5 || call.func == 15 ? COILS : HOLDINGS;
    size_t old = cell(HOLDINGS, call.reg), seen = call.call == GET || call.call == SET_GET ? call.count : 0;
    size_t first = call.call == SET_GET ? call.write_reg : call.reg;
    if (exchanged(len, shown) != seen) different("another number of values is read back", NULL);
    for (size_t i = 0; i < seen; i++)
        if (cell(tab, call.reg + i) != shown[i]) different("a cell is not what is read", NULL);
    for (size_t i = 0; i < call.values_len; i++)
        if (cell(tab, first + i) != call.values[i]) different("a cell is not what is written", NULL);
    size_t masked = (old & call.and_mask) | (call.or_mask & ~(size_t)call.and_mask);
    if (call.call == MASK && cell(HOLDINGS, call.reg) != masked) different("a cell is not what its mask leaves", NULL);
}

int main(int argc, char **argv) {
    unsigned long calls = argc > 1 ? strtoul(argv[1], NULL, 10) : 1000000;
    if (argc > 2) seed = strtoul(argv[2], NULL, 10);
    if (calls == 0 || argc > 3) {
        fputs("usage: fuzz_ask [N [SEED]]\n", stderr);
        return 2;
    }
    chance_state = seed;
    watch_fences(touched);
    for (int i = 0; i < BUFFERS; i++) room[i] = fenced();
    for (number = 0; number < calls; number++) {
        call = (struct asking){.to = {(uint16_t)chance(), (uint8_t)chance(), (uint8_t)below(3)}};
        if (percent(1)) call.to.proto = (uint8_t)PICK(3, 4, 128, 255);
        size_t draw = below(100);
        if (draw < 30) random_build();
        else if (draw < 34) random_mask();
        else if (draw < 42) random_exchange();
        else random_reading();
        for (int i = 0; i < BUFFERS; i++)
            if (buffer(&call, i).len > 0) memcpy(before[i], buffer(&call, i).bytes, buffer(&call, i).len);
        struct told t = ask(&call);
        check(t);
        if (call.call != READ && t.kind == 0) read_back(t.n);
        for (int k = 0; k < ANSWERS; k++)
            count[k] += answers[k].call == (call.call == SET ? GET : (int)call.call) && answers[k].kind == t.kind;
        for (int i = 0; i < BUFFERS; i++)
            if (buffer(&call, i).len > 0) memset(buffer(&call, i).bytes, UNTOUCHED, buffer(&call, i).len);
    }
    printf("%lu calls of the asking side, all as model and header say:", calls);
    for (int k = 0; k < ANSWERS; k++) printf("%s %s %lu", k == 0 ? "" : ",", answers[k].name, count[k]);
    puts("");
    for (int k = 0; k < ANSWERS; k++)
        if (count[k] == 0 && calls >= 100000) {
            printf("the answer \"%s\" never came up\n", answers[k].name);
            return 1;
        }
    return 0;
}
