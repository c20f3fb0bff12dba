/* Dalonjang: a proved Modbus server for firmware in C or C++. Link with libdalonjang.a (`make lib TARGET=..`).
 *
 * One call takes one whole request frame as it came over the line, serves it on four tables that you lend, and writes
 * the reply frame into a buffer that you lend. Two more calls collect an RTU frame from bytes as the UART brings them,
 * and serve it when the line is quiet. Five more help to find where a frame ends, give the CRC of an RTU frame, and turn
 * bytes into Modbus ASCII text and back. Five are for whoever asks: they build requests and read the replies.
 *
 * Slices. Every buffer is a pointer, then its length in bytes. A NULL with length 0 is an empty slice. A pointer need
 *   only be good for exactly that many bytes: nothing is read or written before or after them, and bytes need not be
 *   aligned; 16-bit values stand as uint16_t does. A slice that is `const` here is only read.
 * Overlap. In one call no lent buffer may overlap another. In particular the reply must not be written over the frame.
 *   The calls cannot see an overlap and do not refuse it.
 * State. There is none: no allocation, no static data, no input or output. Every call is reentrant and may run in any
 *   thread or interrupt, as long as nobody else uses the lent buffers meanwhile.
 * Stack. Leave 1.25 KiB for a call, and 2 for one that asks. dalonjang_drive takes the most: up to 900 bytes on
 *   cortex-m0, 800 on cortex-m3, 800 on cortex-m4, 800 on armv7, 800 on x86_64, 700 on aarch64; of those that ask
 *   dalonjang_generate_set: up to 1400 bytes on cortex-m0, 1350 on cortex-m3, 1350 on cortex-m4, 1250 on armv7, 1200 on
 *   x86_64, 1150 on aarch64; arguments that lie on the stack (at most 104) come on top. No recursion.
 * Interrupts. A call may be interrupted, and may be made in an interrupt that keeps what any C function may change. On
 *   a Cortex-M the processor does that by itself: no register of a floating point unit is touched. On x86-64 and ARM
 *   with Linux the vector registers are used, and on x86-64 the 128 bytes below the stack pointer (the red zone).
 * Linking. A library for each processor: x86_64, aarch64, armv7, cortex-m0, cortex-m3, cortex-m4 (docs/TARGETS.md).
 *   From outside it takes at most C's memcpy, memmove and memset, on a Cortex-M as __aeabi_memcpy, __aeabi_memmove and
 *   __aeabi_memclr4. It has no data to be initialized.
 * Every input is answered: a call never crashes, loops or needs anything of its arguments but the above.
 *
 * The rules are those of document 01 (docs/RULES.md); its numbers stand in the enumerators below.
 *
 * Example: 16 coils, 4 holding registers, no discretes and no inputs; then a line for each Modbus TCP frame of n bytes.
 *
 *     static uint8_t coils[2], holdings[8], reply[DALONJANG_REPLY_ROOM];
 *     static const uint8_t everyone[] = {0};
 *     static const struct dalonjang_unit gauge = {
 *         .setup = {.transport = DALONJANG_TCP, .unit = 1, .coil_cells = 16, .holding_cells = 4},
 *         .list = everyone, .list_len = sizeof everyone,
 *         .coils = coils, .coils_len = sizeof coils, .holdings = holdings, .holdings_len = sizeof holdings};
 *
 *     struct dalonjang_result r = dalonjang_serve(&gauge, frame, n, reply, sizeof reply);
 *     if (r.length > 0) send(reply, r.length);                     // the reply, or the exception to be sent back
 *     if (r.table == DALONJANG_HOLDINGS) redraw(holdings, r.first, r.count); // the cells that were written
 */
#ifndef DALONJANG_H
#define DALONJANG_H
#include <stddef.h>
#include <stdint.h>

#ifdef __cplusplus
extern "C" {
#endif

/* Of this header and the library that comes with it. A call that is there stays as it is within a major number. */
#define DALONJANG_VERSION "2.0.0"

/* How frames travel. Any other number is refused: 10 before all else. */
enum dalonjang_transport {
    DALONJANG_RTU = 0,   /* bytes, then the CRC, low byte first */
    DALONJANG_ASCII = 1, /* a colon, pairs of digits 0-9 A-F, the last pair the LRC, CR, LF */
    DALONJANG_TCP = 2    /* transaction, zero, length, then bytes without a check */
};

/* How the digits of ASCII text that comes in may be written; what goes out is always in capitals, and a reply to whoever
 * asks is read strictly. Any other number is refused: BAD_SETUP from the driver, whatever the transport, and OOB before
 * all else from the three calls that take it as `hex`. */
enum dalonjang_hex {
    DALONJANG_STRICT = 0, /* 0-9 and A-F, as the Modbus document and the crate have it; a-f is FRAME_BROKEN */
    DALONJANG_LENIENT = 1 /* a-f too, each digit in either case: the same text, and so the same request */
};

/* The least room for a reply; with less the outcome is DALONJANG_NO_ROOM, whatever the request. */
enum {
    DALONJANG_REPLY_ROOM = 260,      /* RTU and TCP */
    DALONJANG_REPLY_ROOM_ASCII = 511
};

/* The most cells that a table may have. */
#define DALONJANG_MOST_CELLS ((size_t)65536)

/* What became of a request. The first fault in the order BAD_SETUP, NO_ROOM, FRAME_BROKEN, FRAME_CHECK, FOREIGN,
 * BAD_FUNCTION, ILLEGAL_FUNCTION, broadcast read, WRONG_LENGTH, ILLEGAL_DATA_VALUE, ILLEGAL_DATA_ADDRESS decides.
 * Only ANSWERED and BROADCAST_DONE may have changed tables; only ANSWERED and EXCEPTION have a reply. */
enum dalonjang_outcome {
    DALONJANG_ANSWERED = 0,          /* served for our unit: send the reply. Code 0 */
    DALONJANG_BROADCAST_DONE = 1,    /* a write served for a broadcast number: no reply is sent. Code 0 */
    DALONJANG_EXCEPTION = 2,         /* refused with a code of 1 to 3: send the reply, it carries the code */
    DALONJANG_BROADCAST_IGNORED = 3, /* to a broadcast number: a read or 23 (code 0), or a fault with its code */
    DALONJANG_FOREIGN = 4,           /* for another unit. Code 0, as for all below */
    DALONJANG_FRAME_BROKEN = 5,      /* not the shape of a frame: length, header, digits, colon, CR LF */
    DALONJANG_FRAME_CHECK = 6,       /* the CRC or LRC is wrong */
    DALONJANG_WRONG_LENGTH = 7,      /* the length does not fit the function */
    DALONJANG_BAD_FUNCTION = 8,      /* function 128 to 255: no request */
    DALONJANG_NO_ROOM = 9,           /* the lent reply buffer is under 260 bytes, or 511 for ASCII */
    DALONJANG_BAD_SETUP = 10,        /* transport above 2, hex above 1, more than 65,536 cells, or a table too short
                                      * for its cells */
    DALONJANG_BAD_REQUEST = 11,      /* dalonjang_parse_response alone: what was sent is no request */
    DALONJANG_NOT_MY_REPLY = 12,     /* dalonjang_parse_response alone: no reply to this request */
    DALONJANG_NOTHING_HELD = 13      /* of dalonjang_quiet alone: no byte was held, and nothing is done */
};

/* The code of an exception, as the Modbus document numbers them. */
enum dalonjang_code {
    DALONJANG_NO_CODE = 0,
    DALONJANG_ILLEGAL_FUNCTION = 1,     /* a function below 128 that is none of the ten */
    DALONJANG_ILLEGAL_DATA_ADDRESS = 2, /* start + count is more than the cells of the table; of 23, in either range */
    DALONJANG_ILLEGAL_DATA_VALUE = 3    /* a count, byte count or coil value outside the Modbus document's limits */
};

/* A table that requests write, by the number of the function that reads it. */
enum dalonjang_table {
    DALONJANG_NO_TABLE = 0, /* no cell was written */
    DALONJANG_COILS = 1,
    DALONJANG_HOLDINGS = 3
};

/* What became of a request, and the cells that it wrote: `count` of them in `table`, from `first` on. A cell outside
 * these is the same before and after the call. Of function 23 they are what was written, not what was read. All three
 * are 0 after a read, and with every other outcome than ANSWERED and BROADCAST_DONE. */
struct dalonjang_result {
    size_t length;   /* bytes of reply to be sent; 0 unless outcome is ANSWERED or EXCEPTION */
    uint8_t outcome; /* enum dalonjang_outcome */
    uint8_t code;    /* enum dalonjang_code; 0 unless outcome is EXCEPTION or BROADCAST_IGNORED */
    uint8_t table;   /* enum dalonjang_table */
    uint16_t first;  /* the first cell written */
    uint16_t count;  /* how many, 1 to 1968 coils or 1 to 123 holdings; 0 where none was */
};

/* What a unit is, in numbers. What an initializer does not name is zero: RTU, unit 0, strict, a table without cells. */
struct dalonjang_setup {
    uint8_t transport; /* enum dalonjang_transport */
    uint8_t unit;      /* our unit number */
    uint8_t hex;       /* enum dalonjang_hex; of use on ASCII alone, but another number is refused on all three */
    size_t coil_cells, discrete_cells, holding_cells, input_cells; /* how many cells each table has, 0 to 65,536 */
};

/* Serves one request frame.
 *
 * The ten functions, by their numbers in the Modbus document:
 *   1, 2         read 1 to 2000 coils, discretes
 *   3, 4         read 1 to 125 holdings, inputs
 *   5, 6         write one coil, holding
 *   15, 16       write 1 to 1968 coils, 1 to 123 holdings
 *   22           masks one holding by A and B: its new value is (old & A) | (B & ~A); a write
 *   23           writes 1 to 121 holdings and then reads 1 to 125, both or nothing; to a broadcast number a read
 *
 * setup          the numbers above.
 * list           the broadcast numbers, mostly {0}; may be empty. The list wins: if our unit number stands in it, every
 *                request to us is a broadcast and none is answered.
 * coils, discretes
 *                one bit a cell: cell n is bit n % 8, lowest first, of byte n / 8. At least cells / 8 bytes, rounded
 *                up.
 * holdings, inputs
 *                two bytes a cell, high byte first. At least 2 x cells bytes. A table of 0 cells may be an empty slice.
 * frame          the frame, whole and as sent: RTU with its CRC, ASCII as text from the colon to CR LF, TCP with its
 *                header. Lengths outside the limits (RTU 4 to 256, ASCII 9 to 511, TCP 8 to 260) are FRAME_BROKEN.
 * reply          room for the reply, DALONJANG_REPLY_ROOM or DALONJANG_REPLY_ROOM_ASCII bytes or more.
 *
 * What is left behind:
 *   reply        the first `length` bytes are the reply frame, ready to be sent; all others are as you lent them. With
 *                length 0 the whole buffer is as lent.
 *   coils, holdings
 *                ANSWERED and BROADCAST_DONE of functions 5, 6, 15, 16, 22 and 23 store exactly the cells that the
 *                request names to be written, and the result names these, also where they held the same values before.
 *                Every other cell, and the spare bits and bytes after the last cell, stay; where the result names no
 *                table both are as lent.
 *   list, discretes, inputs, frame
 *                never written. */
struct dalonjang_result dalonjang_drive(struct dalonjang_setup setup, const uint8_t *list, size_t list_len,
    uint8_t *coils, size_t coils_len, const uint8_t *discretes, size_t discretes_len,
    uint8_t *holdings, size_t holdings_len, const uint8_t *inputs, size_t inputs_len,
    const uint8_t *frame, size_t frame_len, uint8_t *reply, size_t reply_len);

/* A unit as firmware keeps it: all that is the same for every frame. */
struct dalonjang_unit {
    struct dalonjang_setup setup;
    const uint8_t *list;
    size_t list_len;
    uint8_t *coils;
    size_t coils_len;
    const uint8_t *discretes;
    size_t discretes_len;
    uint8_t *holdings;
    size_t holdings_len;
    const uint8_t *inputs;
    size_t inputs_len;
};

/* That call for a unit, and nothing else. The unit itself is only read. */
static inline struct dalonjang_result dalonjang_serve(const struct dalonjang_unit *unit,
    const uint8_t *frame, size_t frame_len, uint8_t *reply, size_t reply_len) {
    return dalonjang_drive(unit->setup, unit->list, unit->list_len,
        unit->coils, unit->coils_len, unit->discretes, unit->discretes_len,
        unit->holdings, unit->holdings_len, unit->inputs, unit->inputs_len,
        frame, frame_len, reply, reply_len);
}

/* How the calls below answer, but for those that give a result, a reading or a CRC. Document 01 numbers more kinds; these calls give no others. */
enum dalonjang_kind {
    DALONJANG_KIND_VALUE = 0,        /* value holds */
    DALONJANG_KIND_NO_ROOM = 9,      /* the lent buffer is shorter than the frame */
    DALONJANG_KIND_BAD_SETUP = 10,   /* transport above 2 */
    DALONJANG_KIND_BAD_REQUEST = 11, /* nothing that may be asked */
    DALONJANG_KIND_OOB = 21,         /* more bytes are needed, or there is no room for them; or hex above 1 */
    DALONJANG_KIND_FRAME_BROKEN = 23 /* not the beginning of a frame, or not a digit */
};

struct dalonjang_answer {
    size_t value; /* 0 unless kind is VALUE */
    uint8_t kind; /* enum dalonjang_kind */
};

/* The bytes of a collector, in which an RTU frame is collected: uint8_t collector[DALONJANG_COLLECTOR] = {0}; all zero
 * is empty. A longer slice will do, of which the first 259 bytes are used. What stands in it is the two calls' own: how
 * many bytes are held, in two bytes, high first, and then those held. */
enum { DALONJANG_COLLECTOR = 259 };

/* Offers bytes as the UART brings them, in any groups, empty ones too. Good in an interrupt: its work is a copy, and it
 * reads and writes nothing but what is lent here.
 *
 * VALUE          how many bytes are held now, at most 257. An RTU frame has 256 at most: the 257th is held and makes it
 *                broken, and those after it are left out, until the line is quiet.
 * OOB            the collector is shorter than 259 bytes; it is as lent. */
struct dalonjang_answer dalonjang_offer(uint8_t *collector, size_t collector_len,
    const uint8_t *bytes, size_t bytes_len);

/* The line has been quiet long enough: the frame is closed and served, and the collector is empty.
 *
 * Not beside dalonjang_offer on the same collector: while this runs, no interrupt may offer bytes to it. Switch that
 * interrupt off, or use two collectors in turn: the interrupt offers to one while the other is served.
 *
 * NOTHING_HELD   no byte was held: nothing is done, every buffer is as lent, whatever the setup and the room. A
 *                collector too short holds nothing, nor does one with a count above 257, which no call leaves. No table
 *                is named.
 * BAD_SETUP      for a transport other than DALONJANG_RTU too.
 * all others     as dalonjang_drive of all the bytes that were offered since the line was quiet before, in a row, in
 *                whatever groups they came: the whole result, reply and tables. Too many bytes are FRAME_BROKEN.
 * Every outcome but NOTHING_HELD empties the collector, refusals included: its first two bytes are 0, and the rest
 * stays. */
struct dalonjang_result dalonjang_quiet(struct dalonjang_setup setup, const uint8_t *list, size_t list_len,
    uint8_t *coils, size_t coils_len, const uint8_t *discretes, size_t discretes_len,
    uint8_t *holdings, size_t holdings_len, const uint8_t *inputs, size_t inputs_len,
    uint8_t *collector, size_t collector_len, uint8_t *reply, size_t reply_len);

/* That call for a unit, and nothing else. */
static inline struct dalonjang_result dalonjang_serve_quiet(const struct dalonjang_unit *unit,
    uint8_t *collector, size_t collector_len, uint8_t *reply, size_t reply_len) {
    return dalonjang_quiet(unit->setup, unit->list, unit->list_len,
        unit->coils, unit->coils_len, unit->discretes, unit->discretes_len,
        unit->holdings, unit->holdings_len, unit->inputs, unit->inputs_len,
        collector, collector_len, reply, reply_len);
}

/* How long will the request be that begins with these bytes? For reading a line byte by byte.
 *
 * frame          what has come so far, as sent; more than is needed does no harm (on ASCII, if it is text too).
 * proto          enum dalonjang_transport.
 * hex            enum dalonjang_hex: whether a-f are digits of ASCII text. Another number is OOB before all else, also
 *                where proto is above 2.
 * VALUE          the length of the whole frame as sent, check, header and CR LF included; at most 255.
 * OOB            too little has come: RTU needs 2 bytes, 7 for functions 15 and 16; ASCII the colon and as many pairs;
 *                TCP 6. ASCII also where a digit stands alone, or 255 pairs are followed by anything.
 * FRAME_BROKEN   the frame would be longer than 255 (byte count above 246 on RTU, 118 on ASCII; TCP length above 249),
 *                the TCP protocol number is not zero, or an ASCII character is no digit.
 * BAD_SETUP      proto above 2.
 * An unknown function is guessed as six bytes between header and check. Nothing is written in any case.
 *
 * The guess is the crate's, and answers in a byte: dalonjang_drive takes longer frames than it does. Nor does the crate
 * know functions 22 and 23, whose guess is that of an unknown one: too short, since they have 8 bytes there, and 11 and
 * the byte count. So on TCP do not ask it: six bytes of header have come, and the frame is 6 and bytes 4 and 5, high
 * first; a number outside 2 to 254 there is no Modbus frame. On ASCII go to the LF: a line may have 511 characters. On
 * RTU the silence of the line ends a frame; there its limit costs only a write that is refused anyway (byte counts
 * above 246). */
struct dalonjang_answer dalonjang_guess_request_frame_len(const uint8_t *frame, size_t frame_len, uint8_t proto,
    uint8_t hex);

/* The same for a response, for whoever asks: functions 1 to 4 by the byte count in the third byte (at most 250 on RTU,
 * 122 on ASCII), an exception (function 128 and above) from two bytes on, all others from three bytes on. A function
 * below 128 that the crate does not know, so 22 and 23 too, is FRAME_BROKEN. Nothing is written in any case. */
struct dalonjang_answer dalonjang_guess_response_frame_len(const uint8_t *buf, size_t buf_len, uint8_t proto,
    uint8_t hex);

/* Turns Modbus ASCII text into bytes, all of a line or the next part of one.
 *
 * data           the text, data_size bytes of it, of which the first data_len are taken. A colon at the start is
 *                skipped; LF, CR or NUL ends the text.
 * frame_buf      where the bytes go, the first to frame_buf[frame_pos].
 * hex            enum dalonjang_hex: whether a-f are digits. Another number is OOB before all else, frame_buf as lent.
 * VALUE          how many bytes were written.
 * OOB            no data; data_len beyond data_size and no end before; a digit alone at the end of the data; no room in
 *                frame_buf; or position 255 reached with text left (looked at before the text's end is).
 * FRAME_BROKEN   a character that is no digit, also as the second of a pair.
 * In every case, refusals included, the bytes decoded so far stand in frame_buf and its other bytes are as lent. */
struct dalonjang_answer dalonjang_parse_ascii_frame(const uint8_t *data, size_t data_size, size_t data_len,
    uint8_t *frame_buf, size_t frame_buf_len, uint8_t frame_pos, uint8_t hex);

/* Turns bytes (the LRC among them) into a line of Modbus ASCII: a colon, a pair of digits for each, CR, LF.
 *
 * VALUE          the length of the line, 2 x data_len + 3. The rest of result is as lent.
 * OOB            result is shorter than that; it is filled with as much of the line as it holds. */
struct dalonjang_answer dalonjang_generate_ascii_frame(const uint8_t *data, size_t data_len,
    uint8_t *result, size_t result_len);

/* The CRC of the first data_length bytes of frame, or of all where it has fewer. For whoever has to know whether what
 * came so far is a whole RTU frame, as on a line where pauses do not tell; the calls that serve look at it themselves.
 * Of n bytes, 4 to 256, the last two must be the CRC of those before, low byte first:
 *
 *     uint16_t crc = dalonjang_calc_crc16(frame, n, n - 2);
 *     int whole = frame[n - 2] == (crc & 0xFF) && frame[n - 1] == crc >> 8;
 *
 * Of more than 255 bytes the CRC cannot be asked. That of none is 0xFFFF. Nothing is written. */
uint16_t dalonjang_calc_crc16(const uint8_t *frame, size_t frame_len, uint8_t data_length);

/* The asking side. A request is built into a buffer that you lend, and its reply is read against that very frame: keep
 * it until the reply has come. Values are 16-bit numbers, one a cell, a coil 0 or 1.
 *
 * Example: holdings 0 to 3 of unit 1 over TCP.
 *
 *     struct dalonjang_request to = {.tr_id = 7, .unit_id = 1, .proto = DALONJANG_TCP};
 *     uint8_t asked[DALONJANG_REPLY_ROOM];
 *     uint16_t values[4];
 *     struct dalonjang_answer a = dalonjang_generate_get(to, 3, 0, 4, asked, sizeof asked);
 *     if (a.kind == DALONJANG_KIND_VALUE) send(asked, a.value);
 *     // and when n bytes have come back in reply:
 *     struct dalonjang_reading r = dalonjang_parse_response(to.proto, asked, a.value, reply, n, values, 4);
 *     if (r.outcome == DALONJANG_ANSWERED) use(values, r.count);
 */

/* Whom to ask, and how. Every unit number may be asked; from a broadcast number no reply comes. */
struct dalonjang_request {
    uint16_t tr_id;  /* the transaction number, on TCP alone */
    uint8_t unit_id; /* the unit that is asked */
    uint8_t proto;   /* enum dalonjang_transport */
};

/* Builds a request that reads.
 *
 * func           1 coils, 2 discretes, 3 holdings, 4 inputs.
 * reg, count     the first cell, and how many: 1 to 2000 for 1 and 2, 1 to 125 for 3 and 4.
 * request        where the frame goes. VALUE is its length, and the bytes behind it are as lent.
 * BAD_REQUEST    proto above 2, another function, a count outside its limits, or a cell beyond 65,535.
 * NO_ROOM        request is shorter than this frame: 8 bytes on RTU, 17 on ASCII, 12 on TCP.
 * A refusal leaves all of request as lent. */
struct dalonjang_answer dalonjang_generate_get(struct dalonjang_request to, uint8_t func, uint16_t reg, uint16_t count,
    uint8_t *request, size_t request_len);

/* The same for a request that writes.
 *
 * func           5 one coil, 6 one holding, 15 coils, 16 holdings.
 * values, count  one value for 5 and 6; 1 to 1968 for 15 and 1 to 123 for 16. A coil's value above 1 is BAD_REQUEST.
 * The longest frames, of 15 and 16: 255 bytes on RTU, 511 on ASCII, 259 on TCP. Pad bits are zero. */
struct dalonjang_answer dalonjang_generate_set(struct dalonjang_request to, uint8_t func, uint16_t reg,
    const uint16_t *values, size_t count, uint8_t *request, size_t request_len);

/* The same for function 22, which flips single bits of a holding: its new value is (old & and_mask) | (or_mask &
 * ~and_mask). A bit keeps its value where and_mask has a one, and takes or_mask's elsewhere.
 *
 * reg            the holding. Every holding and every mask may be asked: BAD_REQUEST is for proto above 2 alone.
 * NO_ROOM        request is shorter than 10 bytes on RTU, 21 on ASCII, 14 on TCP. */
struct dalonjang_answer dalonjang_generate_mask(struct dalonjang_request to, uint16_t reg, uint16_t and_mask,
    uint16_t or_mask, uint8_t *request, size_t request_len);

/* The same for function 23, which reads holdings after it has written some, in one request.
 *
 * reg, count     the first holding to be read, and how many: 1 to 125.
 * write_reg, values, write_count
 *                the first holding to be written, and its values: 1 to 121. Where both ranges share a holding, what is
 *                read there is what was written.
 * BAD_REQUEST    proto above 2, a count outside its limits, or a cell beyond 65,535 in either range.
 * The longest frame: 255 bytes on RTU, 511 on ASCII, 259 on TCP. */
struct dalonjang_answer dalonjang_generate_set_get(struct dalonjang_request to, uint16_t reg, uint16_t count,
    uint16_t write_reg, const uint16_t *values, size_t write_count, uint8_t *request, size_t request_len);

/* What a reply says. */
struct dalonjang_reading {
    size_t count;    /* how many values were read; 0 after a write alone, and with every other outcome than 0 */
    uint8_t outcome; /* enum dalonjang_outcome: 0 ANSWERED, 2 EXCEPTION, or a refusal */
    uint8_t code;    /* the exception's code, 1 to 255; else 0 */
};

/* Reads a reply against the request's own frame.
 *
 * proto          enum dalonjang_transport.
 * request        the frame as it was sent.
 * response       the reply's frame, whole and as it came.
 * values         room for the values, which go to its front; a write needs none.
 * ANSWERED       the reply is of this transaction and unit and answers this request: `count` values are the cells'
 *                contents as the server sent them, of 23 after its write. After a write: its echo came, of 22 all 8
 *                bytes, and count is 0.
 * EXCEPTION      the unit refused this request, with `code`.
 * The first of these decides, and nothing is written:
 * BAD_REQUEST    proto above 2, or `request` is no frame of a request that dalonjang_generate_.. builds.
 * NO_ROOM        values_len is below the count asked for, whatever the reply is.
 * FRAME_BROKEN, FRAME_CHECK
 *                the reply is no frame of this transport, or its CRC or LRC is wrong.
 * NOT_MY_REPLY   another transaction, unit, function, byte count, length or echo, or an exception with code 0. */
struct dalonjang_reading dalonjang_parse_response(uint8_t proto, const uint8_t *request, size_t request_len,
    const uint8_t *response, size_t response_len, uint16_t *values, size_t values_len);

#ifdef __cplusplus
}
#endif
#endif
