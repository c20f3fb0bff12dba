/* The header's other five calls: both guesses, ASCII text to bytes and back, and the CRC. */
#include "kat.h"
#include <string.h>

static const struct {
    const char *name, *text;
    uint8_t proto, hex, kind;
    size_t value;
} requests[] = {
    {"request, no bytes", "", 0, 0, 21, 0},
    {"request, 1 byte", "01", 0, 0, 21, 0},
    {"request of 3", "01 03", 0, 0, 0, 8},
    {"request of 16", "11 10 0000 0002 04", 0, 0, 0, 13},
    {"request of 16, 6 bytes", "11 10 0000 0002", 0, 0, 21, 0},
    {"request of 15, byte count 246", "01 0F 0000 0001 F6", 0, 0, 0, 255},
    {"request of 15, byte count 247", "01 0F 0000 0001 F7", 0, 0, 23, 0},
    {"request of 22, which the crate does not know", "01 16 0002 00F2 0025 EFEE", 0, 0, 0, 8},
    {"request of 23, the same", "01 17 0000 0003 0001 0002 04 AAAA BBBB 6432", 0, 0, 0, 8},
    {"request of 43", "01 2B", 0, 0, 0, 8},
    {"request of 255", "01 FF", 0, 0, 0, 8},
    {"request, ASCII, nothing", "", 1, 0, 21, 0},
    {"request, ASCII", "':0103", 1, 0, 0, 17},
    {"request of 22, ASCII", "':0116000200F20025D0\r\n", 1, 0, 0, 17},
    {"request of 23, ASCII", "':0117000000030001000204AAAABBBB14\r\n", 1, 0, 0, 17},
    {"request, ASCII, digit alone", "':01030", 1, 0, 21, 0},
    {"request, ASCII, no digit", "':010G", 1, 0, 23, 0},
    {"request, ASCII, lower case", "':010f", 1, 0, 23, 0},
    {"request, ASCII, byte count 118", "':01100000000276", 1, 0, 0, 255},
    {"request, ASCII, byte count 119", "':01100000000277", 1, 0, 23, 0},
    {"request, TCP, 5 bytes", "0007 0000 00", 2, 0, 21, 0},
    {"request, TCP", "0007 0000 0006", 2, 0, 0, 12},
    {"request, TCP, length 249", "0007 0000 00F9", 2, 0, 0, 255},
    {"request, TCP, length 250", "0007 0000 00FA", 2, 0, 23, 0},
    {"request, TCP, length 256", "0007 0000 0100", 2, 0, 23, 0},
    {"request, TCP, protocol", "0007 0001 0006", 2, 0, 23, 0},
    {"request, transport 3", "01 03", 3, 0, 10, 0},
    {"request, transport 255, no bytes", "", 255, 0, 10, 0},
    {"request, lenient", "':010f00000001f6", 1, 1, 23, 0},
    {"request, lenient, byte count 118", "':01100000000276", 1, 1, 0, 255},
    {"request, lenient, one byte", "':0f", 1, 1, 21, 0},
    {"request, lenient, two bytes", "':ff2b", 1, 1, 0, 17},
    {"request, strict, two bytes", "':ff2b", 1, 0, 23, 0},
    {"request of 15, strict", "':010F0000000a02", 1, 0, 23, 0},
    {"request of 15, lenient", "':010F0000000a02", 1, 1, 0, 23},
    {"request of 15 in lower case, lenient", "':010f0000000a02", 1, 1, 0, 23},
    {"request of 15 in capitals, lenient", "':010F0000000A02", 1, 1, 0, 23},
    {"request, lenient, no digit", "':010g", 1, 1, 23, 0},
    {"request, lenient, digit alone", "':0103a", 1, 1, 21, 0},
    {"request, lenient, RTU as it is", "01 10 0000 0001 61", 0, 1, 0, 106},
    {"request, lenient, TCP as it is", "6166 0000 0061", 2, 1, 0, 103},
    {"request, lenient, transport 3", "01 03", 3, 1, 10, 0},
    {"request, switch 2, RTU", "01 03", 0, 2, 21, 0},
    {"request, switch 2, ASCII", "':0103", 1, 2, 21, 0},
    {"request, switch 2, ASCII, no digit", "':010G", 1, 2, 21, 0},
    {"request, switch 2, TCP", "0007 0000 0006", 2, 2, 21, 0},
    {"request, switch 2, TCP, protocol", "0007 0001 0006", 2, 2, 21, 0},
    {"request, switch 255", "01 03", 0, 255, 21, 0},
    {"request, switch 2 before transport 3", "01 03", 3, 2, 21, 0},
    {"request, switch 255 before transport 255, no bytes", "", 255, 255, 21, 0},
}, responses[] = {
    {"response, no bytes", "", 0, 0, 21, 0},
    {"response, 1 byte", "01", 0, 0, 21, 0},
    {"response of 3, 2 bytes", "01 03", 0, 0, 21, 0},
    {"response of 3", "01 03 04", 0, 0, 0, 9},
    {"response of 4, byte count 250", "01 04 FA", 0, 0, 0, 255},
    {"response of 4, byte count 251", "01 04 FB", 0, 0, 23, 0},
    {"response of 5, 2 bytes", "01 05", 0, 0, 21, 0},
    {"response of 5", "01 05 00", 0, 0, 0, 8},
    {"response of 16", "01 10 00", 0, 0, 0, 8},
    {"response of 22", "01 16 0002 00F2 0025 EFEE", 0, 0, 23, 0},
    {"response of 23", "01 17 06 0102 AAAA BBBB 6AE0", 0, 0, 23, 0},
    {"response of 22, ASCII", "':0116000200F20025D0\r\n", 1, 0, 23, 0},
    {"response of 23, ASCII", "':0117060102AAAABBBB15\r\n", 1, 0, 23, 0},
    {"response of 127", "01 7F 00", 0, 0, 23, 0},
    {"response of 128", "01 80", 0, 0, 0, 5},
    {"exception", "01 83", 0, 0, 0, 5},
    {"response, ASCII, nothing", "", 1, 0, 21, 0},
    {"response, ASCII, byte count 122", "':01037A", 1, 0, 0, 255},
    {"response, ASCII, byte count 123", "':01037B", 1, 0, 23, 0},
    {"exception, ASCII", "':0183", 1, 0, 0, 11},
    {"response, TCP, 5 bytes", "0007 0000 00", 2, 0, 21, 0},
    {"response, TCP, length 249", "0007 0000 00F9", 2, 0, 0, 255},
    {"response, TCP, length 250", "0007 0000 00FA", 2, 0, 23, 0},
    {"response, transport 3", "01 03 04", 3, 0, 10, 0},
    {"response, strict", "':01030a", 1, 0, 23, 0},
    {"response, lenient", "':01030a", 1, 1, 0, 31},
    {"response, lenient, byte count 122", "':01037a", 1, 1, 0, 255},
    {"response, lenient, byte count 123", "':01037b", 1, 1, 23, 0},
    {"exception, lenient", "':0fab", 1, 1, 0, 11},
    {"response, lenient, no digit", "':0103g0", 1, 1, 23, 0},
    {"response, lenient, RTU as it is", "61 03 61", 0, 1, 0, 102},
    {"response, lenient, transport 3", "01 03 04", 3, 1, 10, 0},
    {"response, switch 2, RTU", "01 03 04", 0, 2, 21, 0},
    {"response, switch 2, ASCII", "':0183", 1, 2, 21, 0},
    {"response, switch 2, TCP", "0007 0000 0006", 2, 2, 21, 0},
    {"response, switch 2 before transport 3", "01 03 04", 3, 2, 21, 0},
};

/* data_len -1: the text's own. `left`: what stands from frame_buf[frame_pos] on; all else is as lent. */
static const struct {
    const char *name, *text;
    int data_len;
    uint8_t frame_pos, hex;
    size_t room;
    uint8_t kind;
    size_t value;
    const char *left;
} parses[] = {
    {"parse j", "':010300000002FA\r\n", -1, 0, 0, 256, 0, 7, "01 03 0000 0002 FA"},
    {"parse without a colon", "'0103", -1, 2, 0, 256, 0, 2, "01 03"},
    {"parse, LF", "':01\n03", -1, 0, 0, 256, 0, 1, "01"},
    {"parse, NUL", "3A 3031 00 3033", -1, 0, 0, 256, 0, 1, "01"},
    {"parse nothing", "", -1, 0, 0, 256, 21, 0, ""},
    {"parse a colon", "':", -1, 0, 0, 0, 0, 0, ""},
    {"parse, digit alone at the end", "':010", -1, 0, 0, 256, 21, 0, "01"},
    {"parse, digit alone before CR", "':010\r", -1, 0, 0, 256, 23, 0, "01"},
    {"parse, lower case", "':01a0", -1, 0, 0, 256, 23, 0, "01"},
    {"parse, lower case second", "':010a", -1, 0, 0, 256, 23, 0, "01"},
    {"parse, no room", "':0102", -1, 0, 0, 1, 21, 0, "01"},
    {"parse past the text", "'01", 3, 0, 0, 256, 21, 0, "01"},
    {"parse part of the text", "'010203", 4, 0, 0, 256, 0, 2, "01 02"},
    {"parse 254 pairs and CR", "3A 30*508 0D", -1, 0, 0, 256, 0, 254, "00*254"},
    {"parse 255 pairs", "3A 30*510", -1, 0, 0, 256, 0, 255, "00*255"},
    {"parse 255 pairs and CR", "3A 30*510 0D", -1, 0, 0, 256, 21, 0, "00*255"},
    {"parse at position 254", "'0A", -1, 254, 0, 256, 0, 1, "0A"},
    {"parse at position 254, CR", "'0A\r", -1, 254, 0, 256, 21, 0, "0A"},
    {"parse at position 255", "'\r", -1, 255, 0, 256, 21, 0, ""},
    {"parse 0a, strict", "'0a", -1, 0, 0, 256, 23, 0, ""},
    {"parse 0a, lenient", "'0a", -1, 0, 1, 256, 0, 1, "0A"},
    {"parse 0a, switch 2", "'0a", -1, 0, 2, 256, 21, 0, ""},
    {"parse 0a, switch 255", "'0a", -1, 0, 255, 256, 21, 0, ""},
    {"parse nothing, lenient", "", -1, 0, 1, 256, 21, 0, ""},
    {"parse nothing, switch 2", "", -1, 0, 2, 256, 21, 0, ""},
    {"parse, switch 2 before a bad character", "'G0", -1, 0, 2, 256, 21, 0, ""},
    {"parse, switch 2, a right line", "':010300000002FA\r\n", -1, 0, 2, 256, 21, 0, ""},
    {"parse, switch 2, no room", "':01", -1, 0, 2, 0, 21, 0, ""},
    {"parse j in lower case", "':010300000002fa\r\n", -1, 0, 1, 256, 0, 7, "01 03 0000 0002 FA"},
    {"parse j in mixed case", "':010300000002Fa\r\n", -1, 0, 1, 256, 0, 7, "01 03 0000 0002 FA"},
    {"parse j in lower case, strict", "':010300000002fa\r\n", -1, 0, 0, 256, 23, 0, "01 03 0000 0002"},
    {"parse every digit", "'0123456789abcdefABCDEFaBcDeF", -1, 0, 1, 256, 0, 14,
     "01 23 45 67 89 AB CD EF AB CD EF AB CD EF"},
    {"parse, lower case, no room", "'0a0b", -1, 0, 1, 1, 21, 0, "0A"},
    {"parse, lower case, digit alone", "'0ab", -1, 0, 1, 256, 21, 0, "0A"},
    {"parse, lower case, digit alone before CR", "'0ab\r", -1, 0, 1, 256, 23, 0, "0A"},
    {"parse 254 pairs in lower case and CR", "3A 61*508 0D", -1, 0, 1, 256, 0, 254, "AA*254"},
    {"parse 255 pairs in lower case and CR", "3A 61*510 0D", -1, 0, 1, 256, 21, 0, "AA*255"},
    /* both sides of each kind of digit; a colon at the start is skipped */
    {"parse 47 first, switch 0", "2F 30", -1, 0, 0, 256, 23, 0, ""},
    {"parse 47 second, switch 0", "30 2F", -1, 0, 0, 256, 23, 0, ""},
    {"parse 47 first, switch 1", "2F 30", -1, 0, 1, 256, 23, 0, ""},
    {"parse 47 second, switch 1", "30 2F", -1, 0, 1, 256, 23, 0, ""},
    {"parse 48 first, switch 0", "30 30", -1, 0, 0, 256, 0, 1, "00"},
    {"parse 48 second, switch 0", "30 30", -1, 0, 0, 256, 0, 1, "00"},
    {"parse 48 first, switch 1", "30 30", -1, 0, 1, 256, 0, 1, "00"},
    {"parse 48 second, switch 1", "30 30", -1, 0, 1, 256, 0, 1, "00"},
    {"parse 57 first, switch 0", "39 30", -1, 0, 0, 256, 0, 1, "90"},
    {"parse 57 second, switch 0", "30 39", -1, 0, 0, 256, 0, 1, "09"},
    {"parse 57 first, switch 1", "39 30", -1, 0, 1, 256, 0, 1, "90"},
    {"parse 57 second, switch 1", "30 39", -1, 0, 1, 256, 0, 1, "09"},
    {"parse 58 first, switch 0", "3A 30", -1, 0, 0, 256, 21, 0, ""},
    {"parse 58 second, switch 0", "30 3A", -1, 0, 0, 256, 23, 0, ""},
    {"parse 58 first, switch 1", "3A 30", -1, 0, 1, 256, 21, 0, ""},
    {"parse 58 second, switch 1", "30 3A", -1, 0, 1, 256, 23, 0, ""},
    {"parse 64 first, switch 0", "40 30", -1, 0, 0, 256, 23, 0, ""},
    {"parse 64 second, switch 0", "30 40", -1, 0, 0, 256, 23, 0, ""},
    {"parse 64 first, switch 1", "40 30", -1, 0, 1, 256, 23, 0, ""},
    {"parse 64 second, switch 1", "30 40", -1, 0, 1, 256, 23, 0, ""},
    {"parse 65 first, switch 0", "41 30", -1, 0, 0, 256, 0, 1, "A0"},
    {"parse 65 second, switch 0", "30 41", -1, 0, 0, 256, 0, 1, "0A"},
    {"parse 65 first, switch 1", "41 30", -1, 0, 1, 256, 0, 1, "A0"},
    {"parse 65 second, switch 1", "30 41", -1, 0, 1, 256, 0, 1, "0A"},
    {"parse 70 first, switch 0", "46 30", -1, 0, 0, 256, 0, 1, "F0"},
    {"parse 70 second, switch 0", "30 46", -1, 0, 0, 256, 0, 1, "0F"},
    {"parse 70 first, switch 1", "46 30", -1, 0, 1, 256, 0, 1, "F0"},
    {"parse 70 second, switch 1", "30 46", -1, 0, 1, 256, 0, 1, "0F"},
    {"parse 71 first, switch 0", "47 30", -1, 0, 0, 256, 23, 0, ""},
    {"parse 71 second, switch 0", "30 47", -1, 0, 0, 256, 23, 0, ""},
    {"parse 71 first, switch 1", "47 30", -1, 0, 1, 256, 23, 0, ""},
    {"parse 71 second, switch 1", "30 47", -1, 0, 1, 256, 23, 0, ""},
    {"parse 96 first, switch 0", "60 30", -1, 0, 0, 256, 23, 0, ""},
    {"parse 96 second, switch 0", "30 60", -1, 0, 0, 256, 23, 0, ""},
    {"parse 96 first, switch 1", "60 30", -1, 0, 1, 256, 23, 0, ""},
    {"parse 96 second, switch 1", "30 60", -1, 0, 1, 256, 23, 0, ""},
    {"parse 97 first, switch 0", "61 30", -1, 0, 0, 256, 23, 0, ""},
    {"parse 97 second, switch 0", "30 61", -1, 0, 0, 256, 23, 0, ""},
    {"parse 97 first, switch 1", "61 30", -1, 0, 1, 256, 0, 1, "A0"},
    {"parse 97 second, switch 1", "30 61", -1, 0, 1, 256, 0, 1, "0A"},
    {"parse 102 first, switch 0", "66 30", -1, 0, 0, 256, 23, 0, ""},
    {"parse 102 second, switch 0", "30 66", -1, 0, 0, 256, 23, 0, ""},
    {"parse 102 first, switch 1", "66 30", -1, 0, 1, 256, 0, 1, "F0"},
    {"parse 102 second, switch 1", "30 66", -1, 0, 1, 256, 0, 1, "0F"},
    {"parse 103 first, switch 0", "67 30", -1, 0, 0, 256, 23, 0, ""},
    {"parse 103 second, switch 0", "30 67", -1, 0, 0, 256, 23, 0, ""},
    {"parse 103 first, switch 1", "67 30", -1, 0, 1, 256, 23, 0, ""},
    {"parse 103 second, switch 1", "30 67", -1, 0, 1, 256, 23, 0, ""},
    {"parse in lower case at position 254", "'fa", -1, 254, 1, 256, 0, 1, "FA"},
};

static const struct {
    const char *name, *bytes;
    size_t room;
    uint8_t kind;
    size_t value;
    const char *left;
} lines[] = {
    {"generate j's reply", "01 03 04 0102 0304 EE", 19, 0, 19, "':01030401020304EE\r\n"},
    {"generate, a byte short", "01 03 04 0102 0304 EE", 18, 21, 0, "':01030401020304EE\r"},
    {"generate from nothing", "", 64, 0, 3, "':\r\n"},
    {"generate into nothing", "", 0, 21, 0, ""},
    {"generate into four bytes", "9A 0F", 4, 21, 0, "':9A0"},
};

/* Case l, and both sides of the bytes that there are and of the most that can be asked. */
static const struct {
    const char *name, *bytes;
    uint8_t data_length;
    uint16_t crc;
} crcs[] = {
    {"CRC of nothing", "", 0, 0xFFFF},
    {"CRC of 00", "00", 1, 0x40BF},
    {"CRC of FF", "FF", 1, 0x00FF},
    {"CRC of no byte of FF", "FF", 0, 0xFFFF},
    {"CRC of 1 byte of none", "", 1, 0xFFFF},
    {"CRC of 255 bytes of FF", "FF", 255, 0x00FF},
    {"CRC of a, a byte less", "01 03 0000 0002 C40B", 5, 0x8419},
    {"CRC of a", "01 03 0000 0002 C40B", 6, 0x0BC4},
    {"CRC of a, a byte more", "01 03 0000 0002 C40B", 7, 0x000B},
    {"CRC of a with its own", "01 03 0000 0002 C40B", 8, 0x0000},
    {"CRC of the longest frame", "01 07 00*252 1F9D", 254, 0x9D1F},
    {"CRC of 254 bytes, one asked more", "A5*254", 255, 0xC768},
    {"CRC of 255 bytes", "A5*255", 255, 0x9506},
    {"CRC of 255 bytes of 256", "A5*256", 255, 0x9506},
};

static void answered(const char *name, struct dalonjang_answer a, uint8_t kind, size_t value) {
    if (a.kind != kind) different(name, "the kind");
    if (a.value != value) different(name, "the value");
    checks++;
}

/* The buffer holds `left` from `at` on and is as lent elsewhere. */
static void left_behind(const char *name, const uint8_t *buffer, size_t room, size_t at, const char *left) {
    static uint8_t want[1024];
    for (size_t i = 0; i < sizeof want; i++) want[i] = as_lent(i);
    bytes_of(left, want + at);
    if (memcmp(buffer, want, room) != 0) different(name, "the buffer");
}

void other_calls(void) {
    static uint8_t in[1024], out[1024];
    for (size_t i = 0; i < CASES(requests); i++) {
        struct slice s = slice(in, bytes_of(requests[i].text, in));
        uint8_t proto = requests[i].proto, hex = requests[i].hex;
        answered(requests[i].name, dalonjang_guess_request_frame_len(s.bytes, s.len, proto, hex),
                 requests[i].kind, requests[i].value);
    }
    for (size_t i = 0; i < CASES(responses); i++) {
        struct slice s = slice(in, bytes_of(responses[i].text, in));
        uint8_t proto = responses[i].proto, hex = responses[i].hex;
        answered(responses[i].name, dalonjang_guess_response_frame_len(s.bytes, s.len, proto, hex),
                 responses[i].kind, responses[i].value);
    }
    for (size_t i = 0; i < CASES(parses); i++) {
        for (size_t k = 0; k < sizeof out; k++) out[k] = as_lent(k);
        struct slice s = slice(in, bytes_of(parses[i].text, in)), o = slice(out, parses[i].room);
        size_t data_len = parses[i].data_len < 0 ? s.len : (size_t)parses[i].data_len;
        answered(parses[i].name,
                 dalonjang_parse_ascii_frame(s.bytes, s.len, data_len, o.bytes, o.len, parses[i].frame_pos,
                                             parses[i].hex),
                 parses[i].kind, parses[i].value);
        left_behind(parses[i].name, out, sizeof out, parses[i].frame_pos, parses[i].left);
    }
    for (size_t i = 0; i < CASES(lines); i++) {
        for (size_t k = 0; k < sizeof out; k++) out[k] = as_lent(k);
        struct slice s = slice(in, bytes_of(lines[i].bytes, in)), o = slice(out, lines[i].room);
        answered(lines[i].name, dalonjang_generate_ascii_frame(s.bytes, s.len, o.bytes, o.len), lines[i].kind,
                 lines[i].value);
        left_behind(lines[i].name, out, sizeof out, 0, lines[i].left);
    }
    for (size_t i = 0; i < CASES(crcs); i++) {
        struct slice s = slice(in, bytes_of(crcs[i].bytes, in));
        if (dalonjang_calc_crc16(s.bytes, s.len, crcs[i].data_length) != crcs[i].crc) different(crcs[i].name, "it");
        checks++;
    }
}
