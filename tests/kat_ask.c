/* The asking side's cases: requests as they must be built, replies as they must be read. Every lent buffer stands
 * against a page that cannot be touched. Nothing expected is worked out here but header and check, as in kat_drive.c. */
#include "asking.h"
#include "fence.h"
#include "kat.h"

#define MOST 2100

/* on: as in struct row, with the transaction 1234; under R, A and T the frame is the whole one. values: words in hex
 * digits, *n for the last one n times in all; where it is NULL a read of `count` cells is built. */
static const struct {
    const char *name, *on;
    uint16_t tr_id;
    uint8_t unit, func;
    uint16_t reg, count;
    const char *values;
    uint8_t kind;
    const char *frame;
} builds[] = {
    /* as document 01's cases have them */
    {"ask a", "T", 7, 1, 3, 0, 2, NULL, 0, "0007 0000 0006 01 03 0000 0002"},
    {"ask a on RTU", "R", 7, 1, 3, 0, 2, NULL, 0, "01 03 0000 0002 C40B"},
    {"ask j", "A", 7, 1, 3, 0, 2, NULL, 0, "':010300000002FA\r\n"},
    {"ask d", "T", 10, 1, 5, 9, 0, "0001", 0, "000A 0000 0006 01 05 0009 FF00"},
    {"ask f", "T", 12, 1, 15, 3, 0, "0001 0000 0001 0001 0000 0000 0001 0001 0001 0000", 0,
     "000C 0000 0009 01 0F 0003 000A 02 CD01"},
    {"ask f on RTU", "R", 12, 1, 15, 3, 0, "0001 0000 0001 0001 0000 0000 0001 0001 0001 0000", 0,
     "01 0F 0003 000A 02 CD01 705B"},
    {"ask h", "T", 14, 0, 6, 2, 0, "1234", 0, "000E 0000 0006 00 06 0002 1234"},
    {"transaction 65535", "T", 65535, 255, 4, 65535, 1, NULL, 0, "FFFF 0000 0006 FF 04 FFFF 0001"},
    /* every function */
    {"coils", "rat", 0x1234, 17, 1, 19, 37, NULL, 0, "11 01 0013 0025"},
    {"discretes", "rat", 0x1234, 17, 2, 196, 22, NULL, 0, "11 02 00C4 0016"},
    {"holdings", "rat", 0x1234, 17, 3, 107, 3, NULL, 0, "11 03 006B 0003"},
    {"inputs", "rat", 0x1234, 17, 4, 8, 1, NULL, 0, "11 04 0008 0001"},
    {"coil on", "rat", 0x1234, 17, 5, 172, 0, "0001", 0, "11 05 00AC FF00"},
    {"coil off", "rat", 0x1234, 17, 5, 172, 0, "0000", 0, "11 05 00AC 0000"},
    {"holding", "rat", 0x1234, 17, 6, 1, 0, "FFFF", 0, "11 06 0001 FFFF"},
    {"one of many coils", "rat", 0x1234, 17, 15, 19, 0, "0001", 0, "11 0F 0013 0001 01 01"},
    {"ten coils, pad bits zero", "rat", 0x1234, 17, 15, 19, 0, "0001*10", 0, "11 0F 0013 000A 02 FF03"},
    {"eight coils", "rat", 0x1234, 17, 15, 19, 0, "0001*7 0000", 0, "11 0F 0013 0008 01 7F"},
    {"two holdings", "rat", 0x1234, 17, 16, 1, 0, "000A 0102", 0, "11 10 0001 0002 04 000A 0102"},
    /* both sides of every number */
    {"0 coils", "rat", 7, 1, 1, 0, 0, NULL, 11, ""},
    {"2000 coils", "rat", 0x1234, 1, 1, 0, 2000, NULL, 0, "01 01 0000 07D0"},
    {"2001 coils", "rat", 7, 1, 1, 0, 2001, NULL, 11, ""},
    {"2000 discretes", "rat", 0x1234, 1, 2, 0, 2000, NULL, 0, "01 02 0000 07D0"},
    {"2001 discretes", "rat", 7, 1, 2, 0, 2001, NULL, 11, ""},
    {"0 holdings", "rat", 7, 1, 3, 0, 0, NULL, 11, ""},
    {"125 holdings", "rat", 0x1234, 1, 3, 0, 125, NULL, 0, "01 03 0000 007D"},
    {"126 holdings", "rat", 7, 1, 3, 0, 126, NULL, 11, ""},
    {"125 inputs", "rat", 0x1234, 1, 4, 0, 125, NULL, 0, "01 04 0000 007D"},
    {"126 inputs", "rat", 7, 1, 4, 0, 126, NULL, 11, ""},
    {"count 65535", "rat", 7, 1, 1, 0, 65535, NULL, 11, ""},
    {"the last cell", "rat", 0x1234, 1, 3, 65535, 1, NULL, 0, "01 03 FFFF 0001"},
    {"one after the last cell", "rat", 7, 1, 3, 65535, 2, NULL, 11, ""},
    {"the last 2000 coils", "rat", 0x1234, 1, 1, 63536, 2000, NULL, 0, "01 01 F830 07D0"},
    {"2000 coils, one after the last", "rat", 7, 1, 1, 63537, 2000, NULL, 11, ""},
    {"a coil's value 2", "rat", 7, 1, 5, 9, 0, "0002", 11, ""},
    {"a coil's value FF00", "rat", 7, 1, 5, 9, 0, "FF00", 11, ""},
    {"a coil's value 2 among many", "rat", 7, 1, 15, 9, 0, "0001*7 0002", 11, ""},
    {"no value for 5", "rat", 7, 1, 5, 9, 0, "", 11, ""},
    {"two values for 5", "rat", 7, 1, 5, 9, 0, "0001*2", 11, ""},
    {"no value for 6", "rat", 7, 1, 6, 9, 0, "", 11, ""},
    {"two values for 6", "rat", 7, 1, 6, 9, 0, "0001*2", 11, ""},
    {"no value for 15", "rat", 7, 1, 15, 9, 0, "", 11, ""},
    {"no value for 16", "rat", 7, 1, 16, 9, 0, "", 11, ""},
    {"1968 coils to write", "rat", 0x1234, 1, 15, 0, 0, "0001*1968", 0, "01 0F 0000 07B0 F6 FF*246"},
    {"1967 coils to write", "rat", 0x1234, 1, 15, 0, 0, "0001*1967", 0, "01 0F 0000 07AF F6 FF*245 7F"},
    {"1969 coils to write", "rat", 7, 1, 15, 0, 0, "0001*1969", 11, ""},
    {"123 holdings to write", "rat", 0x1234, 1, 16, 0, 0, "ABAB*123", 0, "01 10 0000 007B F6 AB*246"},
    {"124 holdings to write", "rat", 7, 1, 16, 0, 0, "ABAB*124", 11, ""},
    {"2048 coils to write", "rat", 7, 1, 15, 0, 0, "0000*2048", 11, ""},
    {"the last coil", "rat", 0x1234, 1, 5, 65535, 0, "0001", 0, "01 05 FFFF FF00"},
    {"the last two holdings", "rat", 0x1234, 1, 16, 65534, 0, "0001*2", 0, "01 10 FFFE 0002 04 0001 0001"},
    {"two holdings, one after the last", "rat", 7, 1, 16, 65535, 0, "0001*2", 11, ""},
    {"two coils, one after the last", "rat", 7, 1, 15, 65535, 0, "0001*2", 11, ""},
    /* functions and transports */
    {"function 0", "rat", 7, 1, 0, 0, 1, NULL, 11, ""},
    {"function 5 as a read", "rat", 7, 1, 5, 0, 1, NULL, 11, ""},
    {"function 255", "rat", 7, 1, 255, 0, 1, NULL, 11, ""},
    {"function 4 as a write", "rat", 7, 1, 4, 0, 0, "0001", 11, ""},
    {"function 7 as a write", "rat", 7, 1, 7, 0, 0, "0001", 11, ""},
    {"function 14", "rat", 7, 1, 14, 0, 0, "0001", 11, ""},
    {"function 17", "rat", 7, 1, 17, 0, 0, "0001", 11, ""},
    {"function 22 as a write", "rat", 7, 1, 22, 0, 0, "0001", 11, ""},
    {"function 22 as a read", "rat", 7, 1, 22, 0, 1, NULL, 11, ""},
    {"function 23 as a write", "rat", 7, 1, 23, 0, 0, "0001*2", 11, ""},
    {"function 23 as a read", "rat", 7, 1, 23, 0, 2, NULL, 11, ""},
    {"transport 3", "3", 7, 1, 3, 0, 2, NULL, 11, ""},
    {"transport 3, a write", "3", 7, 1, 6, 0, 0, "0001", 11, ""},
    {"transport 255", "F", 7, 1, 3, 0, 2, NULL, 11, ""},
};

/* The same of the builders of functions 22 and 23: a mask's two values are A and B; of an exchange `count` cells from
 * `reg` on are read, and the values written from `write_reg` on. */
static const struct {
    const char *name, *on;
    uint16_t tr_id;
    uint8_t unit;
    enum asking_call call;
    uint16_t reg, count, write_reg;
    const char *values;
    uint8_t kind;
    const char *frame;
} more_builds[] = {
    /* as document 02's cases have them */
    {"ask a mask", "T", 0x18, 1, MASK, 2, 0, 0, "00F2 0025", 0, "0018 0000 0008 01 16 0002 00F2 0025"},
    {"ask a mask on RTU", "R", 7, 1, MASK, 2, 0, 0, "00F2 0025", 0, "01 16 0002 00F2 0025 EFEE"},
    {"ask a mask on ASCII", "A", 7, 1, MASK, 2, 0, 0, "00F2 0025", 0, "':0116000200F20025D0\r\n"},
    {"ask an exchange", "T", 0x19, 1, SET_GET, 0, 3, 1, "AAAA BBBB", 0,
     "0019 0000 000F 01 17 0000 0003 0001 0002 04 AAAA BBBB"},
    {"ask an exchange on RTU", "R", 7, 1, SET_GET, 0, 3, 1, "AAAA BBBB", 0,
     "01 17 0000 0003 0001 0002 04 AAAA BBBB 6432"},
    {"ask an exchange on ASCII", "A", 7, 1, SET_GET, 0, 3, 1, "AAAA BBBB", 0,
     "':0117000000030001000204AAAABBBB14\r\n"},
    /* both sides of every number */
    {"mask of zeros", "rat", 0x1234, 0, MASK, 0, 0, 0, "0000 0000", 0, "00 16 0000 0000 0000"},
    {"mask of ones, the last holding", "rat", 0x1234, 255, MASK, 65535, 0, 0, "FFFF FFFF", 0, "FF 16 FFFF FFFF FFFF"},
    {"mask, high and low bytes", "rat", 0x1234, 17, MASK, 0x0102, 0, 0, "0304 0506", 0, "11 16 0102 0304 0506"},
    {"exchange, high and low bytes", "rat", 0x1234, 17, SET_GET, 0x0102, 0x7B, 0x0304, "0506 0708", 0,
     "11 17 0102 007B 0304 0002 04 0506 0708"},
    {"exchange, read 0", "rat", 7, 1, SET_GET, 0, 0, 0, "0001", 11, ""},
    {"exchange, read 1 and write 1", "rat", 0x1234, 1, SET_GET, 0, 1, 0, "0001", 0, "01 17 0000 0001 0000 0001 02 0001"},
    {"exchange, read 125", "rat", 0x1234, 1, SET_GET, 0, 125, 0, "0001", 0, "01 17 0000 007D 0000 0001 02 0001"},
    {"exchange, read 126", "rat", 7, 1, SET_GET, 0, 126, 0, "0001", 11, ""},
    {"exchange, read 257", "rat", 7, 1, SET_GET, 0, 257, 0, "0001", 11, ""},
    {"exchange, read 65535", "rat", 7, 1, SET_GET, 0, 65535, 0, "0001", 11, ""},
    {"exchange, write 0", "rat", 7, 1, SET_GET, 0, 1, 0, "", 11, ""},
    {"exchange, write 121", "rat", 0x1234, 1, SET_GET, 0, 125, 9, "ABAB*121", 0,
     "01 17 0000 007D 0009 0079 F2 AB*242"},
    {"exchange, write 122", "rat", 7, 1, SET_GET, 0, 1, 0, "ABAB*122", 11, ""},
    {"exchange, write 129", "rat", 7, 1, SET_GET, 0, 1, 0, "ABAB*129", 11, ""},
    {"exchange, the last holdings", "rat", 0x1234, 1, SET_GET, 65534, 2, 65535, "0001", 0,
     "01 17 FFFE 0002 FFFF 0001 02 0001"},
    {"exchange, the last written", "rat", 0x1234, 1, SET_GET, 65535, 1, 65534, "0001*2", 0,
     "01 17 FFFF 0001 FFFE 0002 04 0001 0001"},
    {"exchange, read one after the last", "rat", 7, 1, SET_GET, 65535, 2, 0, "0001", 11, ""},
    {"exchange, write one after the last", "rat", 7, 1, SET_GET, 0, 1, 65535, "0001*2", 11, ""},
    {"exchange, the last 125 and 121", "rat", 0x1234, 1, SET_GET, 65411, 125, 65415, "ABAB*121", 0,
     "01 17 FF83 007D FF87 0079 F2 AB*242"},
    {"exchange, 125 and one after the last", "rat", 7, 1, SET_GET, 65412, 125, 0, "0001", 11, ""},
    {"exchange, 121 and one after the last", "rat", 7, 1, SET_GET, 0, 1, 65416, "0001*121", 11, ""},
    {"mask, transport 3", "3", 7, 1, MASK, 0, 0, 0, "0000 0000", 11, ""},
    {"mask, transport 255", "F", 7, 1, MASK, 0, 0, 0, "0000 0000", 11, ""},
    {"exchange, transport 3", "3", 7, 1, SET_GET, 0, 1, 0, "0001", 11, ""},
};

/* room: for how many values; -1: just enough. */
static const struct {
    const char *name, *on, *sent, *reply;
    int room;
    uint8_t outcome, code;
    const char *values;
} reads[] = {
    {"a", "T", "0007 0000 0006 01 03 0000 0002", "0007 0000 0007 01 03 04 0102 0304", -1, 0, 0, "0102 0304"},
    {"a on RTU", "R", "01 03 0000 0002 C40B", "01 03 04 0102 0304 5B3C", -1, 0, 0, "0102 0304"},
    {"a on RTU, CRC wrong", "R", "01 03 0000 0002 C40B", "01 03 04 0102 0304 5B3D", 2, 6, 0, ""},
    {"j", "A", "':010300000002FA\r\n", "':01030401020304EE\r\n", -1, 0, 0, "0102 0304"},
    {"j, LRC wrong", "A", "':010300000002FA\r\n", "':01030401020304EF\r\n", 2, 6, 0, ""},
    {"b", "T", "0008 0000 0006 01 03 0003 0002", "0008 0000 0003 01 83 02", 2, 2, 2, ""},
    {"d", "T", "000A 0000 0006 01 05 0009 FF00", "000A 0000 0006 01 05 0009 FF00", -1, 0, 0, ""},
    {"f", "T", "000C 0000 0009 01 0F 0003 000A 02 CD01", "000C 0000 0006 01 0F 0003 000A", -1, 0, 0, ""},
    /* another transaction, unit, function, byte count */
    {"another transaction", "T", "0007 0000 0006 01 03 0000 0002", "0008 0000 0007 01 03 04 0102 0304", 2, 12, 0, ""},
    {"another transaction, high byte", "T", "0007 0000 0006 01 03 0000 0002", "0107 0000 0007 01 03 04 0102 0304",
     2, 12, 0, ""},
    {"an exception of another transaction", "T", "0007 0000 0006 01 03 0000 0002", "0008 0000 0003 01 83 02", 2, 12, 0,
     ""},
    {"another unit", "rat", "01 03 0000 0002", "02 03 04 0102 0304", 2, 12, 0, ""},
    {"an exception of another unit", "rat", "01 03 0000 0002", "02 83 02", 2, 12, 0, ""},
    {"another function", "rat", "01 03 0000 0002", "01 04 04 0102 0304", 2, 12, 0, ""},
    {"byte count 2, two bytes", "rat", "01 03 0000 0002", "01 03 02 0102", 2, 12, 0, ""},
    {"byte count 6, six bytes", "rat", "01 03 0000 0002", "01 03 06 0102 0304 0506", 3, 12, 0, ""},
    {"byte count 2, four bytes", "rat", "01 03 0000 0002", "01 03 02 0102 0304", 2, 12, 0, ""},
    {"byte count 4, three bytes", "rat", "01 03 0000 0002", "01 03 04 0102 03", 2, 12, 0, ""},
    {"byte count 4, five bytes", "rat", "01 03 0000 0002", "01 03 04 0102 0304 05", 2, 12, 0, ""},
    {"no more than the function", "rat", "01 03 0000 0002", "01 03", 2, 12, 0, ""},
    {"the request again", "rat", "01 03 0000 0002", "01 03 0000 0002", 2, 12, 0, ""},
    /* exceptions: three bytes, the function and 128, any code but 0 */
    {"exception 2", "rat", "01 03 0000 0002", "01 83 02", 2, 2, 2, ""},
    {"exception 255", "rat", "01 03 0000 0002", "01 83 FF", 2, 2, 255, ""},
    {"exception 11", "rat", "01 06 0000 0002", "01 86 0B", -1, 2, 11, ""},
    {"exception of function 16", "rat", "01 10 0000 0001 02 0001", "01 90 04", -1, 2, 4, ""},
    {"exception 0", "rat", "01 03 0000 0002", "01 83 00", 2, 12, 0, ""},
    {"an exception of another function", "rat", "01 03 0000 0002", "01 84 02", 2, 12, 0, ""},
    {"an exception of four bytes", "rat", "01 03 0000 0002", "01 83 02 00", 2, 12, 0, ""},
    {"an exception of two bytes", "rat", "01 03 0000 0002", "01 83", 2, 12, 0, ""},
    {"an exception with room 1", "rat", "01 03 0000 0002", "01 83 02", 1, 9, 0, ""},
    /* values */
    {"ten coils", "rat", "01 01 0003 000A", "01 01 02 CD01", -1, 0, 0,
     "0001 0000 0001 0001 0000 0000 0001 0001 0001 0000"},
    {"ten coils, pad bits set", "rat", "01 01 0003 000A", "01 01 02 CDFD", -1, 0, 0,
     "0001 0000 0001 0001 0000 0000 0001 0001 0001 0000"},
    {"one discrete", "rat", "01 02 0003 0001", "01 02 01 FF", -1, 0, 0, "0001"},
    {"one discrete, more room", "rat", "01 02 0003 0001", "01 02 01 FE", 9, 0, 0, "0000"},
    {"2000 coils", "rat", "01 01 0000 07D0", "01 01 FA FF*250", -1, 0, 0, "0001*2000"},
    {"125 inputs", "rat", "01 04 0000 007D", "01 04 FA A5*250", -1, 0, 0, "A5A5*125"},
    {"125 inputs, room 124", "rat", "01 04 0000 007D", "01 04 FA A5*250", 124, 9, 0, ""},
    {"one holding of the last cell", "rat", "01 03 FFFF 0001", "01 03 02 FFFE", -1, 0, 0, "FFFE"},
    {"no room at all", "rat", "01 03 0000 0002", "01 03 04 0102 0304", 0, 9, 0, ""},
    {"no room, and no reply", "rat", "01 03 0000 0002", "", 1, 9, 0, ""},
    /* echoes */
    {"coil's echo", "rat", "01 05 0009 FF00", "01 05 0009 FF00", -1, 0, 0, ""},
    {"coil's echo, another cell", "rat", "01 05 0009 FF00", "01 05 0008 FF00", 4, 12, 0, ""},
    {"coil's echo, another value", "rat", "01 05 0009 FF00", "01 05 0009 0000", 4, 12, 0, ""},
    {"holding's echo", "rat", "01 06 0002 1234", "01 06 0002 1234", 0, 0, 0, ""},
    {"holding's echo, last byte", "rat", "01 06 0002 1234", "01 06 0002 1235", 4, 12, 0, ""},
    {"holding's echo, cut", "rat", "01 06 0002 1234", "01 06 0002 12", 4, 12, 0, ""},
    {"holding's echo, and a byte", "rat", "01 06 0002 1234", "01 06 0002 1234 00", 4, 12, 0, ""},
    {"coils' echo", "rat", "01 0F 0003 000A 02 CD01", "01 0F 0003 000A", 4, 0, 0, ""},
    {"coils' echo, all of it", "rat", "01 0F 0003 000A 02 CD01", "01 0F 0003 000A 02 CD01", 4, 12, 0, ""},
    {"holdings' echo, another count", "rat", "01 10 0001 0002 04 000A 0102", "01 10 0001 0001", 4, 12, 0, ""},
    {"holdings' echo, another start", "rat", "01 10 0001 0002 04 000A 0102", "01 10 0101 0002", 4, 12, 0, ""},
    {"the longest write", "rat", "01 10 0000 007B F6 AB*246", "01 10 0000 007B", -1, 0, 0, ""},
    {"the longest write of coils", "rat", "01 0F 0000 07B0 F6 FF*246", "01 0F 0000 07B0", -1, 0, 0, ""},
    {"a broadcast is judged alike", "rat", "00 06 0002 1234", "00 06 0002 1234", -1, 0, 0, ""},
    /* a mask's echo is all of its 8 bytes, an exchange's reply the values read */
    {"mask", "T", "0018 0000 0008 01 16 0002 00F2 0025", "0018 0000 0008 01 16 0002 00F2 0025", -1, 0, 0, ""},
    {"mask's echo", "rat", "01 16 0002 00F2 0025", "01 16 0002 00F2 0025", 3, 0, 0, ""},
    {"mask's echo, another cell", "rat", "01 16 0002 00F2 0025", "01 16 0003 00F2 0025", 3, 12, 0, ""},
    {"mask's echo, another A", "rat", "01 16 0002 00F2 0025", "01 16 0002 00F3 0025", 3, 12, 0, ""},
    {"mask's echo, another B", "rat", "01 16 0002 00F2 0025", "01 16 0002 00F2 0125", 3, 12, 0, ""},
    {"mask's echo, last byte", "rat", "01 16 0002 00F2 0025", "01 16 0002 00F2 0024", 3, 12, 0, ""},
    {"mask's echo, six bytes", "rat", "01 16 0002 00F2 0025", "01 16 0002 00F2", 3, 12, 0, ""},
    {"mask's echo, and a byte", "rat", "01 16 0002 00F2 0025", "01 16 0002 00F2 0025 00", 3, 12, 0, ""},
    {"mask's echo, another function", "rat", "01 16 0002 00F2 0025", "01 06 0002 00F2 0025", 3, 12, 0, ""},
    {"mask's echo, another unit", "rat", "01 16 0002 00F2 0025", "02 16 0002 00F2 0025", 3, 12, 0, ""},
    {"mask, exception 2", "rat", "01 16 0002 00F2 0025", "01 96 02", -1, 2, 2, ""},
    {"mask, an exception of 6", "rat", "01 16 0002 00F2 0025", "01 86 02", 3, 12, 0, ""},
    {"exchange", "T", "0019 0000 000F 01 17 0000 0003 0001 0002 04 AAAA BBBB", "0019 0000 0009 01 17 06 0102 AAAA BBBB",
     -1, 0, 0, "0102 AAAA BBBB"},
    {"exchange on all", "rat", "01 17 0000 0003 0001 0002 04 AAAA BBBB", "01 17 06 0102 AAAA BBBB", 5, 0, 0,
     "0102 AAAA BBBB"},
    {"exchange, other values than written", "rat", "01 17 0001 0001 0001 0001 02 AAAA", "01 17 02 1234", -1, 0, 0,
     "1234"},
    {"exchange, 125 and 121", "rat", "01 17 0000 007D 0009 0079 F2 AB*242", "01 17 FA A5*250", -1, 0, 0, "A5A5*125"},
    {"exchange, room 2", "rat", "01 17 0000 0003 0001 0002 04 AAAA BBBB", "01 17 06 0102 AAAA BBBB", 2, 9, 0, ""},
    {"exchange, no room and an exception", "rat", "01 17 0000 0003 0001 0002 04 AAAA BBBB", "01 97 02", 2, 9, 0, ""},
    {"exchange, exception 3", "rat", "01 17 0000 0003 0001 0002 04 AAAA BBBB", "01 97 03", 3, 2, 3, ""},
    {"exchange, byte count of the write", "rat", "01 17 0000 0003 0001 0002 04 AAAA BBBB", "01 17 04 AAAA BBBB", 3, 12,
     0, ""},
    {"exchange, byte count 6 and 5 bytes", "rat", "01 17 0000 0003 0001 0002 04 AAAA BBBB", "01 17 06 0102 AAAA BB", 3,
     12, 0, ""},
    {"exchange, byte count 6 and 7 bytes", "rat", "01 17 0000 0003 0001 0002 04 AAAA BBBB",
     "01 17 06 0102 AAAA BBBB 00", 3, 12, 0, ""},
    {"exchange, function 3", "rat", "01 17 0000 0003 0001 0002 04 AAAA BBBB", "01 03 06 0102 AAAA BBBB", 3, 12, 0, ""},
    {"exchange, its request again", "rat", "01 17 0000 0003 0001 0002 04 AAAA BBBB",
     "01 17 0000 0003 0001 0002 04 AAAA BBBB", 3, 12, 0, ""},
    {"exchange, another transaction", "T", "0019 0000 000F 01 17 0000 0003 0001 0002 04 AAAA BBBB",
     "0018 0000 0009 01 17 06 0102 AAAA BBBB", 3, 12, 0, ""},
    /* frames that are none */
    {"no reply", "rat", "01 03 0000 0002", "", 2, 5, 0, ""},
    {"RTU, 3 bytes", "R", "01 03 0000 0002 C40B", "01 03 04", 2, 5, 0, ""},
    {"RTU, 257 bytes", "r", "01 03 0000 0002", "01 03 04 00*252", 2, 5, 0, ""},
    {"ASCII, lower case", "A", "':010300000002FA\r\n", "':01030401020304ee\r\n", 2, 5, 0, ""},
    {"ASCII, no LF", "A", "':010300000002FA\r\n", "':01030401020304EE\r", 2, 5, 0, ""},
    {"ASCII, no colon", "A", "':010300000002FA\r\n", "'01030401020304EE\r\n", 2, 5, 0, ""},
    {"TCP, 7 bytes", "T", "0007 0000 0006 01 03 0000 0002", "0007 0000 0001 01", 2, 5, 0, ""},
    {"TCP, another protocol", "T", "0007 0000 0006 01 03 0000 0002", "0007 0001 0007 01 03 04 0102 0304", 2, 5, 0, ""},
    {"TCP, length one less", "T", "0007 0000 0006 01 03 0000 0002", "0007 0000 0006 01 03 04 0102 0304", 2, 5, 0, ""},
    {"TCP, length one more", "T", "0007 0000 0006 01 03 0000 0002", "0007 0000 0008 01 03 04 0102 0304", 2, 5, 0, ""},
    /* what was sent is no request: before all else */
    {"sent nothing", "rat", "", "01 03 04 0102 0304", 2, 11, 0, ""},
    {"sent a count of 0", "rat", "01 03 0000 0000", "01 83 03", 2, 11, 0, ""},
    {"sent a count of 126", "rat", "01 03 0000 007E", "01 83 03", 0, 11, 0, ""},
    {"sent a range beyond 65,535", "rat", "01 03 FFFF 0002", "01 83 02", 2, 11, 0, ""},
    {"sent function 7", "rat", "01 07 0000 0002", "01 87 01", 2, 11, 0, ""},
    {"sent function 131", "rat", "01 83 0000 0002", "01 83 01", 2, 11, 0, ""},
    {"sent one byte more", "rat", "01 03 0000 0002 00", "01 03 04 0102 0304", 2, 11, 0, ""},
    {"sent a coil's value 0001", "rat", "01 05 0009 0001", "01 05 0009 0001", 2, 11, 0, ""},
    {"sent a byte count of 3", "rat", "01 10 0000 0002 03 000100", "01 90 03", 2, 11, 0, ""},
    {"sent in lower case", "A", "':010300000002fa\r\n", "':01030401020304EE\r\n", 2, 11, 0, ""},
    {"sent 7 bytes of 22", "rat", "01 16 0002 00F2 00", "01 96 02", 2, 11, 0, ""},
    {"sent 9 bytes of 22", "rat", "01 16 0002 00F2 0025 00", "01 96 02", 2, 11, 0, ""},
    {"sent 10 bytes of 23", "rat", "01 17 0000 0003 0001 0002", "01 97 02", 3, 11, 0, ""},
    {"sent 23 a byte short", "rat", "01 17 0000 0003 0001 0002 04 AAAA BB", "01 97 02", 3, 11, 0, ""},
    {"sent 23, read 0", "rat", "01 17 0000 0000 0001 0002 04 AAAA BBBB", "01 97 03", 3, 11, 0, ""},
    {"sent 23, read 126", "rat", "01 17 0000 007E 0001 0002 04 AAAA BBBB", "01 97 03", 0, 11, 0, ""},
    {"sent 23, write 0", "rat", "01 17 0000 0003 0001 0000 00", "01 97 03", 3, 11, 0, ""},
    {"sent 23, write 122", "rat", "01 17 0000 0003 0001 007A F2 AB*242", "01 97 03", 3, 11, 0, ""},
    {"sent 23, a wrong byte count", "rat", "01 17 0000 0003 0001 0001 04 AAAA BBBB", "01 97 03", 3, 11, 0, ""},
    {"sent 23, read beyond 65,535", "rat", "01 17 FFFF 0002 0001 0001 02 AAAA", "01 97 02", 3, 11, 0, ""},
    {"sent 23, write beyond 65,535", "rat", "01 17 0000 0003 FFFF 0002 04 AAAA BBBB", "01 97 02", 3, 11, 0, ""},
    {"sent with a wrong CRC", "R", "01 03 0000 0002 C40C", "01 03 04 0102 0304 5B3C", 2, 11, 0, ""},
    {"sent with a wrong LRC", "A", "':010300000002FB\r\n", "':01030401020304EE\r\n", 2, 11, 0, ""},
    {"sent with another protocol", "T", "0007 0001 0006 01 03 0000 0002", "0007 0000 0007 01 03 04 0102 0304", 2, 11, 0,
     ""},
    {"sent pad bits", "rat", "01 0F 0003 000A 02 CDFD", "01 0F 0003 000A", -1, 0, 0, ""},
    {"transport 3", "3", "01 03 0000 0002 C40B", "01 03 04 0102 0304 5B3C", 2, 11, 0, ""},
    {"transport 255", "F", "01 03 0000 0002 C40B", "01 03 04 0102 0304 5B3C", 2, 11, 0, ""},
};

static size_t words_of(const char *text, uint16_t *words) {
    size_t n = 0;
    for (; *text != 0; text++) {
        if (*text == ' ') continue;
        if (*text != '*') {
            words[n++] = (uint16_t)strtoul((char[]){text[0], text[1], text[2], text[3], 0}, NULL, 16);
            text += 3;
            continue;
        }
        for (size_t more = strtoul(text + 1, (char **)&text, 10) - 1; more > 0; more--, n++) words[n] = words[n - 1];
        text--;
    }
    return n;
}

static uint8_t transport_of(char on) {
    return on == '3' ? 3 : on == 'F' ? 255 : strchr("rR", on) ? DALONJANG_RTU : strchr("aA", on) ? DALONJANG_ASCII
           : DALONJANG_TCP;
}

/* A frame of a row's text. */
static size_t frame_of(const char *text, char on, uint8_t *frame) {
    uint8_t body[1024];
    size_t n = bytes_of(text, body);
    if (on >= 'a') return wrapped(transport_of(on), body, n, frame);
    memcpy(frame, body, n);
    return n;
}

static uint8_t *request_room, *response_room, *values_room;
static const char *now; /* the row */

static void touched(const char *what) {
    (void)what;
    printf("%s: a byte outside the lent buffers was touched, which is not what document 01 says", now);
}

/* The values in their room, aligned as the header asks. */
static uint16_t *lend_values(size_t len) {
    uint16_t *values = (uint16_t *)(void *)place(values_room, 2 * len, checks);
    for (size_t i = 0; i < len; i++) values[i] = (uint16_t)(0x5A5A + i);
    return len == 0 ? NULL : values;
}

static struct slice lend_bytes(uint8_t *room, const uint8_t *bytes, size_t len) {
    uint8_t *lent = place(room, len, checks);
    for (size_t i = 0; i < len; i++) lent[i] = bytes != NULL ? bytes[i] : as_lent(i);
    return slice(lent, len);
}

static void take_back(uint8_t *room, size_t len) { memset(place(room, len, checks), UNTOUCHED, len); }

static void beside(const char *name, uint8_t *room, size_t len) {
    if (!margin_untouched(place(room, len, checks), len, checks)) different(name, "a byte beside a buffer");
}

static uint16_t given[MOST]; /* the values of the row */

/* One call into so much room, which must answer `kind` and leave `frame` in front and all else as lent. */
static void build(const struct asking *asked, size_t room, uint8_t kind, const uint8_t *frame, size_t len) {
    const char *name = now;
    struct asking a = *asked;
    a.values = lend_values(a.values_len);
    if (a.values_len > 0) memcpy(a.values, given, 2 * a.values_len);
    a.request = lend_bytes(request_room, NULL, room);
    struct told t = ask(&a);
    if (t.kind != kind) different(name, "the kind");
    if (t.n != (kind == 0 ? len : 0)) different(name, "the frame's length");
    for (size_t k = 0; k < room; k++)
        if (a.request.bytes[k] != (k < t.n ? frame[k] : as_lent(k))) different(name, "a byte of the buffer");
    if (a.values_len > 0 && memcmp(a.values, given, 2 * a.values_len) != 0) different(name, "a value afterwards");
    beside(name, request_room, room);
    beside(name, values_room, 2 * a.values_len);
    take_back(request_room, room);
    take_back(values_room, 2 * a.values_len);
    checks++;
}

/* What is built is built into just enough room and into more, and refused with a byte less and with none. */
static void build_as(const struct asking *a, uint8_t kind, const char *text, char on) {
    static uint8_t frame[1024];
    size_t len = frame_of(text, on, frame);
    if (kind != 0) {
        build(a, 600, kind, frame, 0);
        build(a, 0, kind, frame, 0);
        return;
    }
    build(a, len, 0, frame, len);
    build(a, len + 9, 0, frame, len);
    build(a, len - 1, DALONJANG_KIND_NO_ROOM, frame, 0);
    build(a, 0, DALONJANG_KIND_NO_ROOM, frame, 0);
}

static void build_row(size_t i, char on) {
    struct asking a = {.call = builds[i].values == NULL ? GET : SET,
        .to = {builds[i].tr_id, builds[i].unit, transport_of(on)},
        .func = builds[i].func, .reg = builds[i].reg, .count = builds[i].count};
    a.values_len = a.call == GET ? 0 : words_of(builds[i].values, given);
    build_as(&a, builds[i].kind, builds[i].frame, on);
}

static void build_more(size_t i, char on) {
    struct asking a = {.call = more_builds[i].call,
        .to = {more_builds[i].tr_id, more_builds[i].unit, transport_of(on)},
        .reg = more_builds[i].reg, .count = more_builds[i].count, .write_reg = more_builds[i].write_reg};
    size_t n = words_of(more_builds[i].values, given);
    if (a.call == MASK) a.and_mask = given[0], a.or_mask = given[1];
    else a.values_len = n;
    build_as(&a, more_builds[i].kind, more_builds[i].frame, on);
}

static void read_row(size_t i, char on) {
    static uint8_t sent[1024], reply[1024];
    static uint16_t shown[MOST];
    const char *name = reads[i].name;
    size_t n = frame_of(reads[i].sent, on, sent), m = frame_of(reads[i].reply, on, reply);
    size_t count = words_of(reads[i].values, shown), room = reads[i].room < 0 ? count : (size_t)reads[i].room;
    struct asking a = {.call = READ, .to = {.proto = transport_of(on)}, .values_len = room};
    a.request = lend_bytes(request_room, sent, n);
    a.response = lend_bytes(response_room, reply, m);
    a.values = lend_values(room);
    struct told t = ask(&a);
    if (t.kind != reads[i].outcome) different(name, "the outcome");
    if (t.code != reads[i].code) different(name, "the code");
    if (t.n != count) different(name, "the count");
    for (size_t k = 0; k < room; k++)
        if (a.values[k] != (k < count ? shown[k] : (uint16_t)(0x5A5A + k))) different(name, "a value");
    if (n > 0 && memcmp(a.request.bytes, sent, n) != 0) different(name, "the request afterwards");
    if (m > 0 && memcmp(a.response.bytes, reply, m) != 0) different(name, "the reply afterwards");
    beside(name, request_room, n);
    beside(name, response_room, m);
    beside(name, values_room, 2 * room);
    take_back(request_room, n);
    take_back(response_room, m);
    take_back(values_room, 2 * room);
    checks++;
}

void asking_cases(void) {
    request_room = fenced(), response_room = fenced(), values_room = fenced();
    watch_fences(touched);
    for (size_t i = 0; i < CASES(builds); i++)
        for (const char *on = builds[i].on; *on != 0; on++) now = builds[i].name, build_row(i, *on);
    for (size_t i = 0; i < CASES(more_builds); i++)
        for (const char *on = more_builds[i].on; *on != 0; on++) now = more_builds[i].name, build_more(i, *on);
    for (size_t i = 0; i < CASES(reads); i++)
        for (const char *on = reads[i].on; *on != 0; on++) now = reads[i].name, read_row(i, *on);
}
