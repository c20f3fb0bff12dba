/* peer_libmodbus tcp|rtu PORT|DEVICE BASE: libmodbus against the server of bin/peers; it writes cells from BASE on.
 * Status: 0 all right, 1 something is wrong (a line says what). */
#include <errno.h>
#include <modbus.h>
#include <stdio.h>
#include <stdlib.h>
#include <string.h>

/* as in tests/peer_plan.py */
enum { LAST = 19999, LAST_HOLDING = 4711, MOST_BITS = 1968, MOST_WORDS = 123, MOST_READ = 125, MOST_EXCHANGED = 121 };

static modbus_t *line;

#define MUST(x) do { if (!(x)) { \
    printf("wrong: line %d: %s (%s)\n", __LINE__, #x, modbus_strerror(errno)); \
    exit(1); \
} } while (0)

static void reads(int base) {
    uint8_t bits[2000];
    uint16_t words[125];
    MUST(modbus_read_input_bits(line, 0, 4, bits) == 4 && memcmp(bits, (uint8_t[]){1, 0, 1, 1}, 4) == 0);
    MUST(modbus_read_input_registers(line, 0, 2, words) == 2 && words[0] == 17 && words[1] == 4660);
    MUST(modbus_read_registers(line, LAST, 1, words) == 1 && words[0] == LAST_HOLDING);
    MUST(modbus_read_bits(line, base, 2000, bits) == 2000 && memchr(bits, 1, 2000) == NULL);
    MUST(modbus_read_registers(line, base, 125, words) == 125 && words[0] == 0);
}

static void small_writes(int base) {
    uint8_t bits[6];
    uint16_t words[3];
    MUST(modbus_write_bit(line, base + 3, 1) == 1);
    MUST(modbus_write_bits(line, base + 4, 3, (uint8_t[]){1, 0, 1}) == 3);
    MUST(modbus_read_bits(line, base + 2, 6, bits) == 6 && memcmp(bits, (uint8_t[]){0, 1, 1, 0, 1, 0}, 6) == 0);
    MUST(modbus_write_register(line, base, 0xBEEF) == 1);
    MUST(modbus_write_registers(line, base + 1, 1, (uint16_t[]){65535}) == 1);
    MUST(modbus_read_registers(line, base, 3, words) == 3 && words[0] == 0xBEEF && words[1] == 65535 && words[2] == 0);
}

static void largest_writes(int base, int most_bits, int most_words) {
    uint8_t bits[2000], bits_back[2000];
    uint16_t words[125], words_back[125];
    for (int i = 0; i < most_bits; i++) bits[i] = i % 5 == 0;
    for (int i = 0; i < most_words; i++) words[i] = (uint16_t)(i * 257);
    MUST(modbus_write_bits(line, base, most_bits, bits) == most_bits);
    MUST(modbus_read_bits(line, base, most_bits, bits_back) == most_bits);
    MUST(memcmp(bits, bits_back, (size_t)most_bits) == 0);
    MUST(modbus_write_registers(line, base, most_words, words) == most_words);
    MUST(modbus_read_registers(line, base, most_words, words_back) == most_words);
    MUST(memcmp(words, words_back, (size_t)most_words * 2) == 0);
}

/* Functions 22 and 23: a mask, an exchange whose read begins before its write and ends in it, and the largest. */
static void masks_and_exchanges(int base) {
    uint16_t words[MOST_EXCHANGED], back[MOST_READ];
    MUST(modbus_write_register(line, base + 300, 0x12) == 1);
    MUST(modbus_mask_write_register(line, base + 300, 0xF2, 0x25) == 1);
    MUST(modbus_write_and_read_registers(line, base + 301, 2, (uint16_t[]){7, 8}, base + 300, 2, back) == 2);
    MUST(back[0] == 0x17 && back[1] == 7);
    MUST(modbus_read_registers(line, base + 300, 4, back) == 4 && back[1] == 7 && back[2] == 8 && back[3] == 0);
    for (int i = 0; i < MOST_EXCHANGED; i++) words[i] = (uint16_t)(i * 263);
    MUST(modbus_write_and_read_registers(line, base + 303, MOST_EXCHANGED, words, base + 299, MOST_READ, back)
         == MOST_READ);
    MUST(back[0] == 0 && back[1] == 0x17 && back[2] == 7 && back[3] == 8);
    MUST(memcmp(back + 4, words, sizeof words) == 0);
    MUST(modbus_mask_write_register(line, LAST + 1, 0, 1) == -1 && errno == EMBXILADD);
    MUST(modbus_write_and_read_registers(line, base + 300, 1, words, LAST, 2, back) == -1 && errno == EMBXILADD);
    MUST(modbus_write_and_read_registers(line, LAST, 2, words, base + 300, 1, back) == -1 && errno == EMBXILADD);
    MUST(modbus_read_registers(line, base + 300, 1, back) == 1 && back[0] == 0x17);
    MUST(modbus_read_registers(line, LAST, 1, back) == 1 && back[0] == LAST_HOLDING);
}

/* libmodbus keeps to the limits itself, so what breaks them is sent raw; the reply ends with function and code. */
static void refused_raw(uint8_t *request, int len, int code, int tail) {
    uint8_t reply[MODBUS_TCP_MAX_ADU_LENGTH];
    MUST(modbus_send_raw_request(line, request, len) > 0);
    int got = modbus_receive_confirmation(line, reply);
    MUST(got >= 3 + tail && reply[got - tail - 2] == request[1] + 128 && reply[got - tail - 1] == code);
}

static void exceptions(int tail) {
    uint16_t words[2];
    MUST(modbus_read_registers(line, LAST, 2, words) == -1 && errno == EMBXILADD);
    MUST(modbus_write_bit(line, LAST + 1, 1) == -1 && errno == EMBXILADD);
    uint8_t id[16];
    MUST(modbus_report_slave_id(line, sizeof id, id) == -1 && errno == EMBXILFUN);
    refused_raw((uint8_t[]){1, 7}, 2, 1, tail);
    refused_raw((uint8_t[]){1, 43, 14, 1, 0}, 5, 1, tail);
    refused_raw((uint8_t[]){1, 3, 0, 0, 0, 126}, 6, 3, tail);
    refused_raw((uint8_t[]){1, 5, 0, 0, 0, 1}, 6, 3, tail);
    refused_raw((uint8_t[]){1, 23, 0, 0, 0, 126, 0, 0, 0, 1, 2, 0, 9}, 13, 3, tail);
}

/* Writes that are not answered: another unit's is not done, a broadcast is. */
static void units(int base) {
    uint16_t words[2];
    MUST(modbus_set_slave(line, 2) == 0 && modbus_set_response_timeout(line, 0, 500000) == 0);
    MUST(modbus_write_register(line, base + 200, 7) == -1 && errno == ETIMEDOUT);
    MUST(modbus_set_slave(line, 0) == 0);
    MUST(modbus_write_register(line, base + 201, 77) == -1 && errno == ETIMEDOUT);
    MUST(modbus_set_slave(line, 1) == 0 && modbus_set_response_timeout(line, 10, 0) == 0);
    MUST(modbus_read_registers(line, base + 200, 2, words) == 2 && words[0] == 0 && words[1] == 77);
}

int main(int argc, char **argv) {
    if (argc != 4) return 2;
    int tcp = strcmp(argv[1], "tcp") == 0, base = atoi(argv[3]);
    line = tcp ? modbus_new_tcp("127.0.0.1", atoi(argv[2])) : modbus_new_rtu(argv[2], 19200, 'E', 8, 1);
    MUST(line != NULL && modbus_set_slave(line, 1) == 0 && modbus_set_response_timeout(line, 10, 0) == 0);
    MUST(modbus_connect(line) == 0);
    reads(base);
    small_writes(base);
    largest_writes(base, MOST_BITS, MOST_WORDS);
    masks_and_exchanges(base);
    exceptions(tcp ? 0 : 2);
    units(base);
    printf("1 2 3 4 5 6 15 16 22 23; 2000 coils and 125 registers read, %d and %d written, %d and %d exchanged; "
           "exceptions 1 2 3; another unit; broadcast\n", MOST_BITS, MOST_WORDS, MOST_READ, MOST_EXCHANGED);
    modbus_close(line);
    modbus_free(line);
    return 0;
}
