/* kat: every call of the header, with answers that stand in documents 01 and 02: the cases a to l, both sides of every
 * number, the order of the faults, the refusals, the collector's cases. The whole result and every lent byte are compared.
 * Nothing expected is worked out here; only header, CRC and LRC are put around a request and its reply, so that a row
 * holds on all transports.
 * `kat list` makes no call: it writes the driver's cases to standard output, as crates/cases/stdin holds them; and
 * `kat layout` where in such a record each number stands, as crates/cases/src/fields.rt has it.
 * Status: 0 all as the documents say, 1 a difference, 2 called otherwise. */
#include "kat.h"
#include <stdio.h>
#include <stdlib.h>
#include <string.h>

unsigned checks;

void different(const char *name, const char *what) {
    printf("%s: %s is not what the documents say\n", name, what);
    exit(1);
}

size_t bytes_of(const char *text, uint8_t *bytes) {
    size_t n = 0;
    if (text == NULL) return 0;
    if (*text == '\'') return memcpy(bytes, text + 1, strlen(text + 1)), strlen(text + 1);
    for (; *text != 0; text++) {
        if (*text == ' ') continue;
        if (*text == '*') {
            size_t more = strtoul(text + 1, (char **)&text, 10) - 1;
            memset(bytes + n, bytes[n - 1], more);
            n += more;
            text--;
        } else {
            bytes[n++] = (uint8_t)strtoul((char[]){text[0], text[1], 0}, NULL, 16);
            text++;
        }
    }
    return n;
}

int main(int argc, char **argv) {
    int listing = argc == 2 && strcmp(argv[1], "list") == 0;
    if (argc == 2 && strcmp(argv[1], "layout") == 0) return list_layout(), 0;
    if (argc > 1 && !listing) return fputs("usage: kat [list|layout]\n", stderr), 2;
    if (listing) list_head();
    /* case l: the CRC put around the rows */
    if (model_crc((const uint8_t *)"", 0) != 0xFFFF || model_crc((const uint8_t *)"\0", 1) != 0x40BF
        || model_crc((const uint8_t *)"\xFF", 1) != 0x00FF) different("case l", "the CRC of these tests");
    driver_cases(listing ? list_case : call_case);
    if (listing) return 0;
    collector_cases();
    other_calls();
    asking_cases();
    printf("%u checks, all as the documents say\n", checks);
    return 0;
}
