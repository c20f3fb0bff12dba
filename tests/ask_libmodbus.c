/* ask_libmodbus tcp|rtu ANY|DEVICE: a server over libmodbus for the bench tool of host/ (tests/ask_peers.py). It says
 * 'ready', over TCP with its port, and serves until it is killed. */
#include <arpa/inet.h>
#include <modbus.h>
#include <stdio.h>
#include <string.h>
#include <sys/socket.h>

enum { CELLS = 2000 }; /* as in tests/ask_peers.py */

static int port_of(int listener) {
    struct sockaddr_in here;
    socklen_t len = sizeof here;
    return getsockname(listener, (struct sockaddr *)&here, &len) == 0 ? ntohs(here.sin_port) : 0;
}

int main(int argc, char **argv) {
    static uint8_t frame[MODBUS_TCP_MAX_ADU_LENGTH];
    if (argc != 3) return 2;
    int tcp = strcmp(argv[1], "tcp") == 0, listener = -1, len;
    modbus_t *line = tcp ? modbus_new_tcp("127.0.0.1", 0) : modbus_new_rtu(argv[2], 19200, 'N', 8, 1);
    modbus_mapping_t *tables = modbus_mapping_new(CELLS, CELLS, CELLS, CELLS);
    if (line == NULL || tables == NULL || modbus_set_slave(line, 1) != 0) return 1;
    memcpy(tables->tab_input_bits, (uint8_t[]){1, 0, 1, 1}, 4);
    memcpy(tables->tab_input_registers, (uint16_t[]){17, 4660}, 4);
    tables->tab_registers[CELLS - 1] = 4711;
    if (tcp ? (listener = modbus_tcp_listen(line, 8)) < 0 : modbus_connect(line) != 0) return 1;
    printf("ready %d\n", tcp ? port_of(listener) : 0);
    fflush(stdout);
    for (;;) {
        if (tcp && modbus_tcp_accept(line, &listener) < 0) return 1;
        while ((len = modbus_receive(line, frame)) >= 0 || !tcp)
            if (len > 0) modbus_reply(line, frame, len, tables);
        modbus_close(line);
    }
}
