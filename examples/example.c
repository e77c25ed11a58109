/* A command is built, split and taken out of order. Run: cc -I c examples/example.c crates/abi/out/libabi.a && ./a.out */
#include <stdio.h>
#include "skelmarix.h"

static uint8_t packet[SKM_PACKET_OCTETS], ud[SKM_USER_DATA_OCTETS], out[SKM_PACKET_OCTETS], state[SKM_STATE_OCTETS], cells[3 * SKM_SLOT_OCTETS], data[300];

int main(void) {
    static const uint8_t fields[SKM_COMMAND_FIELDS] = {0x01, 0x21, 0x15, 0x15, 0xB0, 0x00, 0x10, 0, 0, 0, 0, 1, 0}, check[] = "checksum";
    static const uint32_t order[] = {2, 3, 1};
    skm_size length, part[2], taken[4], body[3];
    uint8_t read[SKM_COMMAND_FIELDS];
    if (skm_build_command(fields, check, 8, data, sizeof data, packet, sizeof packet, &length)) return 1;
    if (skm_fresh_with(state, SKM_COMMAND, 3)) return 1;
    for (int i = 0; i < 3; i++) {
        if (skm_write_message(SKM_COMMAND, 8, 42, order[i], packet, length, ud, sizeof ud, part)) return 1;
        if (skm_take_message(state, 7, ud, part[1], cells, sizeof cells, out, sizeof out, taken)) return 1;
        printf("part %u of %u: %s\n", (unsigned)order[i], (unsigned)part[0], taken[0] == SKM_PACKET ? "packet" : "kept");
    }
    if (skm_parse_command(out, taken[3], read, body)) return 1;
    printf("%u octets of data\n", (unsigned)body[2]);
    return 0;
}
