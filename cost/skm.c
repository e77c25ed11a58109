/* The calls for C, each in the cases that calls.c has of the call that it wraps, under the same names. */
#include <stdio.h>
#include <stdlib.h>
#include <string.h>
#include "skelmarix.h"

enum { MOST = 2142, PAGED = 1230, SMALL = 52, WHOLE = 137, UD = 140, PAGE = 88, SUM = 2145, FILE_OCTETS = 65536, CAPTURED = 144, USSD = 160, PAINTED = 16384 };

static uint8_t state[SKM_STATE_OCTETS], three_held[SKM_STATE_OCTETS], cells[SKM_CELLS_OCTETS], out[MOST], ud[UD], page[PAGE], sum[SUM], fields[13];
static uint8_t packet[MOST], paged[PAGED], small[SMALL], response[MOST], whole[WHOLE], single[WHOLE];
static uint8_t string[USSD], secret[USSD], brief[USSD], file[FILE_OCTETS], salvaged[FILE_OCTETS];
static skm_size taken[4], brought[9], part_told[2], body[3], places[6], going[2], found[2], length;
static uint32_t number, limit;

#include "marks.h"

/* ---- the calls */
static void nothing(void) {}
static void fresh(void) { number = skm_fresh(state, 0); }
static void three(void) { number = skm_fresh_with(state, 0, 3); }
static void formed(void) { number = skm_state_formed(state); }
static void take_message(void) { number = skm_take_message(state, 7, ud, length, cells, state[2] * SKM_SLOT_OCTETS, out, MOST, taken); }
static void take_page(void) { number = skm_take_page(state, page, PAGE, cells, state[2] * SKM_SLOT_OCTETS, out, MOST, taken); }
static void beat(void) { number = skm_beat(state, limit, &length); }
static void read_message(void) { number = skm_read_message(0, 7, ud, length, brought); }
static void read_page(void) { number = skm_read_page(0, page, PAGE, brought); }
static void packet_formed(void) { number = skm_packet_formed(0, packet, MOST); }
static void parse_command(void) { number = skm_parse_command(packet, MOST, fields, body); }
static void parse_short(void) { number = skm_parse_command(packet, 100, fields, body); }
static void parse_response(void) { number = skm_parse_response(response, MOST, 0, fields, body); }
static void show_command(void) { number = skm_show_command(packet, MOST, places); }
static void show_response(void) { number = skm_show_response(response, MOST, 1, places); }
static void build_small(void) { number = skm_build_command(fields, packet, 8, packet, 28, out, MOST, &length); }
static void build_command(void) { number = skm_build_command(fields, packet, 8, packet, 2118, out, MOST, &length); }
static void build_response(void) { number = skm_build_response(fields, packet, 8, packet, 2121, out, MOST, &length); }
static void build_ciphered_command(void) { number = skm_build_ciphered_command(fields, 21, packet, 2132, out, MOST, &length); }
static void build_ciphered_response(void) { number = skm_build_ciphered_response(fields, 18, packet, 2136, out, MOST, &length); }
static void sum_small(void) { number = skm_command_checksum(small, SMALL, sum, SUM, &length); }
static void sum_command(void) { number = skm_command_checksum(packet, MOST, sum, SUM, &length); }
static void sum_response(void) { number = skm_response_checksum(response, MOST, 0, sum, SUM, &length); }
static void write_message(void) { number = skm_write_message(0, 8, 7, 2, packet, MOST, ud, UD, part_told); }
static void write_page(void) { number = skm_write_page(7, 0x1080, 0, 2, paged, PAGED, page, PAGE, part_told); }
static void report_whole(void) { number = skm_write_report(1, UD, 1, whole, WHOLE, ud, UD, going); }
static void report_announced(void) { number = skm_write_report(1, UD, 1, response, MOST, ud, UD, going); }
static void announces(void) { number = skm_response_announces(response, MOST, &length); }
static void write_brief(void) { number = skm_write_ussd(1, fields, packet, 8, packet, 28, brief, USSD, &length); }
static void write_ussd(void) { number = skm_write_ussd(1, fields, packet, 8, packet, 134, string, USSD, &length); }
static void write_secret(void) { number = skm_write_ciphered_ussd(1, fields, 21, packet, 148, secret, USSD, &length); }
static void read_brief(void) { number = skm_read_ussd(1, SKM_USSD_DCS, brief, SMALL + 1, fields, body); }
static void read_ussd(void) { number = skm_read_ussd(1, SKM_USSD_DCS, string, USSD, fields, body); }
static void read_cut(void) { number = skm_read_ussd(1, SKM_USSD_DCS, string, 100, fields, body); }
static void sum_brief(void) { number = skm_ussd_checksum(brief + 1, SMALL, sum, SUM, &length); }
static void sum_ussd(void) { number = skm_ussd_checksum(string + 1, USSD - 1, sum, SUM, &length); }
static void salvage(void) { number = skm_salvage(file, FILE_OCTETS, salvaged, FILE_OCTETS, &length); }
static void read_captured(void) { number = skm_read_captured(file, CAPTURED, found); }

/* all octets that are skipped, run by run */
static void all_skipped(void) {
    skm_size told[3] = {0, 0, 0};
    for (length = 0; told[2] < FILE_OCTETS; length += told[1]) skm_next_skipped(file, FILE_OCTETS, told[2], told);
}

/* ---- what they work on */
static void stated(uint8_t *p, const uint8_t *from, size_t n, uint8_t header) {
    memmove(p, from, n);
    p[0] = (uint8_t)((n - 2) >> 8), p[1] = (uint8_t)((n - 2) & 255), p[2] = header;
}

static void fill(void) {
    for (int i = 0; i < MOST; i++) packet[i] = (uint8_t)(i * 7 + 3);
    packet[3] = 0x12;
    stated(packet, packet, MOST, 21), stated(paged, packet, PAGED, 21), stated(small, packet, SMALL, 21), stated(single, packet, WHOLE, 21);
    stated(response, packet, MOST, 18), stated(whole, packet, WHOLE, 18);
}

static void spi(uint8_t first) { memcpy(fields, packet + 3, 13), fields[0] = first; }

static void wrote(const uint8_t *from, size_t n, uint32_t reference, uint32_t which) {
    skm_write_message(0, 8, reference, which, from, n, ud, UD, part_told);
    length = part_told[1];
}

static void part(uint32_t reference, uint32_t which) { wrote(packet, MOST, reference, which); }
static void hold(uint32_t reference, uint32_t which) { part(reference, which), take_message(); }
static void again(void) { memcpy(state, three_held, sizeof state); }

static void answers(const char *name, void (*call)(void), uint32_t right) {
    run(name, call);
    expect(number == right);
}

static void takes(const char *name, void (*call)(void), skm_size what, skm_size which) {
    run(name, call);
    expect(number == 0 && taken[0] == what && (what == SKM_PACKET ? taken[3] : taken[1]) == which);
}

static void gives(const char *name, void (*call)(void), skm_size right) {
    run(name, call);
    expect(number == 0 && length == right);
}

/* ---- the cases */
/* a part of a series that is held, with n slots, all used */
static void kept(const char *name, uint32_t n) {
    skm_fresh_with(state, 0, n);
    for (uint32_t r = 1; r <= n; r++) hold(r, 1);
    part(1, 2);
    takes(name, take_message, SKM_KEPT, 0);
}

static void messages(void) {
    kept("take_message, kept, one slot", 1);
    kept("take_message, kept, two slots", 2);
    kept("take_message, kept, three slots", 3);
    kept("take_message, kept, four slots", 4);
    kept("take_message, kept, five slots", 5);
    three(), part(1, 2);
    takes("take_message, kept, empty state", take_message, SKM_KEPT, 0);
    three(), hold(1, 1), hold(2, 1), part(3, 1);
    takes("take_message, kept, new, two others held", take_message, SKM_KEPT, 2);
    memcpy(three_held, state, sizeof state);
    part(1, 2);
    takes("take_message, kept, three series held", take_message, SKM_KEPT, 0);
    again(), part(2, 1);
    takes("take_message, held already, three series held", take_message, SKM_HELD_ALREADY, 1);
    again(), part(4, 1);
    takes("take_message, kept, displacing", take_message, SKM_KEPT, 0);
    again();
    for (uint32_t k = 2; k < 16; k++) hold(1, k);
    part(1, 16);
    takes("take_message, the sixteenth part of 2,142 octets", take_message, SKM_PACKET, MOST);
    again(), wrote(single, WHOLE, 1, 1);
    takes("take_message, a single of 137 octets", take_message, SKM_PACKET, WHOLE);
}

static void others(void) {
    memset(ud, 0xFF, UD), length = UD;
    answers("take_message, refused 3, garbage", take_message, 3);
    memset(ud, 0, UD), ud[0] = 138, length = UD;
    for (int i = 1; i < 139; i += 2) ud[i] = 0x55;
    answers("take_message, header of 69 empty elements", take_message, 5);
    answers("read_message, header of 69 empty elements", read_message, 5);
    part(1, 2);
    answers("read_message, part 2 of 16", read_message, 0);
    state[0] = 2, part(1, 2);
    answers("take_message, refused 1, another format", take_message, 1);
    three();
    for (uint32_t k = 1; k < 15; k++) {
        skm_write_page(5, 0x1080, 0, k, paged, PAGED, page, PAGE, part_told);
        if (k == 3) takes("take_page, kept, one series held", take_page, SKM_KEPT, 0);
        else take_page();
    }
    skm_write_page(5, 0x1080, 0, 15, paged, PAGED, page, PAGE, part_told);
    answers("read_page", read_page, 0);
    takes("take_page, the fifteenth page of 1,230 octets", take_page, SKM_PACKET, PAGED);
}

static void states(void) {
    answers("fresh", fresh, 0);
    answers("fresh_with", three, 0);
    answers("state_formed, fresh", formed, 0);
    again();
    answers("state_formed, three series held", formed, 0);
    limit = 9;
    gives("beat, three series held, none dropped", beat, 0);
    limit = 1;
    gives("beat, three series held, all dropped", beat, 3);
    limit = 0;
    answers("beat, refused 18", beat, 18);
}

static void packets(void) {
    answers("packet_formed", packet_formed, 0);
    answers("parse_command, 2,142 octets", parse_command, 0);
    answers("parse_command, refused 9", parse_short, 9);
    answers("parse_response, 2,142 octets", parse_response, 0);
    answers("show_command, 2,142 octets", show_command, 0);
    answers("show_response, ciphered, 2,142 octets", show_response, 0);
    spi(2);
    gives("build_command, 52 octets", build_small, SMALL);
    gives("build_command, 2,142 octets", build_command, MOST);
    gives("build_response, 2,142 octets", build_response, MOST);
    gives("command_checksum, 52 octets", sum_small, 44);
    gives("command_checksum, 2,142 octets", sum_command, 2134);
    gives("response_checksum, 2,142 octets", sum_response, 2137);
    gives("build_ciphered_response, 2,142 octets", build_ciphered_response, MOST);
    spi(6);
    gives("build_ciphered_command, 2,142 octets", build_ciphered_command, MOST);
    answers("write_message, part 2 of 16", write_message, 0);
    answers("write_page, page 2 of 15", write_page, 0);
    answers("write_report, 137 octets in the report", report_whole, 0);
    answers("write_report, 2,142 octets announced", report_announced, 0);
    answers("response_announces", announces, 0);
}

static void strings(void) {
    spi(2);
    gives("write_ussd, 53 octets", write_brief, SMALL + 1);
    gives("write_ussd, 160 octets", write_ussd, USSD);
    spi(6);
    gives("write_ciphered_ussd, 160 octets", write_secret, USSD);
    answers("read_ussd, 53 octets", read_brief, 0);
    answers("read_ussd, 160 octets", read_ussd, 0);
    answers("read_ussd, refused 9", read_cut, 9);
    gives("ussd_checksum, 52 octets", sum_brief, 44);
    gives("ussd_checksum, 159 octets", sum_ussd, 151);
}

static void captures(void) {
    memset(file, 0x33, FILE_OCTETS);
    gives("salvage, 65,536 octets, garbage", salvage, 0);
    gives("next_skipped, all runs of 65,536 octets, garbage", all_skipped, FILE_OCTETS);
    for (size_t at = 0; at + CAPTURED <= FILE_OCTETS; at += CAPTURED) file[at] = 0xA5, file[at + 1] = 0x5A, file[at + 2] = 1, file[at + 3] = 140;
    memcpy(file + FILE_OCTETS / CAPTURED * CAPTURED, "\xA5\x5A\x01\x0C", 4);
    gives("salvage, 65,536 octets, records of 140 octets", salvage, FILE_OCTETS);
    gives("next_skipped, all runs of 65,536 octets, records of 140 octets", all_skipped, 0);
    answers("read_captured, 140 octets", read_captured, 0);
}

int main(int argc, char **argv) {
    stack = argc > 1 && !strcmp(argv[1], "stack");
    fill();
    run("an empty call", nothing);
    messages(), others(), states(), packets(), strings(), captures();
    return 0;
}
