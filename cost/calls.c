/* Each public call in its ordinary and its dearest case. Prints the name of each case; the plugin prints the instructions. With the word
   `stack` it prints instead how far below the caller's frame the call writes. What a call answers is looked at: a wrong answer ends it. */
#include <stdio.h>
#include <stdlib.h>
#include <string.h>
#include "calls.h"

enum { SLOT = 2144, CELLS = 5 * SLOT, MOST = 2142, PAGED = 1230, SMALL = 52, WHOLE = 137, UD = 140, PAGE = 88, SUM = 2145, FILE_OCTETS = 65536, CAPTURED = 144, USSD = 160, STATE = 233, DCS = 0x96, PAINTED = 16384 };

static uint8_t cells[CELLS], out[MOST], ud[UD], page[PAGE], sum[SUM];
static uint8_t packet[MOST], paged[PAGED], small[SMALL], response[MOST], whole[WHOLE];
static uint8_t single[WHOLE], state[STATE], three_held[STATE];
static uint8_t string[USSD], secret[USSD], brief[USSD];
static uint8_t file[FILE_OCTETS], salvaged[FILE_OCTETS];
static Record record;
static Taken taken;
static Beaten beaten;
static Told told;
static Counters counters;
static Judged judged;
static Outstanding outstanding;
static Sent sent;
static Settled settled;
static uint8_t limit;
static size_t length;

#include "marks.h"

static void answers(const char *name, void (*call)(void), int what, size_t number) {
    run(name, call);
    expect(taken.what == what && taken.number == number);
}

static void gives(const char *name, void (*call)(void), size_t right) {
    run(name, call);
    expect(length == right);
}

/* ---- the calls */
static void nothing(void) {}
static void hand_back(void) { taken = cost_hand_back(record, 7, ud, length, cells, record.count * SLOT, out, MOST); }
static void take_message(void) { taken = cost_take_message(record, 7, ud, length, cells, record.count * SLOT, out, MOST); }
static void take_page(void) { taken = cost_take_page(record, page, PAGE, cells, record.count * SLOT, out, MOST); }
static void read_message(void) { length = cost_read_message(0, 7, ud, length); }
static void read_page(void) { length = cost_read_page(0, page, PAGE); }
static void fresh(void) { record = cost_fresh_record(0); }
static void three(void) { record = cost_fresh_record_with(0, 3); }
static void formed(void) { length = cost_record_formed(record); }
static void parse_command(void) { length = cost_parse_command(packet, MOST); }
static void parse_short(void) { length = cost_parse_command(packet, 100); }
static void parse_response(void) { length = cost_parse_response(response, MOST, false); }
static void build_small(void) { length = cost_build_command(packet, 8, packet, 28, out, MOST); }
static void build_command(void) { length = cost_build_command(packet, 8, packet, 2118, out, MOST); }
static void build_response(void) { length = cost_build_response(packet, 8, packet, 2121, out, MOST); }
static void sum_small(void) { length = cost_command_checksum(small, SMALL, sum, SUM); }
static void sum_command(void) { length = cost_command_checksum(packet, MOST, sum, SUM); }
static void sum_response(void) { length = cost_response_checksum(response, MOST, sum, SUM); }
static void write_message(void) { length = cost_write_message(0, 8, 7, 2, packet, MOST, ud, UD); }
static void write_page(void) { length = cost_write_page(7, 0x1080, 0, 2, paged, PAGED, page, PAGE); }
static void report_whole(void) { length = cost_write_report(1, UD, 1, whole, WHOLE, ud, UD); }
static void report_announced(void) { length = cost_write_report(1, UD, 1, response, MOST, ud, UD); }
static void announces(void) { length = cost_response_announces(response, MOST); }
static void build_ciphered_command(void) { length = cost_build_ciphered_command(21, packet, 2132, out, MOST); }
static void build_ciphered_response(void) { length = cost_build_ciphered_response(18, packet, 2136, out, MOST); }
static void command_check(void) { length = cost_command_check(packet, MOST); }
static void command_data(void) { length = cost_command_data(packet, MOST); }
static void command_opaque(void) { length = cost_command_opaque(packet, MOST); }
static void response_check(void) { length = cost_response_check(response, MOST, false); }
static void response_data(void) { length = cost_response_data(response, MOST, false); }
static void response_opaque(void) { length = cost_response_opaque(response, MOST, true); }
static void packet_formed(void) { length = cost_packet_formed(0, packet, MOST); }
static void own_octets(void) { length = cost_own_octets(ud, UD, 6); }
static void number_of(void) { length = cost_number_of(packet[0], packet[1]); }
static void pair_of(void) { length = cost_pair_of(MOST); }
static void put(void) { length = cost_put_octets(packet, UD, out, MOST, 1000); }
static void read_brief(void) { length = cost_read_ussd(1, DCS, brief, SMALL + 1); }
static void read_ussd(void) { length = cost_read_ussd(1, DCS, string, USSD); }
static void read_cut(void) { length = cost_read_ussd(1, DCS, string, 100); }
static void ussd_check(void) { length = cost_ussd_check(1, DCS, string, USSD); }
static void ussd_data(void) { length = cost_ussd_data(1, DCS, string, USSD); }
static void ussd_opaque(void) { length = cost_ussd_opaque(1, DCS, secret, USSD); }
static void write_brief(void) { length = cost_write_ussd(packet, 8, packet, 28, brief, USSD); }
static void write_ussd(void) { length = cost_write_ussd(packet, 8, packet, 134, string, USSD); }
static void write_secret(void) { length = cost_write_ciphered_ussd(21, packet, 148, secret, USSD); }
static void sum_brief(void) { length = cost_ussd_checksum(brief + 1, SMALL, sum, SUM); }
static void sum_ussd(void) { length = cost_ussd_checksum(string + 1, USSD - 1, sum, SUM); }
static void same(void) { length = cost_same_octets(packet, UD, small, SMALL); }
static void same_not(void) { length = cost_same_octets(packet + 3, 134, response + 4, 134); }
static void same_long(void) { length = cost_same_octets(packet + 3, 134, response + 3, 134); }
static void first_octets(void) { length = cost_first_octets(packet, MOST, UD); }
static void packet_in(void) { length = cost_packet_in(UD, out, MOST); }
static void written_in(void) { length = cost_written_in(UD, out, MOST); }
static void part_in(void) { length = cost_part_in(UD, ud, UD); }
static void beat(void) { beaten = cost_beat(record, limit); }
static void no_counters(void) { counters = cost_no_counters(); }
static void judge(void) { judged = cost_judge_counter(counters, small, SMALL); }
static void no_commands(void) { outstanding = cost_no_commands(); }
static void command_sent(void) { settled = cost_command_sent(outstanding, sent); }
static void response_came(void) { settled = cost_response_came(outstanding, sent.sender, whole, WHOLE); }
static void salvage(void) { length = cost_salvage(file, FILE_OCTETS, salvaged, FILE_OCTETS); }
static void read_captured(void) { length = cost_read_captured(file, CAPTURED); }
static void fresh_state(void) { length = cost_fresh_state(state, 0, 3); }
static void state_formed(void) { length = cost_state_formed(state); }
static void state_take_message(void) { told = cost_state_take_message(state, 7, ud, length, cells, state[2] * SLOT, out, MOST); }
static void state_take_page(void) { told = cost_state_take_page(state, page, PAGE, cells, state[2] * SLOT, out, MOST); }
static void state_beat(void) { told = cost_state_beat(state, limit); }
static void state_record(void) { record = cost_state_record(state); }
static void state_put(void) { cost_state_put(record, state); }

/* all octets that are skipped, run by run */
static void all_skipped(void) {
    length = 0;
    for (size_t from = 0; from < FILE_OCTETS;) {
        Run run = cost_next_skipped(file, FILE_OCTETS, from);
        length += run.count, from = run.next;
    }
}

/* ---- what they work on */
static void stated(uint8_t *p, const uint8_t *from, size_t n, uint8_t header) {
    memmove(p, from, n);
    p[0] = (n - 2) >> 8, p[1] = (n - 2) & 255, p[2] = header;
}

static void fill(void) {
    for (int i = 0; i < MOST; i++) packet[i] = (uint8_t)(i * 7 + 3);
    packet[3] = 0x12;
    stated(packet, packet, MOST, 21), stated(paged, packet, PAGED, 21), stated(small, packet, SMALL, 21), stated(response, packet, MOST, 18), stated(whole, packet, WHOLE, 18), stated(single, packet, WHOLE, 21);
}

static void part(uint32_t reference, uint32_t number) { length = cost_write_message(0, 8, reference, number, packet, MOST, ud, UD); }

static void hold(uint32_t reference, uint32_t number) {
    part(reference, number), take_message();
    record = taken.record;
}

static void empty_elements(void) {
    memset(ud, 0, UD), ud[0] = 138, length = UD;
    for (int i = 1; i < 139; i += 2) ud[i] = 0x55;
}

/* ---- the cases */
/* a part of a series that is held, with n slots, all used */
static void kept(const char *name, uint8_t n) {
    record = cost_fresh_record_with(0, n);
    for (uint32_t r = 1; r <= n; r++) hold(r, 1);
    part(1, 2);
    answers(name, take_message, 1, 0);
}

static void numbers(void) {
    kept("take_message, kept, one slot", 1);
    kept("take_message, kept, two slots", 2);
    kept("take_message, kept, three slots", 3);
    kept("take_message, kept, four slots", 4);
    kept("take_message, kept, five slots", 5);
}

static void messages(void) {
    fresh(), part(1, 2);
    answers("take_message, kept, empty record of five slots", take_message, 1, 0);
    three(), part(1, 2);
    answers("take_message, kept, empty record", take_message, 1, 0);
    hold(1, 1), hold(2, 1), part(3, 1);
    answers("take_message, kept, new, two others held", take_message, 1, 2);
    hold(3, 1), part(1, 2);
    answers("take_message, kept, three series held", take_message, 1, 0);
    part(2, 1);
    answers("take_message, held already, three series held", take_message, 2, 1);
    part(4, 1);
    answers("take_message, kept, displacing", take_message, 1, 0);
    for (uint32_t k = 2; k < 16; k++) hold(1, k);
    part(1, 16);
    answers("take_message, the sixteenth part of 2,142 octets", take_message, 3, MOST);
    length = cost_write_message(0, 8, 1, 1, small, SMALL, ud, UD);
    answers("take_message, a single of 52 octets", take_message, 3, SMALL);
    memset(ud, 0xFF, UD), length = UD;
    answers("take_message, refused 3, garbage", take_message, 0, 3);
    empty_elements();
    run("take_message, header of 69 empty elements", take_message);
    run("read_message, header of 69 empty elements", read_message);
    part(1, 2);
    gives("read_message, part 2 of 16", read_message, 6);
    record.slots[2].rank = 3, part(1, 2);
    answers("take_message, refused 1, record not well formed", take_message, 0, 1);
}

static void pages(void) {
    three();
    for (uint32_t k = 1; k < 15; k++) {
        cost_write_page(5, 0x1080, 0, k, paged, PAGED, page, PAGE);
        if (k == 3) answers("take_page, kept, one series held", take_page, 1, 0);
        take_page(), record = taken.record;
    }
    cost_write_page(5, 0x1080, 0, 15, paged, PAGED, page, PAGE);
    gives("read_page", read_page, 6);
    answers("take_page, the fifteenth page of 1,230 octets", take_page, 3, PAGED);
}

static void records(void) {
    run("fresh_record_with", three);
    run("fresh_record", fresh);
    gives("record_formed, fresh", formed, 1);
    three();
    hold(1, 1), hold(2, 1), hold(3, 1);
    gives("record_formed, three series held", formed, 1);
}

static void packets(void) {
    gives("parse_command, 2,142 octets", parse_command, 0);
    gives("parse_command, refused 9", parse_short, 9);
    gives("parse_response, 2,142 octets", parse_response, 0);
    gives("build_command, 52 octets", build_small, SMALL);
    gives("build_command, 2,142 octets", build_command, MOST);
    gives("build_response, 2,142 octets", build_response, MOST);
    gives("command_checksum, 52 octets", sum_small, 44);
    gives("command_checksum, 2,142 octets", sum_command, 2134);
    gives("response_checksum, 2,142 octets", sum_response, 2137);
    gives("build_ciphered_command, 2,142 octets", build_ciphered_command, MOST);
    gives("build_ciphered_response, 2,142 octets", build_ciphered_response, MOST);
    gives("command_check", command_check, 8);
    gives("command_data", command_data, 2118);
    gives("command_opaque, of a plain one", command_opaque, 0);
    gives("response_check", response_check, 8);
    gives("response_data", response_data, 2121);
    gives("response_opaque", response_opaque, 2136);
    gives("packet_formed", packet_formed, 1);
    gives("write_message, part 2 of 16", write_message, UD);
    gives("write_page, page 2 of 15", write_page, PAGE);
    gives("write_report, 137 octets in the report", report_whole, UD);
    gives("write_report, 2,142 octets announced", report_announced, 16);
    gives("response_announces", announces, 0);
}

static void octets(void) {
    gives("own_octets", own_octets, 134);
    gives("packet_in", packet_in, UD);
    gives("written_in", written_in, UD);
    gives("part_in", part_in, UD);
    gives("number_of", number_of, MOST - 2);
    gives("pair_of", pair_of, MOST & 255);
    gives("put_octets, 140 octets", put, 1);
    gives("same_octets, other lengths", same, 0);
    gives("same_octets, 134 octets that differ at the first", same_not, 0);
    gives("same_octets, 134 octets that are the same", same_long, 1);
    gives("first_octets", first_octets, UD);
}

static void beats_as(const char *name, uint8_t l, int what, int number) {
    limit = l;
    run(name, beat);
    expect(beaten.what == what && beaten.number == number);
}

static void beats(void) {
    fresh();
    for (uint32_t r = 1; r <= 5; r++) hold(r, 1);
    beats_as("beat, five slots used, none dropped", 9, 1, 0);
    expect(beaten.record.slots[0].beats == 1);
    beats_as("beat, five slots used, all dropped", 1, 1, 5);
    expect(beaten.record.slots[0].rank == 0);
    three(), hold(1, 1), hold(2, 1), hold(3, 1);
    beats_as("beat, three series held, none dropped", 9, 1, 0);
    record.slots[2].rank = 3, record.slots[1].beats = 7;
    beats_as("beat, refused 1, record not well formed", 9, 0, 1);
    three();
    beats_as("beat, refused 18", 0, 0, 18);
}

/* 16 entries: the command's TAR is in the last, and its counter is higher; then in none */
static void judgements(void) {
    run("no_counters", no_counters);
    expect(counters.count == 0);
    counters.count = 16, small[3] = 0x12;
    for (uint8_t i = 0; i < 16; i++) counters.entries[i].tar[2] = i;
    memcpy(counters.entries[15].tar, small + 7, 3);
    run("judge_counter, accepted, the last of 16 entries", judge);
    expect(judged.what == 1 && judged.number == 0 && !memcmp(judged.counters.entries[15].cntr, small + 10, 5));
    counters.entries[15].tar[0] ^= 1;
    run("judge_counter, unknown TAR, 16 entries", judge);
    expect(judged.what == 1 && judged.number == 9);
}

static void settles(const char *name, void (*call)(void), int what, int number, int count) {
    run(name, call);
    expect(settled.what == what && settled.number == number && settled.outstanding.count == count);
}

/* seven commands, then eight; the first is the one that the response answers */
static void commands(void) {
    run("no_commands", no_commands);
    expect(outstanding.count == 0);
    sent.sender = 7, memcpy(&sent.entry, whole + 3, 8);
    for (uint8_t i = 0; i < 7; i++) command_sent(), outstanding = settled.outstanding, sent.entry.cntr[4]++;
    settles("command_sent, 7 entries", command_sent, 1, 0, 8);
    outstanding = settled.outstanding;
    settles("command_sent, refused 22, the last of 8 entries", command_sent, 0, 22, 8);
    sent.entry.cntr[4]++;
    settles("command_sent, refused 21, 8 entries", command_sent, 0, 21, 8);
    whole[12] = 0;
    settles("response_came, closing the first of 8", response_came, 1, 0, 7);
    whole[12] = 0x0B;
    settles("response_came, waiting, the first of 8", response_came, 2, 0, 8);
    whole[10] += 8;
    settles("response_came, refused 23, 8 entries", response_came, 0, 23, 8);
}

static void strings(void) {
    gives("write_ussd, 53 octets", write_brief, SMALL + 1);
    gives("write_ussd, 160 octets", write_ussd, USSD);
    gives("write_ciphered_ussd, 160 octets", write_secret, USSD);
    gives("read_ussd, 53 octets", read_brief, 0);
    gives("read_ussd, 160 octets", read_ussd, 0);
    gives("read_ussd, refused 9", read_cut, 9);
    gives("ussd_check, 160 octets", ussd_check, 8);
    gives("ussd_data, 160 octets", ussd_data, 134);
    gives("ussd_opaque, 160 octets", ussd_opaque, 148);
    gives("ussd_checksum, 52 octets", sum_brief, 44);
    gives("ussd_checksum, 159 octets", sum_ussd, 151);
}

static void captures(void) {
    memset(file, 0x33, FILE_OCTETS);
    gives("salvage, 65,536 octets, garbage", salvage, 0);
    gives("next_skipped, all runs of 65,536 octets, garbage", all_skipped, FILE_OCTETS);
    for (size_t at = 0; at + CAPTURED <= FILE_OCTETS; at += CAPTURED) file[at] = 0xA5, file[at + 1] = 0x5A, file[at + 2] = 1, file[at + 3] = 140;
    size_t most = FILE_OCTETS / CAPTURED * CAPTURED;
    memcpy(file + most, "\xA5\x5A\x01\x0C", 4);
    gives("salvage, 65,536 octets, records of 140 octets", salvage, FILE_OCTETS);
    gives("next_skipped, all runs of 65,536 octets, records of 140 octets", all_skipped, 0);
    gives("read_captured, 140 octets", read_captured, 4);
    for (size_t at = 0; at < FILE_OCTETS; at++) file[at] = at & 1 ? 0x5A : 0xA5;
    gives("salvage, 65,536 octets, A5 5A over and over", salvage, 0);
}

/* ---- the same on a log */
enum { LOG_OCTETS = 80 * 151 };
static uint8_t entries[LOG_OCTETS];
static Log logged;
static LogTaken log_taken;
static LogBeaten log_beaten;

static void log_take_message(void) { log_taken = cost_log_take_message(logged, 7, ud, length, entries, LOG_OCTETS, out, MOST); }
static void log_take_page(void) { log_taken = cost_log_take_page(logged, page, PAGE, entries, LOG_OCTETS, out, MOST); }
static void log_beat(void) { log_beaten = cost_log_beat(logged, limit, entries, LOG_OCTETS); }
static void log_formed(void) { length = cost_log_formed(logged, entries, LOG_OCTETS); }
static void log_record(void) { record = cost_log_record(logged, entries, LOG_OCTETS); }
static void log_three(void) { logged = cost_fresh_log(0, 3); }

static void log_answers(const char *name, void (*call)(void), int what, size_t number) {
    run(name, call);
    expect(log_taken.what == what && log_taken.number == number);
}

static void log_hold(uint32_t reference, uint32_t number) {
    part(reference, number), log_take_message();
    logged = log_taken.log;
}

static void log_beats_as(const char *name, uint8_t l, int what, int number) {
    limit = l;
    run(name, log_beat);
    expect(log_beaten.what == what && log_beaten.number == number);
}

/* what messages() does, on a log of three slots; then the most entries that there can be: 75, of five series */
static void logs(void) {
    run("fresh_log", log_three);
    part(1, 2);
    log_answers("log_take_message, kept, empty log", log_take_message, 1, 0);
    log_hold(1, 1), log_hold(2, 1), log_hold(3, 1);
    gives("log_formed, three series held", log_formed, 1);
    part(1, 2);
    log_answers("log_take_message, kept, three series held", log_take_message, 1, 0);
    logged.count = 3, part(2, 1);
    log_answers("log_take_message, held already, three series held", log_take_message, 2, 1);
    limit = 9, log_beats_as("log_beat, three series held, none dropped", 9, 1, 0);
    log_three(), log_hold(1, 1), log_hold(2, 1), log_hold(3, 1), part(4, 1);
    log_answers("log_take_message, kept, displacing", log_take_message, 1, 0);
    log_three(), log_hold(1, 1), log_hold(2, 1), log_hold(3, 1);
    for (uint32_t k = 2; k < 16; k++) log_hold(1, k);
    part(1, 16);
    log_answers("log_take_message, the sixteenth part of 2,142 octets", log_take_message, 3, MOST);
    logged = log_taken.log, memset(ud, 0xFF, UD), length = UD;
    log_answers("log_take_message, refused 3, garbage", log_take_message, 0, 3);
    entries[1] = 9, part(1, 2);
    log_answers("log_take_message, refused 1, a log that it could not have made", log_take_message, 0, 1);
    logged = cost_fresh_log(0, 5);
    for (uint32_t r = 1; r <= 5; r++)
        for (uint32_t k = 1; k < 16; k++) log_hold(r, k);
    expect(logged.count == 75);
    gives("log_formed, 75 entries", log_formed, 1);
    run("log_record, 75 entries", log_record);
    expect(record.slots[4].held[14] && !record.slots[4].held[15]);
    log_beats_as("log_beat, 75 entries, none dropped", 9, 1, 0);
    part(1, 16);
    log_answers("log_take_message, the sixteenth part, 75 entries", log_take_message, 3, MOST);
    log_three();
    for (uint32_t k = 1; k < 4; k++) {
        cost_write_page(5, 0x1080, 0, k, paged, PAGED, page, PAGE);
        if (k == 3) log_answers("log_take_page, kept, one series held", log_take_page, 1, 0);
        log_take_page(), logged = log_taken.log;
    }
}

/* ---- on a state */
static void tells(const char *name, void (*call)(void), int what, size_t number) {
    run(name, call);
    expect(told.what == what && told.number == number);
}

static void keep(uint32_t reference, uint32_t number) { part(reference, number), state_take_message(); }

/* the state with three series held again */
static void again(void) { memcpy(state, three_held, STATE); }

static void states(void) {
    gives("fresh_state", fresh_state, 0);
    gives("state_formed, fresh", state_formed, 1);
    part(1, 2);
    tells("state_take_message, kept, empty state", state_take_message, 1, 0);
    fresh_state(), keep(1, 1), keep(2, 1), part(3, 1);
    tells("state_take_message, kept, new, two others held", state_take_message, 1, 2);
    memcpy(three_held, state, STATE);
    gives("state_formed, three series held", state_formed, 1);
    part(1, 2);
    tells("state_take_message, kept, three series held", state_take_message, 1, 0);
    again(), part(2, 1);
    tells("state_take_message, held already, three series held", state_take_message, 2, 1);
    again(), part(4, 1);
    tells("state_take_message, kept, displacing", state_take_message, 1, 0);
    again();
    for (uint32_t k = 2; k < 16; k++) keep(1, k);
    part(1, 16);
    tells("state_take_message, the sixteenth part of 2,142 octets", state_take_message, 3, MOST);
    again(), length = cost_write_message(0, 8, 1, 1, single, WHOLE, ud, UD);
    tells("state_take_message, a single of 137 octets", state_take_message, 3, WHOLE);
    memset(ud, 0xFF, UD), length = UD;
    tells("state_take_message, refused 3, garbage", state_take_message, 0, 3);
    empty_elements();
    run("state_take_message, header of 69 empty elements", state_take_message);
    part(1, 2), state[0] = 2;
    tells("state_take_message, refused 1, another format", state_take_message, 0, 1);
    fresh_state();
    for (uint32_t k = 1; k < 15; k++) {
        cost_write_page(5, 0x1080, 0, k, paged, PAGED, page, PAGE);
        if (k == 3) run("state_take_page, kept, one series held", state_take_page);
        else state_take_page();
    }
    cost_write_page(5, 0x1080, 0, 15, paged, PAGED, page, PAGE);
    tells("state_take_page, the fifteenth page of 1,230 octets", state_take_page, 3, PAGED);
    again(), limit = 9;
    tells("state_beat, three series held, none dropped", state_beat, 1, 0);
    limit = 1;
    tells("state_beat, three series held, all dropped", state_beat, 1, 3);
    limit = 0;
    tells("state_beat, refused 18", state_beat, 0, 18);
    again();
    run("state_record", state_record);
    memset(state, 0, STATE);
    run("state_put", state_put);
    expect(!memcmp(state, three_held, STATE));
}

int main(int argc, char **argv) {
    stack = argc > 1 && !strcmp(argv[1], "stack");
    fill();
    run("an empty call", nothing);
    run("a call that hands the record back as it is", hand_back);
    numbers(), messages(), pages(), records(), packets(), octets(), beats(), judgements(), commands(), strings(), captures(), logs(), states();
    return 0;
}
