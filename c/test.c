/* Calls every function of the header, on good and on bad input. What is expected was worked out by hand from docs/PROTOCOL.md; the octets of its
   examples are lines of crates/replay/stdin.
   All memory that a call is lent is in `now`. Before a call the test writes into `want` what the call must leave there, and after it compares all of it:
   so each call is held to its answer, to each octet that it writes, and to writing nothing else. */
#include <stdio.h>
#include <string.h>
#include "skelmarix.h"

enum { GUARD = 24, LONGEST = 2200 };

/* Numbers and buffers that are lent. No call may touch a guard. */
struct memory {
    skm_size taken[4], brought[9], part[2], body[3], places[6], run[3], found[2], going[2], length, dropped, announces;
    uint8_t guard0[GUARD];
    uint8_t state[SKM_STATE_OCTETS];
    uint8_t guard1[GUARD];
    uint8_t cells[SKM_CELLS_OCTETS];
    uint8_t guard2[GUARD];
    uint8_t out[LONGEST];
    uint8_t guard3[GUARD];
    uint8_t fields[13];
    uint8_t guard4[GUARD];
};
static struct memory now, want;

/* From here on the memory is wanted as it is now. */
static void settle(void) { memcpy(&want, &now, sizeof now); }

/* What a call reads: octets that the test has written out. */
static uint8_t in[LONGEST], other[LONGEST];
static unsigned long checks, failed;

/* ---- telling */
static void say(const char *text) {
    while (*text) putchar(*text++);
}

static void say_number(unsigned long n) {
    if (n > 9) say_number(n / 10);
    putchar((int)('0' + n % 10));
}

enum { NO_PLACE = 0x7FFFFFFF };
static void fault(unsigned long line, const char *what, unsigned long place, unsigned long is, unsigned long must) {
    failed++;
    say("c/test.c:");
    say_number(line);
    say(": ");
    say(what);
    if (place != NO_PLACE) say_number(place);
    say(" is ");
    say_number(is);
    say(", and must be ");
    say_number(must);
    say("\n");
}

/* One call was made at this line: its number must be `must`, and the memory what is wanted of it. */
static void answered(unsigned long line, unsigned long is, unsigned long must) {
    const uint8_t *p = (const uint8_t *)&now, *q = (const uint8_t *)&want;
    size_t i = 0;
    checks++;
    if (is != must) fault(line, "what the call returned", NO_PLACE, is, must);
    checks++;
    while (i < sizeof now && p[i] == q[i]) i++;
    if (i < sizeof now) fault(line, "the memory at place ", i, p[i], q[i]);
    settle();
}
#define ANSWERS(must, call) answered(__LINE__, call, must)

/* ---- octets */
static unsigned digit(char c) { return (unsigned)(c <= '9' ? c - '0' : c - 'A' + 10); }

/* Writes octets, two digits each, blanks between them or not; how many there are. */
static size_t put(uint8_t *to, const char *digits) {
    size_t n = 0;
    while (*digits) {
        if (*digits == ' ') {
            digits++;
            continue;
        }
        to[n++] = (uint8_t)(digit(digits[0]) * 16 + digit(digits[1]));
        digits += 2;
    }
    return n;
}

/* The long packets of the examples: a head, and behind place 15 the octets 1, 8, 15, .. in steps of seven. */
static size_t pattern(uint8_t *to, const char *head, size_t length) {
    size_t n = put(to, head), i;
    for (i = n; i < length; i++) to[i] = (uint8_t)(i < 16 ? 0 : 1 + 7 * (i - 16));
    return length;
}

/* All memory as before any test: octets that no call is asked to write. */
static void begin(void) {
    memset(&now, 0xEE, sizeof now);
    settle();
}

static void wanted(skm_size *to, size_t count, skm_size a, skm_size b, skm_size c, skm_size d) {
    skm_size all[4];
    all[0] = a, all[1] = b, all[2] = c, all[3] = d;
    memcpy(to, all, count * sizeof *to);
}

/* ---- states, octet by octet: docs/PROTOCOL.md, "Series"; the places are in the header */
static void empty_state(uint8_t *state, unsigned kind, unsigned slots) {
    memset(state, 0, SKM_STATE_OCTETS);
    state[0] = 1, state[1] = (uint8_t)kind, state[2] = (uint8_t)slots;
}

static uint8_t *slot(uint8_t *state, unsigned i) { return state + 3 + 46 * i; }

/* A slot with part 2 of two held, of seven octets, of messages from sender 1 with an 8-bit reference. */
static void fill_slot(uint8_t *state, unsigned i, unsigned rank, unsigned beats, unsigned reference) {
    uint8_t *s = slot(state, i);
    memset(s, 0, 46);
    s[0] = (uint8_t)rank, s[1] = (uint8_t)beats, s[5] = 1, s[6] = 8, s[8] = (uint8_t)reference, s[13] = 2;
    s[13 + 2] = 7, s[29 + 2] = 1;
}

static void ranks(unsigned a, unsigned b, unsigned c) {
    slot(want.state, 0)[0] = (uint8_t)a, slot(want.state, 1)[0] = (uint8_t)b, slot(want.state, 2)[0] = (uint8_t)c;
}

static void freed(unsigned i) { memset(slot(want.state, i), 0, 46); }

static uint8_t *cell(uint8_t *cells, unsigned i, unsigned number) { return cells + (16 * i + number - 1) * 134; }

static void want_kept(skm_size i, skm_size displaced) { wanted(want.taken, 4, 1, i, displaced, 0); }
static void want_held(skm_size i) { wanted(want.taken, 4, 2, i, 0, 0); }
static void want_packet(const uint8_t *octets, size_t n) {
    wanted(want.taken, 4, 3, 0, 0, n);
    memcpy(want.out, octets, n);
}
static void want_none(void) { wanted(want.taken, 4, 0, 0, 0, 0); }

/* Takes user data from sender 1 with the right buffers of so many slots. */
static uint32_t message(const char *digits, unsigned slots) {
    size_t n = put(in, digits);
    return skm_take_message(now.state, 1, in, n, now.cells, slots * SKM_SLOT_OCTETS, now.out, SKM_PACKET_OCTETS, now.taken);
}

static void test_version(void) {
    begin();
    ANSWERS(SKM_VERSION, skm_version());
}

static void test_fresh(void) {
    static const uint32_t wrong[] = {0, 6, 255, 256, 257, 261, 0xFFFFFFFFu};
    unsigned n;
    begin();
    empty_state(want.state, 0, 5);
    ANSWERS(0, skm_fresh(now.state, SKM_COMMAND));
    empty_state(want.state, 1, 5);
    ANSWERS(0, skm_fresh(now.state, SKM_RESPONSE));
    for (n = 1; n <= 5; n++) {
        empty_state(want.state, n & 1, n);
        ANSWERS(0, skm_fresh_with(now.state, n & 1, n));
        ANSWERS(0, skm_state_formed(now.state));
    }
    for (n = 0; n < sizeof wrong / sizeof *wrong; n++) ANSWERS(25, skm_fresh_with(now.state, SKM_COMMAND, wrong[n]));
}

/* ---- taking: the run of "Series" in docs/PROTOCOL.md, with three slots; each series has two parts */
static const char *const run_packet = "000E0D00000000B000 10000000000000";

/* Part 2 of a series arrives and is kept in slot i; a, b and c are the ranks afterwards. */
static void second_comes(unsigned long line, unsigned reference, unsigned i, unsigned displaced, unsigned a, unsigned b, unsigned c) {
    char digits[] = "0500030x0202 10000000000000";
    digits[7] = (char)(reference < 16 ? 'A' + (int)reference - 10 : '0');
    digits[6] = (char)(reference < 16 ? '0' : '1');
    fill_slot(want.state, i, 1, 0, reference);
    ranks(a, b, c);
    put(cell(want.cells, i, 2), "10000000000000");
    want_kept(i, displaced);
    answered(line, message(digits, 3), 0);
}

/* Part 1 arrives, and the packet is complete. */
static void first_comes(unsigned long line, unsigned reference, unsigned i, unsigned a, unsigned b, unsigned c) {
    char digits[] = "0700030x02017000 000E0D00000000B000";
    digits[7] = (char)('A' + (int)reference - 10);
    put(other, run_packet);
    freed(i);
    ranks(a, b, c);
    want_packet(other, 16);
    answered(line, message(digits, 3), 0);
}

/* The state after the first three arrivals. */
static void three_held(void) {
    unsigned i;
    begin();
    empty_state(now.state, 0, 3);
    for (i = 0; i < 3; i++) {
        fill_slot(now.state, i, 3 - i, 0, 10 + i);
        put(cell(now.cells, i, 2), "10000000000000");
    }
    settle();
}

static void test_run(void) {
    begin();
    empty_state(now.state, 0, 3);
    settle();
    second_comes(__LINE__, 0x0A, 0, 0, 1, 0, 0);
    second_comes(__LINE__, 0x0B, 1, 0, 2, 1, 0);
    second_comes(__LINE__, 0x0C, 2, 0, 3, 2, 1);
    first_comes(__LINE__, 0x0B, 1, 2, 0, 1);
    second_comes(__LINE__, 0x0D, 1, 0, 3, 1, 2);
    first_comes(__LINE__, 0x0A, 0, 0, 1, 2);
    first_comes(__LINE__, 0x0C, 2, 0, 1, 0);
    second_comes(__LINE__, 0x0E, 0, 0, 1, 2, 0);
    second_comes(__LINE__, 0x0F, 2, 0, 2, 3, 1);
    second_comes(__LINE__, 0x10, 1, 1, 3, 1, 2);
}

static void test_held_already(void) {
    three_held();
    ranks(1, 3, 2);
    want_held(0);
    ANSWERS(0, message("0500030A0202 10000000000000", 3));
    second_comes(__LINE__, 0x0D, 1, 1, 2, 1, 3);
}

/* The octets of a key: sender and reference, the high octet first. */
static void test_key(void) {
    uint8_t *s = slot(want.state, 0);
    begin();
    empty_state(now.state, 0, 1);
    settle();
    s[0] = 1, put(s + 2, "89ABCDEF 10 012A"), s[13] = 2, s[13 + 2] = 1, s[29 + 2] = 1;
    cell(want.cells, 0, 2)[0] = 0xCC;
    want_kept(0, 0);
    ANSWERS(0, skm_take_message(now.state, 0x89ABCDEFu, in, put(in, "060804012A0202 CC"), now.cells, SKM_SLOT_OCTETS, now.out, SKM_PACKET_OCTETS, now.taken));
}

/* What is refused alters nothing, with the one exception that a complete series which is no packet is dropped. */
static void test_take_refused(void) {
    three_held();
    want_none();
    memset(in, 0, LONGEST);
    in[0] = 2, in[1] = 0x70;
    ANSWERS(2, skm_take_message(now.state, 1, in, 141, now.cells, 3 * SKM_SLOT_OCTETS, now.out, SKM_PACKET_OCTETS, now.taken));
    ANSWERS(9, skm_take_message(now.state, 1, in, 140, now.cells, 3 * SKM_SLOT_OCTETS, now.out, SKM_PACKET_OCTETS, now.taken));
    ANSWERS(3, skm_take_message(now.state, 1, in, 0, now.cells, 3 * SKM_SLOT_OCTETS, now.out, SKM_PACKET_OCTETS, now.taken));
    ANSWERS(3, message("0270", 3));
    ANSWERS(3, message("0570017203A1", 3));
    ANSWERS(4, message("03700100", 3));
    ANSWERS(5, message("0500032A1101", 3));
    ANSWERS(5, message("027100 000B0A00000000000000000000", 3));
    ANSWERS(6, message("0700032A11017000", 3));
    ANSWERS(7, message("0500030A0302 10000000000000", 3));
    ANSWERS(8, message("0500030A0202 11000000000000", 3));
    ANSWERS(8, message("0500030A0202 100000000000", 3));
    ANSWERS(9, message("027000 000E0C00000000B00010000000000000", 3));
    freed(0);
    ranks(0, 2, 1);
    ANSWERS(9, message("0700030A02017000 000E0C00000000B000", 3));
    put(other, run_packet);
    want_packet(other, 16);
    ANSWERS(0, message("027000 000E0D00000000B00010000000000000", 3));
}

static void test_take_buffers(void) {
    static const skm_size wrong[] = {0, SKM_SLOT_OCTETS, 3 * SKM_SLOT_OCTETS - 1, 3 * SKM_SLOT_OCTETS + 1, 4 * SKM_SLOT_OCTETS, SKM_CELLS_OCTETS};
    static const skm_size lengths[] = {0, 16, SKM_PACKET_OCTETS - 1, SKM_PACKET_OCTETS + 1};
    size_t i, n = put(in, "027000 000E0D00000000B00010000000000000");
    three_held();
    want_none();
    for (i = 0; i < sizeof wrong / sizeof *wrong; i++)
        ANSWERS(1, skm_take_message(now.state, 1, in, n, now.cells, wrong[i], now.out, SKM_PACKET_OCTETS, now.taken));
    for (i = 0; i < sizeof lengths / sizeof *lengths; i++)
        ANSWERS(1, skm_take_message(now.state, 1, in, n, now.cells, 3 * SKM_SLOT_OCTETS, now.out, lengths[i], now.taken));
}

/* One octet of a sound state is changed, in each case to what no state of the library has: every call refuses it with 1. */
static void test_damaged(void) {
    static const uint8_t damage[][2] = {
        {0, 0}, {0, 2}, {1, 2}, {1, 255}, {2, 0}, {2, 6}, {2, 255}, {3, 0}, {3, 2}, {3, 4}, {4, 255}, {4 + 46, 1}, {3 + 6, 0}, {3 + 6, 9}, {3 + 7, 1}, {3 + 8, 0x0B},
        {3 + 9, 1}, {3 + 12, 1}, {3 + 13, 0}, {3 + 13, 1}, {3 + 13, 17}, {3 + 14, 1}, {3 + 15, 135}, {3 + 30, 1}, {3 + 31, 0}, {3 + 31, 2}, {3 + 32, 1},
        {3 + 3 * 46, 1}, {3 + 3 * 46 + 45, 1}, {SKM_STATE_OCTETS - 1, 1}};
    size_t i;
    for (i = 0; i < sizeof damage / sizeof *damage; i++) {
        three_held();
        ANSWERS(0, skm_state_formed(now.state));
        now.state[damage[i][0]] = damage[i][1];
        settle();
        ANSWERS(1, skm_state_formed(now.state));
        want_none();
        ANSWERS(1, message("0500030A0202 10000000000000", 3));
        memset(in, 0, 88);
        put(in, "A001 1085 F6 11 000E0D");
        ANSWERS(1, skm_take_page(now.state, in, 88, now.cells, 3 * SKM_SLOT_OCTETS, now.out, SKM_PACKET_OCTETS, now.taken));
        want.dropped = 0;
        ANSWERS(1, skm_beat(now.state, 3, &now.dropped));
    }
}

/* ---- pages: the example of "Pages", which arrive as 2, 3, 1 */
static size_t page_of(unsigned number, unsigned total, const uint8_t *packet, size_t length) {
    size_t n = put(in, "A001 1085 F6"), from = 82 * (number - 1), i;
    in[n++] = (uint8_t)(number * 16 + total);
    for (i = 0; i < 82; i++) in[n + i] = from + i < length ? packet[from + i] : 0;
    return n + 82;
}

static uint32_t page(size_t n) { return skm_take_page(now.state, in, n, now.cells, SKM_SLOT_OCTETS, now.out, SKM_PACKET_OCTETS, now.taken); }

static void test_pages(void) {
    size_t length = pattern(other, "00A80D00000000B00010", 170);
    uint8_t *s = slot(want.state, 0);
    begin();
    empty_state(now.state, 0, 1);
    settle();
    page_of(2, 3, other, length);
    s[0] = 1, put(s + 9, "A001 1085 03"), s[13 + 2] = 82, s[29 + 2] = 1;
    memcpy(cell(want.cells, 0, 2), in + 6, 82);
    want_kept(0, 0);
    ANSWERS(0, page(88));
    page_of(3, 3, other, length);
    s[13 + 3] = 82, s[29 + 3] = 1;
    memcpy(cell(want.cells, 0, 3), in + 6, 82);
    ANSWERS(0, page(88));
    want_held(0);
    ANSWERS(0, page(88));
    in[87] = 1;
    want_none();
    ANSWERS(8, page(88));
    page_of(1, 3, other, length);
    freed(0);
    want_packet(other, 170);
    ANSWERS(0, page(88));
}

static void test_page_refused(void) {
    begin();
    empty_state(now.state, 0, 1);
    settle();
    want_none();
    pattern(other, "000E0D00000000B00010", 16);
    page_of(1, 1, other, 16);
    ANSWERS(2, page(87));
    ANSWERS(2, page(89));
    ANSWERS(2, skm_take_page(now.state, in, 0, now.cells, SKM_SLOT_OCTETS, now.out, SKM_PACKET_OCTETS, now.taken));
    ANSWERS(1, skm_take_page(now.state, in, 88, now.cells, SKM_SLOT_OCTETS - 1, now.out, SKM_PACKET_OCTETS, now.taken));
    ANSWERS(1, skm_take_page(now.state, in, 88, now.cells, SKM_SLOT_OCTETS, now.out, SKM_PACKET_OCTETS + 1, now.taken));
    in[5] = 0x32;
    ANSWERS(4, page(88));
    in[5] = 0x11, in[3] = 0xA0;
    ANSWERS(5, page(88));
    in[3] = 0x9F, in[8] = 0x0C;
    ANSWERS(9, page(88));
    in[8] = 0x0D;
    want_packet(other, 16);
    ANSWERS(0, page(88));
    now.state[1] = want.state[1] = 1;
    want_none();
    ANSWERS(5, page(88));
}

/* ---- beats: the drawing of "Beats" */
static void test_beat(void) {
    static const unsigned rank[] = {3, 1, 4, 2}, count[] = {2, 0, 5, 1};
    unsigned i;
    begin();
    empty_state(now.state, 0, 5);
    for (i = 0; i < 4; i++) fill_slot(now.state, i, rank[i], count[i], 10 + i);
    settle();
    ANSWERS(0, skm_state_formed(now.state));
    want.dropped = 0;
    ANSWERS(18, skm_beat(now.state, 0, &now.dropped));
    ANSWERS(18, skm_beat(now.state, 256, &now.dropped));
    ANSWERS(18, skm_beat(now.state, 259, &now.dropped));
    freed(0), freed(2);
    slot(want.state, 1)[1] = 1, slot(want.state, 3)[1] = 2;
    want.dropped = 2;
    ANSWERS(0, skm_beat(now.state, 3, &now.dropped));
    slot(want.state, 1)[1] = 2, slot(want.state, 3)[1] = 3;
    want.dropped = 0;
    ANSWERS(0, skm_beat(now.state, 255, &now.dropped));
    freed(1), freed(3);
    want.dropped = 2;
    ANSWERS(0, skm_beat(now.state, 1, &now.dropped));
    want.dropped = 0;
    ANSWERS(0, skm_beat(now.state, 1, &now.dropped));
}

/* ---- packets: the examples of "Packets". A command and a response of 30 octets each. */
static const char *const command30 = "001C15 0100 00 00 B00010 0000000000 00 01080F161D242B32 3940474E555C";
static const char *const ciphered30 = "001C15 0400 00 00 B00010 0000000000 00 01080F161D242B32 3940474E555C";
static const char *const response30 = "001C0E B00010 0000000001 00 00 03080D12 171C21262B30353A3F44494E53";

static uint32_t parse_command(size_t n) { return skm_parse_command(in, n, now.fields, now.body); }
static uint32_t parse_response(size_t n, uint32_t ciphered) { return skm_parse_response(in, n, ciphered, now.fields, now.body); }

static void want_parsed(const char *fields, size_t count, skm_size ciphered, skm_size a, skm_size b) {
    memset(want.fields, 0, count);
    put(want.fields, fields);
    wanted(want.body, 3, ciphered, a, b, 0);
}

static void want_places(skm_size check, skm_size check_n, skm_size data, skm_size data_n, skm_size opaque, skm_size opaque_n) {
    wanted(want.places, 4, check, check_n, data, data_n);
    wanted(want.places + 4, 2, opaque, opaque_n, 0, 0);
}

static void test_formed(void) {
    begin();
    ANSWERS(0, skm_packet_formed(SKM_COMMAND, in, put(in, command30)));
    ANSWERS(9, skm_packet_formed(SKM_COMMAND, in, 29));
    ANSWERS(9, skm_packet_formed(SKM_COMMAND, in, 31));
    ANSWERS(9, skm_packet_formed(SKM_COMMAND, in, 0));
    put(in, "001C0C");
    ANSWERS(9, skm_packet_formed(SKM_COMMAND, in, 30));
    ANSWERS(0, skm_packet_formed(SKM_RESPONSE, in, 30));
    ANSWERS(0, skm_packet_formed(256, in, 30));
    put(in, "001C1B");
    ANSWERS(0, skm_packet_formed(SKM_COMMAND, in, 30));
    put(in, "001C1C");
    ANSWERS(9, skm_packet_formed(SKM_COMMAND, in, 30));
    ANSWERS(9, skm_packet_formed(SKM_RESPONSE, in, 30));
}

static void test_parse_command(void) {
    begin();
    put(in, command30);
    want_parsed("0100 00 00 B00010", 13, 0, 8, 6);
    ANSWERS(0, parse_command(30));
    want_places(16, 8, 24, 6, 0, 0);
    ANSWERS(0, skm_show_command(in, 30, now.places));
    put(in, ciphered30);
    want_parsed("0400 00 00 B00010", 13, 1, 21, 20);
    ANSWERS(0, parse_command(30));
    want_places(0, 0, 0, 0, 10, 20);
    ANSWERS(0, skm_show_command(in, 30, now.places));
    put(in, "000E0D 0021 15 16 B00011 0102030405 06");
    want_parsed("0021 15 16 B00011 0102030405 06", 13, 0, 0, 0);
    ANSWERS(0, parse_command(16));
    want_places(16, 0, 16, 0, 0, 0);
    ANSWERS(0, skm_show_command(in, 16, now.places));
    pattern(in, "085C0D 00", SKM_PACKET_OCTETS);
    want_parsed("00", 13, 0, 0, 2126);
    ANSWERS(0, parse_command(SKM_PACKET_OCTETS));
}

static void test_parse_command_refused(void) {
    begin();
    want_parsed("", 13, 0, 0, 0);
    put(in, command30);
    in[3] = 0;
    ANSWERS(15, parse_command(30));
    want_places(0, 0, 0, 0, 0, 0);
    ANSWERS(15, skm_show_command(in, 30, now.places));
    ANSWERS(9, parse_command(29));
    ANSWERS(9, parse_command(0));
    ANSWERS(9, skm_show_command(in, 29, now.places));
    pattern(in, "085D0D 00", SKM_PACKET_OCTETS + 1);
    ANSWERS(12, parse_command(SKM_PACKET_OCTETS + 1));
    ANSWERS(12, skm_show_command(in, SKM_PACKET_OCTETS + 1, now.places));
    in[3] = 1;
    ANSWERS(12, parse_command(SKM_PACKET_OCTETS + 1));
}

static void test_parse_response(void) {
    begin();
    put(in, response30);
    want_parsed("B00010 0000000001 00 00", 10, 0, 4, 13);
    ANSWERS(0, parse_response(30, 0));
    want_places(13, 4, 17, 13, 0, 0);
    ANSWERS(0, skm_show_response(in, 30, 0, now.places));
    want_parsed("B00010", 10, 1, 14, 24);
    ANSWERS(0, parse_response(30, 1));
    ANSWERS(0, parse_response(30, 256));
    want_places(0, 0, 0, 0, 6, 24);
    ANSWERS(0, skm_show_response(in, 30, 2, now.places));
    want_parsed("", 10, 0, 0, 0);
    ANSWERS(9, parse_response(31, 0));
    in[2] = 9;
    ANSWERS(9, parse_response(30, 0));
    want_places(0, 0, 0, 0, 0, 0);
    ANSWERS(9, skm_show_response(in, 30, 0, now.places));
    pattern(in, "085D0A", SKM_PACKET_OCTETS + 1);
    ANSWERS(12, parse_response(SKM_PACKET_OCTETS + 1, 1));
    ANSWERS(12, skm_show_response(in, SKM_PACKET_OCTETS + 1, 1, now.places));
}

/* ---- building. `in` has the fields, `other` the check field, the data or the opaque octets. */
static uint32_t build_command(size_t check, size_t data, skm_size room) {
    return skm_build_command(in, other, check, other + check, data, now.out, room, &now.length);
}

static uint32_t build_response(size_t check, size_t data, skm_size room) {
    return skm_build_response(in, other, check, other + check, data, now.out, room, &now.length);
}

static void test_build_command(void) {
    begin();
    put(in, "0100 00 00 B00010 0000000000 00");
    put(other, "01080F161D242B32 3940474E555C");
    want.length = put(want.out, command30);
    ANSWERS(0, build_command(8, 6, SKM_PACKET_OCTETS));
    want.length = 0;
    ANSWERS(1, build_command(8, 6, SKM_PACKET_OCTETS - 1));
    ANSWERS(1, build_command(8, 6, SKM_PACKET_OCTETS + 1));
    ANSWERS(1, build_command(8, 6, 0));
    ANSWERS(11, build_command(243, 6, SKM_PACKET_OCTETS));
    ANSWERS(15, build_command(0, 6, SKM_PACKET_OCTETS));
    in[0] = 4;
    ANSWERS(10, build_command(8, 6, SKM_PACKET_OCTETS));
    ANSWERS(10, build_command(243, 6, SKM_PACKET_OCTETS));
    in[0] = 0;
    ANSWERS(15, build_command(8, 6, SKM_PACKET_OCTETS));
    ANSWERS(12, build_command(0, 2127, SKM_PACKET_OCTETS));
    memset(other, 7, 2126);
    put(want.out, "085C0D 0000 00 00 B00010 0000000000 00");
    memset(want.out + 16, 7, 2126);
    want.length = SKM_PACKET_OCTETS;
    ANSWERS(0, build_command(0, 2126, SKM_PACKET_OCTETS));
}

static uint32_t build_ciphered(unsigned header, size_t opaque, skm_size room) {
    return skm_build_ciphered_command(in, (uint16_t)header, other, opaque, now.out, room, &now.length);
}

static void test_build_ciphered_command(void) {
    begin();
    put(in, "0400 00 00 B00010");
    put(other, "0000000000 00 01080F161D242B32 3940474E555C");
    want.length = put(want.out, ciphered30);
    ANSWERS(0, build_ciphered(21, 20, SKM_PACKET_OCTETS));
    want.out[1] = 22, want.length = 24;
    ANSWERS(0, build_ciphered(21, 14, SKM_PACKET_OCTETS));
    want.length = 0;
    ANSWERS(11, build_ciphered(21, 13, SKM_PACKET_OCTETS));
    ANSWERS(11, build_ciphered(12, 20, SKM_PACKET_OCTETS));
    ANSWERS(11, build_ciphered(256, 300, SKM_PACKET_OCTETS));
    ANSWERS(11, build_ciphered(256 + 21, 300, SKM_PACKET_OCTETS));
    ANSWERS(1, build_ciphered(21, 20, SKM_PACKET_OCTETS + 1));
    ANSWERS(12, build_ciphered(21, 2133, SKM_PACKET_OCTETS));
    in[0] = 0xFB;
    ANSWERS(10, build_ciphered(21, 20, SKM_PACKET_OCTETS));
}

static void test_build_response(void) {
    begin();
    put(in, "B00010 0000000001 00 00");
    put(other, "03080D12 171C21262B30353A3F44494E53");
    want.length = put(want.out, response30);
    ANSWERS(0, build_response(4, 13, SKM_PACKET_OCTETS));
    want.length = 0;
    ANSWERS(1, build_response(4, 13, SKM_PACKET_OCTETS - 1));
    ANSWERS(11, build_response(246, 13, SKM_PACKET_OCTETS));
    ANSWERS(12, build_response(0, 2130, SKM_PACKET_OCTETS));
    put(want.out, "000B0A B00010 0000000001 00 00");
    want.length = 13;
    ANSWERS(0, build_response(0, 0, SKM_PACKET_OCTETS));
}

static void test_build_ciphered_response(void) {
    begin();
    put(in, "B00010");
    put(other, "0000000001 00 00 03080D12 171C21262B30353A3F44494E53");
    want.length = put(want.out, response30);
    ANSWERS(0, skm_build_ciphered_response(in, 14, other, 24, now.out, SKM_PACKET_OCTETS, &now.length));
    want.length = 0;
    ANSWERS(1, skm_build_ciphered_response(in, 14, other, 24, now.out, 30, &now.length));
    ANSWERS(11, skm_build_ciphered_response(in, 14, other, 10, now.out, SKM_PACKET_OCTETS, &now.length));
    ANSWERS(11, skm_build_ciphered_response(in, 9, other, 24, now.out, SKM_PACKET_OCTETS, &now.length));
    ANSWERS(11, skm_build_ciphered_response(in, 256, other, 300, now.out, SKM_PACKET_OCTETS, &now.length));
    ANSWERS(12, skm_build_ciphered_response(in, 14, other, 2137, now.out, SKM_PACKET_OCTETS, &now.length));
}

/* ---- checksum octets */
static uint32_t command_sum(size_t n) { return skm_command_checksum(in, n, now.out, SKM_CHECKSUM_OCTETS, &now.length); }
static uint32_t response_sum(size_t n, uint32_t ciphered) { return skm_response_checksum(in, n, ciphered, now.out, SKM_CHECKSUM_OCTETS, &now.length); }

static void test_checksums(void) {
    begin();
    put(in, command30);
    want.length = put(want.out, "001C1501000000B000100000000000003940474E555C");
    ANSWERS(0, command_sum(30));
    want.length = 0;
    ANSWERS(1, skm_command_checksum(in, 30, now.out, SKM_CHECKSUM_OCTETS - 1, &now.length));
    ANSWERS(1, skm_command_checksum(in, 30, now.out, SKM_PACKET_OCTETS, &now.length));
    ANSWERS(9, command_sum(29));
    in[3] = 0;
    ANSWERS(15, command_sum(30));
    in[3] = 4;
    ANSWERS(10, command_sum(30));
    pattern(in, "085D0D 00", SKM_PACKET_OCTETS + 1);
    ANSWERS(12, command_sum(SKM_PACKET_OCTETS + 1));
    ANSWERS(12, response_sum(SKM_PACKET_OCTETS + 1, 0));
    put(in, response30);
    ANSWERS(10, response_sum(30, 1));
    ANSWERS(9, response_sum(31, 1));
    ANSWERS(1, skm_response_checksum(in, 30, 0, now.out, SKM_CHECKSUM_OCTETS + 1, &now.length));
    want.length = put(want.out, "027100001C0EB0001000000000010000171C21262B30353A3F44494E53");
    ANSWERS(0, response_sum(30, 0));
}

/* ---- one message or page by itself: the examples of "User data headers" */
static uint32_t read_as(uint32_t kind, const char *digits) { return skm_read_message(kind, 0x89ABCDEFu, in, put(in, digits), now.brought); }

static void want_single(skm_size start) {
    memset(want.brought, 0, sizeof want.brought);
    wanted(want.brought, 2, SKM_SINGLE, start, 0, 0);
}

static void want_part(skm_size start, skm_size total, skm_size number, skm_size width) {
    wanted(want.brought, 4, SKM_PART, start, total, number);
    wanted(want.brought + 4, 4, 0x89ABCDEFu, width, 42, 0);
    want.brought[8] = 0;
}

static void test_read_message(void) {
    begin();
    want_part(13, 2, 1, 8);
    ANSWERS(0, read_as(SKM_COMMAND, "0C2403A1A2A300032A02017000C1C2"));
    want_part(7, 2, 2, 16);
    ANSWERS(0, read_as(SKM_COMMAND, "060804002A0202"));
    want_part(11, 2, 2, 8);
    ANSWERS(0, read_as(SKM_COMMAND, "0A0003FF050100032A0202"));
    want_single(3);
    ANSWERS(0, read_as(SKM_COMMAND, "027000"));
    ANSWERS(0, read_as(SKM_RESPONSE, "027100"));
    ANSWERS(0, read_as(9, "027100"));
    want_single(8);
    ANSWERS(0, read_as(SKM_COMMAND, "0700032A11127000"));
    want_single(13);
    ANSWERS(0, read_as(SKM_COMMAND, "0C00032A02020003FF00007000"));
    memset(want.brought, 0, sizeof want.brought);
    ANSWERS(3, read_as(SKM_COMMAND, ""));
    ANSWERS(3, read_as(SKM_COMMAND, "0270"));
    ANSWERS(3, read_as(SKM_COMMAND, "0600032A020270"));
    ANSWERS(4, read_as(SKM_COMMAND, "03700100"));
    ANSWERS(5, read_as(SKM_COMMAND, "027100"));
    ANSWERS(5, read_as(SKM_COMMAND, "0500032A1101"));
    ANSWERS(6, read_as(SKM_COMMAND, "0700032A11017000"));
    ANSWERS(2, skm_read_message(SKM_COMMAND, 1, in, 141, now.brought));
}

static void test_read_page(void) {
    begin();
    page_of(2, 3, in, 0);
    wanted(want.brought, 4, SKM_PART, 6, 3, 2);
    wanted(want.brought + 4, 4, 0, 0, 0, 0xA001);
    want.brought[8] = 0x1085;
    ANSWERS(0, skm_read_page(SKM_COMMAND, in, 88, now.brought));
    in[5] = 0x20;
    want_single(6);
    ANSWERS(0, skm_read_page(SKM_COMMAND, in, 88, now.brought));
    memset(want.brought, 0, sizeof want.brought);
    ANSWERS(5, skm_read_page(SKM_RESPONSE, in, 88, now.brought));
    ANSWERS(2, skm_read_page(SKM_COMMAND, in, 87, now.brought));
    put(in, "0000 10A0 96 32");
    ANSWERS(4, skm_read_page(SKM_COMMAND, in, 88, now.brought));
    in[5] = 0x11;
    ANSWERS(5, skm_read_page(SKM_COMMAND, in, 88, now.brought));
}

/* ---- splitting: the examples of "Splitting" */
static uint32_t write_part(uint32_t width, uint32_t reference, uint32_t number, size_t n) {
    return skm_write_message(SKM_COMMAND, width, reference, number, in, n, now.out, SKM_USER_DATA_OCTETS, now.part);
}

static void test_write_message(void) {
    begin();
    pattern(in, "00880D00000000B00010", 138);
    wanted(want.part, 2, 2, 140, 0, 0);
    memcpy(want.out + put(want.out, "0700032A02017000"), in, 132);
    ANSWERS(0, write_part(8, 42, 1, 138));
    wanted(want.part, 2, 2, put(want.out, "0500032A0202 2D343B424950"), 0, 0);
    ANSWERS(0, write_part(8, 42, 2, 138));
    wanted(want.part, 2, 2, put(want.out, "060804002A0202 262D343B424950"), 0, 0);
    ANSWERS(0, write_part(16, 42, 2, 138));
    in[1] = 0x87;
    wanted(want.part, 2, 1, 140, 0, 0);
    memcpy(want.out + put(want.out, "027000"), in, 137);
    ANSWERS(0, write_part(8, 42, 1, 137));
    want.out[1] = 0x71;
    ANSWERS(0, skm_write_message(SKM_RESPONSE, 8, 42, 1, in, 137, now.out, SKM_USER_DATA_OCTETS, now.part));
}

static void test_write_message_refused(void) {
    begin();
    pattern(in, "00880D00000000B00010", 138);
    wanted(want.part, 2, 0, 0, 0, 0);
    ANSWERS(14, write_part(8, 42, 0, 138));
    ANSWERS(14, write_part(8, 42, 3, 138));
    ANSWERS(14, write_part(8, 42, 257, 138));
    ANSWERS(13, write_part(7, 42, 1, 138));
    ANSWERS(13, write_part(264, 42, 1, 138));
    ANSWERS(13, write_part(8, 256, 1, 138));
    ANSWERS(13, write_part(16, 65536, 1, 138));
    ANSWERS(9, write_part(8, 42, 1, 137));
    ANSWERS(13, write_part(7, 42, 1, 137));
    ANSWERS(1, skm_write_message(SKM_COMMAND, 7, 42, 1, in, 138, now.out, SKM_USER_DATA_OCTETS - 1, now.part));
    ANSWERS(1, skm_write_message(SKM_COMMAND, 8, 42, 1, in, 138, now.out, SKM_USER_DATA_OCTETS + 1, now.part));
    pattern(in, "084D0D", 2127);
    ANSWERS(12, write_part(16, 42, 1, 2127));
    pattern(in, "085D0D", 2143);
    ANSWERS(12, write_part(8, 42, 1, 2143));
}

static uint32_t write_page(uint32_t identifier, uint32_t number, size_t n) {
    return skm_write_page(0xA001, (uint16_t)identifier, 0xF6, number, in, n, now.out, SKM_PAGE_OCTETS, now.part);
}

static void test_write_page(void) {
    begin();
    pattern(in, "00A80D00000000B00010", 170);
    wanted(want.part, 2, 3, 88, 0, 0);
    memset(want.out, 0, 88);
    put(want.out, "A0011085F633 0D141B222930");
    ANSWERS(0, write_page(0x1085, 3, 170));
    wanted(want.part, 2, 0, 0, 0, 0);
    ANSWERS(14, write_page(0x1085, 4, 170));
    ANSWERS(14, write_page(0x1085, 0, 170));
    ANSWERS(5, write_page(0x107F, 1, 170));
    ANSWERS(5, write_page(0x10A0, 1, 169));
    ANSWERS(9, write_page(0x1080, 1, 169));
    ANSWERS(1, skm_write_page(0xA001, 0x1085, 0xF6, 1, in, 170, now.out, SKM_PAGE_OCTETS + 1, now.part));
    pattern(in, "04CD0D", 1231);
    ANSWERS(12, write_page(0x109F, 1, 1231));
}

/* The longest packet goes out in sixteen parts, which come back the last one first. */
static void test_trip(void) {
    uint32_t number;
    begin();
    ANSWERS(0, (empty_state(want.state, 1, 5), skm_fresh(now.state, SKM_RESPONSE)));
    pattern(in, "085C0A", SKM_PACKET_OCTETS);
    for (number = 16; number > 0; number--) {
        skm_write_message(SKM_RESPONSE, 8, 255, number, in, SKM_PACKET_OCTETS, other, SKM_USER_DATA_OCTETS, now.part);
        checks++;
        if (now.part[0] != 16 || now.part[1] != 140) fault(__LINE__, "the length of part ", number, (unsigned long)now.part[1], 140);
        skm_take_message(now.state, 7, other, 140, now.cells, SKM_CELLS_OCTETS, now.out, SKM_PACKET_OCTETS, now.taken);
        checks++;
        if (now.taken[0] != (number == 1 ? SKM_PACKET : SKM_KEPT)) fault(__LINE__, "what came of part ", number, (unsigned long)now.taken[0], number == 1 ? SKM_PACKET : SKM_KEPT);
    }
    memcpy(want.cells, now.cells, sizeof want.cells);
    wanted(want.part, 2, 16, 140, 0, 0);
    want_packet(in, SKM_PACKET_OCTETS);
    ANSWERS(0, skm_state_formed(now.state));
}

/* ---- USSD strings */
static const char *const ussd20 = "01 03 11 0D 0021 15 16 B00011 0102030405 06 A1A2A3";

static uint32_t read_ussd(unsigned pfi, unsigned dcs, size_t n) { return skm_read_ussd((uint8_t)pfi, (uint8_t)dcs, in, n, now.fields, now.body); }

static void test_read_ussd(void) {
    size_t n = put(in, ussd20);
    begin();
    want_parsed("0021 15 16 B00011 0102030405 06", 13, 0, 0, 3);
    ANSWERS(0, read_ussd(1, SKM_USSD_DCS, n));
    in[4] = 4;
    want_parsed("0421 15 16 B00011", 13, 1, 13, 9);
    ANSWERS(0, read_ussd(1, SKM_USSD_DCS, n));
    want_parsed("", 13, 0, 0, 0);
    in[4] = 1;
    ANSWERS(15, read_ussd(1, SKM_USSD_DCS, n));
    ANSWERS(5, read_ussd(1, 0xF6, n));
    ANSWERS(5, read_ussd(2, SKM_USSD_DCS, n));
    ANSWERS(5, read_ussd(1, SKM_USSD_DCS, 0));
    ANSWERS(9, read_ussd(1, SKM_USSD_DCS, n - 1));
    ANSWERS(2, read_ussd(1, SKM_USSD_DCS, 161));
    in[1] = 2;
    ANSWERS(5, read_ussd(1, SKM_USSD_DCS, n));
}

static uint32_t write_ussd(size_t check, size_t data, skm_size room) {
    return skm_write_ussd(1, in, other, check, other + check, data, now.out, room, &now.length);
}

static void test_write_ussd(void) {
    begin();
    put(in, "0021 15 16 B00011 0102030405 06");
    put(other, "A1A2A3");
    want.length = put(want.out, ussd20);
    ANSWERS(0, write_ussd(0, 3, SKM_USSD_OCTETS));
    memset(other, 7, 243);
    memset(want.out + put(want.out, "01 03 819C 0D 0021 15 16 B00011 0102030405 06"), 7, 142);
    want.length = 160;
    ANSWERS(0, write_ussd(0, 142, SKM_USSD_OCTETS));
    memset(want.out + put(want.out, "01 03 7F 0D 0021 15 16 B00011 0102030405 06"), 7, 113);
    want.length = 130;
    ANSWERS(0, write_ussd(0, 113, SKM_USSD_OCTETS));
    want.length = 0;
    ANSWERS(12, write_ussd(0, 143, SKM_USSD_OCTETS));
    ANSWERS(15, write_ussd(8, 3, SKM_USSD_OCTETS));
    ANSWERS(11, write_ussd(243, 0, SKM_USSD_OCTETS));
    ANSWERS(1, write_ussd(0, 3, SKM_UM_OCTETS));
    in[0] = 4;
    ANSWERS(10, write_ussd(0, 3, SKM_USSD_OCTETS));
}

static uint32_t write_ciphered_ussd(unsigned header, size_t opaque, skm_size room) {
    return skm_write_ciphered_ussd(1, in, (uint16_t)header, other, opaque, now.out, room, &now.length);
}

static void test_write_ciphered_ussd(void) {
    begin();
    put(in, "0421 15 16 B00011");
    memset(other, 7, 300);
    memset(want.out + put(want.out, "01 03 1C 15 0421 15 16 B00011"), 7, 20);
    want.length = 31;
    ANSWERS(0, write_ciphered_ussd(21, 20, SKM_USSD_OCTETS));
    memset(want.out + put(want.out, "01 03 819C 15 0421 15 16 B00011"), 7, 148);
    want.length = 160;
    ANSWERS(0, write_ciphered_ussd(21, 148, SKM_USSD_OCTETS));
    want.length = 0;
    ANSWERS(12, write_ciphered_ussd(21, 149, SKM_USSD_OCTETS));
    ANSWERS(11, write_ciphered_ussd(21, 13, SKM_USSD_OCTETS));
    ANSWERS(11, write_ciphered_ussd(12, 20, SKM_USSD_OCTETS));
    ANSWERS(1, write_ciphered_ussd(21, 20, SKM_USSD_OCTETS + 1));
    in[0] = 0;
    ANSWERS(10, write_ciphered_ussd(21, 20, SKM_USSD_OCTETS));
}

static uint32_t ussd_sum(size_t n) { return skm_ussd_checksum(in, n, now.out, SKM_CHECKSUM_OCTETS, &now.length); }

static void test_ussd_checksum(void) {
    size_t n = put(in, "03 1C 15 0100 00 00 B00010 0000000000 00 01080F161D242B32 3940474E555C");
    begin();
    want.length = put(want.out, "03 1C 15 0100 00 00 B00010 0000000000 00 3940474E555C");
    ANSWERS(0, ussd_sum(n));
    want.length = 0;
    ANSWERS(1, skm_ussd_checksum(in, n, now.out, SKM_CHECKSUM_OCTETS - 1, &now.length));
    ANSWERS(9, ussd_sum(n - 1));
    ANSWERS(9, ussd_sum(0));
    in[3] = 0;
    ANSWERS(15, ussd_sum(n));
    in[3] = 4;
    ANSWERS(10, ussd_sum(n));
    in[0] = 2;
    ANSWERS(9, ussd_sum(n));
}

/* ---- reports: the examples of "Reports" */
static uint32_t report(unsigned spi, skm_size capacity, uint32_t edition, size_t n) {
    return skm_write_report((uint8_t)spi, capacity, edition, in, n, now.out, SKM_USER_DATA_OCTETS, now.going);
}

static void test_report(void) {
    size_t n = put(in, "000C0A B00010 0000000001 00 00 21");
    begin();
    wanted(want.going, 2, SKM_NOTHING_GOES, 0, 0, 0);
    ANSWERS(0, report(0x20, 17, 1, n));
    ANSWERS(0, report(0x02, 17, 1, n));
    wanted(want.going, 2, SKM_SUBMITTED, 0, 0, 0);
    ANSWERS(0, report(0x21, 17, 1, n));
    wanted(want.going, 2, SKM_IN_REPORT, put(want.out, "027100 000C0A B00010 0000000001 00 00 21"), 0, 0);
    ANSWERS(0, report(0x01, 17, 1, n));
    wanted(want.going, 2, SKM_ANNOUNCED, put(want.out, "027100 000B0A B00010 0000000001 00 0B"), 0, 0);
    ANSWERS(0, report(0x01, 16, 1, n));
    want.out[15] = 8;
    ANSWERS(0, report(0x01, 16, 0, n));
    wanted(want.going, 2, 0, 0, 0, 0);
    ANSWERS(16, report(0x01, 15, 1, n));
    ANSWERS(16, report(0x01, 141, 1, n));
    ANSWERS(20, report(0x01, 17, 2, n));
    ANSWERS(17, report(0x03, 17, 1, n));
    ANSWERS(9, report(0x03, 17, 1, n - 1));
    ANSWERS(1, skm_write_report(1, 17, 1, in, n, now.out, SKM_USER_DATA_OCTETS - 1, now.going));
    pattern(in, "085D0A", SKM_PACKET_OCTETS + 1);
    ANSWERS(12, report(0x01, 17, 1, SKM_PACKET_OCTETS + 1));
}

static void test_announces(void) {
    size_t n = put(in, "000B0A ABCDEF 123456789A 07 08");
    begin();
    want.announces = 1;
    ANSWERS(0, skm_response_announces(in, n, &now.announces));
    in[12] = 0x0B;
    ANSWERS(0, skm_response_announces(in, n, &now.announces));
    in[12] = 0x0A;
    want.announces = 0;
    ANSWERS(0, skm_response_announces(in, n, &now.announces));
    now.announces = 5, want.announces = 0;
    ANSWERS(9, skm_response_announces(in, n - 1, &now.announces));
    pattern(in, "085D0A", SKM_PACKET_OCTETS + 1);
    ANSWERS(12, skm_response_announces(in, SKM_PACKET_OCTETS + 1, &now.announces));
}

/* ---- captures: the table of "Captures". What is copied begins at `from`; the first run that is skipped is `first`, `count`. */
static void capture(unsigned long line, const char *digits, size_t from, size_t copied, skm_size first, skm_size count) {
    size_t n = put(in, digits);
    memcpy(want.out, in + from, copied);
    want.length = copied;
    answered(line, skm_salvage(in, n, now.out, n, &now.length), 0);
    wanted(want.run, 3, first, count, first + count, 0);
    answered(line, skm_next_skipped(in, n, 0, now.run), 0);
}

static void test_captures(void) {
    static uint8_t file[SKM_CAPTURE_OCTETS + 1];
    begin();
    capture(__LINE__, "A55A0100", 0, 4, 4, 0);
    capture(__LINE__, "A55A0100 A5", 0, 0, 0, 5);
    capture(__LINE__, "A55A0100 A55A", 0, 4, 4, 2);
    capture(__LINE__, "A55A0104 A55A0100", 0, 8, 8, 0);
    capture(__LINE__, "A55A0304 A55A0100", 4, 4, 0, 4);
    capture(__LINE__, "A55A0101 A55A010100", 4, 5, 0, 4);
    capture(__LINE__, "A5 A55A0100", 1, 4, 0, 1);
    capture(__LINE__, "", 0, 0, 0, 0);
    put(in, "A5 A55A0100");
    wanted(want.run, 3, 5, 0, 5, 0);
    ANSWERS(0, skm_next_skipped(in, 5, 1, now.run));
    wanted(want.run, 3, 9, 0, 9, 0);
    ANSWERS(0, skm_next_skipped(in, 5, 9, now.run));
    want.length = 0;
    ANSWERS(1, skm_salvage(in, 5, now.out, 4, &now.length));
    ANSWERS(1, skm_salvage(in, 5, now.out, 6, &now.length));
    ANSWERS(24, skm_salvage(file, sizeof file, now.out, 4, &now.length));
    ANSWERS(1, skm_salvage(file, sizeof file - 1, now.out, 4, &now.length));
    wanted(want.run, 3, 0, SKM_CAPTURE_OCTETS, SKM_CAPTURE_OCTETS, 0);
    ANSWERS(0, skm_next_skipped(file, SKM_CAPTURE_OCTETS, 0, now.run));
}

static void test_captured(void) {
    begin();
    memset(in, 0, 100);
    put(in, "A55A0258");
    wanted(want.found, 2, SKM_CAPTURED_PAGE, 4, 0, 0);
    ANSWERS(0, skm_read_captured(in, 92, now.found));
    in[2] = 1;
    wanted(want.found, 2, SKM_CAPTURED_USER_DATA, 4, 0, 0);
    ANSWERS(0, skm_read_captured(in, 92, now.found));
    wanted(want.found, 2, SKM_UNSOUND, 0, 0, 0);
    ANSWERS(0, skm_read_captured(in, 91, now.found));
    ANSWERS(0, skm_read_captured(in, 93, now.found));
    ANSWERS(0, skm_read_captured(in, 0, now.found));
    in[2] = 3;
    ANSWERS(0, skm_read_captured(in, 92, now.found));
}

/* NULL with the length 0, for octets that are read and for buffers. */
static void test_null(void) {
    begin();
    empty_state(now.state, 0, 1);
    settle();
    want_none();
    ANSWERS(3, skm_take_message(now.state, 1, NULL, 0, now.cells, SKM_SLOT_OCTETS, now.out, SKM_PACKET_OCTETS, now.taken));
    ANSWERS(1, skm_take_message(now.state, 1, in, 3, NULL, 0, NULL, 0, now.taken));
    want_parsed("", 13, 0, 0, 0);
    ANSWERS(9, skm_parse_command(NULL, 0, now.fields, now.body));
    put(in, "B00010 0000000001 00 00");
    want.length = put(want.out, "000B0A B00010 0000000001 00 00");
    ANSWERS(0, skm_build_response(in, NULL, 0, NULL, 0, now.out, SKM_PACKET_OCTETS, &now.length));
    want.length = 0;
    ANSWERS(1, skm_build_response(in, NULL, 0, NULL, 0, NULL, 0, &now.length));
    ANSWERS(0, skm_salvage(NULL, 0, NULL, 0, &now.length));
}

int main(void) {
    static void (*const tests[])(void) = {
        test_version, test_fresh, test_run, test_held_already, test_key, test_take_refused, test_take_buffers, test_damaged, test_pages, test_page_refused, test_beat,
        test_formed, test_parse_command, test_parse_command_refused, test_parse_response, test_build_command, test_build_ciphered_command, test_build_response,
        test_build_ciphered_response, test_checksums, test_read_message, test_read_page, test_write_message, test_write_message_refused, test_write_page, test_trip,
        test_read_ussd, test_write_ussd, test_write_ciphered_ussd, test_ussd_checksum, test_report, test_announces, test_captures, test_captured,
        test_null};
    size_t i;
    for (i = 0; i < sizeof tests / sizeof *tests; i++) tests[i]();
    say("c: ");
    say_number(checks);
    say(" checks, ");
    say_number(failed);
    say(" failed\n");
    return failed != 0;
}
