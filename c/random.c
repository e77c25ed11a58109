/* Makes many calls on chance input, the same on every processor, and prints one number that all answers, states, cells and outputs went into. It holds one
   compiled library to another: equal numbers, equal answers. What is right is c/test.c's matter, and the proof's. */
#include <stdio.h>
#include <string.h>
#include "skelmarix.h"

enum { ROUNDS = 100000, LONGEST = 2200 };

static uint8_t state[SKM_STATE_OCTETS], cells[SKM_CELLS_OCTETS], out[SKM_CHECKSUM_OCTETS], packet[LONGEST], ud[LONGEST];
static skm_size numbers[9], length;
static uint64_t seed = 1, digest = 14695981039346656037u, calls, done;

/* A number below n, by chance. */
static uint32_t below(uint32_t n) {
    seed = seed * 6364136223846793005u + 1442695040888963407u;
    return (uint32_t)(seed >> 33) % n;
}

static void mix(const void *octets, size_t n) {
    const uint8_t *p = octets;
    while (n--) digest = (digest ^ *p++) * 1099511628211u;
}

/* A call was made: its number goes into the digest, and the numbers that it was lent, octet by octet from the lowest. */
static void called(uint32_t number) {
    uint8_t octets[8];
    size_t i, k;
    calls++, done += number == 0;
    for (i = 0; i < 10; i++) {
        uint64_t n = i < 9 ? numbers[i] : length + ((uint64_t)number << 32);
        for (k = 0; k < 8; k++) octets[k] = (uint8_t)(n >> 8 * k);
        mix(octets, 8);
    }
}

/* A packet of one of three lengths, well formed more often than not. */
static size_t some_packet(uint32_t kind) {
    static const uint32_t most[] = {40, 300, SKM_PACKET_OCTETS + 4};
    size_t n = 10 + below(most[below(3)] - 10), i;
    for (i = 0; i < n; i++) packet[i] = (uint8_t)below(256);
    packet[0] = (uint8_t)((n - 2) >> 8), packet[1] = (uint8_t)(n - 2), packet[2] = (uint8_t)((kind ? 10 : 13) + below(9));
    if (!below(8)) packet[below(4)] = (uint8_t)below(256);
    return n;
}

/* A few octets of some others are changed, seldom. */
static void spoil(uint8_t *octets, size_t n) {
    if (n && !below(6)) octets[below((uint32_t)(n < 12 ? n : 12))] ^= (uint8_t)(1u << below(8));
}

static void take(uint32_t kind, size_t n) {
    uint32_t sender = below(2), reference = below(2), part = 1 + below(4);
    skm_size told[2];
    skm_size room = state[2] * (skm_size)SKM_SLOT_OCTETS + (below(50) ? 0 : 1);
    if (!kind && !below(3)) {
        if (skm_write_page((uint16_t)reference, 0x1080, 0, part, packet, n, ud, SKM_PAGE_OCTETS, told)) return;
        spoil(ud, SKM_PAGE_OCTETS);
        called(skm_take_page(state, ud, SKM_PAGE_OCTETS, cells, room, out, SKM_PACKET_OCTETS, numbers));
    } else {
        if (skm_write_message(kind, below(2) ? 8 : 16, reference, part, packet, n, ud, SKM_USER_DATA_OCTETS, told)) return;
        spoil(ud, told[1]);
        called(skm_take_message(state, sender, ud, told[1], cells, room, out, SKM_PACKET_OCTETS, numbers));
    }
}

static void packets(uint32_t kind, size_t n) {
    uint8_t fields[13];
    /* each is drawn by itself: the order in which arguments are worked out is the compiler's choice */
    uint32_t ciphered = below(2), check = below(20), header = below(30), spi = below(64), capacity = 14 + below(130), edition = below(3), sender = below(9);
    size_t some = n < 140 ? n : below(142);
    called(kind ? skm_parse_response(packet, n, ciphered, fields, numbers) : skm_parse_command(packet, n, fields, numbers));
    mix(fields, kind ? 10 : 13);
    called(kind ? skm_show_response(packet, n, ciphered, numbers) : skm_show_command(packet, n, numbers));
    called(kind ? skm_response_checksum(packet, n, ciphered, out, SKM_CHECKSUM_OCTETS, &length) : skm_command_checksum(packet, n, out, SKM_CHECKSUM_OCTETS, &length));
    called(kind ? skm_build_response(packet + 3, packet, check, packet, n, out, SKM_PACKET_OCTETS, &length)
                : skm_build_command(packet + 3, packet, check, packet, n, out, SKM_PACKET_OCTETS, &length));
    called(kind ? skm_build_ciphered_response(packet, (uint16_t)header, packet, n, out, SKM_PACKET_OCTETS, &length)
                : skm_build_ciphered_command(packet + 3, (uint16_t)header, packet, n, out, SKM_PACKET_OCTETS, &length));
    called(skm_write_report((uint8_t)spi, capacity, edition, packet, n, out, SKM_USER_DATA_OCTETS, numbers));
    called(skm_read_message(kind, sender, packet, some, numbers));
}

static void strings(size_t n) {
    uint8_t fields[13];
    size_t check = below(12), some = n < 160 ? n : below(160), told;
    called(skm_write_ussd(1, packet + 3, packet, check, packet, some, out, SKM_USSD_OCTETS, &length));
    told = (size_t)length;
    spoil(out, told);
    memcpy(ud, out, SKM_USSD_OCTETS);
    called(skm_read_ussd(1, SKM_USSD_DCS, ud, told, fields, numbers));
    mix(fields, 13);
    called(skm_ussd_checksum(ud + 1, told ? told - 1 : 0, out, SKM_CHECKSUM_OCTETS, &length));
    memcpy(ud, packet, n), memcpy(ud, "\xA5\x5A\x01", 3), ud[3] = (uint8_t)below(30);
    called(skm_salvage(ud, n < 2000 ? n : 2000, out, n < 2000 ? n : 2000, &length));
    called(skm_next_skipped(ud, n, below(9), numbers));
    called(skm_read_captured(ud, n, numbers));
}

int main(void) {
    unsigned long round;
    uint32_t kind = 0;
    size_t n = 0;
    int place;
    for (round = 0; round < ROUNDS; round++) {
        if (round % 200 == 0) kind = below(2), called(skm_fresh_with(state, kind, 1 + below(5)));
        /* the parts of one packet come over and over, until another packet is made */
        if (round % 200 == 0 || !below(8)) n = some_packet(kind);
        take(kind, n);
        if (!below(40)) called(skm_beat(state, below(6), &length));
        if (!below(400)) state[below(SKM_STATE_OCTETS)] ^= 1;
        if (!below(4)) packets(kind, n);
        if (!below(9)) strings(n);
        mix(state, sizeof state);
        if (round % 64 == 0) mix(cells, sizeof cells), mix(out, sizeof out);
    }
    for (place = 60; place >= 0; place -= 4) putchar("0123456789ABCDEF"[digest >> place & 15]);
    putchar('\n');
    return calls < ROUNDS || done < ROUNDS / 2;
}
