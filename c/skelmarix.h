/* Skelmarix for C and C++: secured packets over short messages, cell broadcast pages and USSD strings.
 *
 * What crosses. Numbers, and memory that the caller lends for the time of a call. The library allocates nothing, frees nothing, keeps no
 * pointer after a call, and has no variables of its own: there is nothing to set up and nothing to shut down. Every buffer is the caller's.
 *
 * Answers. A call returns SKM_DONE (0), or the number of the refusal; no refusal has the number 0. What a call answers beside that is put into
 * numbers that the caller lends. They are set at every call. If the call is refused, they are zeros, and every lent buffer is as it was before
 * the call, with one exception: if taking is refused with SKM_MALFORMED_PACKET because a series that was complete is no packet, that series is
 * dropped from the state.
 *
 * Pointers. A pointer that is followed by a length (`packet`, `packet_length`) points to that many octets. A pointer that is an array parameter
 * (`state`, `fields`, `taken`) points to as many elements as its brackets say; a call cannot test this. Memory that a call writes to must not
 * overlap any other memory that is lent to the same call. If a length is 0, nothing is read or written there, and the address of any variable will
 * do. NULL with the length 0 was tried and works, but the language in which the library is proved does not say so. No other pointer may be NULL.
 *
 * Threads. Calls on different memory may run at the same time, without a lock. A state and its cells are used by one call at a time.
 *
 * Kinds. SKM_COMMAND is 0; every other number counts as SKM_RESPONSE. `ciphered` is 0 for a plain packet; every other number says that the packet
 * is ciphered.
 *
 * Versions. skm_version() is the version of the archive that was linked, SKM_VERSION that of this header: compare them once. Octet 0 of a state is
 * the number of its format, so a state of another format is refused with SKM_BUFFER_OR_RECORD.
 */
#ifndef SKELMARIX_H
#define SKELMARIX_H

#include <stdint.h>

#ifdef __cplusplus
extern "C" {
#endif

/* Major, minor and patch number of the version 0.10.0, each in an octet. */
#define SKM_VERSION 0x000A00u

/* A length, a place or a count: 64 bits on every processor, also if size_t has fewer there. */
typedef uint64_t skm_size;

/* Octets of what a caller lends. */
#define SKM_STATE_OCTETS 233     /* a state */
#define SKM_SLOT_OCTETS 2144     /* cells: as many for each slot of the state */
#define SKM_CELLS_OCTETS 10720   /* cells of a state with five slots */
#define SKM_PACKET_OCTETS 2142   /* the output of taking and of building */
#define SKM_CHECKSUM_OCTETS 2145 /* the output of checksum octets */
#define SKM_USER_DATA_OCTETS 140 /* the most of user data; the output of writing a message or a report */
#define SKM_PAGE_OCTETS 88       /* a page; the output of writing one */
#define SKM_USSD_OCTETS 160      /* the most of a USSD string; the output of writing one */
#define SKM_UM_OCTETS 159        /* the most of its UM, which is the string without its first octet */
#define SKM_CAPTURE_OCTETS 65536 /* the most of a capture */

/* Octets of fields, in the order that they have in a packet. */
#define SKM_COMMAND_FIELDS 13  /* SPI 0 and 1, KIc 2, KID 3, TAR 4 to 6, CNTR 7 to 11, PCNTR 12 */
#define SKM_CLEAR_FIELDS 7     /* SPI 0 and 1, KIc 2, KID 3, TAR 4 to 6 */
#define SKM_RESPONSE_FIELDS 10 /* TAR 0 to 2, CNTR 3 to 7, PCNTR 8, status 9 */
#define SKM_TAR_FIELDS 3       /* TAR 0 to 2 */

#define SKM_SLOTS 5       /* the most slots of a state */
#define SKM_USSD_DCS 0x96 /* the data coding scheme that a USSD string comes with */

enum skm_kind { SKM_COMMAND = 0, SKM_RESPONSE = 1 };

/* What a call returns. */
enum skm_refusal {
    SKM_DONE = 0,
    SKM_BUFFER_OR_RECORD = 1,  /* a buffer of another length than it must have, or a state that is not well formed */
    SKM_INPUT_LENGTH = 2,      /* user data of more than 140 octets, a page of other than 88, a USSD string of more than 160 */
    SKM_HEADER_OVERRUN = 3,    /* no user data, or a header that runs past its end */
    SKM_HEADER_ELEMENT = 4,    /* an element of a wrong length; a page whose number is above its total */
    SKM_WRONG_IDENTIFIER = 5,  /* a packet identifier that is missing, out of place or of the other kind; a message identifier out of range */
    SKM_TOO_MANY_PARTS = 6,    /* more than sixteen parts */
    SKM_OTHER_TOTAL = 7,       /* the series is held with another total */
    SKM_OTHER_OCTETS = 8,      /* the part is held with other octets */
    SKM_MALFORMED_PACKET = 9,  /* octets that are no well-formed packet */
    SKM_CIPHER_MISMATCH = 10,  /* a plain body although SPI says ciphered, or the other way round; checksum octets of a ciphered packet */
    SKM_PACKET_HEADER = 11,    /* a check field, a header length or opaque octets that no header can have */
    SKM_PACKET_TOO_LONG = 12,  /* a packet longer than can be carried */
    SKM_REFERENCE_WIDTH = 13,  /* a width other than 8 and 16, or a reference that does not fit it */
    SKM_PART_NUMBER = 14,      /* part or page 0, or one above the total */
    SKM_CHECK_MISMATCH = 15,   /* check bits of SPI that are against the check field */
    SKM_REPORT_CAPACITY = 16,  /* a capacity of a report outside 16 to 140 */
    SKM_RESERVED_SPI = 17,     /* the reserved value in the low two bits of SPI's second octet */
    SKM_BEAT_LIMIT = 18,       /* a beat with limit 0, or above 255 */
    SKM_COUNTER_TABLE = 19,    /* a table of counters that is not well formed */
    SKM_UNKNOWN_EDITION = 20,  /* neither the old nor the present edition */
    SKM_TABLE_FULL = 21,       /* eight commands wait already */
    SKM_ALREADY_SENT = 22,     /* the command waits already */
    SKM_UNMATCHED = 23,        /* a response to no command that waits */
    SKM_CAPTURE_TOO_LONG = 24, /* a capture of more than 65,536 octets */
    SKM_SLOT_NUMBER = 25       /* no slots, or more than five */
};

/* taken[0], if taking is not refused. */
enum skm_taken { SKM_KEPT = 1, SKM_HELD_ALREADY = 2, SKM_PACKET = 3 };

/* brought[0], if reading a message or a page is not refused. */
enum skm_brought { SKM_SINGLE = 1, SKM_PART = 2 };

/* going[0], if a report is not refused. */
enum skm_going { SKM_NOTHING_GOES = 1, SKM_IN_REPORT = 2, SKM_ANNOUNCED = 3, SKM_SUBMITTED = 4 };

/* found[0] of a captured record. */
enum skm_captured { SKM_UNSOUND = 0, SKM_CAPTURED_USER_DATA = 1, SKM_CAPTURED_PAGE = 2 };

/* The version of the archive: major, minor and patch number, each in an octet. */
uint32_t skm_version(void);

/* ---- the card. A state holds the unfinished series of one kind of packets. It may be stored and brought back, with its cells, and is tested at
 * every call. The numbers in brackets are the refusals of a call, in the order in which they are tested. */

/* Makes a state without series, with five slots. Its cells are SKM_CELLS_OCTETS; what they hold at first does not matter. */
uint32_t skm_fresh(uint8_t state[SKM_STATE_OCTETS], uint32_t kind);

/* The same with 1 to 5 slots (25). Its cells are SKM_SLOT_OCTETS for each slot. */
uint32_t skm_fresh_with(uint8_t state[SKM_STATE_OCTETS], uint32_t kind, uint32_t slots);

/* 0 if the octets are a state that the library can have made, 1 if they are not. */
uint32_t skm_state_formed(const uint8_t state[SKM_STATE_OCTETS]);

/* Takes the user data of a message (1 to 9). `sender` is a number that the caller gives to each sender. out has SKM_PACKET_OCTETS.
 * taken: SKM_KEPT, the slot, 1 if another series was displaced, 0;
 *        SKM_HELD_ALREADY, the slot, 0, 0;
 *        SKM_PACKET, 0, 0, the length of the packet, which is at the start of out. */
uint32_t skm_take_message(uint8_t state[SKM_STATE_OCTETS], uint32_t sender, const uint8_t *ud, skm_size ud_length, uint8_t *cells,
                          skm_size cells_length, uint8_t *out, skm_size out_length, skm_size taken[4]);

/* Takes a page in the same way (1, 2, 4, 5, 7, 8, 9). */
uint32_t skm_take_page(uint8_t state[SKM_STATE_OCTETS], const uint8_t *page, skm_size page_length, uint8_t *cells, skm_size cells_length,
                       uint8_t *out, skm_size out_length, skm_size taken[4]);

/* Makes a beat (1, 18): each series is one beat older, and one that has been silent for `limit` beats, 1 to 255, is dropped.
 * dropped: how many were dropped. */
uint32_t skm_beat(uint8_t state[SKM_STATE_OCTETS], uint32_t limit, skm_size *dropped);

/* ---- packets */

/* 0 if the octets are a well-formed packet of that kind, 9 if they are not. */
uint32_t skm_packet_formed(uint32_t kind, const uint8_t *packet, skm_size packet_length);

/* Reads a command (9, 12, 15).
 * fields: those of SKM_COMMAND_FIELDS; of a ciphered command the first seven, and zeros.
 * body: 0, the lengths of the check field and of the data; or 1, the header length CHL, the length of the opaque octets. */
uint32_t skm_parse_command(const uint8_t *packet, skm_size packet_length, uint8_t fields[SKM_COMMAND_FIELDS], skm_size body[3]);

/* Reads a response (9, 12).
 * fields: those of SKM_RESPONSE_FIELDS; of a ciphered response the first three, and zeros.
 * body: as of a command. */
uint32_t skm_parse_response(const uint8_t *packet, skm_size packet_length, uint32_t ciphered, uint8_t fields[SKM_RESPONSE_FIELDS],
                            skm_size body[3]);

/* Says where the parts of a command are in the packet (9, 12, 15).
 * places: of the check field, the data and the opaque octets, in this order, the place of the first octet and the number of octets; zeros for
 * what this body does not have. */
uint32_t skm_show_command(const uint8_t *packet, skm_size packet_length, skm_size places[6]);

/* The same of a response (9, 12). */
uint32_t skm_show_response(const uint8_t *packet, skm_size packet_length, uint32_t ciphered, skm_size places[6]);

/* Builds a plain command at the start of out, of SKM_PACKET_OCTETS (1, 10, 11, 15, 12). The rest of out is as it was.
 * length: how many octets it has. */
uint32_t skm_build_command(const uint8_t fields[SKM_COMMAND_FIELDS], const uint8_t *check, skm_size check_length, const uint8_t *data,
                           skm_size data_length, uint8_t *out, skm_size out_length, skm_size *length);

/* The same of a ciphered command (1, 10, 11, 12). `header` is CHL, `opaque` the octets from CNTR on. */
uint32_t skm_build_ciphered_command(const uint8_t clear[SKM_CLEAR_FIELDS], uint16_t header, const uint8_t *opaque, skm_size opaque_length,
                                    uint8_t *out, skm_size out_length, skm_size *length);

/* The same of a plain response (1, 11, 12). */
uint32_t skm_build_response(const uint8_t fields[SKM_RESPONSE_FIELDS], const uint8_t *check, skm_size check_length, const uint8_t *data,
                            skm_size data_length, uint8_t *out, skm_size out_length, skm_size *length);

/* The same of a ciphered response (1, 11, 12). `header` is RHL. */
uint32_t skm_build_ciphered_response(const uint8_t tar[SKM_TAR_FIELDS], uint16_t header, const uint8_t *opaque, skm_size opaque_length,
                                     uint8_t *out, skm_size out_length, skm_size *length);

/* Writes the octets that the checksum of a plain command covers to the start of out, of SKM_CHECKSUM_OCTETS (1, 9, 12, 15, 10).
 * length: how many octets these are. */
uint32_t skm_command_checksum(const uint8_t *packet, skm_size packet_length, uint8_t *out, skm_size out_length, skm_size *length);

/* The same of a response (1, 9, 12, 10). */
uint32_t skm_response_checksum(const uint8_t *packet, skm_size packet_length, uint32_t ciphered, uint8_t *out, skm_size out_length,
                               skm_size *length);

/* ---- one message or page by itself */

/* Reads user data (2 to 6).
 * brought: SKM_SINGLE, the place at which its own octets begin, and zeros; or SKM_PART, that place, the total, the number, and the key: sender,
 * width, reference, serial number, message identifier. A message has width 8 or 16 and no serial number and message identifier; a page has width 0
 * and no sender and reference. */
uint32_t skm_read_message(uint32_t kind, uint32_t sender, const uint8_t *ud, skm_size ud_length, skm_size brought[9]);

/* The same of a page (2, 4, 5). */
uint32_t skm_read_page(uint32_t kind, const uint8_t *page, skm_size page_length, skm_size brought[9]);

/* Writes part `number` of a packet as user data at the start of out, of SKM_USER_DATA_OCTETS (1, 13, 9, 12, 14). `width` is 8 or 16.
 * part: how many parts the packet has, how many octets were written. */
uint32_t skm_write_message(uint32_t kind, uint32_t width, uint32_t reference, uint32_t number, const uint8_t *packet, skm_size packet_length,
                           uint8_t *out, skm_size out_length, skm_size part[2]);

/* Writes page `number` of a command to out, of SKM_PAGE_OCTETS (1, 5, 9, 12, 14). part: as of a message. */
uint32_t skm_write_page(uint16_t serial, uint16_t identifier, uint8_t dcs, uint32_t number, const uint8_t *packet, skm_size packet_length,
                        uint8_t *out, skm_size out_length, skm_size part[2]);

/* ---- USSD strings */

/* Reads a string that came with this DCS, for the application of this PFI (2, 5, 9, 15). fields, body: as of a command. */
uint32_t skm_read_ussd(uint8_t pfi, uint8_t dcs, const uint8_t *string, skm_size string_length, uint8_t fields[SKM_COMMAND_FIELDS],
                       skm_size body[3]);

/* Writes a plain command as a string at the start of out, of SKM_USSD_OCTETS (1, 10, 11, 15, 12). length: how many octets it has. */
uint32_t skm_write_ussd(uint8_t pfi, const uint8_t fields[SKM_COMMAND_FIELDS], const uint8_t *check, skm_size check_length,
                        const uint8_t *data, skm_size data_length, uint8_t *out, skm_size out_length, skm_size *length);

/* The same of a ciphered command (1, 10, 11, 12). */
uint32_t skm_write_ciphered_ussd(uint8_t pfi, const uint8_t clear[SKM_CLEAR_FIELDS], uint16_t header, const uint8_t *opaque,
                                 skm_size opaque_length, uint8_t *out, skm_size out_length, skm_size *length);

/* Writes the octets that the checksum of a string's UM covers to the start of out, of SKM_CHECKSUM_OCTETS (1, 9, 15, 10). length: how many. */
uint32_t skm_ussd_checksum(const uint8_t *um, skm_size um_length, uint8_t *out, skm_size out_length, skm_size *length);

/* ---- reports */

/* Says what goes out of a plain response, and writes the report to the start of out, of SKM_USER_DATA_OCTETS (1, 16, 20, 9, 12, 17). `spi_second` is
 * the second octet of the command's SPI, `capacity` that of a delivery report, 16 to 140 octets, `edition` 0 for the old and 1 for the present one.
 * going: SKM_NOTHING_GOES, 0; SKM_IN_REPORT, its length; SKM_ANNOUNCED, its length: the response follows as submitted parts; SKM_SUBMITTED, 0: it
 * goes as submitted parts alone. */
uint32_t skm_write_report(uint8_t spi_second, skm_size capacity, uint32_t edition, const uint8_t *response, skm_size response_length,
                          uint8_t *out, skm_size out_length, skm_size going[2]);

/* Whether a plain response says that another follows (9, 12). announces: 1 if it does, 0 if it does not. */
uint32_t skm_response_announces(const uint8_t *response, skm_size response_length, skm_size *announces);

/* ---- captures */

/* Copies the sound records of a file to the start of an output that is as long as the file (24, 1). length: how many octets were copied. */
uint32_t skm_salvage(const uint8_t *file, skm_size file_length, uint8_t *output, skm_size output_length, skm_size *length);

/* The next longest run of octets that salvaging skips, from a place on. It is never refused.
 * run: its first place, how many octets it has, the place behind it. If no octet is skipped, it has 0 octets. */
uint32_t skm_next_skipped(const uint8_t *file, skm_size file_length, skm_size from, skm_size run[3]);

/* What octets are as one captured record. It is never refused. found: what, and the place at which its own octets begin. */
uint32_t skm_read_captured(const uint8_t *octets, skm_size octets_length, skm_size found[2]);

#ifdef __cplusplus
}
#endif

#endif
