//! Safe calls of Skelmarix, over its archive for C. Types take the place of lengths: a buffer of the wrong size cannot be passed, so refusal 1 is left for a
//! state that is damaged. Nothing is allocated, and there is no `std`, so it serves a card as well as a server.
//!
//! Threads: the library has no variables of its own. A `State` and its cells are borrowed for a call, so the compiler sees to it that one call at a time
//! uses them.
#![no_std]

pub mod raw;

pub const SLOT_OCTETS: usize = 2144;
pub const PACKET_OCTETS: usize = 2142;
pub const CHECKSUM_OCTETS: usize = 2145;
pub const USER_DATA_OCTETS: usize = 140;
pub const PAGE_OCTETS: usize = 88;
pub const USSD_OCTETS: usize = 160;

/// Why a call was refused: its number, as in `enum skm_refusal`.
#[derive(Clone, Copy, Debug, PartialEq, Eq)]
pub struct Refused(pub u32);

#[derive(Clone, Copy, Debug, PartialEq, Eq)]
pub enum Kind {
    Command = 0,
    Response = 1,
}

/// What came of a message or a page. A packet is the first octets of the output.
#[derive(Debug, PartialEq, Eq)]
pub enum Taken<'a> {
    Kept { slot: usize, displaced: bool },
    HeldAlready { slot: usize },
    Packet(&'a [u8]),
}

/// A packet that was read: its fields in the clear, and its parts as parts of the caller's packet. What this body does not have is empty.
#[derive(Debug, PartialEq, Eq)]
pub struct Parsed<'a, const N: usize> {
    pub ciphered: bool,
    pub fields: [u8; N],
    pub check: &'a [u8],
    pub data: &'a [u8],
    pub opaque: &'a [u8],
}

/// What one message or page brings by itself. Its own octets begin at `start`.
#[derive(Debug, PartialEq, Eq)]
pub enum Brought {
    Single { start: usize },
    Part { start: usize, total: usize, number: usize, key: [u64; 5] },
}

/// What goes out of a response.
#[derive(Debug, PartialEq, Eq)]
pub enum Going<'a> {
    Nothing,
    InReport(&'a [u8]),
    Announced(&'a [u8]),
    Submitted,
}

/// What octets are as one captured record; with its own octets.
#[derive(Debug, PartialEq, Eq)]
pub enum Captured<'a> {
    UserData(&'a [u8]),
    Page(&'a [u8]),
    Unsound,
}

type Answer<T> = Result<T, Refused>;

fn done<T>(number: u32, answer: T) -> Answer<T> {
    if number == 0 { Ok(answer) } else { Err(Refused(number)) }
}

fn size(octets: &[u8]) -> u64 {
    octets.len() as u64
}

/// The version of the archive: major, minor and patch number, each in an octet.
pub fn version() -> u32 {
    unsafe { raw::skm_version() }
}

// ---- the card
/// The unfinished series of one kind of packets, with N slots, 1 to 5. The cells go with it: store both together, in one transaction.
#[derive(Clone, PartialEq, Eq)]
pub struct State<const N: usize>([u8; 233]);

/// The cells of a state with N slots.
pub type Cells<const N: usize> = [[u8; SLOT_OCTETS]; N];

impl<const N: usize> State<N> {
    /// A state without series. Refused 25 if N is not 1 to 5.
    pub fn fresh(kind: Kind) -> Answer<Self> {
        let mut state = [0; 233];
        let number = unsafe { raw::skm_fresh_with(state.as_mut_ptr(), kind as u32, N as u32) };
        done(number, State(state))
    }

    /// A state that was stored. Refused 1 if no calls can have made it, or if it has another number of slots.
    pub fn restored(octets: [u8; 233]) -> Answer<Self> {
        let number = unsafe { raw::skm_state_formed(octets.as_ptr()) };
        done(if octets[2] as usize == N { number } else { 1 }, State(octets))
    }

    /// The octets to store.
    pub fn octets(&self) -> &[u8; 233] {
        &self.0
    }

    /// Takes user data from a sender. Refused 1 to 9; a complete series that is no packet is dropped, and refused with 9.
    pub fn message<'a>(&mut self, sender: u32, ud: &[u8], cells: &mut Cells<N>, out: &'a mut [u8; PACKET_OCTETS]) -> Answer<Taken<'a>> {
        let (mut taken, lent) = ([0; 4], cells.as_flattened_mut());
        let number = unsafe {
            raw::skm_take_message(
                self.0.as_mut_ptr(), sender, ud.as_ptr(), size(ud), lent.as_mut_ptr(), size(lent), out.as_mut_ptr(), size(out), taken.as_mut_ptr(),
            )
        };
        taken_of(number, taken, out)
    }

    /// Takes a page. Refused 1, 2, 4, 5, 7, 8, 9.
    pub fn page<'a>(&mut self, page: &[u8], cells: &mut Cells<N>, out: &'a mut [u8; PACKET_OCTETS]) -> Answer<Taken<'a>> {
        let (mut taken, lent) = ([0; 4], cells.as_flattened_mut());
        let number = unsafe {
            raw::skm_take_page(
                self.0.as_mut_ptr(), page.as_ptr(), size(page), lent.as_mut_ptr(), size(lent), out.as_mut_ptr(), size(out), taken.as_mut_ptr(),
            )
        };
        taken_of(number, taken, out)
    }

    /// Makes a beat, and says how many series were dropped. Refused 1, 18.
    pub fn beat(&mut self, limit: u32) -> Answer<usize> {
        let mut dropped = 0;
        let number = unsafe { raw::skm_beat(self.0.as_mut_ptr(), limit, &mut dropped) };
        done(number, dropped as usize)
    }
}

fn taken_of(number: u32, taken: [u64; 4], out: &[u8; PACKET_OCTETS]) -> Answer<Taken<'_>> {
    let slot = taken[1] as usize;
    done(number, match taken[0] {
        1 => Taken::Kept { slot, displaced: taken[2] != 0 },
        2 => Taken::HeldAlready { slot },
        _ => Taken::Packet(&out[..taken[3] as usize]),
    })
}

// ---- packets
fn part(packet: &[u8], places: &[u64; 6], which: usize) -> core::ops::Range<usize> {
    let from = places[2 * which] as usize;
    from..(from + places[2 * which + 1] as usize).min(packet.len())
}

fn parsed<const N: usize>(packet: &[u8], ciphered: bool, fields: [u8; N], places: [u64; 6]) -> Parsed<'_, N> {
    let cut = |which| &packet[part(packet, &places, which)];
    Parsed { ciphered, fields, check: cut(0), data: cut(1), opaque: cut(2) }
}

/// Whether octets are a well-formed packet of that kind.
pub fn packet_formed(kind: Kind, packet: &[u8]) -> bool {
    unsafe { raw::skm_packet_formed(kind as u32, packet.as_ptr(), size(packet)) == 0 }
}

/// Reads a command. Its fields are SPI, KIc, KID, TAR, CNTR, PCNTR; of a ciphered one the first seven octets. Refused 9, 12, 15.
pub fn parse_command(packet: &[u8]) -> Answer<Parsed<'_, 13>> {
    let (mut fields, mut body, mut places) = ([0; 13], [0; 3], [0; 6]);
    let number = unsafe { raw::skm_parse_command(packet.as_ptr(), size(packet), fields.as_mut_ptr(), body.as_mut_ptr()) };
    unsafe { raw::skm_show_command(packet.as_ptr(), size(packet), places.as_mut_ptr()) };
    done(number, parsed(packet, body[0] != 0, fields, places))
}

/// Reads a response. Its fields are TAR, CNTR, PCNTR, status; of a ciphered one the first three octets. Refused 9, 12.
pub fn parse_response(packet: &[u8], ciphered: bool) -> Answer<Parsed<'_, 10>> {
    let (mut fields, mut body, mut places) = ([0; 10], [0; 3], [0; 6]);
    let said = ciphered as u32;
    let number = unsafe { raw::skm_parse_response(packet.as_ptr(), size(packet), said, fields.as_mut_ptr(), body.as_mut_ptr()) };
    unsafe { raw::skm_show_response(packet.as_ptr(), size(packet), said, places.as_mut_ptr()) };
    done(number, parsed(packet, body[0] != 0, fields, places))
}

/// Builds a plain command. Refused 10, 11, 12, 15.
pub fn build_command<'a>(fields: &[u8; 13], check: &[u8], data: &[u8], out: &'a mut [u8; PACKET_OCTETS]) -> Answer<&'a [u8]> {
    let mut length = 0;
    let number = unsafe {
        raw::skm_build_command(
            fields.as_ptr(), check.as_ptr(), size(check), data.as_ptr(), size(data), out.as_mut_ptr(), size(out), &mut length,
        )
    };
    done(number, &out[..length as usize])
}

/// Builds a ciphered command; `header` is CHL. Refused 10, 11, 12.
pub fn build_ciphered_command<'a>(clear: &[u8; 7], header: u16, opaque: &[u8], out: &'a mut [u8; PACKET_OCTETS]) -> Answer<&'a [u8]> {
    let mut length = 0;
    let number = unsafe {
        raw::skm_build_ciphered_command(clear.as_ptr(), header, opaque.as_ptr(), size(opaque), out.as_mut_ptr(), size(out), &mut length)
    };
    done(number, &out[..length as usize])
}

/// Builds a plain response. Refused 11, 12.
pub fn build_response<'a>(fields: &[u8; 10], check: &[u8], data: &[u8], out: &'a mut [u8; PACKET_OCTETS]) -> Answer<&'a [u8]> {
    let mut length = 0;
    let number = unsafe {
        raw::skm_build_response(
            fields.as_ptr(), check.as_ptr(), size(check), data.as_ptr(), size(data), out.as_mut_ptr(), size(out), &mut length,
        )
    };
    done(number, &out[..length as usize])
}

/// Builds a ciphered response; `header` is RHL. Refused 11, 12.
pub fn build_ciphered_response<'a>(tar: &[u8; 3], header: u16, opaque: &[u8], out: &'a mut [u8; PACKET_OCTETS]) -> Answer<&'a [u8]> {
    let mut length = 0;
    let number = unsafe {
        raw::skm_build_ciphered_response(tar.as_ptr(), header, opaque.as_ptr(), size(opaque), out.as_mut_ptr(), size(out), &mut length)
    };
    done(number, &out[..length as usize])
}

/// The octets that the checksum of a plain command covers. Refused 9, 10, 12, 15.
pub fn command_checksum<'a>(packet: &[u8], out: &'a mut [u8; CHECKSUM_OCTETS]) -> Answer<&'a [u8]> {
    let mut length = 0;
    let number = unsafe { raw::skm_command_checksum(packet.as_ptr(), size(packet), out.as_mut_ptr(), size(out), &mut length) };
    done(number, &out[..length as usize])
}

/// The same of a response. Refused 9, 10, 12.
pub fn response_checksum<'a>(packet: &[u8], ciphered: bool, out: &'a mut [u8; CHECKSUM_OCTETS]) -> Answer<&'a [u8]> {
    let mut length = 0;
    let number = unsafe {
        raw::skm_response_checksum(packet.as_ptr(), size(packet), ciphered as u32, out.as_mut_ptr(), size(out), &mut length)
    };
    done(number, &out[..length as usize])
}

// ---- one message or page by itself
fn brought_of(number: u32, b: [u64; 9]) -> Answer<Brought> {
    let (start, total, place) = (b[1] as usize, b[2] as usize, b[3] as usize);
    done(number, if b[0] == 2 { Brought::Part { start, total, number: place, key: [b[4], b[5], b[6], b[7], b[8]] } } else { Brought::Single { start } })
}

/// What user data brings; nothing is kept. The key: sender, width, reference, serial number, message identifier. Refused 2 to 6.
pub fn read_message(kind: Kind, sender: u32, ud: &[u8]) -> Answer<Brought> {
    let mut brought = [0; 9];
    let number = unsafe { raw::skm_read_message(kind as u32, sender, ud.as_ptr(), size(ud), brought.as_mut_ptr()) };
    brought_of(number, brought)
}

/// The same of a page. Refused 2, 4, 5.
pub fn read_page(kind: Kind, page: &[u8]) -> Answer<Brought> {
    let mut brought = [0; 9];
    let number = unsafe { raw::skm_read_page(kind as u32, page.as_ptr(), size(page), brought.as_mut_ptr()) };
    brought_of(number, brought)
}

/// Part `number` of a packet as user data, and how many parts there are. Refused 9, 12, 13, 14.
pub fn write_message<'a>(
    kind: Kind, width: u32, reference: u32, number: u32, packet: &[u8], out: &'a mut [u8; USER_DATA_OCTETS],
) -> Answer<(usize, &'a [u8])> {
    let mut part = [0; 2];
    let answer = unsafe {
        raw::skm_write_message(
            kind as u32, width, reference, number, packet.as_ptr(), size(packet), out.as_mut_ptr(), size(out), part.as_mut_ptr(),
        )
    };
    done(answer, (part[0] as usize, &out[..part[1] as usize]))
}

/// Page `number` of a command, and how many pages there are. Refused 5, 9, 12, 14.
pub fn write_page(serial: u16, identifier: u16, dcs: u8, number: u32, packet: &[u8], out: &mut [u8; PAGE_OCTETS]) -> Answer<usize> {
    let mut part = [0; 2];
    let answer = unsafe {
        raw::skm_write_page(serial, identifier, dcs, number, packet.as_ptr(), size(packet), out.as_mut_ptr(), size(out), part.as_mut_ptr())
    };
    done(answer, part[0] as usize)
}

// ---- USSD strings
/// Reads the command in a string: its fields, and 0, the lengths of check field and data, or 1, CHL, the length of the opaque octets. Refused 2, 5, 9, 15.
pub fn read_ussd(pfi: u8, dcs: u8, string: &[u8]) -> Answer<([u8; 13], [u64; 3])> {
    let (mut fields, mut body) = ([0; 13], [0; 3]);
    let number = unsafe { raw::skm_read_ussd(pfi, dcs, string.as_ptr(), size(string), fields.as_mut_ptr(), body.as_mut_ptr()) };
    done(number, (fields, body))
}

/// A plain command as a string. Refused 10, 11, 12, 15.
pub fn write_ussd<'a>(pfi: u8, fields: &[u8; 13], check: &[u8], data: &[u8], out: &'a mut [u8; USSD_OCTETS]) -> Answer<&'a [u8]> {
    let mut length = 0;
    let number = unsafe {
        raw::skm_write_ussd(
            pfi, fields.as_ptr(), check.as_ptr(), size(check), data.as_ptr(), size(data), out.as_mut_ptr(), size(out), &mut length,
        )
    };
    done(number, &out[..length as usize])
}

/// A ciphered command as a string. Refused 10, 11, 12.
pub fn write_ciphered_ussd<'a>(pfi: u8, clear: &[u8; 7], header: u16, opaque: &[u8], out: &'a mut [u8; USSD_OCTETS]) -> Answer<&'a [u8]> {
    let mut length = 0;
    let number = unsafe {
        raw::skm_write_ciphered_ussd(pfi, clear.as_ptr(), header, opaque.as_ptr(), size(opaque), out.as_mut_ptr(), size(out), &mut length)
    };
    done(number, &out[..length as usize])
}

/// The octets that the checksum of a UM covers. Refused 9, 10, 15.
pub fn ussd_checksum<'a>(um: &[u8], out: &'a mut [u8; CHECKSUM_OCTETS]) -> Answer<&'a [u8]> {
    let mut length = 0;
    let number = unsafe { raw::skm_ussd_checksum(um.as_ptr(), size(um), out.as_mut_ptr(), size(out), &mut length) };
    done(number, &out[..length as usize])
}

// ---- reports
/// What goes out of a plain response, with the report. Refused 9, 12, 16, 17, 20.
pub fn write_report<'a>(spi_second: u8, capacity: usize, edition: u32, response: &[u8], out: &'a mut [u8; USER_DATA_OCTETS]) -> Answer<Going<'a>> {
    let mut going = [0; 2];
    let number = unsafe {
        raw::skm_write_report(
            spi_second, capacity as u64, edition, response.as_ptr(), size(response), out.as_mut_ptr(), size(out), going.as_mut_ptr(),
        )
    };
    let report = &out[..going[1] as usize];
    done(number, match going[0] {
        2 => Going::InReport(report),
        3 => Going::Announced(report),
        4 => Going::Submitted,
        _ => Going::Nothing,
    })
}

/// Whether a plain response says that another follows. Refused 9, 12.
pub fn response_announces(response: &[u8]) -> Answer<bool> {
    let mut announces = 0;
    let number = unsafe { raw::skm_response_announces(response.as_ptr(), size(response), &mut announces) };
    done(number, announces != 0)
}

// ---- captures
/// Copies the sound records of a capture to the start of an output of its length. Refused 24, 1.
pub fn salvage<'a>(file: &[u8], output: &'a mut [u8]) -> Answer<&'a [u8]> {
    let mut length = 0;
    let number = unsafe { raw::skm_salvage(file.as_ptr(), size(file), output.as_mut_ptr(), size(output), &mut length) };
    done(number, &output[..length as usize])
}

/// The next run of octets that salvaging skips, from a place on: its first place, and how many octets it has; none if no octet is skipped.
pub fn next_skipped(file: &[u8], from: usize) -> Option<(usize, usize)> {
    let mut run = [0; 3];
    unsafe { raw::skm_next_skipped(file.as_ptr(), size(file), from as u64, run.as_mut_ptr()) };
    (run[1] > 0).then_some((run[0] as usize, run[1] as usize))
}

/// What octets are as one captured record.
pub fn read_captured(octets: &[u8]) -> Captured<'_> {
    let mut found = [0; 2];
    unsafe { raw::skm_read_captured(octets.as_ptr(), size(octets), found.as_mut_ptr()) };
    let own = &octets[found[1] as usize..];
    match found[0] {
        1 => Captured::UserData(own),
        2 => Captured::Page(own),
        _ => Captured::Unsound,
    }
}
