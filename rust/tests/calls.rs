//! Each call once on good input and, if it can be refused, once on bad input. What is expected is from docs/PROTOCOL.md, as in c/test.c.
use skelmarix::*;

fn octets(digits: &str) -> Vec<u8> {
    let digits: Vec<u8> = digits.bytes().filter(|c| *c != b' ').collect();
    digits.chunks(2).map(|pair| u8::from_str_radix(core::str::from_utf8(pair).unwrap(), 16).unwrap()).collect()
}

const COMMAND: &str = "001C15 0100 00 00 B00010 0000000000 00 01080F161D242B32 3940474E555C";
const RESPONSE: &str = "001C0E B00010 0000000001 00 00 03080D12 171C21262B30353A3F44494E53";

#[test]
fn the_version_is_that_of_the_package() {
    let mut numbers = env!("CARGO_PKG_VERSION").split('.').map(|word| word.parse::<u32>().unwrap());
    assert_eq!(version(), numbers.by_ref().fold(0, |all, one| all * 256 + one));
}

#[test]
fn parts_out_of_order_make_the_packet() {
    let (mut ud, mut out, mut cells) = ([0; 140], [0; 2142], [[0xEE; 2144]; 2]);
    let mut packet = octets("085C0D 0000 00 00 B00010 0000000000 00");
    packet.resize(2142, 7);
    let mut card = State::<2>::fresh(Kind::Command).unwrap();
    for number in (2..=16).rev() {
        let (total, part) = write_message(Kind::Command, 8, 255, number, &packet, &mut ud).unwrap();
        assert_eq!((total, part.len()), (16, 140));
        assert_eq!(card.message(1, part, &mut cells, &mut out), Ok(Taken::Kept { slot: 0, displaced: false }));
        assert_eq!(card.message(1, part, &mut cells, &mut out), Ok(Taken::HeldAlready { slot: 0 }));
    }
    let mut kept = State::<2>::restored(*card.octets()).unwrap();
    let (_, part) = write_message(Kind::Command, 8, 255, 1, &packet, &mut ud).unwrap();
    assert_eq!(kept.message(1, part, &mut cells, &mut out), Ok(Taken::Packet(&packet)));
    assert_eq!(card.beat(1), Ok(1));
    assert!(card == kept && card == State::fresh(Kind::Command).unwrap());
}

#[test]
fn pages_make_the_packet() {
    let (mut page, mut out, mut cells) = ([0; 88], [0; 2142], [[0; 2144]]);
    let mut packet = octets("00A80D00000000B00010");
    packet.resize(170, 5);
    let mut card = State::<1>::fresh(Kind::Command).unwrap();
    for number in [2, 3, 1] {
        assert_eq!(write_page(0xA001, 0x1085, 0xF6, number, &packet, &mut page), Ok(3));
        let taken = card.page(&page, &mut cells, &mut out);
        assert_eq!(taken, Ok(if number == 1 { Taken::Packet(&packet) } else { Taken::Kept { slot: 0, displaced: false } }));
    }
    assert_eq!(write_page(0, 0x10A0, 0, 1, &packet, &mut page), Err(Refused(5)));
    assert_eq!(card.page(&page[1..], &mut cells, &mut out), Err(Refused(2)));
}

#[test]
fn states_are_tested() {
    assert!(State::<0>::fresh(Kind::Command).is_err_and(|why| why == Refused(25)));
    assert!(State::<6>::fresh(Kind::Response).is_err_and(|why| why == Refused(25)));
    let mut card = State::<5>::fresh(Kind::Response).unwrap();
    assert_eq!(card.beat(0), Err(Refused(18)));
    assert!(State::<4>::restored(*card.octets()).is_err_and(|why| why == Refused(1)));
    let mut damaged = *card.octets();
    damaged[0] = 2;
    assert!(State::<5>::restored(damaged).is_err_and(|why| why == Refused(1)));
}

#[test]
fn packets_are_read() {
    let (command, response) = (octets(COMMAND), octets(RESPONSE));
    let read = parse_command(&command).unwrap();
    assert_eq!((read.ciphered, read.check, read.data, read.opaque), (false, &command[16..24], &command[24..], &command[..0]));
    assert_eq!(read.fields, octets("0100 00 00 B00010 0000000000 00")[..]);
    let read = parse_response(&response, true).unwrap();
    assert_eq!((read.ciphered, read.check, read.data, read.opaque), (true, &response[..0], &response[..0], &response[6..]));
    assert_eq!(parse_response(&response, false).unwrap().data, &response[17..]);
    assert_eq!(parse_command(&command[1..]), Err(Refused(9)));
    assert_eq!(parse_response(&[], false), Err(Refused(9)));
    assert!(packet_formed(Kind::Command, &command) && !packet_formed(Kind::Command, &command[1..]));
}

#[test]
fn packets_are_built() {
    let (mut out, mut sum) = ([0; 2142], [0; 2145]);
    let (command, response) = (octets(COMMAND), octets(RESPONSE));
    let fields: [u8; 13] = command[3..16].try_into().unwrap();
    assert_eq!(build_command(&fields, &command[16..24], &command[24..], &mut out), Ok(&command[..]));
    assert_eq!(build_command(&fields, &[], &command[24..], &mut out), Err(Refused(15)));
    let clear = [4, 0, 0, 0, 0xB0, 0, 0x10];
    assert_eq!(build_ciphered_command(&clear, 21, &command[10..], &mut out).map(|p| p[3]), Ok(4));
    assert_eq!(build_ciphered_command(&clear, 12, &command[10..], &mut out), Err(Refused(11)));
    let fields: [u8; 10] = response[3..13].try_into().unwrap();
    assert_eq!(build_response(&fields, &response[13..17], &response[17..], &mut out), Ok(&response[..]));
    assert_eq!(build_ciphered_response(&[0xB0, 0, 0x10], 14, &response[6..], &mut out), Ok(&response[..]));
    assert_eq!(command_checksum(&command, &mut sum), Ok(&octets("001C1501000000B000100000000000003940474E555C")[..]));
    assert_eq!(response_checksum(&response, false, &mut sum).map(<[u8]>::len), Ok(29));
    assert_eq!(response_checksum(&response, true, &mut sum), Err(Refused(10)));
}

#[test]
fn arrivals_are_read() {
    let part = Brought::Part { start: 13, total: 2, number: 1, key: [0x89ABCDEF, 8, 42, 0, 0] };
    assert_eq!(read_message(Kind::Command, 0x89ABCDEF, &octets("0C2403A1A2A300032A02017000C1C2")), Ok(part));
    assert_eq!(read_message(Kind::Response, 1, &octets("027100")), Ok(Brought::Single { start: 3 }));
    assert_eq!(read_message(Kind::Command, 1, &[]), Err(Refused(3)));
    let mut page = octets("A0011085F623");
    page.resize(88, 0);
    assert_eq!(read_page(Kind::Command, &page), Ok(Brought::Part { start: 6, total: 3, number: 2, key: [0, 0, 0, 0xA001, 0x1085] }));
    assert_eq!(read_page(Kind::Response, &page), Err(Refused(5)));
}

#[test]
fn strings_and_reports() {
    let (mut out, mut report, mut sum) = ([0; 160], [0; 140], [0; 2145]);
    let string = octets("01 03 11 0D 0021 15 16 B00011 0102030405 06 A1A2A3");
    let fields: [u8; 13] = string[4..17].try_into().unwrap();
    assert_eq!(read_ussd(1, 0x96, &string), Ok((fields, [0, 0, 3])));
    assert_eq!(read_ussd(2, 0x96, &string), Err(Refused(5)));
    assert_eq!(write_ussd(1, &fields, &[], &string[17..], &mut out), Ok(&string[..]));
    assert_eq!(write_ciphered_ussd(1, &[0, 0, 0, 0, 0, 0, 0], 21, &[0; 20], &mut out), Err(Refused(10)));
    assert_eq!(ussd_checksum(&string[1..], &mut sum), Ok(&string[1..]));
    let response = octets("000C0A B00010 0000000001 00 00 21");
    assert_eq!(write_report(1, 17, 1, &response, &mut report), Ok(Going::InReport(&octets("027100 000C0A B00010 0000000001 00 00 21"))));
    assert_eq!(write_report(1, 16, 1, &response, &mut report), Ok(Going::Announced(&octets("027100 000B0A B00010 0000000001 00 0B"))));
    assert_eq!(write_report(0x21, 16, 1, &response, &mut report), Ok(Going::Submitted));
    assert_eq!(write_report(0, 16, 1, &response, &mut report), Ok(Going::Nothing));
    assert_eq!(write_report(3, 16, 1, &response, &mut report), Err(Refused(17)));
    assert_eq!(response_announces(&response), Ok(false));
}

#[test]
fn captures() {
    let (file, mut output) = (octets("A5 A55A0100"), [0; 5]);
    assert_eq!(salvage(&file, &mut output), Ok(&file[1..]));
    assert_eq!(salvage(&file, &mut output[1..]), Err(Refused(1)));
    assert_eq!((next_skipped(&file, 0), next_skipped(&file, 1)), (Some((0, 1)), None));
    assert_eq!(read_captured(&file[1..]), Captured::UserData(&[]));
    assert_eq!(read_captured(&file), Captured::Unsound);
}

/// What a declaration says, in the same words for both languages: its name, the types of its parameters and of its result.
fn declared(name: &str, parameters: &str, result: &str) -> String {
    let kinds = parameters.split(',').map(|word| word.trim()).filter(|word| !word.is_empty() && *word != "void");
    let kinds = kinds.map(|word| match word.split_once(": ") {
        Some((_, kind)) => kind.replace("*const ", "*c ").replace("*mut ", "*m "),
        None => {
            let (front, last) = word.rsplit_once(' ').unwrap();
            let lent = if front.starts_with("const ") { "*c " } else { "*m " };
            format!("{}{}", if last.contains(['*', '[']) { lent } else { "" }, front.trim_start_matches("const "))
        }
    });
    let all = format!("{name}({}) {result}", kinds.collect::<Vec<_>>().join(", "));
    all.replace("uint8_t", "u8").replace("uint16_t", "u16").replace("uint32_t", "u32").replace("skm_size", "u64")
}

/// The declarations in rust/src/raw.rs are those of c/skelmarix.h, in the same order.
#[test]
fn declarations_are_those_of_the_header() {
    let (ours, header) = (include_str!("../src/raw.rs"), include_str!("../../c/skelmarix.h"));
    let ours = ours.split("pub fn ").skip(1).map(|one| {
        let (name, rest) = one.split_once('(').unwrap();
        let (parameters, rest) = rest.split_once(')').unwrap();
        declared(name, parameters, rest.trim_start_matches(" -> ").split(';').next().unwrap())
    });
    let theirs = header.split(';').filter_map(|one| {
        let line = one.rsplit("*/").next().unwrap().replace('\n', " ");
        let (front, parameters) = line.trim().split_once('(')?;
        let (result, name) = front.trim().split_once(' ')?;
        name.starts_with("skm_").then(|| declared(name, parameters.trim_end_matches(')'), result))
    });
    assert_eq!(ours.collect::<Vec<_>>(), theirs.collect::<Vec<_>>());
}
