//! A command is built, split and taken out of order. Run: cd rust && cargo run --example ten_lines
use skelmarix::{Kind, State, Taken};

fn main() -> Result<(), skelmarix::Refused> {
    let (mut packet, mut ud, mut out, mut cells) = ([0; 2142], [0; 140], [0; 2142], [[0; 2144]; 3]);
    let fields = [0x01, 0x21, 0x15, 0x15, 0xB0, 0x00, 0x10, 0, 0, 0, 0, 1, 0];
    let command = skelmarix::build_command(&fields, b"checksum", &[0; 300], &mut packet)?;
    let mut card = State::<3>::fresh(Kind::Command)?;
    for number in [2, 3, 1] {
        let (total, part) = skelmarix::write_message(Kind::Command, 8, 42, number, command, &mut ud)?;
        match card.message(7, part, &mut cells, &mut out)? {
            Taken::Packet(whole) => println!("part {number} of {total}: packet, {} octets of data", skelmarix::parse_command(whole)?.data.len()),
            other => println!("part {number} of {total}: {other:?}"),
        }
    }
    Ok(())
}
