//! The functions of c/skelmarix.h as Rust declares them. `u64` is `skm_size`.
extern "C" {
    pub fn skm_version() -> u32;
    pub fn skm_fresh(state: *mut u8, kind: u32) -> u32;
    pub fn skm_fresh_with(state: *mut u8, kind: u32, slots: u32) -> u32;
    pub fn skm_state_formed(state: *const u8) -> u32;
    pub fn skm_take_message(
        state: *mut u8, sender: u32, ud: *const u8, ud_length: u64, cells: *mut u8, cells_length: u64, out: *mut u8, out_length: u64, taken: *mut u64,
    ) -> u32;
    pub fn skm_take_page(
        state: *mut u8, page: *const u8, page_length: u64, cells: *mut u8, cells_length: u64, out: *mut u8, out_length: u64, taken: *mut u64,
    ) -> u32;
    pub fn skm_beat(state: *mut u8, limit: u32, dropped: *mut u64) -> u32;
    pub fn skm_packet_formed(kind: u32, packet: *const u8, packet_length: u64) -> u32;
    pub fn skm_parse_command(packet: *const u8, packet_length: u64, fields: *mut u8, body: *mut u64) -> u32;
    pub fn skm_parse_response(packet: *const u8, packet_length: u64, ciphered: u32, fields: *mut u8, body: *mut u64) -> u32;
    pub fn skm_show_command(packet: *const u8, packet_length: u64, places: *mut u64) -> u32;
    pub fn skm_show_response(packet: *const u8, packet_length: u64, ciphered: u32, places: *mut u64) -> u32;
    pub fn skm_build_command(
        fields: *const u8, check: *const u8, check_length: u64, data: *const u8, data_length: u64, out: *mut u8, out_length: u64, length: *mut u64,
    ) -> u32;
    pub fn skm_build_ciphered_command(
        clear: *const u8, header: u16, opaque: *const u8, opaque_length: u64, out: *mut u8, out_length: u64, length: *mut u64,
    ) -> u32;
    pub fn skm_build_response(
        fields: *const u8, check: *const u8, check_length: u64, data: *const u8, data_length: u64, out: *mut u8, out_length: u64, length: *mut u64,
    ) -> u32;
    pub fn skm_build_ciphered_response(
        tar: *const u8, header: u16, opaque: *const u8, opaque_length: u64, out: *mut u8, out_length: u64, length: *mut u64,
    ) -> u32;
    pub fn skm_command_checksum(packet: *const u8, packet_length: u64, out: *mut u8, out_length: u64, length: *mut u64) -> u32;
    pub fn skm_response_checksum(packet: *const u8, packet_length: u64, ciphered: u32, out: *mut u8, out_length: u64, length: *mut u64) -> u32;
    pub fn skm_read_message(kind: u32, sender: u32, ud: *const u8, ud_length: u64, brought: *mut u64) -> u32;
    pub fn skm_read_page(kind: u32, page: *const u8, page_length: u64, brought: *mut u64) -> u32;
    pub fn skm_write_message(
        kind: u32, width: u32, reference: u32, number: u32, packet: *const u8, packet_length: u64, out: *mut u8, out_length: u64, part: *mut u64,
    ) -> u32;
    pub fn skm_write_page(
        serial: u16, identifier: u16, dcs: u8, number: u32, packet: *const u8, packet_length: u64, out: *mut u8, out_length: u64, part: *mut u64,
    ) -> u32;
    pub fn skm_read_ussd(pfi: u8, dcs: u8, string: *const u8, string_length: u64, fields: *mut u8, body: *mut u64) -> u32;
    pub fn skm_write_ussd(
        pfi: u8, fields: *const u8, check: *const u8, check_length: u64, data: *const u8, data_length: u64, out: *mut u8, out_length: u64, length: *mut u64,
    ) -> u32;
    pub fn skm_write_ciphered_ussd(
        pfi: u8, clear: *const u8, header: u16, opaque: *const u8, opaque_length: u64, out: *mut u8, out_length: u64, length: *mut u64,
    ) -> u32;
    pub fn skm_ussd_checksum(um: *const u8, um_length: u64, out: *mut u8, out_length: u64, length: *mut u64) -> u32;
    pub fn skm_write_report(
        spi_second: u8, capacity: u64, edition: u32, response: *const u8, response_length: u64, out: *mut u8, out_length: u64, going: *mut u64,
    ) -> u32;
    pub fn skm_response_announces(response: *const u8, response_length: u64, announces: *mut u64) -> u32;
    pub fn skm_salvage(file: *const u8, file_length: u64, output: *mut u8, output_length: u64, length: *mut u64) -> u32;
    pub fn skm_next_skipped(file: *const u8, file_length: u64, from: u64, run: *mut u64) -> u32;
    pub fn skm_read_captured(octets: *const u8, octets_length: u64, found: *mut u64) -> u32;
}
