//! Not the published tests: a window on the four private functions of lib.rs.
//! The module is private, so the functions go out by symbol name.
use super::ErrorKind;

#[no_mangle]
pub fn window_calc_crc16(frame: &[u8], data_length: u8) -> u16 {
    super::calc_crc16(frame, data_length)
}

#[no_mangle]
pub fn window_calc_lrc(frame: &[u8], data_length: u8) -> u8 {
    super::calc_lrc(frame, data_length)
}

#[no_mangle]
pub fn window_chr_to_hex(c: u8) -> Result<u8, ErrorKind> {
    super::chr_to_hex(c)
}

#[no_mangle]
pub fn window_hex_to_chr(h: u8) -> u8 {
    super::hex_to_chr(h)
}
