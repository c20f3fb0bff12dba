//! The crate's four private functions, through the window in ../../rmodbus/tests.rs.
use rmodbus::ErrorKind;

extern "Rust" {
    fn window_calc_crc16(frame: &[u8], data_length: u8) -> u16;
    fn window_calc_lrc(frame: &[u8], data_length: u8) -> u8;
    fn window_chr_to_hex(c: u8) -> Result<u8, ErrorKind>;
    fn window_hex_to_chr(h: u8) -> u8;
}

// Safe: the same compiler builds both sides, and the types stand beside each other in the two files.
pub fn calc_crc16(frame: &[u8], data_length: u8) -> u16 {
    unsafe { window_calc_crc16(frame, data_length) }
}

pub fn calc_lrc(frame: &[u8], data_length: u8) -> u8 {
    unsafe { window_calc_lrc(frame, data_length) }
}

pub fn chr_to_hex(c: u8) -> Result<u8, ErrorKind> {
    unsafe { window_chr_to_hex(c) }
}

pub fn hex_to_chr(h: u8) -> u8 {
    unsafe { window_hex_to_chr(h) }
}
