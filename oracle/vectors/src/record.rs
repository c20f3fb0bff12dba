//! A call of modules 1 to 3, the answer expected, and the record that holds both (the format is in FORMAT).

pub const CALC_CRC16: u8 = 1;
pub const CALC_LRC: u8 = 2;
pub const CHR_TO_HEX: u8 = 3;
pub const HEX_TO_CHR: u8 = 4;
pub const PARSE_ASCII_FRAME: u8 = 5;
pub const GENERATE_ASCII_FRAME: u8 = 6;
pub const GUESS_REQUEST_FRAME_LEN: u8 = 7;
pub const GUESS_RESPONSE_FRAME_LEN: u8 = 8;

/// Short names by call number, as the counts are printed; from 9 on the calls of tables/record.rs.
#[rustfmt::skip]
pub const NAMES: [&str; CALLS] = [
    "", "crc", "lrc", "chr_to_hex", "hex_to_chr", "parse", "generate", "request", "response",
    "push", "extend", "resize", "cut_end", "clear",
    "get_coil", "set_coil", "get_coils", "get_discretes", "set_coils",
    "get_holding", "set_holding", "get_holdings", "get_inputs", "set_holdings",
];

/// One more than the last call number.
pub const CALLS: usize = 24;

pub const RTU: u8 = 0;
pub const ASCII: u8 = 1;
pub const TCP: u8 = 2;

/// The switch for lower case. The crate knows strict alone.
pub const STRICT: u8 = 0;
pub const LENIENT: u8 = 1;

/// In a record this data_len stands for the largest usize.
pub const ENDLESS: u16 = 65535;

pub const FORMAT: &str = "\
# A record, numbers high byte first:
#   byte 0      call: 1 calc_crc16, 2 calc_lrc, 3 chr_to_hex, 4 hex_to_chr, 5 parse_ascii_frame,
#               6 generate_ascii_frame, 7 guess_request_frame_len, 8 guess_response_frame_len
#   byte 1      small argument: data_length (1, 2), the character or digit (3, 4), frame_pos (5), proto (7, 8), else 0
#   bytes 2-3   data_len of call 5, where 65535 stands for the largest usize; else 0
#   bytes 4-5   n, the length of the input slice
#   bytes 6-7   m, the length of the lent buffer (5, 6; else 0)
#   byte 8      the kind expected: 0 where a value is expected, else document 01's number of the refusal
#   bytes 9-10  the value expected (0 for a refusal)
#   then n bytes of input, then the m bytes of the lent buffer as expected after the call.
#   Before the call byte i of the lent buffer is (0x5A + i) % 256.
";

/// A stream has the switch behind the eleven bytes of the head. The list has strict calls alone, and no such byte.
pub const HEAD: usize = 11;

#[derive(Clone)]
pub struct Call {
    pub which: u8,
    pub small: u8,
    pub hex: u8, // of calls 3, 5, 7, 8; under 1 call 3 tells the kind of the digit too
    pub data_len: u16,
    pub room: u16,
    pub input: Vec<u8>,
}

pub struct Answer {
    pub kind: u8,
    pub value: u16,
    pub buffer: Vec<u8>,
}

fn plain(which: u8, small: u8, input: &[u8]) -> Call {
    Call { which, small, hex: STRICT, data_len: 0, room: 0, input: input.to_vec() }
}

pub fn crc(frame: &[u8], data_length: u8) -> Call {
    plain(CALC_CRC16, data_length, frame)
}

pub fn lrc(frame: &[u8], data_length: u8) -> Call {
    plain(CALC_LRC, data_length, frame)
}

pub fn chr_to_hex(c: u8) -> Call {
    plain(CHR_TO_HEX, c, &[])
}

pub fn hex_to_chr(h: u8) -> Call {
    plain(HEX_TO_CHR, h, &[])
}

pub fn parse(text: &[u8], data_len: u16, room: u16, frame_pos: u8) -> Call {
    Call { which: PARSE_ASCII_FRAME, small: frame_pos, hex: STRICT, data_len, room, input: text.to_vec() }
}

pub fn generate(bytes: &[u8], room: u16) -> Call {
    Call { which: GENERATE_ASCII_FRAME, small: 0, hex: STRICT, data_len: 0, room, input: bytes.to_vec() }
}

pub fn request(frame: &[u8], proto: u8) -> Call {
    plain(GUESS_REQUEST_FRAME_LEN, proto, frame)
}

pub fn response(frame: &[u8], proto: u8) -> Call {
    plain(GUESS_RESPONSE_FRAME_LEN, proto, frame)
}

/// A letter of a digit in capitals; all else as it is.
pub fn raised(c: u8) -> u8 {
    if matches!(c, b'a'..=b'f') {
        c.to_ascii_uppercase()
    } else {
        c
    }
}

impl Call {
    pub fn under(self, hex: u8) -> Call {
        Call { hex, ..self }
    }

    /// Whether it reads text, in which lower case is a question.
    pub fn reads_text(&self) -> bool {
        let guess = matches!(self.which, GUESS_REQUEST_FRAME_LEN | GUESS_RESPONSE_FRAME_LEN);
        self.which == PARSE_ASCII_FRAME || guess && self.small == ASCII
    }

    /// The strict call of the same text in capitals.
    pub fn in_capitals(&self) -> Call {
        let mut call = self.clone().under(STRICT);
        if call.reads_text() {
            call.input.iter_mut().for_each(|c| *c = raised(*c));
        }
        call
    }

    /// The lent buffer before the call.
    pub fn lent(&self) -> Vec<u8> {
        (0..usize::from(self.room)).map(|i| ((0x5A + i) % 256) as u8).collect()
    }

    pub fn data_len(&self) -> usize {
        if self.data_len == ENDLESS {
            usize::MAX
        } else {
            usize::from(self.data_len)
        }
    }

    pub fn size(&self) -> usize {
        HEAD + self.input.len() + usize::from(self.room)
    }

    pub fn record(&self, answer: &Answer) -> Vec<u8> {
        let n = u16::try_from(self.input.len()).expect("an input too long for a record");
        let mut r = Vec::with_capacity(self.size());
        r.extend([self.which, self.small]);
        for number in [self.data_len, n, self.room] {
            r.extend(number.to_be_bytes());
        }
        r.push(answer.kind);
        r.extend(answer.value.to_be_bytes());
        r.extend(&self.input);
        r.extend(&answer.buffer);
        r
    }
}
