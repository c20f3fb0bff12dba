//! Good frames, as they stand on the line: requests by the crate's own client side, responses by hand.
use crate::chance::Chance;
use crate::record::{ASCII, RTU, TCP};
use crate::window::{calc_crc16, calc_lrc};
use rmodbus::client::ModbusRequest;
use rmodbus::ModbusProto;

/// The text of these bytes: a colon, the pairs, CR, LF.
pub fn line(bytes: &[u8]) -> Vec<u8> {
    let mut text = Vec::new();
    rmodbus::generate_ascii_frame(bytes, &mut text).expect("a Vec has room");
    text
}

/// The pairs alone.
pub fn pairs(bytes: &[u8]) -> Vec<u8> {
    let text = line(bytes);
    text[1..text.len() - 2].to_vec()
}

/// A request; on ASCII its bytes with the LRC, not yet text.
pub fn request(proto: u8, chance: &mut Chance) -> Vec<u8> {
    let transport = [ModbusProto::Rtu, ModbusProto::Ascii, ModbusProto::TcpUdp][usize::from(proto)];
    let mut client = ModbusRequest::new(chance.byte(), transport);
    client.tr_id = chance.word();
    let (reg, count, mut frame) = (chance.word(), chance.word(), Vec::new());
    let sent = match chance.below(8) {
        0 => client.generate_get_coils(reg, count, &mut frame),
        1 => client.generate_get_discretes(reg, count, &mut frame),
        2 => client.generate_get_holdings(reg, count, &mut frame),
        3 => client.generate_get_inputs(reg, count, &mut frame),
        4 => client.generate_set_coil(reg, chance.byte() % 2, &mut frame),
        5 => client.generate_set_holding(reg, count, &mut frame),
        6 => client.generate_set_coils_bulk(reg, &chance.bytes_up_to(1968), &mut frame),
        _ => {
            let values: Vec<u16> = chance.bytes_up_to(123).iter().map(|v| u16::from(*v) * 257).collect();
            client.generate_set_holdings_bulk(reg, &values, &mut frame)
        }
    };
    sent.expect("within the client's bounds");
    frame
}

/// A response or an exception; on ASCII its bytes with the LRC, not yet text.
pub fn response(proto: u8, chance: &mut Chance) -> Vec<u8> {
    let mut frame = vec![chance.byte()];
    match chance.below(3) {
        0 => {
            frame.push(chance.pick(&[5, 6, 15, 16]));
            frame.extend(chance.bytes(4));
        }
        1 => frame.extend([chance.byte() | 0x80, chance.pick(&[1, 2, 3, 4])]),
        _ => {
            let data = chance.bytes_up_to(250);
            frame.extend([chance.pick(&[1, 2, 3, 4]), data.len() as u8]);
            frame.extend(data);
        }
    }
    let len = frame.len() as u8; // 253 at most
    match proto {
        RTU => frame.extend(calc_crc16(&frame, len).to_le_bytes()),
        ASCII => frame.push(calc_lrc(&frame, len)),
        _ => {
            let header = [chance.byte(), chance.byte(), 0, 0, 0, len];
            frame.splice(0..0, header);
        }
    }
    frame
}

/// On ASCII the text of a frame, else the frame itself.
pub fn as_sent(proto: u8, frame: Vec<u8>) -> Vec<u8> {
    if proto == ASCII {
        line(&frame)
    } else {
        frame
    }
}

/// The first seven bytes of a frame of this function with this byte count, where a request and a response have theirs.
pub fn head(function: u8, count: u8) -> [u8; 7] {
    [17, function, count, 2, 0, 4, count]
}

/// A TCP header with these protocol bytes and this length.
pub fn tcp_header(protocol: [u8; 2], length: u16) -> [u8; 6] {
    let [high, low] = length.to_be_bytes();
    [0, 7, protocol[0], protocol[1], high, low]
}

pub const PROTOS: [u8; 3] = [RTU, ASCII, TCP];
