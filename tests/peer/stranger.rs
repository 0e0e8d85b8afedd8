//! Who else is heard beside the gateway that opened the mode: addresses, datagrams of any kind, and what 02 §5 has them answered, byte for byte,
//! while the mode is another's.
use crate::draw::Draw;
use crate::hex;
use crate::night_steps::{response, write_response};
use crate::response::{PARAMETER, RESPOND_ERROR};
use crate::script::{own, packet, pair, request, REQUESTS, WRITE_START};

const ADDRESS: usize = 16;
const NOT_NOW: u8 = 0x15;
const FRAME: u8 = 0x07;

pub struct Sent {
    pub datagram: Vec<u8>,
    pub answer: Vec<u8>,
}

/// The gateway's own, one that differs from it in a single byte, and one of no plan; now and then one of them is 16 times 00.
pub fn addresses(draw: &mut Draw) -> [String; 3] {
    let mut addresses = [draw.bytes(ADDRESS), Vec::new(), draw.bytes(ADDRESS)];
    match draw.below(8) {
        0 => addresses[0].fill(0),
        1 => addresses[2].fill(0),
        _ => (),
    }
    addresses[1] = addresses[0].clone();
    addresses[1][draw.below(ADDRESS)] ^= 1 << draw.below(8);
    addresses.map(|address| hex::text(&address))
}

/// Mostly a request or a packet that the opener might send too.
pub fn sends(draw: &mut Draw, n: usize, target: usize) -> Sent {
    let sector = 1 + draw.below(n);
    match draw.below(18) {
        0..=7 => asks(REQUESTS[draw.below(6)], n, target),
        8..=11 => stores(sector, &drawn_data(draw)),
        12 => stores([0, n + 1, 65_535][draw.below(3)], &drawn_data(draw)),
        13 => stores(sector, &vec![0x5A; [0, 1, 6, 510, 516][draw.below(5)]]),
        14 => asks_with(WRITE_START, &pair(1 - target, n)),
        15 => fault(request(REQUESTS[draw.below(6)], &[0x00]), PARAMETER),
        16 => fault(request([0x00, 0x60, 0x71, 0xE0][draw.below(4)], &[]), PARAMETER),
        _ => fault(damaged(draw, sector), FRAME),
    }
}

/// A request that is right but for who sends it.
pub fn asks(code: u8, n: usize, target: usize) -> Sent {
    match code {
        WRITE_START => asks_with(code, &pair(target, n)),
        _ => asks_with(code, &[]),
    }
}

fn asks_with(code: u8, parameters: &[u8]) -> Sent {
    Sent { datagram: request(code, parameters), answer: response(own(code), NOT_NOW, &[]) }
}

fn stores(sector: usize, data: &[u8]) -> Sent {
    Sent { datagram: packet(sector, data), answer: write_response(sector, [NOT_NOW; 2], 0) }
}

/// Answered so whoever sends it.
fn fault(datagram: Vec<u8>, result: u8) -> Sent {
    Sent { datagram, answer: response(RESPOND_ERROR, result, &[]) }
}

fn drawn_data(draw: &mut Draw) -> Vec<u8> {
    let length = 4 * (1 + draw.below(128));
    match draw.below(4) {
        0 => vec![0xFF; length],
        _ => draw.bytes(length),
    }
}

/// One bit off, or cut short; neither leaves a frame.
fn damaged(draw: &mut Draw, sector: usize) -> Vec<u8> {
    let mut datagram = [request(REQUESTS[draw.below(6)], &[]), packet(sector, &[0x5A; 8])][draw.below(2)].clone();
    let at = draw.below(datagram.len());
    match draw.below(2) {
        0 => datagram[at] ^= 1 << draw.below(8),
        _ => datagram.truncate(at),
    }
    datagram
}
