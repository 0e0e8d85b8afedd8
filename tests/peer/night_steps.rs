//! A night by its bytes: each request in its order, and the answers that settle it, put together from the paper. No sender and no reader of
//! responses is asked, so that these can be held to it.
use crate::bank::SECTOR;
use crate::crc::crc32;
use crate::frame::{self, CONTINUED, END};
use crate::script::{request, write_start, BANK_INFORMATION, MODE_END, MODE_START, VERSION, WRITE_END};

#[derive(Clone, Copy, PartialEq)]
pub enum Kind {
    /// 15 to a repeated one counts as done.
    Switch,
    Version,
    Bank,
    Packet,
    WriteEnd,
}

pub struct Step {
    pub name: String,
    pub kind: Kind,
    pub request: Vec<u8>,
    /// Any of these settles it; of a version, any of its form does.
    pub awaited: Vec<Vec<u8>>,
    /// Its own response with 15.
    pub refused: Vec<u8>,
}

/// Its place among the steps.
pub const BANK_STEP: usize = 2;

/// The steps of an image for a bank.
pub fn all(image: &[u8], bank: usize) -> Vec<Step> {
    let n = image.len() / SECTOR;
    let mut steps = vec![
        plain("mode start", Kind::Switch, request(MODE_START, &[]), 0x71, &[]),
        plain("version", Kind::Version, request(VERSION, &[]), 0x78, &[4, 0, 1, 2, 0, 0, 0, 42]),
        plain("bank", Kind::Bank, request(BANK_INFORMATION, &[]), 0x72, &[bank as u8]),
        plain("write start", Kind::Switch, write_start(bank, n), 0x70, &[]),
    ];
    let sectors: Vec<usize> = (1..=n).filter(|k| sector(image, *k).iter().any(|byte| *byte != 0xFF)).collect();
    for (p, k) in sectors.iter().enumerate() {
        steps.push(packet(p, *k, sector(image, *k), p + 1 == sectors.len()));
    }
    steps.push(plain("write end", Kind::WriteEnd, request(WRITE_END, &[]), 0x75, &[]));
    steps.push(plain("mode end", Kind::Switch, request(MODE_END, &[]), 0x74, &[]));
    steps
}

pub fn sector(image: &[u8], k: usize) -> &[u8] {
    &image[(k - 1) * SECTOR..k * SECTOR]
}

/// A response of code, result and added fields.
pub fn response(code: u8, result: u8, added: &[u8]) -> Vec<u8> {
    frame::control(code, &[&[result], added].concat()).expect("a short response")
}

pub fn write_response(sector: usize, results: [u8; 2], crc: u32) -> Vec<u8> {
    frame::write(sector as u16, &[&results[..], &crc.to_be_bytes()].concat(), END).expect("six bytes")
}

fn plain(name: &str, kind: Kind, request: Vec<u8>, code: u8, added: &[u8]) -> Step {
    let (awaited, refused) = (vec![response(code, 0x06, added)], response(code, 0x15, &[]));
    Step { name: name.to_string(), kind, request, awaited, refused }
}

fn packet(p: usize, k: usize, bytes: &[u8], last: bool) -> Step {
    let crc = crc32(bytes);
    Step {
        name: format!("packet {} sector {:04X}", p, k),
        kind: Kind::Packet,
        request: frame::write(k as u16, bytes, if last { END } else { CONTINUED }).expect("512 bytes"),
        awaited: [0x06, 0x1D].map(|write| write_response(k, [0x06, write], crc)).to_vec(),
        refused: write_response(k, [0x15, 0x15], 0),
    }
}

impl Step {
    pub fn is_settled_by(&self, answer: &[u8]) -> bool {
        self.awaited.iter().any(|awaited| awaited == answer) || self.kind == Kind::Version && is_version(answer)
    }
}

/// 78 06, ID, major, minor and revision, whatever these are.
fn is_version(answer: &[u8]) -> bool {
    match answer {
        [0x01, covered @ .., sum, 0x03] if covered.len() == 11 => {
            covered[..3] == [0x0A, 0x78, 0x06] && *sum == frame::checksum(covered)
        }
        _ => false,
    }
}
