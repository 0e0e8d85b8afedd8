//! The lines of a script for a board, put together from the paper's requests.
use crate::bank;
use crate::frame::{control, write, CONTINUED, END};
use crate::hex;

/// As many bytes as a line of `put` takes well.
const PIECE: usize = 2_000;

pub const MODE_START: u8 = 0x61;
pub const BANK_INFORMATION: u8 = 0x62;
pub const VERSION: u8 = 0x68;
pub const WRITE_START: u8 = 0x40;
pub const WRITE_END: u8 = 0x45;
pub const MODE_END: u8 = 0x64;
pub const REQUESTS: [u8; 6] = [MODE_START, BANK_INFORMATION, VERSION, WRITE_START, WRITE_END, MODE_END];

/// The code of a request's own response.
pub fn own(code: u8) -> u8 {
    match code {
        MODE_START => 0x71,
        BANK_INFORMATION => 0x72,
        VERSION => 0x78,
        WRITE_START => 0x70,
        WRITE_END => 0x75,
        _ => 0x74,
    }
}

pub const STATES: [&str; 4] = ["closed", "idle", "control", "write"];

pub fn request(code: u8, parameters: &[u8]) -> Vec<u8> {
    control(code, parameters).expect("short parameters")
}

/// The address pair of a bank of N sectors.
pub fn pair(bank: usize, n: usize) -> Vec<u8> {
    let end = bank::end(bank, n).expect("a good N");
    [bank::start(bank) as u32, end as u32].map(u32::to_be_bytes).concat()
}

pub fn write_start(bank: usize, n: usize) -> Vec<u8> {
    request(WRITE_START, &pair(bank, n))
}

pub fn packet(sector: usize, data: &[u8]) -> Vec<u8> {
    let footer = if sector % 2 == 0 { END } else { CONTINUED };
    write(sector as u16, data, footer).expect("data that two bytes can count")
}

#[derive(Default)]
pub struct Script {
    pub lines: Vec<String>,
}

impl Script {
    pub fn add(&mut self, line: impl Into<String>) {
        self.lines.push(line.into());
    }

    /// Lines that `|` parts.
    pub fn add_all(&mut self, lines: &str) {
        lines.split('|').for_each(|line| self.add(line));
    }

    /// A new case: what it is about, and a new client.
    pub fn case(&mut self, about: &str, n: usize, running: usize) {
        self.add(format!("# {}", about));
        self.add(format!("client {} {} 1 2 3", n, running));
    }

    /// Brings a new client on, as far as the state.
    pub fn on_to(&mut self, state: &str, running: usize, n: usize) {
        let steps = STATES.iter().position(|name| *name == state).expect("a state");
        if steps >= 1 {
            self.add("initiate");
        }
        if steps >= 2 {
            self.send(&request(MODE_START, &[]));
        }
        if steps >= 3 {
            self.send(&write_start(1 - running, n));
        }
    }

    pub fn send(&mut self, datagram: &[u8]) {
        self.add(format!("send {}", hex::text(datagram)));
    }

    pub fn ask(&mut self, code: u8) {
        self.send(&request(code, &[]));
    }

    pub fn put(&mut self, bank: usize, offset: usize, bytes: &[u8]) {
        for (i, piece) in bytes.chunks(PIECE).enumerate() {
            self.add(format!("put {} {} {}", bank, offset + i * PIECE, hex::text(piece)));
        }
    }

    /// All that a call can have changed.
    pub fn look(&mut self) {
        self.add_all("record|crc 0|crc 1|rest");
    }
}
