//! A board on the rack in the evening: which it is, in what state, what a former owner left on it, and what is to be sent to it; and how it is found
//! in the morning. It is spoken with as docs/BOARD.md has it.
use crate::bank::{self, SECTOR};
use crate::crc::crc32;
use crate::draw::Draw;
use crate::image;
use crate::program::Program;
use crate::script::{packet, request, write_start, Script, MODE_START, WRITE_END};

/// The address that a new board is lent.
pub const NOBODY: &str = "00000000000000000000000000000000";

#[derive(Clone, Copy, PartialEq, Debug)]
pub enum State {
    Closed,
    Idle,
    /// Left so by a former gateway.
    Control,
    /// Left so behind a write end that was answered 06: the target starts next.
    Ended,
    Write,
}

pub struct Evening {
    /// The sender's words: the image's sectors and its bank, and T.
    pub n: usize,
    pub bank: usize,
    pub tries: usize,
    pub image: Vec<u8>,
    pub sound: bool,
    /// The board's own.
    pub board_n: usize,
    pub running: usize,
    pub state: State,
    /// The address of who left it so.
    pub former: String,
    /// A sector that is worn all night.
    pub worn: Option<usize>,
}

/// As it is shown.
pub struct Found {
    pub n: usize,
    pub next: usize,
    pub state: String,
    pub opener: String,
    pub banks: [Vec<u8>; 2],
}

impl Evening {
    /// Any board and any image.
    pub fn any(draw: &mut Draw) -> Evening {
        let mut evening = Evening::fitting(draw);
        match draw.below(20) {
            0 => evening.bank = evening.running,
            1 => evening.board_n = [evening.n + 1, evening.n - 1, 32, 1][draw.below(4)],
            2 | 3 => evening.worn = Some(1 + draw.below(evening.board_n)),
            4 | 5 => evening.spoil(draw),
            _ => (),
        }
        evening.state = match draw.below(12) {
            0 => State::Closed,
            1 | 2 => State::Control,
            3 => State::Ended,
            4 => State::Write,
            _ => State::Idle,
        };
        evening
    }

    /// A board in idle, and a sound image for it.
    pub fn fitting(draw: &mut Draw) -> Evening {
        let n = if draw.below(12) == 0 { 32 } else { 2 + draw.below(11) };
        let (running, count) = (draw.below(2), 1 + draw.below(if n == 32 { 30 } else { 6 }));
        let image = if draw.below(5) == 0 { image::alike(draw, n) } else { image::drawn(draw, n, count) }.bytes;
        let (bank, tries) = (1 - running, 1 + draw.below(9));
        let (state, former) = (State::Idle, NOBODY.to_string());
        Evening { n, bank, tries, image, sound: true, board_n: n, running, state, former, worn: None }
    }

    /// One bit off: a body's, the table's or one of the blanks.
    fn spoil(&mut self, draw: &mut Draw) {
        let at = draw.below(self.image.len());
        self.image[at] ^= 1 << draw.below(8);
        self.sound = bank::bodies(&self.image).is_some();
    }

    /// Whether nothing but the radio stands in the way.
    pub fn fits(&self) -> bool {
        self.sound
            && self.bank != self.running
            && self.board_n == self.n
            && self.state == State::Idle
            && self.worn.is_none()
    }

    pub fn words(&self, file: &str) -> Vec<String> {
        vec![self.bank.to_string(), self.n.to_string(), self.tries.to_string(), file.to_string()]
    }

    pub fn text(&self) -> Vec<u8> {
        crate::hexout::text(&self.image, self.bank).expect("an image of a bank")
    }

    /// Makes the board so.
    pub fn set_up(&self, board: &mut Program, draw: &mut Draw) -> Result<Found, String> {
        let (n, running) = (self.board_n, self.running);
        let mut script = Script::default();
        script.add(format!("client {} {} 1 2 3", n, running));
        script.put(running, 0, &draw.bytes(n * SECTOR));
        self.leave(&mut script, draw);
        script.add(format!("address {}", self.former));
        match self.state {
            State::Closed => (),
            State::Idle => script.add("initiate"),
            State::Control => script.on_to("control", running, n),
            State::Write => {
                script.on_to("write", running, n);
                (0..draw.below(3)).for_each(|_| script.send(&packet(1 + draw.below(n), &draw.bytes(SECTOR))));
            }
            State::Ended => {
                script.add("initiate");
                script.send(&request(MODE_START, &[]));
                script.send(&write_start(1 - running, n));
                let former = image::drawn(draw, n, 1);
                former.sent().iter().for_each(|k| script.send(&packet(*k, former.sector(*k))));
                script.send(&request(WRITE_END, &[]));
            }
        }
        if let Some(sector) = self.worn {
            script.add(format!("mark {} 01", sector));
        }
        for line in script.lines {
            let answer = board.ask(&line)?;
            if answer.starts_with("line ") || answer.starts_with("refused ") {
                return Err(format!("the board does not take {:.60}: {}", line, answer));
            }
        }
        look(board, n)
    }

    /// What a former owner left in the target: nothing, one byte over and over, bytes of no plan, the image, or most of it.
    fn leave(&self, script: &mut Script, draw: &mut Draw) {
        let target = 1 - self.running;
        match draw.below(5) {
            0 => (),
            1 => script.add(format!("fill {} {:02X}", target, draw.byte())),
            2 => script.put(target, 0, &draw.bytes(self.board_n * SECTOR)),
            kind => {
                script.put(target, 0, &self.image);
                if kind == 4 {
                    script.put(target, draw.below(self.board_n) * SECTOR, &draw.bytes(16));
                }
            }
        }
    }
}

/// Record and banks.
pub fn look(board: &mut Program, n: usize) -> Result<Found, String> {
    let record = board.ask("record")?;
    let fields: Vec<&str> = record.split(' ').collect();
    let number = |k: usize| fields.get(k).and_then(|field| field.parse().ok()).ok_or("no record");
    let word = |k: usize| fields.get(k).map(|field| field.to_string()).ok_or("no record");
    let banks = [shown(board, 0, n)?, shown(board, 1, n)?];
    Ok(Found { n: number(1)?, next: number(3)?, state: word(4)?, opener: word(6)?, banks })
}

/// The bytes of a bank, which its CRC-32 confirms.
fn shown(board: &mut Program, bank: usize, n: usize) -> Result<Vec<u8>, String> {
    let line = board.ask(&format!("show {} 0 {}", bank, n * SECTOR))?;
    let bytes = line.strip_prefix("show ").and_then(crate::hex::bytes).ok_or("no bytes are shown")?;
    let wanted = format!("crc {} {} {:08X}", bank, n * SECTOR, crc32(&bytes));
    match board.ask(&format!("crc {}", bank))? == wanted {
        true => Ok(bytes),
        false => Err(format!("not {}", wanted)),
    }
}
