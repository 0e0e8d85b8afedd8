//! Nights over a radio that loses and doubles both ways and brings answers late, by a seed. No request comes after a later one was sent, no answer of an
//! earlier night, and nobody else sends.
use crate::bank::SECTOR;
use crate::draw::Draw;
use crate::hex;
use crate::night_judge::{Heard, Said};
use crate::night_run::{Count, Night};
use crate::program::Program;
use crate::rack::Evening;

#[derive(Clone, Copy, PartialEq)]
pub enum Radio {
    Perfect,
    /// It loses, and nothing worse.
    Losing,
    Wild,
}

impl Radio {
    pub fn drawn(draw: &mut Draw) -> Radio {
        [Radio::Perfect, Radio::Losing, Radio::Losing, Radio::Wild, Radio::Wild, Radio::Wild][draw.below(6)]
    }

    /// How many copies of a request come to the board.
    pub fn copies(self, draw: &mut Draw, odds: usize, count: &mut Count) -> usize {
        if self == Radio::Perfect {
            return 1;
        }
        if draw.below(odds) == 0 {
            count.lost += 1;
            return 0;
        }
        if self == Radio::Wild && draw.below(4) == 0 {
            count.doubled += 1;
            return 2 + draw.below(2);
        }
        1
    }

    /// What is heard, of the answers that were given this night: those from `earlier` on are new.
    pub fn heard(self, draw: &mut Draw, odds: usize, given: &[Vec<u8>], earlier: usize, night: &mut Night) -> Heard {
        if self == Radio::Wild && !given.is_empty() && draw.below(odds + 2) == 0 {
            let k = draw.below(given.len());
            night.count.late += (k < earlier) as usize;
            return Some(given[k].clone());
        }
        let arrived = given.len() > earlier;
        let lost = arrived && self != Radio::Perfect && draw.below(odds) == 0;
        night.count.answers_lost += lost as usize;
        night.tried(arrived, arrived && !lost);
        (arrived && !lost).then(|| given[earlier].clone())
    }
}

pub fn nights(seed: u64, count: usize, night: &str, board: &str) -> Result<String, String> {
    let mut board = Program::start(board, &[])?;
    let mut total = Count::default();
    for k in 0..count {
        let mut draw = Draw(seed.wrapping_mul(1_000_003).wrapping_add(k as u64));
        let counted =
            one(&mut draw, night, &mut board).map_err(|why| format!("seed {}, night {}: {}", seed, k, why))?;
        total.add(&counted);
    }
    total.told(count)
}

fn one(draw: &mut Draw, night: &str, board: &mut Program) -> Result<Count, String> {
    let radio = Radio::drawn(draw);
    let evening = if draw.below(3) == 0 { Evening::fitting(draw) } else { Evening::any(draw) };
    let found = evening.set_up(board, draw)?;
    let host = radio == Radio::Wild && draw.below(5) == 0;
    let mut air =
        Air { radio, board, given: Vec::new(), host, lending: radio == Radio::Wild && evening.worn.is_none() };
    air.lending &= draw.below(4) == 0;
    let odds = 2 + draw.below(12);
    let mut night = Night::begin(night, &evening)?;
    let ended = loop {
        let said = night.says()?;
        if said != Said::Sends {
            break said;
        }
        let heard = air.round(draw, odds, &mut night, &evening)?;
        night.hears(heard)?;
    };
    let lossy_alone = radio != Radio::Wild;
    night.over(&evening, &ended, air.board, &found, lossy_alone)
}

struct Air<'a> {
    radio: Radio,
    board: &'a mut Program,
    /// Each answer that the board has given this night.
    given: Vec<Vec<u8>>,
    /// The host of the board gives commands now and then.
    host: bool,
    /// A call lends too little or too much, or other marks and another address, now and then.
    lending: bool,
}

impl Air<'_> {
    /// The request at hand goes out; what is heard then.
    fn round(&mut self, draw: &mut Draw, odds: usize, night: &mut Night, evening: &Evening) -> Result<Heard, String> {
        if self.host && draw.below(12) == 0 {
            self.host_commands(draw)?;
        }
        let earlier = self.given.len();
        for _ in 0..self.radio.copies(draw, odds, &mut night.count) {
            if let Some(answer) = self.call(draw, &night.request(), evening)? {
                self.given.push(answer);
            }
        }
        Ok(self.radio.heard(draw, odds, &self.given, earlier, night))
    }

    fn host_commands(&mut self, draw: &mut Draw) -> Result<(), String> {
        let commands: &[&str] = [&["terminate"][..], &["initiate"], &["terminate", "initiate"]][draw.below(3)];
        for command in commands {
            let said = self.board.ask(command)?;
            if said != "done" && said != "refused 4" {
                return Err(format!("the board answers {} with {:.60}", command, said));
            }
        }
        Ok(())
    }

    /// One copy of the request comes to the board.
    fn call(&mut self, draw: &mut Draw, request: &[u8], evening: &Evening) -> Result<Option<Vec<u8>>, String> {
        let lent = if self.lending && draw.below(10) == 0 { Some(other_lending(draw, evening.board_n)) } else { None };
        if let Some((before, _)) = &lent {
            self.board.ask(before)?;
        }
        let answer = call(self.board, request)?;
        if let Some((_, after)) = &lent {
            self.board.ask(after)?;
        }
        Ok(answer)
    }
}

/// What the board answers to a datagram; None where it is silent.
pub fn call(board: &mut Program, datagram: &[u8]) -> Result<Option<Vec<u8>>, String> {
    let said = board.ask(&format!("send {}", hex::text(datagram)))?;
    match said.split(' ').collect::<Vec<_>>()[..] {
        ["answer", bytes, ..] => hex::bytes(bytes).map(Some).ok_or_else(|| format!("no bytes in {:.60}", said)),
        ["refused", "1" | "2"] => Ok(None),
        _ => Err(format!("the board answers a datagram with {:.60}", said)),
    }
}

/// A line that lends something else for a call, and the one that lends as before.
fn other_lending(draw: &mut Draw, n: usize) -> (String, String) {
    let (bank, sector) = (draw.below(2), 1 + draw.below(n));
    let lines = |before: String, after: String| (before, after);
    match draw.below(7) {
        0 => lines("buffer 13 A5".to_string(), "buffer 14 A5".to_string()),
        1 => lines("buffer 40 00".to_string(), "buffer 14 A5".to_string()),
        2 => lines("address 00".to_string(), format!("address {}", "00".repeat(16))),
        3 => lines(format!("address {}", "5A".repeat(16)), format!("address {}", "00".repeat(16))),
        4 => lines(format!("bank {} {}", bank, n * SECTOR - 1), format!("bank {} {}", bank, n * SECTOR)),
        5 => lines(format!("marks {}", n + 1), format!("marks {}", n)),
        _ => lines(format!("mark {} 01", sector), format!("mark {} 00", sector)),
    }
}
