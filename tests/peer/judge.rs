//! The user's demands, looked for in what a board wrote, with the script beside it and no client of the peer's own:
//!
//! 1. Every line has one of the documented forms, the record keeps N, running bank and version, and the running bank keeps its bytes: its CRC
//!    is asked for before the first datagram of a case and after the last, and is the same each time. 05 comes by Respond Error alone, for
//!    a code that is no request and for wrong parameters or values alone; what has these is never carried out. Whether it is 15 first, no
//!    demand says.
//! 2. A line `# expect ANSWER | ANSWER..` in the script says what the next command has to write: demands.rs puts these on deliveries.
//! 3. The target holds what the script put there, but for the sectors that the board itself accepted, and after an end answered 06 or 1E it
//!    holds these and 0xFF. Of two boards whose leftovers differ, the answers are alike but for 06 or 1D, and so is all else.
//!
//! In each, a mode is that of the address whose start was answered 06, and the record says so. Any other one is answered as 02 §5 has it, and all else is
//! looked at as if it had not sent.
use crate::bank::{self, MOST_SECTORS, SECTOR};
use crate::crc::crc32;
use crate::frame::{self, Frame};
use crate::hex;
use crate::script::{self, pair, MODE_END, MODE_START, REQUESTS, WRITE_END, WRITE_START};
use std::collections::BTreeSet;

/// How often something was there to be judged.
#[derive(Default)]
pub struct Seen {
    pub cases: usize,
    pub expected: usize,
    pub accepted: usize,
    pub good_ends: usize,
    pub unsound_ends: usize,
    pub worn_ends: usize,
    pub parameter_faults: usize,
    pub strangers: usize,
    pub banks: usize,
    pub omitted_by_one: usize,
}

type Judged<T> = Result<T, String>;

/// A command, what the script expects of it, and what the board wrote.
struct Line<'a> {
    command: &'a str,
    expected: Option<&'a str>,
    written: &'a str,
}

pub fn one(script: &str, output: &str) -> Judged<Seen> {
    let mut board = Board::new();
    for line in paired(script, output)? {
        board.line(&line).map_err(|why| format!("{}\n{:.200}\n{:.200}", why, line.command, line.written))?;
    }
    board.case_ends()?;
    Ok(board.seen)
}

/// Each by itself, and both beside each other.
pub fn two(scripts: [&str; 2], outputs: [&str; 2]) -> Judged<Seen> {
    let mut seen = one(scripts[0], outputs[0])?;
    one(scripts[1], outputs[1])?;
    seen.omitted_by_one = beside(scripts, outputs)?;
    Ok(seen)
}

/// How often one board says 06 and the other 1D, where they differ in nothing else.
pub fn beside(scripts: [&str; 2], outputs: [&str; 2]) -> Judged<usize> {
    let (first, second) = (paired(scripts[0], outputs[0])?, paired(scripts[1], outputs[1])?);
    holds(first.len() == second.len(), "two scripts of different length")?;
    let mut pair = Pair { other: 1, sent: false, settled: false };
    let mut omitted_by_one = 0;
    for (a, b) in first.iter().zip(&second) {
        let omitted = pair.lines(a, b);
        let told = |why| format!("{}\n{:.200}\n{:.200}\n{:.200}", why, a.command, a.written, b.written);
        omitted_by_one += omitted.map_err(told)? as usize;
    }
    Ok(omitted_by_one)
}

fn paired<'a>(script: &'a str, output: &'a str) -> Judged<Vec<Line<'a>>> {
    let (mut lines, mut written, mut expected) = (Vec::new(), output.lines(), None);
    for command in script.lines().filter(|line| !line.is_empty()) {
        if command.starts_with('#') {
            expected = command.strip_prefix("# expect ").or(expected);
        } else {
            let written = written.next().ok_or("the output ends before the script")?;
            lines.push(Line { command, expected: expected.take(), written });
        }
    }
    match written.next() {
        None => Ok(lines),
        Some(_) => Err("the output goes on behind the script".to_string()),
    }
}

fn holds(it: bool, otherwise: &str) -> Judged<()> {
    it.then_some(()).ok_or_else(|| otherwise.to_string())
}

fn decimal(text: &str) -> Option<usize> {
    Some(text).filter(|text| !text.is_empty() && text.bytes().all(|b| b.is_ascii_digit()))?.parse().ok()
}

/// Bytes as a board writes them, in upper case.
fn bytes(word: &str) -> Option<Vec<u8>> {
    hex::bytes(word).filter(|bytes| hex::text(bytes) == word)
}

/// A CRC-32 as a board writes it.
fn number(word: &str) -> Option<u32> {
    bytes(word)?.try_into().ok().map(u32::from_be_bytes)
}

/// The answer in a line of `send`.
fn answer(written: &str) -> Option<Frame> {
    let mut words = written.split(' ');
    words.next().filter(|word| *word == "answer")?;
    frame::read(&bytes(words.next()?)?)
}

/// A write answer's sector, results and CRC-32.
fn write_answer(written: &str) -> Option<(u16, u8, u8, u32)> {
    match answer(written)? {
        Frame::Write { sector, data, footer: frame::END } => match data[..] {
            [response, result, a, b, c, d] => Some((sector, response, result, u32::from_be_bytes([a, b, c, d]))),
            _ => None,
        },
        _ => None,
    }
}

/// The results of a write packet that was accepted.
fn accepted(results: (u8, u8)) -> bool {
    matches!(results, (0x06, 0x06 | 0x1D))
}

struct Board {
    n: usize,
    running: usize,
    next: usize,
    version: [String; 3],
    target: Vec<u8>,
    session: Option<BTreeSet<usize>>,
    /// The address that is lent, and the one that opened the mode.
    address: Vec<u8>,
    opener: Option<Vec<u8>>,
    running_crc: Option<String>,
    sent: bool,
    unlooked: bool,
    /// The bytes whose CRC was last taken, and what it was.
    latest_crc: (Vec<u8>, u32),
    seen: Seen,
}

impl Board {
    fn new() -> Board {
        Board {
            n: 0,
            running: 0,
            next: 0,
            version: Default::default(),
            target: Vec::new(),
            session: None,
            address: Vec::new(),
            opener: None,
            running_crc: None,
            sent: false,
            unlooked: false,
            latest_crc: (Vec::new(), 0),
            seen: Seen::default(),
        }
    }

    fn line(&mut self, line: &Line) -> Judged<()> {
        if let Some(expected) = line.expected {
            holds(expected.split(" | ").any(|one| one == line.written), &format!("expected {:.200}", expected))?;
            self.seen.expected += 1;
        }
        let command: Vec<&str> = line.command.split(' ').collect();
        let written: Vec<&str> = line.written.split(' ').collect();
        match (&command[..], &written[..]) {
            (["client", n, running, version @ ..], ["done"]) => {
                self.case_ends()?;
                self.case(decimal(n).unwrap_or(0), (*running == "1") as usize, version)
            }
            (["client", ..], _) => Err("a client of good N is not refused".to_string()),
            (["initiate"], ["done"] | ["refused", "4"]) => Ok(()),
            (["terminate"], ["refused", "4"]) => Ok(()),
            (["terminate"], ["done"]) => {
                (self.session, self.opener) = (None, None);
                Ok(())
            }
            (["send", datagram], ["refused", "1" | "2"]) => {
                self.sent = true;
                holds(hex::bytes(datagram).is_some(), "no datagram")
            }
            (["send", datagram], ["answer", _, notice @ ..]) => {
                self.sent = true;
                holds(is_notice(notice, &hex::text(&self.address)), "no such notice")?;
                self.answered(frame::read(&hex::bytes(datagram).ok_or("no datagram")?), line.written)
            }
            (["record"], ["record", fields @ ..]) => self.record(fields),
            (["body", _], ["body", length, crc]) => {
                let empty = *length == "0" && *crc == "00000000";
                let some = decimal(length).is_some_and(|length| length > 0 && length <= self.n * SECTOR);
                holds(number(crc).is_some() && (empty || some), "no such body")
            }
            (["crc", bank], ["crc", again, length, crc]) if bank == again => {
                let bank = (*bank == "1") as usize;
                self.crc(bank, line.written, decimal(length).ok_or("no length")?, number(crc).ok_or("no CRC")?)
            }
            (["show", bank, offset, length], ["show", shown]) => {
                let (offset, length) = (decimal(offset).unwrap_or(0), decimal(length).unwrap_or(0));
                let target = *bank == (1 - self.running).to_string();
                holds(target, "only the target is shown here")?;
                self.unlooked = false;
                self.seen.banks += 1;
                holds(self.target.get(offset..offset + length) == bytes(shown).as_deref(), "other bytes in the target")
            }
            (["bank", bank, length], ["bank", again, same]) => {
                holds(bank == again && length == same, "another bank line")
            }
            (["marks", length], ["marks", same]) => holds(length == same, "another number of marks"),
            (["mark", sector, byte], ["mark", again, same]) => holds(sector == again && byte == same, "another mark"),
            (["address", bytes], ["address", count]) => {
                self.address = hex::bytes(bytes).ok_or("no address")?;
                holds(Some(self.address.len()) == decimal(count), "another address")
            }
            (["buffer", length, _], ["buffer", same]) => holds(length == same, "another buffer"),
            (["fill", bank, byte], ["fill", again, same]) => {
                holds(bank == again && byte == same, "another fill")?;
                let value = hex::number(byte, 2).ok_or("no byte")? as u8;
                self.put(bank, |target| target.fill(value))
            }
            (["put", bank, offset, bytes], ["put", again, same, count]) => {
                holds(bank == again && offset == same && length_of(bytes) == decimal(count), "another put")?;
                let (offset, bytes) = (decimal(offset).unwrap_or(0), hex::bytes(bytes).ok_or("no bytes")?);
                self.put(bank, |target| target[offset..offset + bytes.len()].copy_from_slice(&bytes))
            }
            _ => Err("no such line is documented".to_string()),
        }
    }

    fn case(&mut self, n: usize, running: usize, version: &[&str]) -> Judged<()> {
        holds((1..=MOST_SECTORS).contains(&n), "a client of bad N is taken")?;
        let [major, minor, revision] = version.try_into().map_err(|_| "no version")?;
        self.version = [major, minor, revision].map(str::to_string);
        (self.n, self.running, self.next) = (n, running, running);
        self.target = vec![0xFF; n * SECTOR];
        (self.session, self.running_crc, self.sent, self.unlooked) = (None, None, false, false);
        (self.address, self.opener) = (vec![0; 16], None);
        self.seen.cases += 1;
        Ok(())
    }

    /// A script that does not look is no test.
    fn case_ends(&self) -> Judged<()> {
        let looked = self.n == 0 || self.running_crc.is_some();
        holds(looked && !self.sent && !self.unlooked, "the script does not look at the banks in the end")
    }

    /// What the script itself puts into a bank, before the first datagram.
    fn put(&mut self, bank: &str, change: impl FnOnce(&mut Vec<u8>)) -> Judged<()> {
        holds(self.running_crc.is_none(), "the script changes a bank too late")?;
        if bank != self.running.to_string() {
            change(&mut self.target);
        }
        Ok(())
    }

    fn crc(&mut self, bank: usize, written: &str, length: usize, crc: u32) -> Judged<()> {
        holds(length == self.n * SECTOR, "another length lent")?;
        if bank == self.running {
            let first = self.running_crc.get_or_insert(written.to_string());
            self.sent = false;
            return holds(first == written, "the running bank has changed");
        }
        self.unlooked = false;
        self.seen.banks += 1;
        if self.latest_crc.0 != self.target {
            self.latest_crc = (self.target.clone(), crc32(&self.target));
        }
        holds(self.latest_crc.1 == crc, "other bytes in the target")
    }

    fn record(&self, fields: &[&str]) -> Judged<()> {
        let [n, running, next, state, latest, opener, version @ .., received] = fields else {
            return Err("no such record".to_string());
        };
        let sectors: Option<Vec<usize>> = match *received {
            "-" => Some(Vec::new()),
            _ => received.split(',').map(decimal).collect(),
        };
        let sectors: BTreeSet<usize> =
            sectors.filter(|list| list.windows(2).all(|two| two[0] < two[1])).ok_or("no list")?.into_iter().collect();
        holds(decimal(n) == Some(self.n) && *running == self.running.to_string(), "another N or running bank")?;
        holds(version == self.version, "another version")?;
        holds(*next == self.next.to_string(), "another next-start bank")?;
        holds(matches!(*latest, "nothing" | "good" | "otherwise"), "no such end")?;
        holds(matches!(*state, "closed" | "idle" | "control" | "write"), "no such state")?;
        holds((*state == "write") == self.session.is_some(), "the state of no session")?;
        holds(matches!(*state, "control" | "write") == self.opener.is_some(), "the state of no mode")?;
        holds(*opener == hex::text(self.opener.as_deref().unwrap_or_default()), "another opener")?;
        holds(sectors == self.session.clone().unwrap_or_default(), "received other than accepted")
    }

    /// What the board says that it did, taken at its word.
    fn answered(&mut self, request: Option<Frame>, written: &str) -> Judged<()> {
        let answer = answer(written).ok_or("the answer is no frame")?;
        let noticed = matches!(&answer, Frame::Control { code: 0x71 | 0x74, parameters } if parameters == &[0x06]);
        holds(noticed == written.contains("notice"), "a notice too many, or one too few")?;
        if self.opener.as_ref().is_some_and(|opener| *opener != self.address) {
            return self.stranger_answered(request, written);
        }
        match (request, answer) {
            (Some(Frame::Write { sector, data, .. }), Frame::Control { code: 0xE0, parameters }) => {
                self.seen.parameter_faults += 1;
                let fault = !self.has_good_values(sector, &data);
                holds(fault && parameters == [0x05], "an error for good values, or another than 05")
            }
            (Some(Frame::Write { sector, data, .. }), _) => self.write_answered(sector, &data, written),
            (Some(Frame::Control { code, parameters: sent }), Frame::Control { code: own, parameters }) => {
                self.control_answered(code, &sent, own, &parameters)
            }
            (None, Frame::Control { code: 0xE0, parameters }) => holds(parameters == [0x07], "no frame error"),
            _ => Err("an answer of the other kind".to_string()),
        }
    }

    /// 15 in its own response, but for what is found before; and it leaves nothing behind here.
    fn stranger_answered(&mut self, request: Option<Frame>, written: &str) -> Judged<()> {
        self.seen.strangers += 1;
        self.unlooked = true;
        let wanted = match request {
            None => frame::control(0xE0, &[0x07]),
            Some(Frame::Write { sector, .. }) => frame::write(sector, &[0x15, 0x15, 0, 0, 0, 0], frame::END),
            Some(Frame::Control { code, parameters }) => {
                let length = if code == WRITE_START { 8 } else { 0 };
                match REQUESTS.contains(&code) && parameters.len() == length {
                    true => frame::control(script::own(code), &[0x15]),
                    false => frame::control(0xE0, &[0x05]),
                }
            }
        };
        let wanted = format!("answer {}", hex::text(&wanted.expect("a short answer")));
        holds(wanted == written, "a stranger is answered otherwise")
    }

    fn control_answered(&mut self, code: u8, sent: &[u8], own: u8, parameters: &[u8]) -> Judged<()> {
        let result = *parameters.first().ok_or("an answer without a result")?;
        let added = match (own, result) {
            (0x72, 0x06) => 1,
            (0x78, 0x06) => 8,
            _ => 0,
        };
        holds(parameters.len() == 1 + added, "an answer of another length")?;
        let known = REQUESTS.contains(&code);
        let documented: &[u8] = match code {
            _ if own == 0xE0 => &[0x05],
            _ if !known || own != script::own(code) => &[],
            WRITE_END => &[0x06, 0x15, 0x1C, 0x1E],
            _ => &[0x06, 0x15],
        };
        holds(documented.contains(&result), "no such answer to this request")?;
        let wanted = if code == WRITE_START { pair(1 - self.running, self.n) } else { Vec::new() };
        let good = known && sent == wanted;
        holds(result == 0x15 || good == (own != 0xE0), "an error for good parameters, or none for wrong ones")?;
        self.seen.parameter_faults += (known && own == 0xE0) as usize;
        match (code, result) {
            (WRITE_START, 0x06) => {
                holds(self.session.is_none(), "a session within a session")?;
                (self.session, self.next) = (Some(BTreeSet::new()), self.running);
                Ok(())
            }
            (WRITE_END, 0x06 | 0x1C | 0x1E) => self.ended(result),
            (MODE_START, 0x06) => {
                holds(self.opener.is_none(), "a mode within a mode")?;
                self.opener = Some(self.address.clone());
                Ok(())
            }
            (MODE_END, 0x06) => {
                self.opener = None;
                Ok(())
            }
            _ => Ok(()),
        }
    }

    fn ended(&mut self, result: u8) -> Judged<()> {
        let received = self.session.take().ok_or("the end of no session")?;
        self.unlooked = true;
        if result == 0x1C {
            self.seen.worn_ends += 1;
            return Ok(());
        }
        for sector in (1..=self.n).filter(|sector| !received.contains(sector)) {
            self.target[(sector - 1) * SECTOR..sector * SECTOR].fill(0xFF);
        }
        if result == 0x06 {
            self.next = 1 - self.running;
            self.seen.good_ends += 1;
        } else {
            self.seen.unsound_ends += 1;
        }
        holds(bank::bodies(&self.target).is_some() == (result == 0x06), "06 for an unsound bank, or 1E for a sound one")
    }

    fn has_good_values(&self, sector: u16, data: &[u8]) -> bool {
        (1..=self.n).contains(&(sector as usize)) && (4..=SECTOR).contains(&data.len()) && data.len() % 4 == 0
    }

    fn write_answered(&mut self, sent: u16, data: &[u8], written: &str) -> Judged<()> {
        let (sector, response, result, crc) = write_answer(written).ok_or("no write answer")?;
        holds(sector == sent, "another sector")?;
        holds(response != 0x06 || self.has_good_values(sent, data), "06 for a packet that has wrong values")?;
        if !accepted((response, result)) {
            let documented = matches!((response, result), (0x15, 0x15) | (0x06, 0x1C));
            return holds(documented && crc == 0, "no such write answer");
        }
        let sector = sector as usize;
        self.session.as_mut().ok_or("a packet accepted in no session")?.insert(sector);
        let place = &mut self.target[(sector - 1) * SECTOR..sector * SECTOR];
        place.fill(0xFF);
        place[..data.len()].copy_from_slice(data);
        self.seen.accepted += 1;
        holds(crc32(place) == crc, "the CRC of another sector")
    }
}

fn length_of(bytes: &str) -> Option<usize> {
    hex::bytes(bytes).map(|bytes| bytes.len())
}

/// None, or one that has the sender's address.
fn is_notice(words: &[&str], sender: &str) -> bool {
    match words {
        [] => true,
        ["notice", "6033", address] | ["notice", "6034", "01" | "02" | "03", address] => *address == sender,
        _ => false,
    }
}

/// Two boards on the way through the same case.
struct Pair {
    /// The target.
    other: usize,
    sent: bool,
    /// From the first end answered 06 or 1E on, both targets are the same.
    settled: bool,
}

impl Pair {
    /// Whether one says 06 and the other 1D.
    fn lines(&mut self, a: &Line, b: &Line) -> Judged<bool> {
        let words: Vec<&str> = a.command.split(' ').collect();
        let target = self.other.to_string();
        match words[..] {
            ["client", _, running, ..] if a.command == b.command => {
                *self = Pair { other: (running == "0") as usize, sent: false, settled: false }
            }
            ["fill" | "put", bank, ..] if bank == target => holds(!self.sent, "leftovers that come too late")?,
            _ => holds(a.command == b.command, "two scripts that differ in more than leftovers")?,
        }
        self.sent |= words[0] == "send";
        if let (["send", _], Some(Frame::Control { code: 0x75, parameters })) = (&words[..], answer(a.written)) {
            self.settled |= parameters == [0x06] || parameters == [0x1E];
        }
        let of_target = matches!(words[..], ["crc" | "show" | "fill" | "put", bank, ..] if bank == target);
        if a.written == b.written || of_target && !self.settled {
            return Ok(false);
        }
        match (write_answer(a.written), write_answer(b.written)) {
            (Some((sector, r, w, crc)), Some((same, s, v, again))) if accepted((r, w)) && accepted((s, v)) => {
                holds(sector == same && crc == again, "write answers that differ in more than 06 and 1D")?;
                Ok(true)
            }
            _ => Err("two boards that differ by their leftovers".to_string()),
        }
    }
}
