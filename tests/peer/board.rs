//! A board on the bench, driven by a script: docs/BOARD.md has the lines and what each writes.
use crate::bank::{MOST_SECTORS, SECTOR};
use crate::client::{Client, Latest, Lent, Notice, State, Version};
use crate::crc::crc32;
use crate::hex;
use crate::wrong::Wrong;
use std::io::{self, BufRead, BufReader, Read, Write};

const LONGEST_LINE: usize = 4_096;
const ROOM: usize = 252_416;
const MARKS: usize = 512;
const LONGEST_ADDRESS: usize = 32;
const LARGEST_BUFFER: usize = 1_024;
const LONGEST_QUOTE: usize = 80;

/// What each command takes.
const COMMANDS: [(&str, &str); 16] = [
    ("client", "N BANK MAJOR MINOR REVISION"),
    ("bank", "BANK LENGTH"),
    ("fill", "BANK BYTE"),
    ("put", "BANK OFFSET BYTES"),
    ("marks", "LENGTH"),
    ("mark", "SECTOR BYTE"),
    ("address", "BYTES"),
    ("buffer", "LENGTH BYTE"),
    ("initiate", "nothing"),
    ("terminate", "nothing"),
    ("send", "BYTES"),
    ("body", "I"),
    ("record", "nothing"),
    ("crc", "BANK"),
    ("show", "BANK OFFSET LENGTH"),
    ("rest", "nothing"),
];

pub struct Board {
    client: Client,
    rooms: [Vec<u8>; 2],
    lent: [usize; 2],
    marks: Vec<u8>,
    marks_lent: usize,
    address: Vec<u8>,
    buffer: Vec<u8>,
    answered: usize,
    wrong: Option<Wrong>,
    /// The bytes that `crc` was last asked of, by bank, and what it was: asked again, mostly nothing has changed.
    latest_crc: [(Vec<u8>, u32); 2],
}

/// What a script writes, on a board whose clients go wrong in one way or none.
pub fn run(script: &[u8], wrong: Option<Wrong>) -> Vec<String> {
    let mut board = Board::new(wrong);
    let mut written = Vec::new();
    let script = script.strip_suffix(b"\n").unwrap_or(script);
    for (i, line) in script.split(|byte| *byte == b'\n').enumerate() {
        match board.line(line) {
            Ok(None) => (),
            Ok(Some(text)) => written.push(text),
            Err(why) => {
                written.push(format!("line {}: {}", i + 1, why));
                break;
            }
        }
    }
    written
}

/// The script line by line: what a line writes is out before the next is waited for.
pub fn talk(input: impl Read, mut output: impl Write, wrong: Option<Wrong>) -> io::Result<()> {
    let (mut board, mut input, mut line) = (Board::new(wrong), BufReader::new(input), Vec::new());
    for i in 1.. {
        line.clear();
        if input.read_until(b'\n', &mut line)? == 0 {
            break;
        }
        match board.line(line.strip_suffix(b"\n").unwrap_or(&line)) {
            Ok(None) => (),
            Ok(Some(text)) => writeln!(output, "{}", text)?,
            Err(why) => {
                writeln!(output, "line {}: {}", i, why)?;
                break;
            }
        }
        if input.buffer().is_empty() {
            output.flush()?;
        }
    }
    output.flush()
}

/// Those of the wrong boards that write nothing else than the right one does.
pub fn untold(script: &[u8], wrongs: &[Wrong]) -> Vec<Wrong> {
    let mut right = Board::new(None);
    let mut others: Vec<(Wrong, Board)> = wrongs.iter().map(|wrong| (*wrong, Board::new(Some(*wrong)))).collect();
    for line in script.split(|byte| *byte == b'\n') {
        let written = right.line(line);
        others.retain_mut(|(_, other)| other.line(line) == written);
        if others.is_empty() {
            break;
        }
    }
    others.into_iter().map(|(wrong, _)| wrong).collect()
}

impl Board {
    fn new(wrong: Option<Wrong>) -> Board {
        let version = Version { major: 0, minor: 0, revision: 0 };
        Board {
            client: Client::new(32, 0, version, wrong).0,
            rooms: [vec![0xFF; ROOM], vec![0xFF; ROOM]],
            lent: [32 * SECTOR; 2],
            marks: vec![0; MARKS],
            marks_lent: 32,
            address: vec![0; 16],
            buffer: vec![0xA5; 14],
            answered: 0,
            wrong,
            latest_crc: Default::default(),
        }
    }

    /// What a line writes; an error ends the script.
    fn line(&mut self, line: &[u8]) -> Result<Option<String>, String> {
        if line.len() > LONGEST_LINE {
            return Err("too long".to_string());
        }
        let line = line.strip_suffix(b"\r").unwrap_or(line);
        if line.is_empty() || line[0] == b'#' {
            return Ok(None);
        }
        if line.ends_with(b" ") {
            return Err("a blank at its end".to_string());
        }
        let text = String::from_utf8_lossy(line);
        let words: Vec<&str> = text.split(' ').collect();
        let takes = match COMMANDS.iter().find(|command| command.0 == words[0]) {
            Some((_, takes)) => takes,
            None => return Err(format!("no such command{}", quoted(line))),
        };
        if *takes == "nothing" && words.len() > 1 {
            return Err(format!("{} takes nothing", words[0]));
        }
        let written = Fields::of(text.split_once(' ').map_or("", |(_, fields)| fields));
        match self.command(words[0], written) {
            Ok(text) => Ok(Some(text)),
            Err(field) => Err(format!("{} takes {}; {}", words[0], takes, field)),
        }
    }

    /// What a command writes, or what the first of its fields that is wrong may be.
    fn command(&mut self, word: &str, mut fields: Fields) -> Result<String, String> {
        match word {
            "client" => {
                let (n, running) = (fields.number("N", 6, 0, 999_999)?, fields.bank()?);
                let (major, minor) = (fields.number("MAJOR", 6, 0, 255)?, fields.number("MINOR", 6, 0, 255)?);
                let revision = fields.last().number("REVISION", 10, 0, u32::MAX as usize)? as u32;
                Ok(self.renew(n, running, Version { major: major as u8, minor: minor as u8, revision }))
            }
            "bank" => {
                let (b, length) = (fields.bank()?, fields.last().number("LENGTH", 6, 0, ROOM)?);
                self.lent[b] = length;
                Ok(format!("bank {} {}", b, length))
            }
            "fill" => {
                let (b, value) = (fields.bank()?, fields.last().byte()?);
                self.rooms[b].fill(value);
                Ok(format!("fill {} {:02X}", b, value))
            }
            "put" => {
                let (b, offset) = (fields.bank()?, fields.number("OFFSET", 6, 0, ROOM)?);
                let bytes = fields.last().bytes(ROOM - offset)?;
                self.rooms[b][offset..offset + bytes.len()].copy_from_slice(&bytes);
                Ok(format!("put {} {} {}", b, offset, bytes.len()))
            }
            "marks" => {
                self.marks_lent = fields.last().number("LENGTH", 6, 0, MARKS)?;
                self.marks.fill(0);
                Ok(format!("marks {}", self.marks_lent))
            }
            "mark" => {
                let (sector, value) = (fields.number("SECTOR", 6, 1, MARKS)?, fields.last().byte()?);
                self.marks[sector - 1] = value;
                Ok(format!("mark {} {:02X}", sector, value))
            }
            "address" => {
                self.address = fields.last().bytes(LONGEST_ADDRESS)?;
                Ok(format!("address {}", self.address.len()))
            }
            "buffer" => {
                let length = fields.number("LENGTH", 6, 0, LARGEST_BUFFER)?;
                self.buffer = vec![fields.last().byte()?; length];
                self.answered = 0;
                Ok(format!("buffer {}", self.buffer.len()))
            }
            "initiate" => Ok(done(self.client.initiate())),
            "terminate" => Ok(done(self.client.terminate())),
            "send" => Ok(self.send(&fields.last().bytes(LONGEST_LINE)?)),
            "body" => {
                let i = fields.last().number("I", 6, 0, 999_999)?;
                let body = self.client.body([0, 1].map(|b| &self.rooms[b][..self.lent[b]]), i);
                Ok(format!("body {} {:08X}", body.len(), crc32(body)))
            }
            "record" => Ok(self.record()),
            "crc" => {
                let b = fields.last().bank()?;
                let crc = self.crc(b);
                Ok(format!("crc {} {} {:08X}", b, self.lent[b], crc))
            }
            "show" => {
                let (b, offset) = (fields.bank()?, fields.number("OFFSET", 6, 0, ROOM)?);
                let within = || "OFFSET and LENGTH stay within 252416 bytes".to_string();
                let length = fields.last().number("LENGTH", 6, 0, ROOM).map_err(|_| within())?;
                Ok(format!("show {}", hex::text(self.rooms[b].get(offset..offset + length).ok_or_else(within)?)))
            }
            _ => Ok(format!("rest {}", hex::text(&self.buffer[self.answered..]))),
        }
    }

    fn renew(&mut self, n: usize, running: usize, version: Version) -> String {
        let (client, taken) = Client::new(n, running, version, self.wrong);
        self.client = client;
        self.rooms.iter_mut().for_each(|room| room.fill(0xFF));
        self.lent = [n.min(MOST_SECTORS) * SECTOR; 2];
        self.marks.fill(0);
        self.marks_lent = n.min(MOST_SECTORS);
        self.address = vec![0; 16];
        self.buffer = vec![0xA5; 14];
        self.answered = 0;
        done(taken)
    }

    fn send(&mut self, datagram: &[u8]) -> String {
        let [zero, one] = &mut self.rooms;
        let mut lent = Lent {
            banks: [&mut zero[..self.lent[0]], &mut one[..self.lent[1]]],
            marks: &self.marks[..self.marks_lent],
            address: &self.address,
            buffer: &mut self.buffer,
        };
        let answered = match self.client.datagram(&mut lent, datagram) {
            Ok(answered) => answered,
            Err(number) => return format!("refused {}", number),
        };
        self.answered = answered.length;
        let address = hex::text(&self.address);
        let notice = match answered.notice {
            None => String::new(),
            Some(Notice::Begun) => format!(" notice 6033 {}", address),
            Some(Notice::Ended(result)) => format!(" notice 6034 {:02X} {}", result, address),
        };
        format!("answer {}{}", hex::text(&self.buffer[..answered.length]), notice)
    }

    fn crc(&mut self, bank: usize) -> u32 {
        let bytes = &self.rooms[bank][..self.lent[bank]];
        if self.latest_crc[bank].0 != bytes {
            self.latest_crc[bank] = (bytes.to_vec(), crc32(bytes));
        }
        self.latest_crc[bank].1
    }

    fn record(&self) -> String {
        let Client { n, running, next, state, latest, opener, version, received, .. } = &self.client;
        let state = match state {
            State::Closed => "closed",
            State::Idle => "idle",
            State::Control => "control",
            State::Write => "write",
        };
        let latest = match latest {
            Latest::Nothing => "nothing",
            Latest::Good => "good",
            Latest::Otherwise => "otherwise",
        };
        let opener = hex::text(opener.as_deref().unwrap_or_default());
        let received = match received.is_empty() {
            true => "-".to_string(),
            false => received.iter().map(usize::to_string).collect::<Vec<_>>().join(","),
        };
        let Version { major, minor, revision } = version;
        format!("record {n} {running} {next} {state} {latest} {opener} {major} {minor} {revision} {received}")
    }
}

/// A line that is no command, as far as it is quoted: not at all where a byte of it does not show.
fn quoted(line: &[u8]) -> String {
    match line.iter().all(|byte| byte.is_ascii_graphic() || *byte == b' ') {
        true => format!(": {}", line.iter().take(LONGEST_QUOTE).map(|byte| char::from(*byte)).collect::<String>()),
        false => String::new(),
    }
}

fn done(taken: Result<(), u8>) -> String {
    match taken {
        Ok(()) => "done".to_string(),
        Err(number) => format!("refused {}", number),
    }
}

/// The fields of a line, taken one by one. A field that is missing is empty; the last has all that is left.
struct Fields<'a> {
    left: &'a str,
    last: bool,
}

impl<'a> Fields<'a> {
    fn of(left: &'a str) -> Fields<'a> {
        Fields { left, last: false }
    }

    fn last(&mut self) -> &mut Fields<'a> {
        self.last = true;
        self
    }

    fn next(&mut self) -> &'a str {
        let (first, rest) = match self.last {
            true => (self.left, ""),
            false => self.left.split_once(' ').unwrap_or((self.left, "")),
        };
        self.left = rest;
        first
    }

    fn number(&mut self, name: &str, digits: usize, least: usize, most: usize) -> Result<usize, String> {
        let text = self.next();
        let good = !text.is_empty() && text.len() <= digits && text.bytes().all(|b| b.is_ascii_digit());
        let number = if good { text.parse().ok() } else { None };
        let within = number.filter(|n| (least..=most).contains(n));
        within.ok_or_else(|| format!("{} is {} to {}", name, least, most))
    }

    fn bank(&mut self) -> Result<usize, String> {
        self.number("BANK", 1, 0, 1)
    }

    fn byte(&mut self) -> Result<u8, String> {
        hex::number(self.next(), 2).map(|number| number as u8).ok_or_else(|| "BYTE is two hex digits".to_string())
    }

    fn bytes(&mut self, most: usize) -> Result<Vec<u8>, String> {
        let bytes = hex::bytes(self.next()).filter(|bytes| bytes.len() <= most);
        bytes.ok_or_else(|| "BYTES is two hex digits for each byte, - for none, and has to fit".to_string())
    }
}
