//! The night sender of 02 §4: a start gives the first request, and each event the next one, or the end.
use crate::bank::SECTOR;
use crate::crc::crc32;
use crate::response::{self, Response, RESPOND_ERROR};
use crate::sender;
use crate::wrong_nights::Wrong;
use std::fmt;

const DONE: u8 = 0x06;
const STATE: u8 = 0x15;
const WORN: u8 = 0x1C;
const OMITTED: u8 = 0x1D;
const UNSOUND: u8 = 0x1E;

const ROOM: usize = 519;
const MOST_TRIES: usize = 9;

#[derive(Clone, Copy, PartialEq, Debug)]
pub enum Request {
    ModeStart,
    Version,
    Bank,
    WriteStart,
    /// By its number, with its sector.
    Packet(usize, u16),
    WriteEnd,
    ModeEnd,
}

#[derive(Clone, Copy, PartialEq, Debug)]
pub enum Reason {
    Tries,
    WrongBank,
    Unknown,
}

pub enum Event<'a> {
    Heard(&'a [u8]),
    Silence,
}

#[derive(Clone, PartialEq, Debug)]
pub enum Next {
    Send(Vec<u8>),
    Finished,
    GaveUp(Request, Reason),
}

/// What an event is to the request at hand.
enum Meaning {
    Settled,
    Spent,
    /// It uses up nothing: of a wrong night alone.
    Ignored,
    Stop(Reason),
}

pub struct Night {
    image: Vec<u8>,
    bank: usize,
    n: usize,
    tries: usize,
    requests: Vec<Request>,
    at: usize,
    /// How often the request at hand has gone out.
    sent: usize,
    /// Whether any request has gone out twice: a wrong night asks.
    repeated: bool,
    end: Option<Next>,
    wrong: Option<Wrong>,
}

impl Night {
    /// The night and its first request, or the number of the refusal: 3, 2, 7, 8.
    pub fn start(
        image: &[u8],
        bank: usize,
        n: usize,
        tries: usize,
        wrong: Option<Wrong>,
    ) -> Result<(Night, Vec<u8>), u8> {
        let count = sender::count(image, n)?;
        if !(1..=MOST_TRIES).contains(&tries) {
            return Err(7);
        }
        if count == 0 {
            return Err(8);
        }
        let mut requests = vec![Request::ModeStart, Request::Version, Request::Bank, Request::WriteStart];
        if wrong == Some(Wrong::BankFirst) {
            requests.swap(1, 2);
        }
        requests.extend((0..count).map(|p| Request::Packet(p, sector_of(image, n, p))));
        requests.extend([Request::WriteEnd, Request::ModeEnd]);
        let (at, sent, repeated, end) = (0, 1, false, None);
        let night = Night { image: image.to_vec(), bank, n, tries, requests, at, sent, repeated, end, wrong };
        let first = night.frame();
        Ok((night, first))
    }

    pub fn at_hand(&self) -> Request {
        self.requests[self.at]
    }

    /// The place of the request at hand among all.
    pub fn at(&self) -> usize {
        self.at
    }

    pub fn times_sent(&self) -> usize {
        self.sent
    }

    /// After the end each event is told it again.
    pub fn event(&mut self, event: &Event) -> Next {
        if let Some(end) = &self.end {
            return end.clone();
        }
        let next = match self.meaning(event) {
            _ if self.is(Wrong::FinishedAtOnce) => Next::Finished,
            Meaning::Settled => self.go_on(),
            Meaning::Spent => self.again(event),
            Meaning::Ignored => Next::Send(self.frame()),
            Meaning::Stop(reason) => Next::GaveUp(self.at_hand(), reason),
        };
        if !matches!(next, Next::Send(_)) {
            self.end = Some(next.clone());
        }
        next
    }

    fn is(&self, wrong: Wrong) -> bool {
        self.wrong == Some(wrong)
    }

    fn go_on(&mut self) -> Next {
        self.at += 1;
        let last = if self.is(Wrong::EndsWithTheWrite) { self.requests.len() - 1 } else { self.requests.len() };
        if self.at == last {
            self.at -= 1;
            return Next::Finished;
        }
        self.sent = if self.is(Wrong::KeepsTries) { self.sent + 1 } else { 1 };
        Next::Send(self.frame())
    }

    fn again(&mut self, event: &Event) -> Next {
        let most = if self.is(Wrong::OneTryMore) { self.tries + 1 } else { self.tries };
        if self.sent >= most && !self.is(Wrong::NeverGivesUp) {
            if self.is(Wrong::SkipsWrongCrc) && self.is_of_another_crc(event) {
                return self.go_on();
            }
            return Next::GaveUp(self.at_hand(), Reason::Tries);
        }
        self.sent += 1;
        self.repeated = true;
        Next::Send(self.frame())
    }

    fn is_of_another_crc(&self, event: &Event) -> bool {
        match (self.at_hand(), event) {
            (Request::Packet(_, sector), Event::Heard(bytes)) => {
                matches!(response::read(bytes), Some(Response::Written { sector: s, write: DONE | OMITTED, .. }) if s == sector)
            }
            _ => false,
        }
    }

    fn meaning(&self, event: &Event) -> Meaning {
        let response = match event {
            Event::Silence if self.is(Wrong::SilenceIsFree) => return Meaning::Ignored,
            Event::Silence => return Meaning::Spent,
            Event::Heard(bytes) => response::read(bytes),
        };
        match response {
            None if self.is(Wrong::UnreadableIsFree) => Meaning::Ignored,
            None => Meaning::Spent,
            Some(Response::Plain { code, result }) => self.plain(code, result),
            Some(Response::Bank(number)) => self.bank_told(number as usize),
            Some(Response::Version { id, .. }) => {
                let known = id == 0x0400 || !self.is(Wrong::OneVersion);
                settled(self.at_hand() == Request::Version && known)
            }
            Some(Response::Written { sector, response, write, crc }) => self.written(sector, response, write, crc),
        }
    }

    fn plain(&self, code: u8, result: u8) -> Meaning {
        let own = match self.at_hand() {
            Request::ModeStart => 0x71,
            Request::Version => 0x78,
            Request::Bank => 0x72,
            Request::WriteStart => 0x70,
            Request::Packet(..) => return Meaning::Spent,
            Request::WriteEnd => 0x75,
            Request::ModeEnd => 0x74,
        };
        let counts_as_own = match result {
            STATE => code == RESPOND_ERROR && self.is(Wrong::ErrorCounts) || self.is(Wrong::AnyRefusalCounts),
            _ => self.is(Wrong::AnyDoneCounts) && !matches!(self.at_hand(), Request::Version | Request::Bank),
        };
        if code != own && !counts_as_own {
            return Meaning::Spent;
        }
        match result {
            DONE => Meaning::Settled,
            STATE => self.state_told(),
            WORN | UNSOUND if self.is(Wrong::StopsAtTheWorn) => Meaning::Stop(Reason::Tries),
            _ => Meaning::Spent,
        }
    }

    /// 15 in the request's own response.
    fn state_told(&self) -> Meaning {
        let repeated = match self.wrong {
            Some(Wrong::ForgetsRepeats) => false,
            Some(Wrong::KeepsRepeated) => self.repeated,
            Some(Wrong::LastTryFirst) => self.sent >= 2 && self.sent < self.tries,
            _ => self.sent >= 2,
        };
        match self.at_hand() {
            Request::ModeStart if self.is(Wrong::FirstStartCounts) => Meaning::Settled,
            Request::WriteEnd if self.is(Wrong::FirstEndUnknown) => Meaning::Stop(Reason::Unknown),
            _ if !repeated => Meaning::Spent,
            Request::ModeStart | Request::WriteStart | Request::ModeEnd => Meaning::Settled,
            Request::WriteEnd if self.is(Wrong::UnknownGoesOn) => Meaning::Settled,
            Request::WriteEnd => Meaning::Stop(Reason::Unknown),
            Request::Version | Request::Bank => settled(self.is(Wrong::ReadingCounts)),
            Request::Packet(..) => Meaning::Spent,
        }
    }

    fn bank_told(&self, number: usize) -> Meaning {
        match self.at_hand() {
            Request::Bank if number == self.bank || self.is(Wrong::AnyBank) => Meaning::Settled,
            Request::Bank if self.is(Wrong::BankIsATry) => Meaning::Spent,
            Request::Bank => Meaning::Stop(Reason::WrongBank),
            _ => Meaning::Spent,
        }
    }

    fn written(&self, sector: u16, response: u8, write: u8, crc: u32) -> Meaning {
        let own = match self.at_hand() {
            Request::Packet(_, own) => own,
            _ => return Meaning::Spent,
        };
        let held = &self.image[(own as usize - 1) * SECTOR..own as usize * SECTOR];
        let same_sector = sector == own || self.is(Wrong::AnySector);
        let same_crc = crc == crc32(held) || self.is(Wrong::AnyCrc);
        let results = match (response, write) {
            (DONE, DONE) => true,
            (DONE, OMITTED) => !self.is(Wrong::NeverOmitted),
            (OMITTED, OMITTED) => self.is(Wrong::BothOmitted),
            (STATE, STATE) if self.is(Wrong::PacketRefusalCounts) => return settled(same_sector && self.sent >= 2),
            _ => false,
        };
        settled(same_sector && results && same_crc)
    }

    /// The request at hand, as it goes out.
    fn frame(&self) -> Vec<u8> {
        let mut buffer = [0; ROOM];
        let length = match self.at_hand() {
            Request::ModeStart => sender::request(sender::START_MODE, &mut buffer),
            Request::Version => sender::request(sender::VERSION, &mut buffer),
            Request::Bank => sender::request(sender::BANK, &mut buffer),
            Request::WriteStart => sender::start_write(self.bank, self.n, &mut buffer),
            Request::Packet(p, _) => sender::packet(&self.image, self.n, p, &mut buffer),
            Request::WriteEnd => sender::request(sender::END_WRITE, &mut buffer),
            Request::ModeEnd => sender::request(sender::FINISH_MODE, &mut buffer),
        };
        buffer[..length.expect("a request of a night that began")].to_vec()
    }
}

fn settled(it: bool) -> Meaning {
    if it {
        Meaning::Settled
    } else {
        Meaning::Spent
    }
}

/// As it stands in the packet.
fn sector_of(image: &[u8], n: usize, p: usize) -> u16 {
    let mut packet = [0; ROOM];
    sender::packet(image, n, p, &mut packet).expect("a packet of the image");
    u16::from_be_bytes([packet[1], packet[2]])
}

impl fmt::Display for Request {
    fn fmt(&self, f: &mut fmt::Formatter) -> fmt::Result {
        match self {
            Request::ModeStart => write!(f, "mode start"),
            Request::Version => write!(f, "version"),
            Request::Bank => write!(f, "bank"),
            Request::WriteStart => write!(f, "write start"),
            Request::Packet(p, sector) => write!(f, "packet {} sector {:04X}", p, sector),
            Request::WriteEnd => write!(f, "write end"),
            Request::ModeEnd => write!(f, "mode end"),
        }
    }
}

impl fmt::Display for Reason {
    fn fmt(&self, f: &mut fmt::Formatter) -> fmt::Result {
        f.write_str(match self {
            Reason::Tries => "tries",
            Reason::WrongBank => "wrong bank",
            Reason::Unknown => "unknown",
        })
    }
}
