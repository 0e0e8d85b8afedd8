//! The client: the paper's 'The client, step by step' and 'What comes back when it is no', in the order that it gives; a parameter fault is
//! answered by Respond Error, as 02 §3 has it, and any address but the one that opened the mode by 15, as 02 §5 has it.
use crate::bank::{self, MOST_SECTORS, SECTOR};
use crate::crc::crc32;
use crate::frame::{self, Frame};
use crate::response::{PARAMETER, RESPOND_ERROR};
use crate::wrong::Wrong;
use std::collections::BTreeSet;

const TAKEN: u8 = 0x06;
const STATE: u8 = 0x15;
const WORN: u8 = 0x1C;
const OMITTED: u8 = 0x1D;
const UNSOUND: u8 = 0x1E;

const LEAST_BUFFER: usize = 14;
const ADDRESS: usize = 16;

#[derive(Clone, Copy, PartialEq)]
pub enum State {
    Closed,
    Idle,
    Control,
    Write,
}

/// What came of the last write session, none from before OTA mode was opened.
#[derive(Clone, Copy, PartialEq)]
pub enum Latest {
    Nothing,
    Good,
    Otherwise,
}

pub struct Version {
    pub major: u8,
    pub minor: u8,
    pub revision: u32,
}

pub struct Client {
    pub n: usize,
    pub running: usize,
    pub next: usize,
    pub state: State,
    pub latest: Latest,
    /// The address that opened the mode, while one is open.
    pub opener: Option<Vec<u8>>,
    pub version: Version,
    pub received: BTreeSet<usize>,
    wrong: Option<Wrong>,
}

pub struct Lent<'a> {
    pub banks: [&'a mut [u8]; 2],
    pub marks: &'a [u8],
    pub address: &'a [u8],
    pub buffer: &'a mut [u8],
}

/// What the host is told, beside the sender's address.
#[derive(Clone, Copy, PartialEq, Debug)]
pub enum Notice {
    Begun,
    Ended(u8),
}

/// The answer's length: it stands at the front of the lent buffer.
pub struct Answered {
    pub length: usize,
    pub notice: Option<Notice>,
}

/// A refusal by the paper's number.
pub type Refused = u8;

type Response = (Vec<u8>, Option<Notice>);

/// The six requests: the code, that of its response, how many bytes of parameters it has, the state that takes it.
const REQUESTS: [(u8, u8, usize, State); 6] = [
    (0x61, 0x71, 0, State::Idle),
    (0x62, 0x72, 0, State::Control),
    (0x68, 0x78, 0, State::Control),
    (0x40, 0x70, 8, State::Control),
    (0x45, 0x75, 0, State::Write),
    (0x64, 0x74, 0, State::Control),
];

fn response(code: u8, result: u8, added: &[u8]) -> Vec<u8> {
    frame::control(code, &[&[result], added].concat()).expect("a short response")
}

fn write_response(sector: u16, results: [u8; 2], crc: u32) -> Vec<u8> {
    frame::write(sector, &[&results[..], &crc.to_be_bytes()].concat(), frame::END).expect("six bytes")
}

impl Client {
    /// The record is handed back where it is refused, too.
    pub fn new(n: usize, running: usize, version: Version, wrong: Option<Wrong>) -> (Client, Result<(), Refused>) {
        let (state, latest) = (State::Closed, Latest::Nothing);
        let (opener, received) = (None, BTreeSet::new());
        let client = Client { n, running, next: running, state, latest, opener, version, received, wrong };
        let taken = client.has_good_n();
        (client, taken)
    }

    fn has_good_n(&self) -> Result<(), Refused> {
        (1..=MOST_SECTORS).contains(&self.n).then_some(()).ok_or(3)
    }

    fn is(&self, wrong: Wrong) -> bool {
        self.wrong == Some(wrong)
    }

    pub fn initiate(&mut self) -> Result<(), Refused> {
        self.has_good_n()?;
        if self.state != State::Closed {
            return Err(4);
        }
        self.state = State::Idle;
        Ok(())
    }

    pub fn terminate(&mut self) -> Result<(), Refused> {
        self.has_good_n()?;
        if self.state == State::Closed {
            return Err(4);
        }
        self.state = State::Closed;
        self.received.clear();
        self.latest = Latest::Nothing;
        if !self.is(Wrong::KeepsOpenerClosed) {
            self.opener = None;
        }
        Ok(())
    }

    pub fn datagram(&mut self, lent: &mut Lent, datagram: &[u8]) -> Result<Answered, Refused> {
        self.has_good_n()?;
        let whole = lent.banks.iter().all(|bank| bank.len() == SECTOR * self.n);
        if !whole || lent.marks.len() != self.n || lent.address.len() != ADDRESS || lent.buffer.len() < LEAST_BUFFER {
            return Err(2);
        }
        if self.state == State::Closed || self.is(Wrong::RefusesAll) {
            return Err(1);
        }
        let (answer, notice) = match frame::read(datagram) {
            _ if self.is(Wrong::OneAnswer) => (response(0x75, TAKEN, &[]), None),
            None => (frame::ERROR.to_vec(), None),
            Some(Frame::Control { code, parameters }) => self.control(code, &parameters, lent),
            Some(Frame::Write { sector, data, .. }) => (self.write(sector, &data, lent), None),
        };
        lent.buffer[..answer.len()].copy_from_slice(&answer);
        Ok(Answered { length: answer.len(), notice })
    }

    fn control(&mut self, code: u8, parameters: &[u8], lent: &mut Lent) -> Response {
        let (own, length, state) = match REQUESTS.iter().find(|request| request.0 == code) {
            Some((_, own, length, state)) => (*own, *length, *state),
            None => return (response(RESPOND_ERROR, PARAMETER, &[]), None),
        };
        let fits = self.state == state;
        let stranger = self.is_stranger(lent.address) && !(code == 0x45 && self.is(Wrong::AnyoneEnds));
        if stranger && self.is(Wrong::AddressFirst) {
            return (response(own, STATE, &[]), None);
        }
        if parameters.len() != length && (fits || !self.is(Wrong::StateFirst)) {
            return (self.parameter_fault(Wrong::OwnParameterLength, response(own, PARAMETER, &[])), None);
        }
        if stranger && !self.is(Wrong::AddressLast) {
            if code == 0x61 && self.is(Wrong::TakesOver) {
                self.opener = Some(lent.address.to_vec());
            }
            return (self.turned_away(response(own, STATE, &[])), None);
        }
        if !fits {
            return (response(own, STATE, &[]), None);
        }
        if code == 0x40 && !self.takes_pair(parameters) {
            return (self.parameter_fault(Wrong::OwnAddressPair, response(own, PARAMETER, &[])), None);
        }
        if stranger {
            return (response(own, STATE, &[]), None);
        }
        let (result, added, notice) = match code {
            0x61 => {
                self.state = State::Control;
                self.latest = Latest::Nothing;
                self.opened_by(lent.address);
                (TAKEN, vec![], Some(Notice::Begun))
            }
            0x62 => (TAKEN, vec![self.other_bank() as u8], None),
            0x68 => (TAKEN, self.version_bytes(), None),
            0x40 => {
                self.write_start();
                (TAKEN, vec![], None)
            }
            0x45 => (self.write_end(lent), vec![], None),
            _ => (TAKEN, vec![], Some(Notice::Ended(self.mode_end()))),
        };
        (response(own, result, &added), notice)
    }

    /// Respond Error, whatever the command; one that is wrong in this way answers with the command's own response.
    fn parameter_fault(&mut self, wrong: Wrong, own: Vec<u8>) -> Vec<u8> {
        if self.is(Wrong::FaultDiscards) {
            self.received.clear();
        }
        if self.is(wrong) {
            own
        } else {
            response(RESPOND_ERROR, PARAMETER, &[])
        }
    }

    /// Whether the mode is open, and another address has opened it: all 16 bytes count.
    fn is_stranger(&self, address: &[u8]) -> bool {
        let Some(opener) = &self.opener else {
            return false;
        };
        match self.wrong {
            Some(Wrong::Everyone) => false,
            Some(Wrong::ComparesFirst15) => opener[..ADDRESS - 1] != address[..ADDRESS - 1],
            Some(Wrong::ComparesLast15) => opener[1..] != address[1..],
            Some(Wrong::ZerosOpenNothing) if *opener == [0; ADDRESS] => false,
            Some(Wrong::KeepsFirstOpener) if self.state == State::Idle => false,
            _ => opener != address,
        }
    }

    fn opened_by(&mut self, address: &[u8]) {
        if self.opener.is_none() || !self.is(Wrong::KeepsFirstOpener) {
            self.opener = Some(address.to_vec());
        }
    }

    /// What a stranger is answered, the command's own response.
    fn turned_away(&self, own: Vec<u8>) -> Vec<u8> {
        match self.wrong {
            Some(Wrong::StrangersError) => response(RESPOND_ERROR, STATE, &[]),
            _ => own,
        }
    }

    /// The target.
    fn other_bank(&self) -> usize {
        1 - self.running
    }

    fn version_bytes(&self) -> Vec<u8> {
        let Version { major, minor, revision } = self.version;
        [&[0x04, 0x00, major, minor][..], &revision.to_be_bytes()].concat()
    }

    fn pair(&self, bank: usize) -> Vec<u8> {
        let end = bank::end(bank, self.n).expect("a good N");
        [bank::start(bank) as u32, end as u32].map(u32::to_be_bytes).concat()
    }

    fn takes_pair(&self, pair: &[u8]) -> bool {
        pair == self.pair(self.other_bank()) || self.is(Wrong::TakesRunning) && pair == self.pair(self.running)
    }

    fn write_start(&mut self) {
        self.state = State::Write;
        if !self.is(Wrong::KeepsReceived) {
            self.received.clear();
        }
        if !self.is(Wrong::KeepsNext) {
            self.next = self.running;
        }
    }

    fn sweep(&self, bank: &mut [u8]) {
        if self.is(Wrong::LeavesUnsent) || self.is(Wrong::StoresNothing) {
            return;
        }
        for sector in (1..=self.n).filter(|sector| !self.received.contains(sector)) {
            bank[(sector - 1) * SECTOR..sector * SECTOR].fill(0xFF);
        }
    }

    fn write_end(&mut self, lent: &mut Lent) -> u8 {
        let next = self.other_bank();
        let worn = lent.marks.iter().any(|mark| *mark != 0);
        if !worn || self.is(Wrong::SweepsWorn) {
            self.sweep(lent.banks[next]);
        }
        let result = match bank::bodies(lent.banks[next]) {
            _ if worn => WORN,
            Some(_) => TAKEN,
            None if self.is(Wrong::StoresNothing) => TAKEN,
            None => UNSOUND,
        };
        let good = result == TAKEN;
        if good || self.is(Wrong::TakesUnsound) && result == UNSOUND {
            self.next = next;
        }
        self.latest = if good { Latest::Good } else { Latest::Otherwise };
        if !self.is(Wrong::KeepsReceived) {
            self.received.clear();
        }
        if self.is(Wrong::ForgetsOpener) {
            self.opener = None;
        }
        self.state = State::Control;
        result
    }

    /// What the notice says of the latest write session.
    fn mode_end(&mut self) -> u8 {
        let said = match self.latest {
            Latest::Good => 1,
            Latest::Otherwise => 2,
            Latest::Nothing => 3,
        };
        self.state = State::Idle;
        self.latest = Latest::Nothing;
        self.received.clear();
        if !self.is(Wrong::KeepsOpenerIdle) && !self.is(Wrong::KeepsFirstOpener) {
            self.opener = None;
        }
        if self.is(Wrong::ForgetsEnd) {
            3
        } else {
            said
        }
    }

    fn write(&mut self, sector: u16, data: &[u8], lent: &mut Lent) -> Vec<u8> {
        let good_sector = (1..=self.n).contains(&(sector as usize));
        let good_length = (1..=SECTOR).contains(&data.len()) && data.len() % 4 == 0;
        let stranger = self.is_stranger(lent.address) && !self.is(Wrong::AnyonesPackets);
        let refused = write_response(sector, [STATE; 2], 0);
        if stranger && !self.is(Wrong::AddressLast) {
            if self.is(Wrong::StoresStrangers) && self.state == State::Write && good_sector && good_length {
                self.store(sector as usize, data, lent);
            }
            return self.turned_away(refused);
        }
        if self.state != State::Write && (good_sector && good_length || !self.is(Wrong::ValuesFirst)) {
            return refused;
        }
        let own = write_response(sector, [PARAMETER; 2], 0);
        if !good_sector {
            return self.parameter_fault(Wrong::OwnSector, own);
        }
        if !good_length {
            return self.parameter_fault(Wrong::OwnDataLength, own);
        }
        if stranger {
            return refused;
        }
        let (result, crc) = self.store(sector as usize, data, lent);
        write_response(sector, [TAKEN, result], crc)
    }

    /// Write result, and the CRC-32 where it is good.
    fn store(&mut self, sector: usize, data: &[u8], lent: &mut Lent) -> (u8, u32) {
        let place = (sector - 1) * SECTOR..sector * SECTOR;
        let held = lent.banks[self.other_bank()][place.clone()].to_vec();
        let becomes = [data, &vec![0xFF; SECTOR - data.len()]].concat();
        let blank = data.iter().all(|byte| *byte == 0xFF);
        let omitted = blank || held == becomes;
        if lent.marks[sector - 1] != 0 {
            if self.is(Wrong::CountsRefused) {
                self.received.insert(sector);
            }
            return match omitted && self.is(Wrong::WornOmitted) {
                true => (OMITTED, crc32(&held)),
                false => (WORN, 0),
            };
        }
        let already = match self.wrong {
            Some(Wrong::ComparesSent) => held.starts_with(data),
            Some(Wrong::SkipsBlanks) => blank,
            Some(Wrong::StoresFirst) => !self.received.is_empty(),
            Some(Wrong::KeepsFirst) => self.received.contains(&sector),
            Some(Wrong::StoresNothing) => true,
            _ => false,
        };
        let stored = match self.wrong {
            _ if already => held.clone(),
            Some(Wrong::KeepsTail) => [data, &held[data.len()..]].concat(),
            _ => becomes.clone(),
        };
        lent.banks[self.other_bank()][place.clone()].copy_from_slice(&stored);
        if self.is(Wrong::WritesRunning) {
            lent.banks[self.running][place].copy_from_slice(&stored);
        }
        self.received.insert(sector);
        let short = already && self.is(Wrong::ComparesSent);
        let said = if self.is(Wrong::StoresFirst) || self.is(Wrong::StoresNothing) { becomes } else { stored };
        (if omitted || short { OMITTED } else { TAKEN }, crc32(&said))
    }

    /// The view of a body of the next-start bank.
    pub fn body<'a>(&self, banks: [&'a [u8]; 2], i: usize) -> &'a [u8] {
        let whole = banks.iter().all(|bank| bank.len() == SECTOR * self.n);
        if !whole || self.has_good_n().is_err() {
            return &[];
        }
        bank::body(banks[self.next], i)
    }
}
