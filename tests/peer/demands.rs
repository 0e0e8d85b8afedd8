//! Two scripts for two boards, alike but for what a former owner left in the target bank, with what the demands expect; judge.rs reads what
//! comes of them.
use crate::bank::SECTOR;
use crate::board;
use crate::crc::crc32;
use crate::draw::Draw;
use crate::frame;
use crate::hex;
use crate::image::{self, Image};
use crate::judge::{self, Seen};
use crate::script::{packet, pair, request, write_start, Script};
use crate::script::{BANK_INFORMATION, MODE_END, MODE_START, REQUESTS, VERSION, WRITE_END, WRITE_START};
use crate::stranger;
use crate::wrong::{self, Wrong};

const TAKEN_START: &str = "answer 010270068803";
const TAKEN_END: &str = "answer 010275068303";
const PARAMETER_FAULT: &str = "answer 0102E0051903";

/// So many deliveries and walks, beside the statements of one sector.
const WHOLE: [usize; 2] = [240, 500];
const SHORT: [usize; 2] = [30, 60];

const BOARDS: [&str; 2] = ["first", "second"];

pub fn write(directory: &str) -> Result<(), String> {
    for (board, script) in BOARDS.iter().zip(scripts(WHOLE)) {
        let path = format!("{}/{}.script", directory, board);
        std::fs::write(&path, script.join("\n") + "\n").map_err(|e| format!("{}: {}", path, e))?;
    }
    Ok(())
}

/// What there was to judge, in one line; too little of it is a failure too.
pub fn judge(directory: &str) -> Result<String, String> {
    let read = |board: &str, kind: &str| {
        let path = format!("{}/{}.{}", directory, board, kind);
        std::fs::read_to_string(&path).map_err(|e| format!("{}: {}", path, e))
    };
    let scripts = [read(BOARDS[0], "script")?, read(BOARDS[1], "script")?];
    let outputs = [read(BOARDS[0], "output")?, read(BOARDS[1], "output")?];
    told(judge::two([&scripts[0], &scripts[1]], [&outputs[0], &outputs[1]])?)
}

fn scripts([deliveries, walks]: [usize; 2]) -> [Vec<String>; 2] {
    let (scripts, addresses) = Default::default();
    let mut pairs = Pairs { scripts, draw: Draw(0x4445_4D41_4E44), n: 1, running: 0, addresses };
    pairs.statements();
    pairs.addresses();
    pairs.deliveries(deliveries);
    pairs.walks(walks);
    pairs.scripts.map(|script| script.lines)
}

fn told(seen: Seen) -> Result<String, String> {
    let Seen { cases, expected, accepted, good_ends, unsound_ends, worn_ends, parameter_faults, strangers, .. } = seen;
    let Seen { banks, omitted_by_one, .. } = seen;
    let enough = cases >= 500
        && expected >= 3_000
        && accepted >= 5_000
        && good_ends >= 200
        && unsound_ends >= 200
        && worn_ends >= 50
        && parameter_faults >= 500
        && strangers >= 2_000
        && banks >= 2_000
        && omitted_by_one >= 200;
    let said = format!(
        "{cases} cases on two boards: {accepted} packets accepted, {omitted_by_one} of them with 06 on one board and 1D on the other; \
         {good_ends} good, {unsound_ends} unsound and {worn_ends} worn ends; {parameter_faults} parameter faults; \
         {strangers} datagrams of strangers; {banks} looks at the target; {expected} expected lines"
    );
    if enough {
        Ok(said)
    } else {
        Err(format!("too little to judge: {}", said))
    }
}

/// Shorter scripts on the peer's own right board, and on each wrong one that a demand speaks of.
pub fn selftest() -> Result<String, String> {
    let scripts = scripts(SHORT).map(|lines| lines.join("\n"));
    let scripts = [&scripts[0][..], &scripts[1][..]];
    let on = |script: &str, wrong: Option<Wrong>| board::run(script.as_bytes(), wrong).join("\n");
    let right = scripts.map(|script| on(script, None));
    judge::two(scripts, [&right[0], &right[1]]).map_err(|why| format!("the judge refuses a right board: {}", why))?;
    let (mut refused, mut beside) = (0, 0);
    for wrong in wrong::ALL {
        let output = on(scripts[0], Some(wrong));
        let taken = judge::one(scripts[0], &output).is_ok();
        if taken != only_by_comparison(wrong) {
            return Err(format!("the judge {} {:?}", if taken { "takes" } else { "refuses" }, wrong));
        }
        if brings_leftovers_back(wrong) && judge::beside(scripts, [&output, &on(scripts[1], Some(wrong))]).is_ok() {
            return Err(format!("the judge sees no leftovers of {:?}", wrong));
        }
        refused += !taken as usize;
        beside += brings_leftovers_back(wrong) as usize;
    }
    Ok(format!("{} are refused by the judge, {} of them for two boards that differ", refused, beside))
}

/// On two boards, the leftovers show in an answer or after the end.
fn brings_leftovers_back(wrong: Wrong) -> bool {
    use Wrong::*;
    matches!(wrong, KeepsTail | ComparesSent | SkipsBlanks | LeavesUnsent | CountsRefused | WornOmitted | StoresNothing)
}

/// No demand speaks of the order of refusals, but for what a stranger is answered: the line by line comparison sees this one.
fn only_by_comparison(wrong: Wrong) -> bool {
    wrong == Wrong::ValuesFirst
}

struct Pairs {
    scripts: [Script; 2],
    draw: Draw,
    n: usize,
    running: usize,
    /// The first is that of who opens the mode.
    addresses: [String; 3],
}

impl Pairs {
    fn add(&mut self, line: impl Into<String>) {
        let line = line.into();
        self.scripts.iter_mut().for_each(|script| script.add(line.clone()));
    }

    fn add_all(&mut self, lines: &str) {
        self.scripts.iter_mut().for_each(|script| script.add_all(lines));
    }

    fn send(&mut self, datagram: &[u8]) {
        self.add(format!("send {}", hex::text(datagram)));
    }

    fn ask(&mut self, code: u8) {
        self.send(&request(code, &[]));
    }

    /// The next line has to be one of these.
    fn expect(&mut self, answers: &[String]) {
        self.add(format!("# expect {}", answers.join(" | ")));
    }

    fn speaks(&mut self, k: usize) {
        self.add(format!("address {}", self.addresses[k]));
    }

    /// Up to so many datagrams of the others, while the mode is the first one's: none of them changes anything.
    fn strangers(&mut self, most: usize) {
        let target = self.other_bank();
        for _ in 0..self.draw.below(most + 1) {
            let other = 1 + self.draw.below(2);
            self.speaks(other);
            let sent = stranger::sends(&mut self.draw, self.n, target);
            self.expect_bytes(&sent.answer);
            self.send(&sent.datagram);
        }
        self.speaks(0);
    }

    /// A stranger asks in vain for what the opener asks for then.
    fn asked_in_vain(&mut self, code: u8) {
        let other = 1 + self.draw.below(2);
        self.speaks(other);
        let sent = stranger::asks(code, self.n, self.other_bank());
        self.expect_bytes(&sent.answer);
        self.send(&sent.datagram);
        self.look();
        self.speaks(0);
    }

    fn expect_bytes(&mut self, answer: &[u8]) {
        self.expect(&[format!("answer {}", hex::text(answer))]);
    }

    fn other_bank(&self) -> usize {
        1 - self.running
    }

    /// A new client, a running bank of its own, and leftovers, others on each board.
    fn case(&mut self, about: &str, n: usize, running: usize, leftovers: [Vec<u8>; 2]) {
        (self.n, self.running) = (n, running);
        let own = self.draw.bytes(SECTOR);
        for (script, mut left) in self.scripts.iter_mut().zip(leftovers) {
            left.resize(n * SECTOR, 0xFF);
            script.case(about, n, running);
            script.put(running, 0, &own);
            script.put(1 - running, 0, &left);
        }
        self.addresses = stranger::addresses(&mut self.draw);
        self.speaks(0);
        self.look();
    }

    fn look(&mut self) {
        self.add_all("record|crc 0|crc 1");
    }

    fn end(&mut self) {
        self.ask(WRITE_END);
        self.look();
        if self.n <= 3 {
            self.add(format!("show {} 0 {}", self.other_bank(), self.n * SECTOR));
        }
    }

    fn start(&mut self) {
        self.add("initiate");
        self.ask(MODE_START);
        self.send(&write_start(self.other_bank(), self.n));
    }

    /// One sector each, two boards of which one is blank: what goes wrong under another reading of the paper.
    fn statements(&mut self) {
        let (zeros, blanks) = ([0x00; 4], [0xFF; 4]);
        // what stands there, the packet's data, the mark at the packet, the mark at the end
        let statements: [(&[u8], &[u8], u8, u8); 9] = [
            (&[0x00; 8], &zeros, 0, 0),
            (&[0x00], &blanks, 0, 0),
            (&zeros, &zeros, 1, 0),
            (&[0x00], &blanks, 1, 0),
            (&[0x00], &zeros, 1, 0),
            (&[0x00], &[], 0, 0),
            (&[0x00], &[], 0, 1),
            (&zeros, &zeros, 0, 1),
            (&[0x00; 8], &[0xFF; 512], 0, 0),
        ];
        for running in 0..2 {
            for (left, data, at_packet, at_end) in statements {
                self.case("statement", 1, running, [left.to_vec(), Vec::new()]);
                self.start();
                self.add(format!("mark 1 {:02X}", at_packet));
                if !data.is_empty() {
                    self.send(&packet(1, data));
                    self.look();
                }
                self.add(format!("mark 1 {:02X}", at_end));
                self.end();
                self.ask(MODE_END);
                self.look();
            }
        }
    }

    /// An opener, also one of 16 times 00, and strangers that differ from it in one byte, each in another.
    fn addresses(&mut self) {
        for (k, opener) in [vec![0x00; 16], self.draw.bytes(16), vec![0xFF; 16]].iter().enumerate() {
            let image = self.drawn_image(1);
            self.drawn_case("each byte of an address", 1, &image);
            self.addresses = [opener, opener, &self.draw.bytes(16)].map(|address| hex::text(address));
            self.speaks(0);
            self.start();
            self.send(&packet(1, &image.bytes));
            for at in 0..16 {
                let mut near = opener.clone();
                near[at] ^= 1 << (at + k) % 8;
                self.addresses[1] = hex::text(&near);
                REQUESTS.iter().for_each(|code| self.asked_in_vain(*code));
                self.strangers(4);
            }
            self.expect(&[TAKEN_END.to_string()]);
            self.end();
            self.ask(MODE_END);
            self.look();
        }
    }

    /// What a former owner may have left: nothing, anything, the image that comes or one like it, another image.
    fn leftovers(&mut self, n: usize, image: &Image) -> Vec<u8> {
        let mut left = match self.draw.below(5) {
            0 => Vec::new(),
            1 => self.draw.bytes(n * SECTOR),
            2 => image.bytes.clone(),
            3 => self.drawn_image(n).bytes,
            _ => vec![self.draw.byte(); n * SECTOR],
        };
        for _ in 0..self.draw.below(3).min(left.len()) {
            let at = self.draw.below(left.len());
            left[at] = self.draw.byte();
        }
        left
    }

    fn drawn_image(&mut self, n: usize) -> Image {
        let count = 1 + self.draw.below(30);
        image::drawn(&mut self.draw, n, count)
    }

    fn drawn_case(&mut self, about: &str, n: usize, image: &Image) {
        let leftovers = [self.leftovers(n, image), self.leftovers(n, image)];
        let running = self.draw.below(2);
        self.case(about, n, running, leftovers);
    }

    fn deliveries(&mut self, count: usize) {
        for k in 0..count {
            let n = if k == 100 { 491 } else { [1, 2, 3, 5, 2, 3, 32][k % 7] };
            let image = image::drawn(&mut self.draw, n, 1 + k % 30);
            self.drawn_case("delivery", n, &image);
            self.add("initiate");
            // a mode before it, of another opener, leaves nothing of that one
            if k % 3 == 1 {
                self.other_mode();
            }
            self.expect(&[format!("answer 010271068703 notice 6033 {}", self.addresses[0])]);
            self.ask(MODE_START);
            self.strangers(3);
            // a session before it, ended in any way, takes nothing from what follows
            if k % 4 == 1 {
                self.send(&write_start(self.other_bank(), n));
                let (sector, data) = (1 + self.draw.below(n), self.draw.bytes(SECTOR));
                self.send(&packet(sector, &data));
                self.end();
            }
            // nor does a parameter fault, before the session and within it
            self.delivery(&image, k % 4 > 1);
            self.asked_in_vain(MODE_END);
            self.expect(&[format!("answer 010274068403 notice 6034 01 {}", self.addresses[0])]);
            self.ask(MODE_END);
            self.look();
        }
    }

    fn other_mode(&mut self) {
        self.speaks(1);
        self.ask(MODE_START);
        self.send(&write_start(self.other_bank(), self.n));
        match self.draw.below(2) {
            0 => self.add_all("terminate|initiate"),
            _ => {
                self.end();
                self.ask(MODE_END);
            }
        }
        self.look();
        self.speaks(0);
    }

    /// Each sector packet of a sound image at least once, in any order, and the end, all from the address that opened the mode and with strangers
    /// between them: the end is good, and the bank is the image. With faults, one stands before the session and one behind each packet.
    fn delivery(&mut self, image: &Image, with_faults: bool) {
        let (n, to) = (self.n, self.other_bank());
        if with_faults {
            self.expect(&[PARAMETER_FAULT.to_string()]);
            self.wrong_pair();
        }
        self.expect(&[TAKEN_START.to_string()]);
        self.send(&write_start(to, n));
        for sector in image::in_any_order(&mut self.draw, &image.sent()) {
            let data = image.sector(sector);
            let answers = [0x06, 0x1D].map(|result| {
                let fields = [&[0x06, result][..], &crc32(data).to_be_bytes()].concat();
                let answer = frame::write(sector as u16, &fields, frame::END).expect("six bytes");
                format!("answer {}", hex::text(&answer))
            });
            self.strangers(2);
            self.expect(&answers);
            self.send(&packet(sector, data));
            if with_faults {
                self.expect(&[PARAMETER_FAULT.to_string()]);
                self.parameter_fault(WRITE_END);
            }
        }
        self.asked_in_vain(WRITE_END);
        self.expect(&[TAKEN_END.to_string()]);
        self.ask(WRITE_END);
        self.strangers(2);
        self.expect(&[format!("crc {} {} {:08X}", to, n * SECTOR, crc32(&image.bytes))]);
        self.add(format!("crc {}", to));
        if n <= 3 {
            self.expect(&[format!("show {}", hex::text(&image.bytes))]);
            self.add(format!("show {} 0 {}", to, n * SECTOR));
        }
        self.expect(&[format!("record {} {} {} control good {} 1 2 3 -", n, self.running, to, self.addresses[0])]);
        self.add("record");
        let most = if n > 32 { 1 } else { 4 };
        for (i, body) in image.bodies.iter().enumerate().take(most) {
            self.expect(&[format!("body {} {:08X}", body.len(), crc32(&image.bytes[body.clone()]))]);
            self.add(format!("body {}", i));
        }
        self.expect(&["body 0 00000000".to_string()]);
        self.add(format!("body {}", image.bodies.len()));
    }

    /// The running bank's addresses, or one of them beside one of the target's.
    fn wrong_pair(&mut self) {
        let [own, good] = [self.running, self.other_bank()].map(|bank| pair(bank, self.n));
        let wrong = match self.draw.below(3) {
            0 => own,
            1 => [&own[..4], &good[4..]].concat(),
            _ => [&good[..4], &own[4..]].concat(),
        };
        self.send(&request(WRITE_START, &wrong));
    }

    /// One of the three, or the same again; it is the first then.
    fn another_opens(&mut self) {
        self.addresses.rotate_left(self.draw.below(3));
        self.speaks(0);
        self.ask(MODE_START);
        self.send(&write_start(self.other_bank(), self.n));
    }

    /// This request with a wrong parameter length, or a packet whose sector or data length is out of range.
    fn parameter_fault(&mut self, code: u8) {
        let sector = 1 + self.draw.below(self.n);
        let datagram = match self.draw.below(3) {
            0 => {
                let lengths = if code == WRITE_START { [0, 7, 9] } else { [1, 8, 254] };
                let length = lengths[self.draw.below(3)];
                request(code, &self.draw.bytes(length))
            }
            1 => packet([0, self.n + 1, 65_535][self.draw.below(3)], &self.draw.bytes(SECTOR)),
            _ => {
                let length = [0, 1, 6, 510, 513, 516][self.draw.below(6)];
                packet(sector, &self.draw.bytes(length))
            }
        };
        self.send(&datagram);
    }

    /// Calls of no plan on both boards, with marks, lent lengths and addresses that change, over several sessions.
    fn walks(&mut self, count: usize) {
        for k in 0..count {
            let n = [1, 2, 3, 4, 2, 3, 1, 8][k % 8];
            let image = self.drawn_image(n);
            self.drawn_case("walk", n, &image);
            self.start();
            for _ in 0..18 {
                self.step(&image);
                if self.draw.below(4) == 0 {
                    self.strangers(3);
                    self.look();
                }
            }
            self.end();
            self.ask(MODE_END);
            self.look();
        }
    }

    fn step(&mut self, image: &Image) {
        let (n, to) = (self.n, self.other_bank());
        let sector = 1 + self.draw.below(n);
        let length = 4 * (1 + self.draw.below(128));
        let data = match self.draw.below(5) {
            0 => vec![0xFF; length],
            1 => image.sector(sector)[..length].to_vec(),
            2 => self.draw.bytes(length),
            _ => image.sector(sector).to_vec(),
        };
        match self.draw.below(26) {
            0..=7 => self.send(&packet(sector, &data)),
            8 => {
                self.send(&packet(sector, &data));
                self.send(&packet(sector, &data));
            }
            9 | 10 => {
                for sector in image::in_any_order(&mut self.draw, &image.sent()) {
                    self.send(&packet(sector, image.sector(sector)));
                }
                self.end();
            }
            11 | 12 => self.end(),
            13 | 14 => self.send(&write_start(to, n)),
            15 => {
                self.add(format!("mark {} 01", sector));
                self.strangers(1);
                self.send(&packet(sector, &data));
                self.send(&packet(sector, &data[2..]));
                self.add("record");
                self.add(format!("mark {} 00", sector));
            }
            16 => {
                self.add(format!("mark {} 80", sector));
                self.strangers(1);
                self.end();
                self.add(format!("marks {}", n));
            }
            17 => {
                let bank = self.draw.below(2);
                self.add(format!("bank {} {}", bank, n * SECTOR - 1));
                self.send(&packet(sector, &data));
                self.add(format!("bank {} {}", bank, n * SECTOR));
                self.look();
            }
            18 => {
                self.end();
                self.ask(MODE_END);
                self.another_opens();
            }
            19 => {
                self.add("terminate");
                self.look();
                self.add("initiate");
                self.another_opens();
            }
            20 => {
                let mut datagram = packet(sector, &data);
                let at = self.draw.below(datagram.len());
                datagram[at] ^= 1 << self.draw.below(8);
                self.send(&datagram);
            }
            21 => self.wrong_pair(),
            22..=24 => {
                let code = REQUESTS[self.draw.below(6)];
                self.parameter_fault(code);
            }
            _ => {
                let code = [BANK_INFORMATION, VERSION, MODE_START, 0x60][self.draw.below(4)];
                self.ask(code);
                self.add("body 0");
                self.look();
            }
        }
    }
}
