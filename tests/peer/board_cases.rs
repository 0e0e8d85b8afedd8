//! The script that `board` is tried with: cases one after another, each with a new client. The same lines at each run.
use crate::bank::{MOST_SECTORS, SECTOR};
use crate::board;
use crate::draw::Draw;
use crate::frame::{framed, write, CONTINUED, CONTROL, END, WRITE};
use crate::hex;
use crate::image::{self, Image};
use crate::script::{packet, pair, request, write_start, Script, REQUESTS, STATES};
use crate::script::{BANK_INFORMATION, MODE_END, MODE_START, VERSION, WRITE_END, WRITE_START};
use crate::stranger;
use crate::wrong;

const BAD_N: [usize; 6] = [0, 492, 493, 512, 65_536, 999_999];
const DATA_LENGTHS: [usize; 16] = [0, 1, 3, 4, 5, 6, 8, 252, 256, 508, 510, 511, 512, 513, 516, 1024];

pub fn all() -> Vec<String> {
    let mut cases = Cases { script: Script::default(), draw: Draw(0x424F_4152_44) };
    cases.no_client_yet();
    cases.versions();
    cases.buffers();
    cases.rooms();
    cases.address_pairs();
    cases.parameter_faults();
    cases.worn();
    cases.sessions();
    cases.strangers();
    cases.leftovers();
    cases.commands();
    cases.codes();
    cases.damaged();
    cases.drawn_datagrams();
    cases.packets();
    cases.lent_lengths();
    cases.bad_n();
    cases.host_commands();
    cases.bodies();
    cases.deliveries();
    cases.walks();
    cases.script.lines
}

/// Each wrong board writes another line somewhere in the script than the right one does.
pub fn selftest() -> Result<String, String> {
    match board::untold(all().join("\n").as_bytes(), &wrong::ALL)[..] {
        [] => Ok(format!("{} wrong boards are told from the right one by the script", wrong::ALL.len())),
        ref untold => Err(format!("the script does not tell from a right board: {:?}", untold)),
    }
}

pub struct Cases {
    pub script: Script,
    pub draw: Draw,
}

impl Cases {
    pub fn count(&mut self) -> usize {
        1 + self.draw.below(30)
    }

    /// A new client on a board whose running bank is sound and whose target holds a former owner's bytes.
    pub fn board(&mut self, about: &str, n: usize, running: usize) {
        self.script.case(about, n, running);
        if n <= 3 {
            let (count, kept) = (self.count(), self.draw.bytes(n * SECTOR));
            let image = image::drawn(&mut self.draw, n, count);
            self.script.put(running, 0, &image.bytes);
            self.script.put(1 - running, 0, &kept);
        } else {
            let byte = self.draw.byte();
            self.script.add(format!("fill {} {:02X}", 1 - running, byte));
            for bank in [running, 1 - running] {
                let (sector, kept) = (self.draw.below(n), self.draw.bytes(SECTOR));
                self.script.put(bank, sector * SECTOR, &kept);
            }
        }
    }

    fn board_in(&mut self, about: &str, state: &str, n: usize, running: usize) {
        self.board(&format!("{}, {}, N = {}", about, state, n), n, running);
        self.script.on_to(state, running, n);
    }

    /// As the paper's board is before any `client` line.
    fn no_client_yet(&mut self) {
        self.script.look();
        self.script.add("initiate");
        self.script.ask(MODE_START);
        self.script.send(&write_start(1, 32));
        self.script.send(&packet(32, &[1, 2, 3, 4]));
        self.script.look();
        self.script.ask(WRITE_END);
        self.script.ask(VERSION);
        self.script.look();
    }

    fn commands(&mut self) {
        for (n, running) in [(1, 0), (3, 1), (32, 0)] {
            for state in STATES {
                for code in REQUESTS {
                    for length in [0, 1, 2, 7, 8, 9, 16, 254] {
                        let drawn = self.draw.bytes(length);
                        let parameters = if length == 8 { pair(1 - running, n) } else { drawn };
                        self.board_in(&format!("code {:02X} with {} bytes", code, length), state, n, running);
                        self.script.send(&request(code, &parameters));
                        self.script.look();
                        self.script.send(&packet(1, &[0x5A; 8]));
                        self.script.add("record");
                    }
                }
            }
        }
    }

    fn codes(&mut self) {
        for (state, length) in STATES.iter().flat_map(|state| [0, 1, 8].map(|length| (state, length))) {
            self.board_in(&format!("every other code with {} bytes", length), state, 2, 1);
            for code in (0..=255).filter(|code| !REQUESTS.contains(code)) {
                let parameters = self.draw.bytes(length);
                self.script.send(&request(code, &parameters));
                if code % 16 == 0 {
                    self.script.look();
                }
            }
            self.script.look();
        }
    }

    /// Each request with a byte changed, cut, lengthened, with every checksum and footer; and every stated length.
    fn damaged(&mut self) {
        let data = self.draw.bytes(SECTOR);
        for state in ["idle", "control", "write"] {
            let mut frames: Vec<Vec<u8>> = REQUESTS.iter().map(|code| request(*code, &[])).collect();
            frames.extend([write_start(1, 2), packet(1, &data[..4]), packet(2, &data[..8])]);
            for frame in frames {
                self.board_in(&format!("damaged {}", hex::text(&frame)), state, 2, 0);
                self.damage(&frame);
                self.script.look();
            }
        }
        self.board_in("damaged packet of a sector", "write", 2, 0);
        let whole = packet(2, &data);
        for at in 0..whole.len() {
            let mut other = whole.clone();
            other[at] ^= 1 << (at % 8);
            self.script.send(&other);
        }
        self.script.look();
        for length in (0..whole.len()).step_by(7) {
            self.script.send(&whole[..length]);
        }
        self.script.look();
    }

    fn damage(&mut self, frame: &[u8]) {
        let end = frame.len();
        let mut others: Vec<Vec<u8>> = (0..end).map(|length| frame[..length].to_vec()).collect();
        others.extend([&[0x00][..], &[0x03], &[0xFF; 3]].map(|more| [frame, more].concat()));
        others.push([&[0x00], frame].concat());
        others.push([frame, frame].concat());
        for at in 0..end - 2 {
            others.extend([1, 0x80, 0xFF].map(|flip| changed(frame, at, frame[at] ^ flip)));
        }
        for byte in 0..=255 {
            others.extend([end - 2, end - 1].map(|at| changed(frame, at, byte)));
        }
        // a length of none, one less and one more, with a checksum that fits
        let covered = &frame[1..end - 2];
        for length in [0, covered[0].wrapping_sub(1), covered[0].wrapping_add(1), 0xFF] {
            others.push(framed(frame[0], &changed(covered, 0, length), END));
            others.push(framed(frame[0], &changed(covered, covered.len() - 1, length), CONTINUED));
        }
        for other in others.into_iter().filter(|other| other != frame) {
            self.script.send(&other);
        }
    }

    fn drawn_datagrams(&mut self) {
        for k in 0..40 {
            let (n, running) = ([1, 2, 3, 32][k % 4], k / 4 % 2);
            let state = STATES[self.draw.below(4)];
            self.board_in("drawn datagrams", state, n, running);
            let addresses = stranger::addresses(&mut self.draw);
            for i in 0..60 {
                if i % 10 == 5 {
                    self.script.add(format!("address {}", addresses[self.draw.below(3)]));
                }
                let datagram = self.drawn_datagram(n);
                self.script.send(&datagram);
            }
            self.script.look();
        }
    }

    /// Mostly with one thing or the other of a frame.
    fn drawn_datagram(&mut self, n: usize) -> Vec<u8> {
        let length = self.draw.below(24);
        let drawn = self.draw.bytes(length);
        match self.draw.below(6) {
            0 => drawn,
            1 => framed(self.draw.byte(), &drawn, self.draw.byte()),
            2 => framed(CONTROL, &drawn, END),
            3 => framed(WRITE, &drawn, [END, CONTINUED][self.draw.below(2)]),
            4 => request(self.draw.byte(), &drawn),
            _ => packet(self.draw.below(n + 3), &drawn),
        }
    }

    /// Sectors and lengths at every edge, with both footers.
    fn packets(&mut self) {
        for (n, running) in [(1, 0), (2, 1), (3, 0), (32, 1), (MOST_SECTORS, 0), (MOST_SECTORS, 1)] {
            let sectors = [0, 1, 2, n - 1, n, n + 1, 255, 256, 491, 492, 513, 65_535];
            for state in STATES {
                self.board_in("packets at the edges", state, n, running);
                for sector in sectors {
                    for length in DATA_LENGTHS {
                        let data = self.draw.bytes(length);
                        let footer = [END, CONTINUED][self.draw.below(2)];
                        self.script.send(&write(sector as u16, &data, footer).expect("a length of two bytes"));
                        if state == "write" && (1..=n).contains(&sector) && length % 4 == 0 {
                            self.script.add(format!("show {} {} {}", 1 - running, (sector - 1) * SECTOR, SECTOR));
                        }
                    }
                    if n < MOST_SECTORS {
                        self.script.look();
                    }
                }
                self.script.look();
            }
        }
    }

    fn address_pairs(&mut self) {
        for (n, running) in [(1, 0), (2, 1), (3, 0), (32, 0), (32, 1), (MOST_SECTORS, 0), (MOST_SECTORS, 1)] {
            let good = pair(1 - running, n);
            let mut pairs = vec![pair(running, n), [&good[4..], &good[..4]].concat(), vec![0; 8], vec![0xFF; 8]];
            pairs.extend([1, 31, 33, 490, 491].map(|other| pair(1 - running, other)));
            pairs.push([&pair(running, n)[..4], &good[4..]].concat());
            pairs.push([&good[..4], &pair(running, n)[4..]].concat());
            pairs.push(good.chunks(4).flat_map(|number| number.iter().rev().copied()).collect());
            for at in 0..8 {
                pairs.extend([1, 0xFF, 0x80].map(|more| changed(&good, at, good[at].wrapping_add(more))));
            }
            for state in STATES {
                self.board_in("address pairs", state, n, running);
                for pair in pairs.iter().filter(|pair| **pair != good) {
                    self.script.send(&request(WRITE_START, pair));
                }
                self.script.look();
                self.script.send(&request(WRITE_START, &good));
                self.script.add("record");
            }
        }
    }

    /// Each fault in each state, with worn marks and without. In the write state packets of an image come between them, each once, so that the
    /// end is good only where the session went on and no sector was forgotten.
    fn parameter_faults(&mut self) {
        for (n, running) in [(1, 0), (2, 1), (3, 0), (32, 1)] {
            for (state, worn) in STATES.iter().flat_map(|state| [(state, false), (state, true)]) {
                self.board_in("parameter faults", state, n, running);
                let count = self.count();
                let image = image::drawn(&mut self.draw, n, count);
                let mut sent = image.sent().into_iter();
                for fault in self.faults(n, running) {
                    if let Some(sector) = sent.next() {
                        self.script.send(&packet(sector, image.sector(sector)));
                    }
                    if worn {
                        self.script.add_all(&format!("mark 1 01|mark {} 01", n + 1));
                    }
                    self.script.send(&fault);
                    self.script.look();
                    self.script.add(format!("marks {}", n));
                }
                for sector in sent {
                    self.script.send(&packet(sector, image.sector(sector)));
                }
                self.script.ask(WRITE_END);
                self.script.look();
                self.script.add("body 0");
                self.script.ask(MODE_END);
                self.script.look();
            }
        }
    }

    /// Parameters of a wrong length, address pairs that are wrong at one end, sectors and data lengths out of range.
    pub fn faults(&mut self, n: usize, running: usize) -> Vec<Vec<u8>> {
        let [own, good] = [running, 1 - running].map(|bank| pair(bank, n));
        let mut faults: Vec<Vec<u8>> = REQUESTS.iter().map(|code| request(*code, &[0x00])).collect();
        for pair in [&good[..0], &good[..7], &[&own[..4], &good[4..]].concat(), &[&good[..4], &own[4..]].concat()] {
            faults.push(request(WRITE_START, pair));
        }
        for sector in [0, 1, n + 1, 65_535] {
            for length in [0, 6, 512, 516].into_iter().filter(|length| sector != 1 || *length != 512) {
                faults.push(packet(sector, &self.draw.bytes(length)));
            }
        }
        faults
    }

    /// Marks that change from call to call.
    fn worn(&mut self) {
        for k in 0..120 {
            let (n, running) = ([1, 2, 3, 32][k % 4], k / 4 % 2);
            let (worn, mark) = (1 + self.draw.below(n), [0x01, 0x80, 0xFF][k % 3]);
            self.board_in("worn sectors", "write", n, running);
            self.script.add(format!("show {} {} {}", 1 - running, (worn - 1) * SECTOR, SECTOR));
            let data = self.draw.bytes(SECTOR);
            let good = 1 + self.draw.below(n);
            self.script.send(&packet(good, &data));
            self.script.add(format!("mark {} {:02X}", worn, mark));
            // other data, the data that are there, blanks, wrong values
            for data in [&data[4..], &data[..], &[0xFF; 512], &[0xFF; 4], &[], &data[..6]] {
                self.script.send(&packet(worn, data));
            }
            self.script.look();
            self.script.send(&packet(1 + worn % n, &data[..SECTOR / 2]));
            self.script.send(&packet(n + 1, &data));
            self.script.look();
            if k % 3 == 0 {
                self.script.add(format!("mark {} 00", worn));
            }
            if k % 3 == 1 {
                self.script.add(format!("mark {} {:02X}", n + 1, mark));
            }
            self.script.ask(WRITE_END);
            self.script.look();
            self.script.add(format!("marks {}", n));
            self.script.send(&write_start(1 - running, n));
            self.script.look();
            self.script.send(&packet(worn, &data));
            self.script.ask(WRITE_END);
            self.script.look();
            self.script.ask(MODE_END);
            self.script.look();
        }
        self.worn_deliveries();
    }

    /// A whole image, an end with a worn sector, and the same image once more with none.
    fn worn_deliveries(&mut self) {
        for k in 0..24 {
            let (n, running) = ([1, 2, 3, 32][k % 4], k / 4 % 2);
            self.board_in("an end with a worn sector", "write", n, running);
            let count = self.count();
            let image = image::drawn(&mut self.draw, n, count);
            let worn = 1 + self.draw.below(n);
            self.deliver(&image);
            self.script.add(format!("mark {} 01", worn));
            self.script.ask(WRITE_END);
            self.script.look();
            self.script.add("body 0");
            self.script.add(format!("mark {} 00", worn));
            self.script.ask(WRITE_END);
            self.script.send(&write_start(1 - running, n));
            if k % 2 == 0 {
                self.deliver(&image);
            }
            self.script.ask(WRITE_END);
            self.script.look();
            self.script.add("body 0");
            self.script.ask(MODE_END);
        }
    }

    pub fn deliver(&mut self, image: &Image) {
        for sector in image::in_any_order(&mut self.draw, &image.sent()) {
            self.script.send(&packet(sector, image.sector(sector)));
        }
    }

    /// Too little and too much of each thing that is lent, then the right length again.
    fn lent_lengths(&mut self) {
        for (n, running) in [(1, 1), (3, 0), (32, 1), (MOST_SECTORS, 0)] {
            let address = hex::text(&self.draw.bytes(16));
            let lendings = self.lendings(n, &address);
            for state in STATES {
                self.board(&format!("lent lengths, {}, N = {}", state, n), n, running);
                self.script.add(format!("address {}", address));
                self.script.on_to(state, running, n);
                if state == "write" {
                    let data = self.draw.bytes(SECTOR);
                    self.script.send(&packet(n, &data));
                }
                for [wrong, right] in &lendings {
                    self.lend(wrong, n, running);
                    if n < MOST_SECTORS || wrong.starts_with("bank 0") {
                        self.script.look();
                    }
                    self.script.add(right.clone());
                }
                self.script.look();
                self.script.ask(WRITE_END);
                self.script.look();
            }
        }
    }

    /// A line that lends otherwise, and the one that lends as before, the address among it.
    pub fn lendings(&mut self, n: usize, address: &str) -> Vec<[String; 2]> {
        let (whole, mut lendings) = (n * SECTOR, Vec::new());
        for bank in 0..2 {
            for length in [0, 1, whole - SECTOR, whole - 1, whole + 1, whole + SECTOR, 252_416] {
                lendings.push([format!("bank {} {}", bank, length), format!("bank {} {}", bank, whole)]);
            }
        }
        for length in [0, n - 1, n + 1, 512] {
            lendings.push([format!("marks {}", length), format!("marks {}", n)]);
        }
        for length in [0, 1, 15, 17, 32] {
            let other = hex::text(&self.draw.bytes(length));
            lendings.push([format!("address {}", other), format!("address {}", address)]);
        }
        for length in [0, 1, 5, 6, 12, 13, 14, 20, 1024] {
            lendings.push([format!("buffer {} 5A", length), "buffer 14 A5".to_string()]);
        }
        lendings
    }

    /// A buffer may be long enough, so that what is sent then has to leave the state as it is.
    pub fn lend(&mut self, line: &str, n: usize, running: usize) {
        let data = self.draw.bytes(8);
        self.script.add(line);
        self.script.send(&[]);
        self.script.send(&packet(n, &data));
        self.script.add("rest");
        if !line.starts_with("buffer") {
            REQUESTS.iter().for_each(|code| self.script.ask(*code));
            self.script.send(&write_start(1 - running, n));
        }
        self.script.ask(0x00);
        self.script.add("body 0");
        self.script.add("record");
    }

    fn bad_n(&mut self) {
        for n in BAD_N {
            for running in 0..2 {
                self.script.case("bad N", n, running);
                self.script.look();
                self.script.add_all("terminate|initiate|initiate|record|body 0|send -");
                REQUESTS.iter().for_each(|code| self.script.ask(*code));
                self.script.send(&write_start(1 - running, 491));
                self.script.send(&packet(1, &[0; 4]));
                self.script.add_all("bank 0 512|bank 1 512|marks 1|send -|initiate|body 0");
                let image = image::drawn(&mut self.draw, 1, 1);
                self.script.put(running, 0, &image.bytes);
                self.script.add("body 0");
                self.script.add_all("buffer 0 00|address -|send 0101619E03|terminate|rest");
                self.script.look();
            }
        }
    }

    fn host_commands(&mut self) {
        for (n, running) in [(1, 0), (3, 1), (32, 0)] {
            for state in STATES {
                for commands in [["initiate", "initiate"], ["initiate", "terminate"], ["terminate", "initiate"]] {
                    self.board_in("host commands", state, n, running);
                    self.script.send(&packet(1, &[0x11; 12]));
                    for command in [&commands[..], &["terminate", "terminate"]].concat() {
                        self.script.add(command);
                        self.script.look();
                        self.script.send(&[]);
                        self.script.add("body 0");
                    }
                }
            }
        }
        // an address of its own with each mode and its notices
        for k in 0..20 {
            self.board("notices", 2, k % 2);
            self.script.add("initiate");
            for _ in 0..2 {
                let address = hex::text(&self.draw.bytes(16));
                self.script.add(format!("address {}", address));
                [MODE_START, VERSION, MODE_START, MODE_END, MODE_END].iter().for_each(|code| self.script.ask(*code));
            }
            self.script.add("terminate");
            self.script.look();
        }
    }

    /// Several sessions of one client, each ended in another way.
    fn sessions(&mut self) {
        let ends = ["good", "unsound", "worn", "terminate", "none", "nothing sent"];
        for k in 0..ends.len() * ends.len() * 2 {
            let (n, running) = ([1, 2, 3, 32][k % 4], k % 2);
            self.board("several sessions", n, running);
            self.script.on_to("control", running, n);
            for end in [ends[k % 6], ends[k / 6 % 6], ends[self.draw.below(6)], "good"] {
                self.session(end, n, running);
                if self.draw.below(3) == 0 {
                    self.script.ask(MODE_END);
                    self.script.add("record");
                    self.script.ask(MODE_START);
                    self.script.add("record");
                }
            }
            self.script.ask(MODE_END);
            self.script.ask(MODE_END);
            self.script.look();
        }
    }

    fn session(&mut self, end: &str, n: usize, running: usize) {
        let count = self.count();
        let image = image::drawn(&mut self.draw, n, count);
        if end != "none" {
            self.script.send(&write_start(1 - running, n));
            self.script.add("record");
            self.script.add("body 0");
        }
        if end != "nothing sent" {
            self.deliver(&image);
            self.script.add("record");
        }
        match end {
            "unsound" => {
                let at = self.draw.below(n * SECTOR);
                let sector = at / SECTOR + 1;
                let data = changed(image.sector(sector), at % SECTOR, image.bytes[at] ^ 0x10);
                self.script.send(&packet(sector, &data));
            }
            "worn" => self.script.add(format!("mark {} 02", 1 + self.draw.below(n))),
            "terminate" => {
                self.script.add("terminate");
                self.script.look();
                self.script.add("initiate");
                self.script.ask(MODE_START);
            }
            _ => (),
        }
        self.script.ask(WRITE_END);
        self.script.look();
        for i in [0, count - 1, count] {
            self.script.add(format!("body {}", i));
        }
        self.script.add(format!("marks {}", n));
    }

    /// Bodies of either bank, sound or not, in every state and with every length of it lent.
    fn bodies(&mut self) {
        for (n, running) in [(1, 0), (2, 1), (3, 0), (32, 1), (MOST_SECTORS, 0)] {
            for state in STATES {
                let counts = [self.count(), self.count()];
                let images = counts.map(|count| image::drawn(&mut self.draw, n, count));
                self.script.case(&format!("bodies, {}, N = {}", state, n), n, running);
                let most = if n == MOST_SECTORS { 6 } else { 40 };
                for bank in 0..2 {
                    self.put_image(bank, &images[bank]);
                }
                self.script.on_to(state, running, n);
                for i in (0..=counts[running] + 1).take(most).chain([29, 30, 31, 255, 256, 999_999]) {
                    self.script.add(format!("body {}", i));
                }
                let whole = n * SECTOR;
                for (bank, length) in [(0, 0), (0, 1), (0, whole + 1), (1, whole - SECTOR), (1, whole + SECTOR)] {
                    self.script.add_all(&format!("bank {bank} {length}|body 0|bank {bank} {whole}|body 0"));
                }
                for bank in 0..2 {
                    let at = images[bank].bodies[0].start;
                    self.script.put(bank, at, &[images[bank].bytes[at] ^ 1]);
                    self.script.add("body 0");
                    self.script.put(bank, at, &[images[bank].bytes[at]]);
                    self.script.add("body 0");
                }
                // nothing that is not lent to a view matters to it
                self.script.add_all("marks 0|address -|buffer 0 00|body 0|record");
            }
        }
    }

    /// The stretches of an image that are not blank.
    fn put_image(&mut self, bank: usize, image: &Image) {
        let table = 8 + 12 * image.bodies.len();
        self.script.put(bank, 0, &image.bytes[..table]);
        for body in &image.bodies {
            self.script.put(bank, body.start, &image.bytes[body.clone()]);
        }
    }

    fn deliveries(&mut self) {
        for k in 0..200 {
            let n = match k {
                0..=3 => MOST_SECTORS,
                _ => [1, 2, 3, 32, 3, 2, 1][k % 7],
            };
            let (running, count) = (k % 2, 1 + k % 30);
            self.board_in(&format!("delivery of {} bodies", count), "write", n, running);
            let image = image::drawn(&mut self.draw, n, count);
            self.deliver(&image);
            if k % 3 == 0 {
                self.script.look();
            }
            self.script.ask(WRITE_END);
            self.script.look();
            for i in (0..=count).step_by(if n == MOST_SECTORS { 15 } else { 1 }) {
                self.script.add(format!("body {}", i));
            }
            self.script.ask(MODE_END);
            self.script.add("terminate");
            self.script.look();
            self.script.add("body 0");
        }
    }

    /// Packets over what is there already: in part, all of it, the front of it; blanks; nothing.
    fn leftovers(&mut self) {
        for k in 0..300 {
            let (n, running) = ([1, 2, 3, 32][k % 4], k % 2);
            let whole = n * SECTOR;
            self.script.case("over leftovers", n, running);
            let kept = self.draw.bytes(SECTOR);
            let sector = 1 + self.draw.below(n);
            let reach = self.draw.below(SECTOR + 1);
            self.script.put(1 - running, (sector - 1) * SECTOR, &kept[..reach]);
            self.script.on_to("write", running, n);
            for _ in 0..4 {
                let length = 4 * (1 + self.draw.below(128));
                let data = match self.draw.below(5) {
                    0 => vec![0xFF; length],
                    1 => kept[..length].to_vec(),
                    2 => [&kept[..reach], &[0xFF; SECTOR][reach..]].concat(),
                    3 => kept[..4 * (reach / 4).max(1)].to_vec(),
                    _ => self.draw.bytes(length),
                };
                self.script.send(&packet(sector, &data));
                self.script.add(format!("show {} {} {}", 1 - running, (sector - 1) * SECTOR, SECTOR));
                if self.draw.below(2) == 0 {
                    self.script.send(&packet(sector, &data));
                }
                self.script.look();
            }
            self.script.add(format!("show {} {} {}", 1 - running, whole, 8));
            self.script.ask(WRITE_END);
            self.script.look();
        }
    }

    fn versions(&mut self) {
        for version in ["0 0 0", "255 255 4294967295", "001 016 0000000256", "3 200 16909060"] {
            for running in 0..2 {
                self.script.add("# version");
                self.script.add(format!("client 2 {} {}", running, version));
                self.script.on_to("control", running, 2);
                self.script.ask(VERSION);
                self.script.look();
                self.script.ask(BANK_INFORMATION);
                self.script.look();
            }
        }
    }

    /// Answers of every length, one over the other.
    fn buffers(&mut self) {
        for length in [14, 15, 20, 519, 1024] {
            self.board("answer buffers", 3, 1);
            self.script.add(format!("buffer {} {:02X}", length, length % 256));
            self.script.add("rest");
            self.script.on_to("control", 1, 3);
            for _ in 0..30 {
                match self.draw.below(6) {
                    0 => self.script.ask(VERSION),
                    1 => self.script.ask(BANK_INFORMATION),
                    2 => self.script.send(&[]),
                    3 => self.script.send(&packet(7, &[])),
                    4 => self.script.send(&write_start(0, 3)),
                    _ => self.script.ask(WRITE_END),
                }
                self.script.add("rest");
            }
            self.script.look();
        }
    }

    /// What lies behind the lent bytes, either case of digits, and numbers with zeros before them.
    fn rooms(&mut self) {
        for running in 0..2 {
            self.script.case("room behind the bank", 1, running);
            self.script
                .add_all("fill 0 a5|fill 1 3C|put 1 000000 aAbBcC|put 0 252415 00|put 1 252416 -|show 1 252416 0");
            self.script.on_to("write", running, 1);
            self.script.send(&packet(1, &[9; 16]));
            self.script.ask(WRITE_END);
            self.script
                .add_all("show 0 0 520|show 1 0 520|show 0 252400 16|bank 0 252416|bank 1 000512|crc 0|crc 1|bank 0 0");
            self.script
                .add_all("crc 0|mark 512 ff|mark 001 0a|address abcdef|buffer 0014 fF|rest|record||#|# |send ff");
            // lines as long as a line may be
            self.script.add(format!("#{}", "x".repeat(4_095)));
            self.script.add(format!("send {}", "5a".repeat(2_045)));
            self.script.add(format!("put {} 1000 {}", running, "C3".repeat(2_041)));
            self.script.add(format!("show {} 990 2070", running));
        }
    }

    /// Calls of no plan, most of them such as the state takes.
    fn walks(&mut self) {
        for k in 0..900 {
            let (n, running) = ([1, 2, 3, 2, 1, 3, 32][k % 7], self.draw.below(2));
            self.board("walk", n, running);
            let count = self.count();
            let image = image::drawn(&mut self.draw, n, count);
            let addresses = stranger::addresses(&mut self.draw);
            let (mut state, mut speaks, mut opener) = ("closed", 0, 0);
            self.script.add(format!("address {}", addresses[speaks]));
            for _ in 0..24 {
                let next = self.walk(state, &image, n, running);
                let open = ["control", "write"].contains(&state);
                // a stranger leads nowhere
                if !open || speaks == opener || next == "closed" {
                    state = next;
                }
                if !open {
                    opener = speaks;
                }
                if self.draw.below(4) == 0 {
                    speaks = [opener, opener, self.draw.below(3)][self.draw.below(3)];
                    self.script.add(format!("address {}", addresses[speaks]));
                }
                match self.draw.below(5) {
                    0 => self.script.add("record"),
                    1 => self.script.look(),
                    _ => (),
                }
            }
            self.script.look();
        }
    }

    /// One call, and the state that it should lead to.
    fn walk<'a>(&mut self, state: &'a str, image: &Image, n: usize, running: usize) -> &'a str {
        let target = 1 - running;
        let sector = 1 + self.draw.below(n);
        match (self.draw.below(20), state) {
            (0, _) => {
                let datagram = self.drawn_datagram(n);
                self.script.send(&datagram);
            }
            (1, _) => self.script.ask(REQUESTS[self.draw.below(2)]),
            (2, _) => self.script.add(format!("body {}", self.draw.below(4))),
            (3, _) => self.script.add(format!("mark {} {:02X}", sector, [0, 0, 1, 0xFF][self.draw.below(4)])),
            (4, _) => self.script.add(format!("marks {}", n)),
            (5, _) => {
                let sent = stranger::sends(&mut self.draw, n, target);
                self.script.send(&sent.datagram);
            }
            (6, _) => self.script.add(format!("buffer {} {:02X}", 13 + self.draw.below(9), self.draw.byte())),
            (7, _) => {
                let bank = self.draw.below(2);
                self.script.add(format!("bank {} {}", bank, n * SECTOR - 1));
                self.script.send(&packet(sector, image.sector(sector)));
                self.script.add(format!("bank {} {}", bank, n * SECTOR));
            }
            (8..=19, "closed") => {
                self.script.add("initiate");
                return "idle";
            }
            (8, _) => {
                self.script.add("terminate");
                return "closed";
            }
            (_, "idle") => {
                self.script.ask(MODE_START);
                return "control";
            }
            (9 | 10, "control") => {
                self.script.ask(MODE_END);
                return "idle";
            }
            (11 | 12, "control") => self.script.ask(REQUESTS[self.draw.below(3)]),
            (_, "control") => {
                self.script.send(&write_start(target, n));
                return "write";
            }
            (9, "write") => {
                self.script.ask(WRITE_END);
                return "control";
            }
            (10, "write") => {
                self.deliver(image);
                self.script.ask(WRITE_END);
                return "control";
            }
            (11, "write") => self.deliver(image),
            (12 | 13, _) => {
                let blank = 4 * (1 + self.draw.below(128));
                self.script.send(&packet(sector, &vec![0xFF; blank]));
            }
            (14 | 15, _) => {
                let length = 4 * (1 + self.draw.below(128));
                self.script.send(&packet(sector, &image.sector(sector)[..length]));
            }
            (_, _) => {
                let length = 4 * self.draw.below(130);
                let data = self.draw.bytes(length);
                self.script.send(&packet(self.draw.below(n + 2), &data));
            }
        }
        state
    }
}

fn changed(bytes: &[u8], at: usize, byte: u8) -> Vec<u8> {
    let mut other = bytes.to_vec();
    other[at] = byte;
    other
}
