//! The request lines that `sending` is tried with. The same lines at each run, but for the files that it is given.
use crate::bank::{MOST_SECTORS, SECTOR};
use crate::draw::Draw;
use crate::text_cases::{self, Trial};
use crate::texts::{in_lf, LISTING};
use crate::{hex, response_cases};

/// The texts in `files` were written by other programs.
pub fn all(files: &[Vec<u8>]) -> Vec<String> {
    let mut cases = Cases { lines: Vec::new(), draw: Draw(0x5345_4E44) };
    cases.nothing_yet();
    for trial in text_cases::all() {
        cases.trial(&trial);
    }
    cases.numbers();
    cases.rooms_of_texts();
    for file in files {
        cases.file(file);
    }
    cases.images();
    cases.whole_images();
    cases.written_images();
    cases.wrong_images();
    cases.puts();
    cases.requests();
    cases.no_requests();
    [cases.lines, response_cases::all()].concat()
}

/// Bytes in one line: `text `, and two digits each, well within the longest.
const IN_ONE_LINE: usize = 2_000;

const ROOMS: [usize; 12] = [0, 1, 5, 13, 14, 256, 517, 518, 519, 520, 599, 600];
/// About the lengths of a text: the end record alone, a row, two rows under one upper half and under two, the longest
const TEXT_ROOMS: [usize; 16] = [0, 1, 12, 13, 14, 74, 75, 76, 119, 120, 121, 136, 137, 138, 139, 600];
const LONG_ROOMS: [usize; 4] = [707_120, 707_121, 707_122, 720_896];
const BAD_NUMBERS: [usize; 6] = [0, 492, 493, 512, 65_537, 999_999];

/// By the word that they begin with; `|` parts one line from the next.
const NO_REQUESTS: [&str; 16] = [
    "| |-|?|\t|Text 00|TEXT 00|texts 00|tex 00|text|text |text  |text 0|text 000|text 0G|text 0g|text --|text -0|text 00 | text 00",
    "text 00 00|text  00|text\t00|text 00\r|more|more |more 0|more 0x|more 00 |more 00 00|more  00|mor 00|text :|text 00:0",
    "read|read 0|read 0 1|read 0 1 |read 0 1 512 |read 0  512|read 2 1 512|read - 1 512|read 0 - 512|read 0 1 -|read 0 1 252417",
    "read 0 1 999999|read 0 1 1000000|read 0 1000000 512|read 0 0000001 512|read 0 1 512 0|read x 1 512|read 0 x 512|read 0 1 0x200",
    "read 0 -1 512|read 0 +1 512|read 0 1 5 12|Read 0 1 512|reads 0 1 512",
    "image|image |image -|image 252417|image 1000000|image 512 |image 512 512|image  512|image x|image 0000512",
    "put|put 0|put 0 |put 0 0|put 0 0G|put 0 00 |put 0 00 00|put - 00|put x 00|put  00|put 1000000 00|put 0000000 00|put 00",
    "length|length |length -|length 2|length 0 |length 0 0|length  0|length 00|Length 0|lengths 0|write|write |write 0|write 0 |write 2 13",
    "write - 13|write 0 -|write 0 x|write 0 720897|write 0 1000000|write 0 0000013|write 0 13 |write 0 13 0|write  0 13|writes 0 13",
    "count|count |count -|count x|count 1 |count 1 1|count  1|count 1000000|count 0000001|counts 1",
    "packet|packet 1|packet 1 0|packet 1 0 |packet 1 0 601|packet 1 0 1000|packet 1 0 519 |packet 1 0 519 0|packet  1 0 519|packet - 0 519",
    "packet 1 - 519|packet 1 0 -|packet x 0 519|packet 1 x 519|packet 1 0 x|packet 1000000 0 519|packet 1 1000000 519|packet 1 0 0000519",
    "request|request start|request start |request start 601|request start - |request  519|request Start 519|request starts 519|request 61 519",
    "request start 519 |request start 0 519|request bank 0 519|request end 1000000|request finish x|request version 0000519|request  start 519",
    "request write|request write 519|request write 0 519|request write 0 1 |request write 0 1 601|request write 2 1 519|request write - 1 519",
    "request write 0 x 519|request write 0 1 519 0|request write 0 1000000 519|response|response |response 0|response 0G|response 00 00|response  00",
];

struct Cases {
    lines: Vec<String>,
    draw: Draw,
}

impl Cases {
    fn add(&mut self, line: String) {
        self.lines.push(line);
    }

    fn add_text(&mut self, text: &[u8]) {
        self.add(format!("text {}", hex::text(&text[..text.len().min(IN_ONE_LINE)])));
        for more in text.chunks(IN_ONE_LINE).skip(1) {
            self.add(format!("more {}", hex::text(more)));
        }
    }

    fn add_read(&mut self, number: usize, n: usize) {
        self.add(format!("read {} {} {}", number, n, n * SECTOR));
    }

    fn add_packet(&mut self, n: usize, p: usize, room: usize) {
        self.add(format!("packet {} {} {}", n, p, room));
    }

    fn nothing_yet(&mut self) {
        for line in [
            "put 0 -",
            "put 0 00",
            "put 1 -",
            "count 0",
            "count 1",
            "packet 1 0 519",
            "read 0 1 512",
            "read 0 1 0",
            "read 1 0 0",
        ] {
            self.add(line.to_string());
        }
    }

    /// In one of eight, how the text's image would be sent.
    fn trial(&mut self, trial: &Trial) {
        self.add_text(&trial.text);
        self.add_read(trial.bank, trial.n);
        if self.draw.below(8) == 0 {
            self.add(format!("count {}", trial.n));
            let p = self.draw.below(3);
            self.add_packet(trial.n, p, 519);
        }
    }

    /// N and image lengths, right and wrong, for a text that is good and for one that is not; and N that is not the text's.
    fn numbers(&mut self) {
        for text in [in_lf(&LISTING), in_lf(&LISTING[..2])] {
            self.add_text(&text);
            for n in [1, 2, 3, 32, 490, 491] {
                let right = n * SECTOR;
                for length in [0, 1, 511, 512, 513, right - 1, right, right + 1, right - SECTOR, right + SECTOR] {
                    self.add(format!("read 0 {} {}", n, length));
                }
                self.add_read(1, n);
            }
            for n in BAD_NUMBERS {
                for length in [0, 1, 512, 16_384] {
                    self.add(format!("read 0 {} {}", n, length));
                    self.add(format!("read 1 {} {}", n, length));
                }
            }
            self.add("read 0 492 251904".to_string());
            self.add("read 0 493 252416".to_string());
            for n in (1..=40).chain([489, 490, 491]) {
                self.add_read(0, n);
            }
            self.add("read 0 000003 001536".to_string());
        }
    }

    /// Text put behind text, and as much as there is room for.
    fn rooms_of_texts(&mut self) {
        let text = in_lf(&LISTING);
        for at in 0..=text.len() {
            self.add(format!("text {}", hex::text(&text[..at])));
            self.add(format!("more {}", hex::text(&text[at..]).to_ascii_lowercase()));
            self.add_read(0, 3);
        }
        self.add_text(&[&text[..], &vec![b'\n'; 720_896 - text.len() - 1]].concat());
        for line in [
            "more -",
            "more 0A0A",
            "read 0 3 1536",
            "more 3a",
            "more 0A",
            "more -",
            "read 0 3 1536",
            "text 0a",
            "more -",
            "text -",
        ] {
            self.add(line.to_string());
        }
        // Both sides of the longest line: with `put 0` and so many bytes a line has an even length, with the others an odd one.
        self.image(8);
        for count in [2_043, 2_044, 2_045, 2_046, 2_047] {
            let bytes = self.draw.bytes(count);
            for word in ["text", "more", "put 0", "response"] {
                self.add(format!("{} {}", word, hex::text(&bytes)));
            }
            self.add_packet(8, 0, 519);
        }
        for length in [4_094, 4_095, 4_096, 4_097, 8_192] {
            self.add("0".repeat(length));
            self.add(format!("image {}{}", " ".repeat(length - 7), 1));
        }
    }

    /// Both banks and several N, and what would be sent; then its first lines and its last, damaged at some dozens of places.
    fn file(&mut self, text: &[u8]) {
        self.add_text(text);
        let large = if self.draw.below(5) == 0 { MOST_SECTORS } else { 3 };
        for number in [0, 1] {
            for n in [1, 2, 32, large] {
                self.add_read(number, n);
                self.add(format!("count {}", n));
                self.add_packet(n, 0, 519);
                self.add_packet(n, 1, 519);
            }
        }
        let lines: Vec<&[u8]> = text.split_inclusive(|byte| *byte == b'\n').collect();
        let few = |from: usize, to: usize| lines[from.min(lines.len())..to.min(lines.len())].concat();
        let short = [few(0, 20), few(20.max(lines.len().saturating_sub(8)), lines.len())].concat();
        for k in 0..24 {
            let at = self.draw.below(short.len());
            let mut other = short.clone();
            match k % 4 {
                0 => other[at] = self.draw.byte(),
                1 => other[at] = b"0123456789ABCDEFabcdef"[self.draw.below(22)],
                2 => drop(other.remove(at)),
                _ => other.insert(at, self.draw.byte()),
            }
            self.add_text(&other);
            self.add_read(k / 4 % 2, 2);
        }
    }

    fn image(&mut self, n: usize) {
        self.add(format!("image {}", n * SECTOR));
    }

    fn put(&mut self, at: usize, bytes: &[u8]) {
        self.add(format!("put {} {}", at, hex::text(bytes)));
    }

    /// The count, each packet to the count and past it, and each room for the first and for none.
    fn all_packets(&mut self, n: usize, count: usize) {
        self.add(format!("count {}", n));
        for p in (0..=count + 1).chain([n, 999_999]) {
            self.add_packet(n, p, 519);
        }
        for room in ROOMS {
            self.add_packet(n, 0, room);
            self.add_packet(n, count, room);
        }
    }

    /// Blank; one byte, and at each end of each sector; every sector; some sectors.
    fn images(&mut self) {
        for n in [1, 2, 3, 5, 32] {
            self.image(n);
            self.all_packets(n, 0);
            for sector in 0..n.min(6) {
                for at in [sector * SECTOR, sector * SECTOR + SECTOR - 1, sector * SECTOR + self.draw.below(SECTOR)] {
                    let byte = 0xFF ^ 1 << self.draw.below(8);
                    self.image(n);
                    self.put(at, &[byte]);
                    self.all_packets(n, 1);
                    self.put(at, &[0xFF]);
                    self.add_packet(n, 0, 519);
                }
            }
            self.image(n);
            self.put(n * SECTOR - 1, &[0x7F]);
            self.all_packets(n, 1);
            self.put(n * SECTOR - SECTOR, &[0x00]);
            self.all_packets(n, 1);
            for _ in 0..4 {
                self.image(n);
                let mut count = 0;
                for sector in 0..n {
                    if self.draw.below(3) > 0 {
                        let size = 1 + self.draw.below(SECTOR);
                        let mut bytes = self.draw.bytes(size);
                        bytes[0] &= 0xFE;
                        self.put(sector * SECTOR + SECTOR - size, &bytes);
                        count += 1;
                    }
                }
                self.all_packets(n, count);
            }
        }
    }

    /// Every sector of the largest bank, its last alone, and some.
    fn whole_images(&mut self) {
        let n = MOST_SECTORS;
        self.image(n);
        self.all_packets(n, 0);
        self.put(n * SECTOR - 1, &[0x00]);
        self.all_packets(n, 1);
        self.image(n);
        for sector in 0..n {
            let (offset, bytes) = (self.draw.below(SECTOR - 8), [sector as u8 & 0x7F; 8]);
            self.put(sector * SECTOR + offset, &bytes);
        }
        self.all_packets(n, n);
        self.image(n);
        for sector in [0, 1, 15, 254, 255, 256, 257, 300, 489] {
            let bytes = self.draw.bytes(SECTOR);
            self.put(sector * SECTOR, &bytes);
        }
        self.all_packets(n, 9);
    }

    /// How long the text is, and the text in each room, read again; in the last it has room.
    fn texts(&mut self, n: usize, rooms: &[usize]) {
        for number in [0, 1] {
            self.add(format!("length {}", number));
            for room in rooms {
                self.add(format!("write {} {}", number, room));
            }
            self.add_read(number, n);
        }
    }

    /// Blank; one row; two, with a change of the upper half between them where the bank has one; and every row of the largest bank.
    fn written_images(&mut self) {
        for n in [1, 2, 130, MOST_SECTORS] {
            self.image(n);
            self.texts(n, &TEXT_ROOMS);
            self.put(n * SECTOR - 1, &[0x00]);
            self.texts(n, &TEXT_ROOMS);
            self.put(0, &[0x7F]);
            self.texts(n, &TEXT_ROOMS);
        }
        // one that is refused leaves its buffer for the text, which is none
        self.texts(MOST_SECTORS, &TEXT_ROOMS[..3]);
        self.image(MOST_SECTORS);
        for sector in 0..MOST_SECTORS {
            let mut bytes = self.draw.bytes(SECTOR);
            bytes.iter_mut().step_by(16).for_each(|byte| *byte &= 0xFE);
            self.put(sector * SECTOR, &bytes);
        }
        self.texts(MOST_SECTORS, &LONG_ROOMS);
    }

    /// N and the image's length that do not fit each other, or no bank.
    fn wrong_images(&mut self) {
        for length in [0, 1, 511, 512, 513, 1_023, 1_024, 1_025, 251_391, 251_392, 251_393, 251_904, 252_416] {
            self.add(format!("image {}", length));
            if length > 0 {
                self.put(length - 1, &[0x00]);
            }
            for line in ["length 0", "length 1", "write 0 720896", "write 1 0", "write 0 74"] {
                self.add(line.to_string());
            }
            for n in [1, 2, 3, 490, 491].iter().chain(&BAD_NUMBERS) {
                self.add(format!("count {}", n));
                for (p, room) in [(0, 519), (0, 518), (1, 519), (1, 0), (999_999, 600), (999_999, 518)] {
                    self.add_packet(*n, p, room);
                }
            }
        }
    }

    /// At, over and past the image's end, and of no bytes.
    fn puts(&mut self) {
        for length in [0, 1, 512, 252_416] {
            self.add(format!("image {}", length));
            for offset in [0, 1, 2, 510, 511, 512, 513, 252_415, 252_416, 252_417, 999_999] {
                for bytes in ["-", "00", "aB01", "C0FFEE"] {
                    self.add(format!("put {} {}", offset, bytes));
                }
            }
            self.add("count 1".to_string());
            self.add("packet 1 0 519".to_string());
        }
    }

    fn requests(&mut self) {
        for word in ["start", "bank", "version", "end", "finish"] {
            for room in (0..24).chain(512..=524).chain(ROOMS) {
                self.add(format!("request {} {}", word, room));
            }
        }
        for number in [0, 1] {
            for n in (1..=MOST_SECTORS).step_by(1 + 6 * number) {
                self.add(format!("request write {} {} 519", number, n));
            }
            for n in [1, 32, 491].iter().chain(&BAD_NUMBERS) {
                for room in ROOMS {
                    self.add(format!("request write {} {} {}", number, n, room));
                }
            }
        }
    }

    /// Lines that are no request, and that what is held stays as it was.
    fn no_requests(&mut self) {
        self.add_text(&in_lf(&LISTING));
        self.image(1);
        self.put(7, &[0xA7]);
        for group in NO_REQUESTS {
            for line in group.split('|') {
                self.add(line.to_string());
            }
            self.add("count 1".to_string());
            self.add("packet 1 0 519".to_string());
        }
        self.add("more -".to_string());
        self.add_read(0, 3);
    }
}
