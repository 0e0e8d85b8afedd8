//! The hex texts that `sending` is tried with, each for a bank and an N.
use crate::bank::{self, MOST_SECTORS, SECTOR};
use crate::draw::Draw;
use crate::frame::checksum;
use crate::texts::{
    counted, data, half, in_lf, line, rows, sealed, start, upper, with_ends, without_last_end, END, LISTING,
};

pub struct Trial {
    pub text: Vec<u8>,
    pub bank: usize,
    pub n: usize,
}

pub fn all() -> Vec<Trial> {
    let mut cases = Cases { trials: Vec::new(), draw: Draw(0x4845_5854_4558) };
    cases.listing();
    cases.forms();
    cases.shortest();
    cases.ends_of_a_bank();
    cases.carries();
    cases.overlaps();
    cases.counts_and_types();
    cases.each_byte();
    cases.each_record_byte();
    cases.each_value();
    cases.faulty_lines();
    cases.two_faulty_lines();
    cases.behind_the_end();
    cases.drawn_texts();
    cases.drawn_bytes();
    cases.full_banks();
    cases.damaged_lines();
    cases.each_count();
    cases.long_lines();
    cases.trials
}

const NUMBERS: [usize; 5] = [1, 2, 3, 32, MOST_SECTORS];

/// No digits, those next to a digit among them, and what parts lines.
const STRANGE: [u8; 11] = [0x00, b'\n', b'\r', b' ', b'/', b':', b'@', b'G', b'`', b'g', 0xFF];

const DIGITS: &[u8] = b"0123456789ABCDEFabcdef";

/// LF, CR LF, and the text's end.
const LINE_ENDS: [&str; 3] = ["\n", "\r\n", ""];

/// Lines with one fault or two for a bank of at most 64 sectors, where the upper half is the bank's and there is data at offset 0x0A10 before.
pub fn faulty(number: usize, n: usize) -> Vec<String> {
    let past = (0x0A00 + n * SECTOR) as u16;
    let inside = data(0x0A20, &[0x5A, 0xC3]);
    let wrong_sum = |line: &str| line[..line.len() - 2].to_string() + if line.ends_with("00") { "01" } else { "00" };
    let mut lines: Vec<String> =
        ["", "\r", " ", ":", "::", ":0", ":00", ":00000001F", ":00000001FFF", ":00000001FF00", "00000001FF"]
            .iter()
            .map(|line| line.to_string())
            .collect();
    lines.push(END.to_string() + "00G");
    lines.push(inside[1..].to_string());
    lines.push(inside.clone() + " ");
    lines.push(inside.clone() + "\r");
    lines.push(" ".to_string() + &inside);
    lines.push(inside.replace("5A", "5G"));
    // A count of one more and one less than there are bytes, with a sum that is right.
    lines.push(sealed(&[3, 0x0A, 0x20, 0, 0x5A, 0xC3]));
    lines.push(sealed(&[1, 0x0A, 0x20, 0, 0x5A, 0xC3]));
    // H2 alone, and before each that stands behind it
    lines.push(wrong_sum(&inside));
    lines.push(wrong_sum(END));
    lines.push(":0000000100".to_string());
    lines.push(wrong_sum(&upper(half(number))));
    let third = [
        counted(0, 2, &[0x10, 0x00]),
        counted(0, 3, &[0, 0, 0x38, 0]),
        counted(0, 6, &[]),
        counted(0, 0xFF, &[]),
        counted(0x0A20, 0x80, &[1]),
        counted(0, 1, &[0]),
        counted(1, 1, &[]),
        counted(0x0100, 1, &[]),
        counted(0, 4, &[]),
        counted(0, 4, &[0x10]),
        counted(0, 4, &[0x10, 0x00, 0x00]),
        counted(1, 4, &[0x10, 0x00]),
        counted(0x0A00, 4, &[0x10, 0x00]),
        counted(0, 5, &[0x10, 0x00, 0x0A]),
        counted(0, 5, &[0x10, 0x00, 0x0A, 0x00, 0x00]),
        counted(0, 5, &[]),
        counted(1, 5, &[0x10, 0x00, 0x0A, 0x00]),
        counted(0x0A00, 5, &[0x10, 0x00, 0x0A, 0x00]),
        counted(0x0900, 7, &[0x00]),
    ];
    // Outside, and outside as well as below the end of earlier data
    let fourth = [
        data(past, &[1]),
        data(past - 1, &[1, 2]),
        data(past - 128, &[7; 129]),
        data(0xFFFF, &[1, 2]),
        data(0x0000, &[1]),
        data(0x09FF, &[1]),
        data(0x09FF, &[1, 2]),
        data(0x0980, &[7; 129]),
    ];
    let fifth = [data(0x0A0F, &[1]), data(0x0A00, &[1; 17]), data(0x0A10, &[1]), data(0x0A10, &[1; 255])];
    for line in third.iter().chain(&fourth).chain(&fifth) {
        lines.push(line.clone());
        lines.push(wrong_sum(line));
        lines.push(line.clone() + "0");
    }
    lines
}

/// A good text for `faulty`.
pub fn sound(number: usize) -> Vec<String> {
    let lines =
        [data(0x0A10, &[0xDE, 0xAD]), start(0x1000_0A00), data(0x0A30, &[0xBE, 0xEF, 0x01]), data(0x0B00, &[0x02])];
    [&[upper(half(number))], &lines[..], &[END.to_string()]].concat()
}

struct Cases {
    trials: Vec<Trial>,
    draw: Draw,
}

impl Cases {
    fn add(&mut self, text: Vec<u8>, bank: usize, n: usize) {
        self.trials.push(Trial { text, bank, n });
    }

    fn add_lines<T: AsRef<str>>(&mut self, lines: &[T], bank: usize, n: usize) {
        self.add(in_lf(lines), bank, n);
    }

    fn one_of<T: Copy>(&mut self, of: &[T]) -> T {
        of[self.draw.below(of.len())]
    }

    fn listing(&mut self) {
        for number in [0, 1] {
            for n in NUMBERS {
                self.add_lines(&LISTING, number, n);
                let there = LISTING.map(|line| if line == LISTING[0] { upper(half(1)) } else { line.to_string() });
                self.add_lines(&there, number, n);
            }
        }
        for end in ["\n", "\r\n", "\r", "\n\r", "\r\r\n", "\n\n", " \n", ""] {
            self.add(with_ends(&LISTING, end), 0, 3);
            self.add(without_last_end(&LISTING, end), 0, 3);
        }
    }

    /// Good texts in every form that one may have.
    fn forms(&mut self) {
        for number in [0, 1] {
            for n in [1, 3, 32] {
                for _ in 0..12 {
                    let lines = self.good_lines(number, n);
                    for end in ["\n", "\r\n"] {
                        self.add(with_ends(&lines, end), number, n);
                        self.add(without_last_end(&lines, end), number, n);
                        self.add(with_ends(&lines, end).to_ascii_lowercase(), number, n);
                    }
                    let text = self.styled(&lines);
                    self.add(text, number, n);
                }
            }
        }
    }

    /// Line ends and digits of each line, and whether the last ends, as they are drawn.
    fn styled(&mut self, lines: &[String]) -> Vec<u8> {
        let mut text = Vec::new();
        for line in lines {
            for byte in line.bytes() {
                let lower = self.draw.below(2) == 0;
                text.push(if lower { byte.to_ascii_lowercase() } else { byte });
            }
            text.extend(self.one_of(&["\n", "\r\n"]).bytes());
        }
        if self.draw.below(3) > 0 {
            return text;
        }
        let ended = text.strip_suffix(b"\r\n").or_else(|| text.strip_suffix(b"\n"));
        ended.expect("a line's end").to_vec()
    }

    /// Data in ascending order from the bank's start to its end, with gaps and without, and other records between.
    fn good_lines(&mut self, number: usize, n: usize) -> Vec<String> {
        let (mut at, end) = (bank::start(number), bank::start(number) + n * SECTOR);
        let mut lines = vec![upper(half(number))];
        let mut held = half(number);
        at += self.draw.below(40);
        for _ in 0..1 + self.draw.below(8) {
            let most = 1 + self.one_of(&[0, 15, 31, 254]);
            let size = (1 + self.draw.below(most)).min(end.saturating_sub(at));
            if size == 0 {
                break;
            }
            if held != (at >> 16) as u16 || self.draw.below(4) == 0 {
                held = (at >> 16) as u16;
                lines.push(upper(held));
            }
            let bytes = self.draw.bytes(size);
            lines.push(data(at as u16, &bytes));
            at += size;
            match self.draw.below(8) {
                0 => lines.push(data(self.draw.below(65_536) as u16, &[])),
                1 => lines.push(start(self.draw.below(1 << 31) as u32)),
                _ => (),
            }
            at += self.one_of(&[0, 0, 1, 7, 100, n * SECTOR / 6]);
        }
        lines.push(END.to_string());
        lines
    }

    /// Next to nothing, and no end record.
    fn shortest(&mut self) {
        let few = [
            "", "\n", "\r", "\r\n", "\n\n", "\r\r", "\r\r\n", "\n\r", ":", ":\n", ":\r\n", ":\r", "::", "0", " ", "\0",
        ];
        for text in few {
            self.add(text.into(), 0, 1);
            self.add([text, END].concat().into(), 0, 1);
            self.add([END, text].concat().into(), 0, 1);
            self.add([END, "\n", text].concat().into(), 0, 1);
            self.add([END, "\r\n", text].concat().into(), 0, 1);
            self.add([LISTING[0], "\n", text].concat().into(), 0, 1);
            self.add([LISTING[0], text].concat().into(), 0, 1);
        }
        let lines = sound(0);
        for count in 0..lines.len() {
            for end in ["\n", "\r\n"] {
                self.add(with_ends(&lines[..count], end), 0, 1);
                self.add(without_last_end(&lines[..count], end), 0, 1);
            }
        }
        let whole = in_lf(&lines);
        for count in 0..whole.len() {
            self.add(whole[..count].to_vec(), 0, 1);
            self.add(whole[count..].to_vec(), 0, 1);
        }
    }

    /// Data at, over and beside a bank's first and last byte; its neighbours' too.
    fn ends_of_a_bank(&mut self) {
        for number in [0, 1] {
            for n in NUMBERS {
                let (first, past) = (bank::start(number), bank::start(number) + n * SECTOR);
                let counts: &[usize] = if n == MOST_SECTORS { &[1, 255] } else { &[1, 2, 16, 255] };
                for count in counts {
                    for at in [first - count - 1, first - count, first - 1, first, first + 1] {
                        self.add_data(&[(at, *count)], number, n);
                    }
                    for at in [past - count - 1, past - count, past - count + 1, past - 1, past, past + 1] {
                        self.add_data(&[(at, *count)], number, n);
                    }
                    self.add_data(&[(first, *count), (past - count, *count)], number, n);
                }
                self.add_data(&[(first, 1), (past - 1, 1)], 1 - number, n);
            }
        }
        for n in [1, 32] {
            for half in [0x0000, 0x0010, 0x0FFF, 0x1001, 0x13FF, 0x1400, 0x1401, 0x9000, 0xFFFF] {
                let lines = [upper(half), data(0x0A00, &[1]), END.to_string()];
                self.add_lines(&lines, 0, n);
                self.add_lines(&lines, 1, n);
            }
        }
        // The upper half is 0 at first.
        for offset in [0x0000, 0x0A00, 0x1000, 0xFFFF] {
            self.add_lines(&[data(offset, &[1]), END.to_string()], 0, 32);
            self.add_lines(&[data(offset, &[]), END.to_string()], 0, 32);
            self.add_lines(&[start(0x1000_0A00), data(offset, &[1]), upper(0x1000), END.to_string()], 0, 32);
        }
    }

    /// So many drawn bytes at each address.
    fn add_data(&mut self, stretches: &[(usize, usize)], number: usize, n: usize) {
        let mut lines = Vec::new();
        for (at, count) in stretches {
            let bytes = self.draw.bytes(*count);
            lines.extend(rows(*at, &bytes, 255));
        }
        lines.push(END.to_string());
        self.add_lines(&lines, number, n);
    }

    /// Data that runs on past offset 0xFFFF, and what may come behind it. 0x10010000 is byte 62,976 of bank 0, in sector 124.
    fn carries(&mut self) {
        for number in [0, 1] {
            for n in [123, 124] {
                for (offset, count) in
                    [(0xFFFF, 1), (0xFFFF, 2), (0xFFF0, 16), (0xFFF0, 17), (0xFFF8, 16), (0xFF02, 255)]
                {
                    let bytes = self.draw.bytes(count);
                    let over = [upper(half(number)), data(offset, &bytes)];
                    let next = (offset as usize + count) % 65_536;
                    let behind = [
                        vec![],
                        vec![data(next as u16, &[1])],
                        vec![data(0x0A00, &[1])],
                        vec![upper(half(number)), data(next as u16, &[1])],
                        vec![upper(half(number) + 1), data(next as u16, &[1])],
                        vec![upper(half(number) + 1), data((next as u16).wrapping_sub(1), &[1])],
                        vec![upper(half(number) + 1), data(next as u16 + 1, &[1])],
                    ];
                    for lines in behind {
                        self.add_lines(&[&over[..], &lines, &[END.to_string()]].concat(), number, n);
                    }
                }
            }
        }
        // Past the last address of 32 bits, and from below the bank
        for (half, offset, count) in
            [(0xFFFF, 0xFFFF, 2), (0xFFFF, 0xFF80, 255), (0xFFFF, 0xFFFF, 1), (0x0FFF, 0xFFFF, 255)]
        {
            for number in [0, 1] {
                let bytes = self.draw.bytes(count);
                self.add_lines(&[upper(half), data(offset, &bytes), END.to_string()], number, 32);
            }
        }
    }

    /// Data before, at and behind the end of earlier data, with nothing, no bytes and another upper half between.
    fn overlaps(&mut self) {
        let between: [&[String]; 6] = [
            &[],
            &[data(0x0000, &[])],
            &[data(0x0B00, &[])],
            &[data(0xFFFF, &[])],
            &[upper(0), upper(0x1000)],
            &[start(0)],
        ];
        for lines in between {
            for size in [1, 2, 16] {
                let earlier = self.draw.bytes(size);
                for off in [-(size as i32) - 1, -(size as i32), -1, 0, 1] {
                    for count in [0, 1, 2, 32] {
                        let bytes = self.draw.bytes(count);
                        let later = data((0x0A40 + size as i32 + off) as u16, &bytes);
                        let first = [upper(0x1000), data(0x0A40, &earlier)];
                        self.add_lines(&[&first[..], lines, &[later, END.to_string()]].concat(), 0, 1);
                    }
                }
            }
        }
        // Against the latest of several, and the same data twice
        let lines = [upper(0x1000), data(0x0A00, &[1, 2]), data(0x0A04, &[3]), data(0x0A08, &[4])];
        for offset in 0x09FE..0x0A0C {
            for count in [1, 2] {
                let bytes = self.draw.bytes(count);
                self.add_lines(&[&lines[..], &[data(offset, &bytes), END.to_string()]].concat(), 0, 1);
            }
        }
    }

    /// Each type with each number of bytes and an address field of 0 and others.
    fn counts_and_types(&mut self) {
        for kind in [0, 1, 2, 3, 4, 5, 6, 0x10, 0x80, 0xFF] {
            for count in 0..=6 {
                for offset in [0x0000, 0x0001, 0x0100, 0x0A00, 0xFFFF] {
                    let bytes: Vec<u8> = [0x10, 0x00, 0x0A, 0x00, 0x55, 0xAA][..count].to_vec();
                    let lines = [upper(0x1000), counted(offset, kind, &bytes), data(0x0A10, &[0x77]), END.to_string()];
                    self.add_lines(&lines, 0, 1);
                }
            }
        }
        for kind in 0..=255 {
            self.add_lines(&[counted(0, kind, &[]), END.to_string()], 0, 1);
            self.add_lines(&[upper(0x1000), counted(0x0A00, kind, &[0x12, 0x34]), END.to_string()], 0, 1);
        }
        for count in 0..=255 {
            let bytes = self.draw.bytes(count);
            self.add_lines(&[upper(0x1400), data(0x0A00, &bytes), END.to_string()], 1, 1);
        }
    }

    /// Small good texts, with each byte another, away, twice and behind a strange one.
    fn each_byte(&mut self) {
        let mixed =
            [upper(0x1400), start(0x1400_0A00), data(0x0BFE, &[0x9A, 0xFC]), data(0x0001, &[]), END.to_string()];
        let texts = [(in_lf(&LISTING), 0, 3), (without_last_end(&mixed, "\r\n").to_ascii_lowercase(), 1, 1)];
        for (text, number, n) in texts {
            for at in 0..text.len() {
                let (byte, drawn) = (text[at], self.draw.byte());
                let others = [b'0', b'F', byte ^ 0x20, byte ^ 1, byte.wrapping_add(1), drawn];
                for other in STRANGE.iter().chain(&others) {
                    let mut changed = text.clone();
                    changed[at] = *other;
                    self.add(changed, number, n);
                }
                let mut without = text.clone();
                without.remove(at);
                self.add(without, number, n);
                for more in [byte, b'\r', drawn] {
                    let mut with = text.clone();
                    with.insert(at, more);
                    self.add(with, number, n);
                }
            }
        }
    }

    /// Each byte of each record another, under a sum that is right.
    fn each_record_byte(&mut self) {
        let records: [&[u8]; 5] = [
            &[2, 0, 0, 4, 0x10, 0x00],
            &[4, 0x0A, 0x00, 0, 0xDE, 0xAD, 0xBE, 0xEF],
            &[4, 0, 0, 5, 0x10, 0x00, 0x0A, 0x01],
            &[3, 0x0B, 0xFD, 0, 0x01, 0x02, 0x03],
            &[0, 0, 0, 1],
        ];
        for (k, record) in records.iter().enumerate() {
            for at in 0..record.len() {
                let drawn = self.draw.bytes(6);
                for by in [1, 2, 4, 8, 16, 32, 64, 128, 255, 254, 252].iter().chain(&drawn) {
                    let mut other = record.to_vec();
                    other[at] = other[at].wrapping_add(*by);
                    let mut lines: Vec<String> = records.iter().map(|record| sealed(record)).collect();
                    lines[k] = sealed(&other);
                    self.add_lines(&lines, 0, 1);
                }
            }
        }
    }

    /// Every value of a byte for a colon, a digit of a count and of data, CR and LF; and before CR and a colon.
    fn each_value(&mut self) {
        let text = without_last_end(&[upper(0x1000), data(0x0A00, &[0x00, 0x5A]), END.to_string()], "\r\n");
        let second = 17;
        for at in [second, second + 1, second + 12, second + 15, second + 16] {
            for byte in 0..=255 {
                let mut changed = text.clone();
                changed[at] = byte;
                self.add(changed, 0, 1);
            }
        }
        for at in [second + 15, second + 17] {
            for byte in 0..=255 {
                let mut with = text.clone();
                with.insert(at, byte);
                self.add(with, 0, 1);
            }
        }
        // Every sum over the same bytes
        let bytes = [2, 0x0A, 0x00, 0, 0x12, 0xF4];
        for by in 0..=255 {
            let row = line(&[&bytes[..], &[checksum(&bytes).wrapping_add(by)]].concat());
            self.add_lines(&[upper(0x1000), row, END.to_string()], 0, 1);
        }
    }

    /// Each faulty line at each place of a good text, and as a text's last.
    fn faulty_lines(&mut self) {
        let lines = sound(0);
        for faulty in faulty(0, 2) {
            for at in 0..=lines.len() {
                let mut with = lines.clone();
                with.insert(at, faulty.clone());
                self.add_lines(&with, 0, 2);
                with.truncate(at + 1);
                self.add(without_last_end(&with, "\r\n"), 0, 2);
            }
        }
        for (k, faulty) in faulty(1, 2).into_iter().enumerate() {
            let mut with = sound(1);
            with.insert(k % lines.len(), faulty);
            self.add_lines(&with, 1, 2);
        }
    }

    /// The first line wins.
    fn two_faulty_lines(&mut self) {
        let (lines, faulty) = (sound(0), faulty(0, 2));
        for _ in 0..400 {
            let (one, other) = (self.draw.below(faulty.len()), self.draw.below(faulty.len()));
            let (at, from) = (self.draw.below(lines.len() + 1), self.draw.below(lines.len() + 1));
            let mut with = lines.clone();
            with.insert(at, faulty[one].clone());
            with.insert(from, faulty[other].clone());
            self.add_lines(&with, 0, 2);
        }
    }

    fn behind_the_end(&mut self) {
        let behind = [
            "",
            "\r",
            " ",
            "\0",
            "x",
            ":",
            END,
            ":00000001FE",
            LISTING[0],
            LISTING[1],
            LISTING[3],
            "::",
            "\r\r",
            "\t",
            "\u{1a}",
        ];
        for number in [0, 1] {
            let mut lines = sound(number);
            for line in behind {
                lines.push(line.to_string());
                self.add(with_ends(&lines, "\n"), number, 1);
                self.add(with_ends(&lines, "\r\n"), number, 1);
                self.add(without_last_end(&lines, "\n"), number, 1);
                self.add(without_last_end(&lines, "\r\n"), number, 1);
                lines.push("\r".to_string());
                self.add(with_ends(&lines, "\n"), number, 1);
                lines.truncate(lines.len() - 2);
            }
            // An end record before each line
            for at in 0..lines.len() {
                let mut with = lines.clone();
                with.insert(at, END.to_string());
                self.add_lines(&with, number, 1);
            }
        }
    }

    /// Good texts of no plan, and each then with one change of no plan.
    fn drawn_texts(&mut self) {
        for k in 0..1000 {
            let (number, n) =
                (self.draw.below(2), if k % 100 == 0 { MOST_SECTORS } else { self.one_of(&[1, 1, 2, 3, 4, 9, 32]) });
            let lines = self.good_lines(number, n);
            let text = self.styled(&lines);
            let at = self.draw.below(text.len());
            let mut other = text.clone();
            match self.draw.below(4) {
                0 => other[at] = self.draw.byte(),
                1 => other[at] = self.one_of(DIGITS),
                2 => drop(other.remove(at)),
                _ => other.insert(at, self.draw.byte()),
            }
            self.add(text, number, n);
            self.add(other, number, n);
            let mut mixed = lines;
            let (one, two) = (self.draw.below(mixed.len()), self.draw.below(mixed.len()));
            match self.draw.below(3) {
                0 => mixed.swap(one, two),
                1 => drop(mixed.remove(one)),
                _ => mixed.insert(two, mixed[one].clone()),
            }
            let text = self.styled(&mixed);
            self.add(text, number, n);
        }
    }

    /// Bytes of no plan, of all values and of those that hex text has.
    fn drawn_bytes(&mut self) {
        for length in 0..120 {
            let bytes = self.draw.bytes(length);
            let known = b":0123456789ABCDEFabcdef\r\n\n:0000000";
            let near = bytes.iter().map(|b| known[*b as usize % known.len()]).collect();
            self.add(bytes, 0, 1);
            self.add(near, 0, 1);
        }
    }

    /// Every byte of the board's bank and of the bench's, in rows of 16, 32 and 255; and a byte more.
    fn full_banks(&mut self) {
        for (number, n, row) in
            [(0, MOST_SECTORS, 16), (1, MOST_SECTORS, 32), (0, MOST_SECTORS, 255), (1, 32, 16), (0, 32, 255)]
        {
            let bytes = self.draw.bytes(n * SECTOR);
            let mut lines = rows(bank::start(number), &bytes, row);
            lines.push(END.to_string());
            self.add(with_ends(&lines, "\r\n"), number, n);
            let past = bank::start(number) + n * SECTOR;
            lines.pop();
            lines.extend([upper((past >> 16) as u16), data(past as u16, &[0]), END.to_string()]);
            if n < MOST_SECTORS {
                self.add_lines(&lines, number, n);
                self.add_lines(&lines, number, n + 1);
            } else if row == 32 {
                self.add_lines(&lines, number, n);
            }
        }
    }

    /// A faulty line as a text's first, its third or its last.
    fn add_line(&mut self, line: &[u8], end: &str) {
        let lines = sound(0);
        let (before, behind) = self.one_of(&[(0, 5), (2, 5), (5, 6)]);
        let behind = if end.is_empty() { &[] } else { &lines[behind..] };
        self.add([&in_lf(&lines[..before]), line, end.as_bytes(), &in_lf(behind)].concat(), 0, 1);
    }

    fn add_ended(&mut self, line: &[u8]) {
        let end = self.one_of(&LINE_ENDS);
        self.add_line(line, end);
    }

    fn in_either_case(&mut self, line: &str) -> Vec<u8> {
        let lower = self.draw.below(2) == 0;
        if lower { line.to_ascii_lowercase() } else { line.to_string() }.into_bytes()
    }

    /// Lines of each form, with each byte another, away and twice, and cut before it; the longest with fewer others and ends.
    fn damaged_lines(&mut self) {
        let drawn = self.draw.bytes(255);
        let forms = [upper(0x1000), END.to_string(), start(0x1000_0A00)];
        let counts = [0, 1, 16, 255].map(|count| data(0x0B00, &drawn[..count]));
        for form in forms.iter().chain(&counts) {
            let long = form.len() > 100;
            for at in 0..form.len() {
                let line = self.in_either_case(form);
                let digits = [self.one_of(DIGITS), self.one_of(DIGITS)];
                let few = [self.one_of(&STRANGE), digits[0]];
                let others = if long { few.to_vec() } else { [&STRANGE[..], &digits].concat() };
                for other in others {
                    let mut changed = line.clone();
                    changed[at] = other;
                    self.add_ended(&changed);
                }
                self.add_ended(&[&line[..at], &line[at + 1..]].concat());
                self.add_ended(&[&line[..=at], &line[at..]].concat());
                let one = [self.one_of(&LINE_ENDS)];
                for end in if long { &one[..] } else { &LINE_ENDS } {
                    self.add_line(&line[..at], end);
                }
            }
        }
    }

    /// Data of every count: with a wrong sum, a digit less and one more, and digits on to byte 599 with a strange one behind them.
    fn each_count(&mut self) {
        for count in 0..=255 {
            let bytes = self.draw.bytes(count);
            let line = self.in_either_case(&data(0x0A40, &bytes));
            let short = &line[..line.len() - 1];
            let other = if line.ends_with(b"0") { b"1" } else { b"0" };
            self.add_ended(&[short, other].concat());
            self.add_ended(short);
            self.add_ended(&[&line[..], b"0"].concat());
            let strange = self.one_of(&STRANGE);
            self.add_ended(&[&line[..], &vec![b'0'; 599 - line.len()], &[strange]].concat());
        }
    }

    /// Lines of every length around the longest record's, and far above it, of digits alone; of 600 bytes that are one and the same; and of digits with a
    /// strange byte among them, around the counted length and elsewhere.
    fn long_lines(&mut self) {
        for length in (510..=600).chain([1_023, 4_099]) {
            let digits = vec![self.one_of(DIGITS); length - 3];
            for count in [":FE", ":Ff"] {
                self.add_ended(&[count.as_bytes(), &digits].concat());
            }
        }
        for byte in STRANGE.iter().chain(b"09AFaf") {
            self.add_ended(&[*byte; 600]);
            self.add_ended(&[&b":"[..], &[*byte; 599]].concat());
        }
        for count in [0x00, 0x01, 0x0F, 0x10, 0x7F, 0x80, 0xF0, 0xFE, 0xFF] {
            let good = data(0x0A40, &vec![0x5A; count]);
            let drawn = self.draw.below(600);
            for at in (0..6).chain(good.len() - 3..good.len() + 3).chain([300, drawn, 598, 599]) {
                let mut line = self.in_either_case(&good);
                line.resize(600, b'7');
                line[at] = self.one_of(&STRANGE);
                self.add_ended(&line);
            }
        }
    }
}
