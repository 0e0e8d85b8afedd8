//! The request lines on banks: sound ones of many shapes, each then damaged in one place. The same lines at each run.
use crate::bank::{MOST_SECTORS, SECTOR};
use crate::crc::crc32;
use crate::draw::Draw;
use crate::hex;

pub fn all() -> Vec<String> {
    let mut cases = Cases { lines: Vec::new(), draw: Draw(0x4241_4E4B) };
    cases.places();
    cases.sound_banks();
    cases.drawn_banks();
    cases.damaged_banks();
    cases.edges();
    cases.counts();
    cases.into_the_table();
    cases.lengths();
    cases.no_requests();
    cases.lines
}

const COUNTS: [usize; 5] = [1, 2, 3, 29, 30];

/// By the word that they begin with; `|` parts one line from the next.
const NO_REQUESTS: [&str; 6] = [
    "layout|layout 0|layout 0 |layout 2 1|layout 00 1|layout - 1|layout 0 -|layout 0 x|layout 0 1000000|layout 0 1 1|layout  1",
    "sectors|sectors |sectors -|sectors -512|sectors 0x200|sectors 1000000|sectors 512 512|sectors  512|sectors 512 ",
    "check|check |check -|check 252417|check 999999|check 1000000|check 512 |check  512|check 512  0:00|check 512 0:00 |check x 0:00",
    "check 512 0|check 512 0:|check 512 :00|check 512 0:0|check 512 0:0g|check 512 0~|check 512 ~1|check 512 0~x|check 512 0;00",
    "check 512 512:00|check 512 511:0000|check 512 513:-|check 512 0~513|check 512 512~1|check 512 513~0|check 512 0:00~1|check 0 0:00",
    "body|body 0|body 0 |body x 512|body - 512|body 1000000 512|body 0 252417|body 0 512 |body 0 512 512:00|body 0  512|body 0512",
];

#[derive(Clone, Copy)]
pub struct Stretch {
    pub from: usize,
    pub size: usize,
}

impl Stretch {
    pub fn end(self) -> usize {
        self.from + self.size
    }
}

pub fn table_end(count: usize) -> usize {
    8 + 12 * count
}

/// What a bank holds, and the pieces of a line that say so.
#[derive(Clone)]
pub struct Bank {
    pub bytes: Vec<u8>,
    pieces: String,
    stretches: Vec<Stretch>,
}

impl Bank {
    pub fn blank(length: usize) -> Bank {
        Bank { bytes: vec![0xFF; length], pieces: String::new(), stretches: Vec::new() }
    }

    fn put(&mut self, at: usize, bytes: &[u8]) {
        self.bytes[at..at + bytes.len()].copy_from_slice(bytes);
        self.pieces += &format!(" {}:{}", at, hex::text(bytes));
    }

    /// A ramp, as far as it lies in the bank.
    fn put_ramp(&mut self, stretch: Stretch) {
        let from = stretch.from.min(self.bytes.len());
        let size = stretch.size.min(self.bytes.len() - from);
        if size > 0 {
            (0..size).for_each(|i| self.bytes[from + i] = (i % 251) as u8);
            self.pieces += &format!(" {}~{}", from, size);
        }
    }

    /// The table's entries say where the stretches are, whether these lie well or not, and each CRC is right: where a stretch lies badly,
    /// that is the only fault.
    pub fn laid_out(length: usize, stretches: &[Stretch]) -> Bank {
        let mut bank = Bank::blank(length);
        for stretch in stretches {
            bank.put_ramp(*stretch);
        }
        bank.stretches = stretches.to_vec();
        let mut table = vec![0x04, 0x00, 1, stretches.len() as u8];
        for stretch in stretches {
            table.extend(bank.entry(*stretch));
        }
        table.extend(crc32(&table).to_be_bytes());
        bank.put(0, &table);
        bank
    }

    pub fn entry(&self, stretch: Stretch) -> [u8; 12] {
        let held = self.bytes.get(stretch.from..stretch.end()).unwrap_or_default();
        let numbers = [stretch.from as u32, stretch.size as u32, crc32(held)];
        numbers.map(u32::to_be_bytes).concat().try_into().expect("three numbers")
    }

    pub fn changed(&self, at: usize, bytes: &[u8]) -> Bank {
        let mut other = self.clone();
        other.put(at, bytes);
        other
    }

    /// With the CRC of the table made right, where the count says that it stands.
    pub fn resealed(&self) -> Bank {
        let at = 4 + 12 * self.bytes[3] as usize;
        if at + 4 > self.bytes.len() {
            return self.clone();
        }
        self.changed(at, &crc32(&self.bytes[..at]).to_be_bytes())
    }

    /// What lies before, between and behind the bodies, where there is any.
    pub fn gaps(&self) -> Vec<(usize, usize)> {
        let starts = self.stretches.iter().map(|s| s.from).chain([self.bytes.len()]);
        let ends = [table_end(self.stretches.len())].into_iter().chain(self.stretches.iter().map(|s| s.end()));
        ends.zip(starts).filter(|(end, start)| end < start).collect()
    }
}

/// One byte each behind the table, one byte each at the bank's end, the bank filled.
pub fn touching(length: usize, count: usize) -> Vec<Vec<Stretch>> {
    let (table, room) = (table_end(count), length - table_end(count));
    let filling = |i| {
        let (from, end) = (table + room * i / count, table + room * (i + 1) / count);
        Stretch { from, size: end - from }
    };
    vec![
        (0..count).map(|i| Stretch { from: table + i, size: 1 }).collect(),
        (0..count).map(|i| Stretch { from: length - count + i, size: 1 }).collect(),
        (0..count).map(filling).collect(),
    ]
}

/// A gap before, between any two and behind; and the same with the first right behind the table and the last at the bank's end.
pub fn apart(length: usize, count: usize) -> Vec<Vec<Stretch>> {
    let (table, slot) = (table_end(count), (length - table_end(count)) / count);
    let size = (slot / 3).max(1);
    let spread: Vec<Stretch> = (0..count).map(|i| Stretch { from: table + slot * i + size, size }).collect();
    let mut outward = spread.clone();
    outward[count - 1].from = length - size;
    outward[0].from = table;
    vec![spread, outward]
}

struct Cases {
    lines: Vec<String>,
    draw: Draw,
}

impl Cases {
    fn check(&mut self, bank: &Bank) {
        self.lines.push(format!("check {}{}", bank.bytes.len(), bank.pieces));
    }

    fn body(&mut self, i: usize, bank: &Bank) {
        self.lines.push(format!("body {} {}{}", i, bank.bytes.len(), bank.pieces));
    }

    /// A bank with a fault; of some of them a body is asked for too.
    fn fault(&mut self, bank: &Bank) {
        self.check(bank);
        if self.lines.len() % 8 == 0 {
            self.body(0, bank);
        }
    }

    fn places(&mut self) {
        for n in (0..=MOST_SECTORS + 2).chain([512, 1024, 65_535, 65_536, 131_563, 999_999]) {
            for bank in 0..2 {
                self.lines.push(format!("layout {} {}", bank, n));
            }
        }
        let multiples = (1..=MOST_SECTORS + 2).flat_map(|n| n * SECTOR - 1..=n * SECTOR + 1);
        for length in multiples.chain([0, 1, 256, 768, 999_424, 999_999]) {
            self.lines.push(format!("sectors {}", length));
        }
    }

    fn sound_banks(&mut self) {
        for n in [1, 2, 32, MOST_SECTORS] {
            for count in COUNTS {
                for stretches in [touching(n * SECTOR, count), apart(n * SECTOR, count)].concat() {
                    self.sound(&Bank::laid_out(n * SECTOR, &stretches));
                }
            }
        }
    }

    /// Its bodies, and the numbers of bodies that it does not have. A large bank's only at both ends, since the peer is slow.
    fn sound(&mut self, bank: &Bank) {
        let count = bank.stretches.len();
        self.check(bank);
        for i in 0..count {
            if bank.bytes.len() < 100_000 || i == 0 || i == count - 1 {
                self.body(i, bank);
            }
        }
        for past in [count, count + 1, 256, 999_999] {
            self.body(past, bank);
        }
    }

    /// Bodies of drawn bytes in drawn places, some of them touching.
    fn drawn_banks(&mut self) {
        for k in 0..200 {
            let (count, length) = (1 + self.draw.below(30), SECTOR * (1 + self.draw.below(4)));
            let slot = (length - table_end(count)) / count;
            let mut end = table_end(count);
            let mut stretches = Vec::new();
            for _ in 0..count {
                let from = end + self.draw.below(3) * self.draw.below(slot / 2);
                let size = 1 + self.draw.below(slot);
                stretches.push(Stretch { from, size });
                end = from + size;
            }
            stretches.retain(|s| s.end() <= length);
            if stretches.is_empty() {
                continue;
            }
            let mut bank = Bank::laid_out(length, &stretches);
            for (i, stretch) in stretches.iter().enumerate().take(4) {
                let drawn = self.draw.bytes(stretch.size.min(100));
                bank.put(stretch.from, &drawn);
                bank.put(4 + 12 * i, &bank.entry(*stretch));
            }
            let bank = bank.resealed();
            self.check(&bank);
            self.body(k % stretches.len(), &bank);
            let (at, by) = (self.draw.below(length), 1 + self.draw.below(255) as u8);
            self.fault(&bank.changed(at, &[bank.bytes[at].wrapping_add(by)]));
        }
    }

    fn damaged_banks(&mut self) {
        for count in [1, 2, 3] {
            for stretches in apart(SECTOR, count) {
                let bank = Bank::laid_out(SECTOR, &stretches);
                self.table_bytes(&bank, 1);
                self.damaged(&bank);
            }
        }
        for (n, count, step) in [(1, 30, 1), (2, 29, 5), (32, 3, 3), (32, 30, 17)] {
            let bank = Bank::laid_out(n * SECTOR, &apart(n * SECTOR, count)[0]);
            self.table_bytes(&bank, step);
            self.damaged(&bank);
        }
        for stretches in touching(2 * SECTOR, 3) {
            self.damaged(&Bank::laid_out(2 * SECTOR, &stretches));
        }
        let large = Bank::laid_out(MOST_SECTORS * SECTOR, &apart(MOST_SECTORS * SECTOR, 2)[0]);
        self.gap_bytes(&large);
        self.body_bytes(&large);
    }

    /// Each byte of the table changed, with and without its CRC made right again.
    fn table_bytes(&mut self, bank: &Bank, step: usize) {
        let end = table_end(bank.stretches.len());
        for at in (0..8).chain((8..end - 4).step_by(step)).chain(end - 4..end) {
            let byte = bank.bytes[at];
            for other in [byte.wrapping_add(1), byte ^ 0x80] {
                let changed = bank.changed(at, &[other]);
                self.fault(&changed);
                if at < end - 4 {
                    self.fault(&changed.resealed());
                }
            }
        }
    }

    fn damaged(&mut self, bank: &Bank) {
        self.header(bank);
        self.table_crc(bank);
        self.entries(bank);
        self.gap_bytes(bank);
        self.body_bytes(bank);
    }

    fn header(&mut self, bank: &Bank) {
        let count = bank.stretches.len() as u8;
        let ids = [[0x00, 0x04], [0x04, 0x04], [0x00, 0x00], [0x40, 0x00], [0xFF, 0xFF]].map(|id| (0, id.to_vec()));
        let editions = [0, 2, 0x10, 0xFF].map(|edition| (2, vec![edition]));
        let counts = [0, count - 1, count + 1, 30, 31, 32, 128, 255].map(|count| (3, vec![count]));
        for (at, bytes) in ids.into_iter().chain(editions).chain(counts) {
            let changed = bank.changed(at, &bytes);
            self.fault(&changed);
            self.fault(&changed.resealed());
        }
    }

    /// Another way to make a CRC, or another reach of it.
    fn table_crc(&mut self, bank: &Bank) {
        let at = table_end(bank.stretches.len()) - 4;
        let crc = crc32(&bank.bytes[..at]);
        let reaches = [crc32(&bank.bytes[4..at]), crc32(&bank.bytes[..at + 4]), crc32(&bank.bytes)];
        for other in [!crc, crc.swap_bytes(), crc.reverse_bits(), 0, u32::MAX].into_iter().chain(reaches) {
            self.fault(&bank.changed(at, &other.to_be_bytes()));
        }
    }

    /// A wrong CRC of a body, an entry low byte first, two entries in the other order, one twice; the table's CRC is right.
    fn entries(&mut self, bank: &Bank) {
        let count = bank.stretches.len();
        let entry = |i: usize| bank.bytes[4 + 12 * i..16 + 12 * i].to_vec();
        for i in [0, count / 2, count - 1] {
            let at = 4 + 12 * i;
            let crc = crc32(&bank.bytes[bank.stretches[i].from..bank.stretches[i].end()]);
            for other in [!crc, crc.swap_bytes(), crc.wrapping_add(1), 0] {
                self.fault(&bank.changed(at + 8, &other.to_be_bytes()).resealed());
            }
            let low_first: Vec<u8> = entry(i).chunks(4).flat_map(|number| number.iter().rev().copied()).collect();
            self.fault(&bank.changed(at, &low_first).resealed());
            if i + 1 < count {
                self.fault(&bank.changed(at, &[entry(i + 1), entry(i)].concat()).resealed());
                self.fault(&bank.changed(at, &[entry(i), entry(i)].concat()).resealed());
            }
        }
    }

    fn gap_bytes(&mut self, bank: &Bank) {
        for (from, end) in bank.gaps() {
            for at in [from, end - 1] {
                self.fault(&bank.changed(at, &[0x00]));
                self.fault(&bank.changed(at, &[0xFE]));
            }
        }
    }

    fn body_bytes(&mut self, bank: &Bank) {
        for stretch in &bank.stretches {
            for at in [stretch.from, stretch.from + stretch.size / 2, stretch.end() - 1] {
                self.fault(&bank.changed(at, &[bank.bytes[at] ^ 1]));
                self.fault(&bank.changed(at, &[0xFF]));
            }
        }
    }

    /// Each stretch moved, stretched and shrunk to every edge and one past it. Once with all else made to fit, so that what is left is sound or
    /// has that one fault, and once with nothing but the table's CRC made to fit.
    fn edges(&mut self) {
        for (n, count) in [(1, 1), (1, 3), (2, 3), (1, 30), (32, 3), (32, 30)] {
            for stretches in [apart(n * SECTOR, count), touching(n * SECTOR, count)].concat() {
                let bank = Bank::laid_out(n * SECTOR, &stretches);
                for i in 0..count {
                    if count < 30 || i % 14 == 0 || i == count - 1 {
                        self.edges_of(&bank, i);
                    }
                }
            }
        }
        let length = MOST_SECTORS * SECTOR;
        for size in [length - 20, length - 19, length - 21] {
            self.check(&Bank::laid_out(length, &[Stretch { from: 20, size }]));
            self.check(&Bank::laid_out(length, &[Stretch { from: 21, size }]));
        }
    }

    fn edges_of(&mut self, bank: &Bank, i: usize) {
        let (length, own) = (bank.bytes.len(), bank.stretches[i]);
        let before = if i == 0 { table_end(bank.stretches.len()) } else { bank.stretches[i - 1].end() };
        let after = bank.stretches.get(i + 1).map_or(length, |next| next.from);
        let moved = |from: usize| Stretch { from, size: own.size };
        let ending = |end: usize| Stretch { from: own.from, size: end - own.from };
        let mut others = vec![moved(own.from - 1), moved(own.from + 1), ending(own.end() + 1), ending(own.end() - 1)];
        others.extend([moved(before), moved(before - 1), ending(after), ending(after + 1), ending(own.from)]);
        others.extend([moved(length - own.size), moved(length - own.size + 1), ending(length), ending(length + 1)]);
        others.extend([moved(length), Stretch { from: length, size: 0 }, Stretch { from: length + 1, size: 0 }]);
        others.extend([moved(0), moved(4), Stretch { from: 0, size: length }, ending(own.from + (1 << 31))]);
        for (from, size) in [(0xFFFF_FFF8, 8), (0xFFFF_FFFF, 1), (0xFFFF_FFFF, 0xFFFF_FFFF), (1 << 31, 1 << 31)] {
            others.push(Stretch { from, size });
        }
        others.push(Stretch { from: own.from, size: (1 << 32) - own.from });
        others.push(Stretch { from: own.from, size: (1 << 32) - 1 });
        for other in others {
            let mut stretches = bank.stretches.clone();
            stretches[i] = other;
            self.fault(&Bank::laid_out(length, &stretches));
            let numbers = [other.from as u32, other.size as u32].map(u32::to_be_bytes).concat();
            self.fault(&bank.changed(4 + 12 * i, &numbers).resealed());
        }
    }

    /// A bank with no fault but its count: as many bodies as it says, and all well.
    fn counts(&mut self) {
        for count in [0, 1, 28, 29, 30, 31, 32, 33, 64, 100] {
            for n in [4, 5, 32] {
                let stretches: Vec<Stretch> = (0..count).map(|i| Stretch { from: 1300 + 7 * i, size: 5 }).collect();
                let bank = Bank::laid_out(n * SECTOR, &stretches);
                self.check(&bank);
                self.body(0, &bank);
                self.body(30, &bank);
            }
        }
        // a table of 42 entries just fits a sector, one of 43 or 255 does not
        for count in [31, 42, 43, 255] {
            for n in [1, 2, 32] {
                let header = Bank::blank(n * SECTOR).changed(0, &[0x04, 0x00, 1, count]);
                self.fault(&header);
                self.fault(&header.resealed());
            }
        }
    }

    /// A body that starts with the last byte of the table, where both CRCs are right: that byte is a guess that has to come true.
    fn into_the_table(&mut self) {
        for size in 2..40 {
            let stretch = Stretch { from: table_end(1) - 1, size };
            for guess in 0..=255 {
                let mut bank = Bank::blank(SECTOR);
                bank.put_ramp(stretch);
                bank.put(0, &[0x04, 0x00, 1, 1]);
                bank.put(stretch.from, &[guess]);
                bank.put(4, &bank.entry(stretch));
                let bank = bank.resealed();
                if bank.bytes[stretch.from] == guess {
                    self.check(&bank);
                    self.body(0, &bank);
                }
            }
        }
    }

    /// Lengths that no bank has, with what would be sound in one; and banks that hold nothing, or one value.
    fn lengths(&mut self) {
        let (small, large) = (SECTOR, MOST_SECTORS * SECTOR);
        let none = [0, 1, 2, 3, 4, 20, 256, 511, 513, 768, 1023];
        for length in none.into_iter().chain([large - 1, large + 1, large + SECTOR, large + 2 * SECTOR]) {
            self.fault(&Bank::blank(length));
            self.body(0, &Bank::blank(length));
            if length >= 21 {
                let bank = Bank::laid_out(length, &[Stretch { from: 20, size: 1 }]);
                self.check(&bank);
                self.body(0, &bank);
            }
        }
        for length in [small, 2 * small, 32 * small, large] {
            self.check(&Bank::blank(length));
            self.body(0, &Bank::blank(length));
            for byte in [0x00, 0x04, 0xFE] {
                self.check(&Bank::blank(length).changed(0, &[byte; 512]));
            }
            self.lines.push(format!("check {} 0~{}", length, length));
            self.lines.push(format!("check {} 0:0400 {}:- {}~0", length, length, length));
        }
    }

    /// Lines that are no request: the two readers of this form are held to each other too.
    fn no_requests(&mut self) {
        for group in NO_REQUESTS {
            for line in group.split('|') {
                self.lines.push(line.to_string());
            }
        }
    }
}
