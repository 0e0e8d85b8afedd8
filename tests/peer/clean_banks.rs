//! The banks that `clean` is tried with: bodies that touch and that lie apart, old bytes at every edge of what lies outside them, every other fault beside
//! an old byte, and lengths that no bank has. The same banks at each run.
use crate::bank::{MOST_SECTORS, SECTOR};
use crate::bank_cases::{apart, table_end, touching, Bank, Stretch};
use crate::draw::Draw;

pub fn all() -> Vec<Vec<u8>> {
    let mut cases = Cases { banks: Vec::new(), draw: Draw(0x434C_4541) };
    cases.of_each_size();
    cases.edges();
    cases.sector_ends();
    cases.parted();
    cases.values();
    cases.drawn();
    cases.most_runs();
    cases.other_faults();
    cases.lengths();
    cases.banks
}

const NUMBERS: [usize; 5] = [1, 2, 3, 32, MOST_SECTORS];

pub const LARGEST: usize = MOST_SECTORS * SECTOR;

pub fn stretch(from: usize, size: usize) -> Stretch {
    Stretch { from, size }
}

/// Three sectors, of which the second and most of the others are a gap: a body behind the table, and one up to the bank's end
pub fn wide() -> Bank {
    Bank::laid_out(3 * SECTOR, &[stretch(table_end(2) + 7, 100), stretch(3 * SECTOR - 40, 40)])
}

/// Two sectors with a gap before, between, of one byte, and behind
pub fn narrow() -> Bank {
    Bank::laid_out(2 * SECTOR, &[stretch(60, 440), stretch(501, 30), stretch(600, 300)])
}

/// The bytes of the gaps.
pub fn outside(bank: &Bank) -> Vec<usize> {
    bank.gaps().into_iter().flat_map(|(from, end)| from..end).collect()
}

/// Any value but 0xFF.
pub fn with_old(bank: &Bank, places: &[usize], draw: &mut Draw) -> Vec<u8> {
    let mut bytes = bank.bytes.clone();
    places.iter().for_each(|at| bytes[*at] = draw.below(0xFF) as u8);
    bytes
}

struct Cases {
    banks: Vec<Vec<u8>>,
    draw: Draw,
}

impl Cases {
    /// A bank with old bytes at these places.
    fn old(&mut self, bank: &Bank, places: &[usize]) {
        let bytes = with_old(bank, places, &mut self.draw);
        self.banks.push(bytes);
    }

    /// Sound; both ends of each gap; and all of them. What touches has none, or one before or behind.
    fn of_each_size(&mut self) {
        for n in NUMBERS {
            for count in [1, 30] {
                for stretches in [touching(n * SECTOR, count), apart(n * SECTOR, count)].concat() {
                    let bank = Bank::laid_out(n * SECTOR, &stretches);
                    self.banks.push(bank.bytes.clone());
                    if !bank.gaps().is_empty() {
                        let ends: Vec<usize> =
                            bank.gaps().into_iter().flat_map(|(from, end)| [from, end - 1]).collect();
                        self.old(&bank, &ends);
                        self.old(&bank, &outside(&bank));
                    }
                }
            }
        }
    }

    /// Behind the table, before and behind each body and at the bank's end: each alone, and all of a gap but one of its ends.
    fn edges(&mut self) {
        for bank in [wide(), narrow()] {
            for (from, end) in bank.gaps() {
                self.old(&bank, &[from]);
                self.old(&bank, &[end - 1]);
                self.old(&bank, &(from + 1..end).collect::<Vec<_>>());
                self.old(&bank, &(from..end - 1).collect::<Vec<_>>());
            }
        }
        for n in NUMBERS {
            let bank = Bank::laid_out(n * SECTOR, &[stretch(21, 1)]);
            self.old(&bank, &[n * SECTOR - 1]);
            self.old(&bank, &[20]);
            self.old(&bank, &[22]);
            self.old(&bank, &[20, 22, n * SECTOR - 1]);
        }
    }

    /// The last byte of a sector and the first of the next, alone and as one run; runs that end or begin there, and over one end and several.
    fn sector_ends(&mut self) {
        let mut runs = vec![];
        for end in [SECTOR, 2 * SECTOR] {
            runs.extend([end - 1..end, end..end + 1, end - 1..end + 1, end - 9..end, end..end + 9, end - 9..end + 9]);
        }
        runs.extend([SECTOR..2 * SECTOR, SECTOR - 1..2 * SECTOR + 1, 500..1300]);
        for run in runs {
            self.old(&wide(), &run.collect::<Vec<_>>());
        }
        // sectors 2 to 490 whole, and the ends of the largest number of two digits
        let large = Bank::laid_out(LARGEST, &[stretch(100, 5), stretch(LARGEST - 5, 5)]);
        self.old(&large, &(SECTOR..LARGEST - SECTOR).collect::<Vec<_>>());
        self.old(&large, &[254 * SECTOR, 255 * SECTOR - 1, 255 * SECTOR, 256 * SECTOR - 1, 256 * SECTOR]);
        self.old(&large, &(255 * SECTOR - 1..257 * SECTOR + 1).collect::<Vec<_>>());
    }

    /// A byte 0xFF between two old ones, within a sector, at its last place and at its first; every second byte of the gaps, from the first on and from
    /// the second; every third but one.
    fn parted(&mut self) {
        for parting in [700, SECTOR - 1, SECTOR, 2 * SECTOR - 1, 2 * SECTOR] {
            self.old(&wide(), &[parting - 1, parting + 1]);
            self.old(&wide(), &[parting - 3, parting - 2, parting - 1, parting + 1, parting + 2]);
        }
        for bank in [wide(), narrow(), Bank::laid_out(32 * SECTOR, &apart(32 * SECTOR, 30)[0])] {
            let outside = outside(&bank);
            for first in [0, 1] {
                self.old(&bank, &outside.iter().copied().skip(first).step_by(2).collect::<Vec<_>>());
            }
            self.old(&bank, &outside.iter().copied().filter(|at| at % 3 != 0).collect::<Vec<_>>());
        }
    }

    /// Each value, one behind another: 0xFF parts them.
    fn values(&mut self) {
        let values: Vec<u8> = (0..=255).rev().chain(0..=255).collect();
        self.banks.push(wide().changed(700, &values).bytes);
        for value in [0x00, 0x01, 0x7F, 0x80, 0xFE] {
            self.banks.push(wide().changed(700, &[value]).bytes);
        }
    }

    /// Bodies and old bytes of no plan, from few to nearly all. A body may hold 0xFF.
    fn drawn(&mut self) {
        for k in 0..40 {
            let (count, n) = (1 + self.draw.below(6), 1 + self.draw.below(4));
            let mut end = table_end(count);
            let mut stretches = Vec::new();
            for _ in 0..count {
                let from = end + self.draw.below(2) * self.draw.below(n * SECTOR / (2 * count));
                let size = 1 + self.draw.below(n * SECTOR / (3 * count));
                end = from + size;
                stretches.push(stretch(from, size));
            }
            if end > n * SECTOR {
                continue;
            }
            let mut bank = Bank::laid_out(n * SECTOR, &stretches);
            for (i, at) in stretches.iter().enumerate() {
                let body: Vec<u8> =
                    (0..at.size).map(|_| if self.draw.below(3) == 0 { 0xFF } else { self.draw.byte() }).collect();
                bank = bank.changed(at.from, &body);
                bank = bank.changed(4 + 12 * i, &bank.entry(*at));
            }
            let bank = bank.resealed();
            let places: Vec<usize> = outside(&bank).into_iter().filter(|_| self.draw.below(8) <= k % 8).collect();
            self.old(&bank, &places);
        }
    }

    /// Of one body of one byte, right behind the table and with one before it: no bank has more runs than the first.
    fn most_runs(&mut self) {
        for from in [20, 21] {
            let bank = Bank::laid_out(LARGEST, &[stretch(from, 1)]);
            self.old(&bank, &outside(&bank).into_iter().step_by(2).collect::<Vec<_>>());
        }
    }

    /// Each with an old byte, and some with none; where the bank is laid out anew, all else fits.
    fn other_faults(&mut self) {
        let (good, length) = (narrow(), 2 * SECTOR);
        let mut faulty = Vec::new();
        for (at, bytes) in [
            (0, vec![0x00]),
            (0, vec![0x00, 0x04]),
            (0, vec![0xFF, 0xFF]),
            (1, vec![0x01]),
            (2, vec![0x00]),
            (2, vec![0x02]),
            (3, vec![0]),
            (3, vec![2]),
            (3, vec![4]),
            (3, vec![31]),
            (3, vec![0xFF]),
        ] {
            faulty.push(good.changed(at, &bytes));
            faulty.push(good.changed(at, &bytes).resealed());
        }
        let crc = table_end(3) - 4;
        for at in [crc, crc + 3] {
            faulty.push(good.changed(at, &[good.bytes[at] ^ 1]));
        }
        // A body's CRC, and a byte of a body at its first, a middle and its last place
        for at in [12, 15, 39] {
            faulty.push(good.changed(at, &[good.bytes[at] ^ 0x80]).resealed());
        }
        for at in [60, 200, 499, 501, 530, 600, 899] {
            faulty.push(good.changed(at, &[good.bytes[at] ^ 1]));
        }
        // The entries of two bodies exchanged, and one twice
        let entry = |i: usize| &good.bytes[4 + 12 * i..16 + 12 * i];
        faulty.push(good.changed(4, &[entry(1), entry(0)].concat()).resealed());
        faulty.push(good.changed(4, &[entry(0), entry(0)].concat()).resealed());
        let laid_out = |first: Stretch, second: Stretch| Bank::laid_out(length, &[first, second]);
        let (table, first, second) = (table_end(2), stretch(60, 40), stretch(600, 300));
        faulty.extend([
            // into the table, by a byte and wholly
            laid_out(stretch(table - 1, 40), second),
            laid_out(stretch(0, 40), second),
            laid_out(stretch(4, 12), second),
            // into each other, by a byte, wholly, and in the other order
            laid_out(stretch(60, 541), second),
            laid_out(first, stretch(99, 300)),
            laid_out(stretch(60, 500), stretch(100, 20)),
            laid_out(second, first),
            laid_out(stretch(600, 300), stretch(599, 1)),
            // of no byte
            laid_out(stretch(60, 0), second),
            laid_out(first, stretch(600, 0)),
            laid_out(first, stretch(length, 0)),
            // past the end, by a byte, wholly, and where a sum of 32 bits would come round
            laid_out(first, stretch(600, length - 599)),
            laid_out(first, stretch(length, 1)),
            laid_out(first, stretch(length - 1, 2)),
            laid_out(first, stretch(600, (1 << 32) - 1)),
            laid_out(first, stretch(0xFFFF_FFFF, 1)),
            laid_out(first, stretch(600, (1 << 32) - 600)),
        ]);
        // As many bodies as there are, one more than a table may list
        let many: Vec<Stretch> = (0..31).map(|i| stretch(500 + 7 * i, 5)).collect();
        faulty.extend([Bank::laid_out(length, &many), Bank::laid_out(length, &[])]);
        for (k, bank) in faulty.iter().enumerate() {
            self.banks.push(bank.changed(950, &[0x5A]).bytes);
            if k % 3 == 0 {
                self.banks.push(bank.bytes.clone());
            }
        }
        // That are no bank at all
        for n in [1, 32] {
            self.banks.extend([vec![0xFF; n * SECTOR], vec![0x00; n * SECTOR], vec![0x04; n * SECTOR]]);
            let drawn = self.draw.bytes(n * SECTOR);
            self.banks.push(drawn);
        }
    }

    /// What would be sound, what would be cleaned and what is faulty.
    fn lengths(&mut self) {
        let none = [0, 1, 3, 4, 20, 256, SECTOR - 1, SECTOR + 1, 768, 2 * SECTOR - 1];
        for length in none.into_iter().chain([LARGEST - 1, LARGEST + 1, LARGEST + SECTOR, 300_000]) {
            self.banks.extend([vec![0xFF; length], vec![0x00; length]]);
            if length > 40 {
                let bank = Bank::laid_out(length, &[stretch(20, 1)]);
                self.banks.push(bank.bytes.clone());
                self.banks.push(bank.changed(30, &[0x5A]).bytes);
            }
        }
    }
}
