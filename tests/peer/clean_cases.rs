//! The request lines that have a bank cleaned with lists of a length: of every length around what is needed, and each list short alone. The same lines at
//! each run.
use crate::bank::SECTOR;
use crate::bank_cases::{table_end, Bank, Stretch};
use crate::clean::{clean_line, cleaned};
use crate::clean_banks::{narrow, outside, stretch, wide, with_old, LARGEST};
use crate::draw::Draw;
use std::collections::BTreeSet;

pub fn all() -> Vec<String> {
    let trials = trials();
    let mut lines: Vec<String> =
        trials.iter().map(|trial| clean_line(trial.runs, trial.sectors, &trial.bank)).collect();
    lines.push(clean_line(64, 512, &wide().bytes).replacen("64 512", "000064 000512", 1));
    lines.extend(NO_REQUESTS.iter().flat_map(|group| group.split('|')).map(str::to_string));
    lines
}

/// `|` parts one line from the next.
const NO_REQUESTS: [&str; 4] = [
    "clean|clean |clean 0|clean 0 |clean 0 0|clean 0 0 |clean 0 0 x|clean 0 0 512 |clean  0 0 512|clean 0  0 512|clean 0 0  512",
    "clean 65 0 512|clean 0 513 512|clean 65 513 512|clean 1000000 0 512|clean 0 1000000 512|clean 0000064 0 512|clean 0 0000512 512",
    "clean x 0 512|clean - 0 512|clean 0 - 512|clean -1 0 512|clean 0 -1 512|clean 0 0 252417|clean 0 0 1000000|cleaned 0 0 512|Clean 0 0 512",
    "clean 0 0 512 512:00|clean 0 0 512 0|clean 0 0 512 0:00 |clean 0 0 512  0:00|clean 65 0 512 0:00|clean 0 513 512 0:00",
];

/// A bank, and how many numbers each list has.
pub struct Trial {
    pub runs: usize,
    pub sectors: usize,
    pub bank: Vec<u8>,
}

pub fn trials() -> Vec<Trial> {
    let mut cases = Cases { trials: Vec::new(), draw: Draw(0x4C49_5354) };
    cases.sound();
    cases.at_edges();
    cases.many_runs();
    cases.many_sectors();
    cases.faulty();
    cases.lengths();
    cases.drawn();
    cases.trials
}

struct Cases {
    trials: Vec<Trial>,
    draw: Draw,
}

/// Of one sector, with a gap before, between and behind
fn small() -> Bank {
    Bank::laid_out(SECTOR, &[stretch(40, 100), stretch(141, 200)])
}

/// None, one, and from somewhat less than is needed to somewhat more, as far as there are such lists.
fn near(needed: usize, more: usize, most: usize) -> Vec<usize> {
    let lengths: BTreeSet<usize> = (needed.saturating_sub(3)..=needed + more).chain([0, 1]).collect();
    lengths.into_iter().filter(|length| *length <= most).collect()
}

impl Cases {
    fn add(&mut self, bank: &[u8], runs: usize, sectors: usize) {
        self.trials.push(Trial { runs, sectors, bank: bank.to_vec() });
    }

    fn each(&mut self, bank: &[u8], runs: &[usize], sectors: &[usize]) {
        for (runs, sectors) in runs.iter().flat_map(|runs| sectors.iter().map(move |sectors| (*runs, *sectors))) {
            self.add(bank, runs, sectors);
        }
    }

    /// Lists around what is needed, and the longest.
    fn around(&mut self, bank: &[u8]) {
        let done = cleaned(bank).expect("a bank that is cleaned");
        let (runs, sectors) = (2 * done.runs.len(), done.sectors.len());
        self.each(bank, &near(runs, 3, 64), &near(sectors, 2, 512));
        self.add(bank, 64, 512);
    }

    fn old(&mut self, bank: &Bank, places: &[usize]) {
        let bytes = with_old(bank, places, &mut self.draw);
        self.around(&bytes);
    }

    /// A sound bank needs no room.
    fn sound(&mut self) {
        for bank in [small(), narrow(), wide(), Bank::laid_out(SECTOR, &[stretch(20, SECTOR - 20)])] {
            self.around(&bank.bytes);
        }
    }

    /// Both ends of each gap, alone and together; all of each gap and of all; and both sides of the sectors' ends.
    fn at_edges(&mut self) {
        for bank in [small(), narrow(), wide()] {
            let mut ends = Vec::new();
            for (from, end) in bank.gaps() {
                self.old(&bank, &[from]);
                self.old(&bank, &[end - 1]);
                self.old(&bank, &(from..end).collect::<Vec<_>>());
                ends.extend([from, end - 1]);
            }
            self.old(&bank, &ends);
            self.old(&bank, &outside(&bank));
        }
        let (first, second) = (SECTOR, 2 * SECTOR);
        for places in [vec![first - 1], vec![first], vec![first - 1, first], vec![first - 1, first + 1]] {
            self.old(&wide(), &places);
        }
        for places in [vec![first - 1, second], vec![first, second - 1], vec![first - 1, second - 1, second]] {
            self.old(&wide(), &places);
        }
        self.old(&wide(), &(first - 1..second + 1).collect::<Vec<_>>());
    }

    /// As many runs as the longest list takes, one less, one more, and many more: their room is all that they lack.
    fn many_runs(&mut self) {
        for count in [2, 5, 16, 31, 32, 33, 40, 100] {
            let places: Vec<usize> = (0..count).map(|i| 300 + 3 * i).collect();
            self.old(&wide(), &places);
        }
    }

    /// All sectors but the first and the last of the largest bank, by one run.
    fn many_sectors(&mut self) {
        let bank = Bank::laid_out(LARGEST, &[stretch(100, 5), stretch(LARGEST - 5, 5)]);
        let mut bytes = bank.bytes.clone();
        let run = SECTOR..LARGEST - SECTOR;
        run.clone().for_each(|at| bytes[at] = ((at - run.start) % 251) as u8);
        self.each(&bytes, &[1, 2, 3], &[488, 489, 490, 512]);
        bytes[SECTOR - 1] = 0;
        bytes[LARGEST - SECTOR] = 0;
        self.each(&bytes, &[1, 2, 3, 64], &[490, 491, 492]);
    }

    /// 9 of a bank with and without an old byte, whatever the lists are.
    fn faulty(&mut self) {
        let good = narrow();
        let changed = |at: usize| good.changed(at, &[good.bytes[at] ^ 1]);
        let table_crc = table_end(3) - 4;
        for bank in [0, 2, 3, 6, 15, table_crc, 60, 530, 899].map(changed) {
            for bytes in [bank.bytes.clone(), bank.changed(950, &[0x5A]).bytes] {
                self.each(&bytes, &[0, 1, 2, 3, 64], &[0, 1, 2, 512]);
            }
        }
        self.each(&Bank::blank(SECTOR).bytes, &[0, 64], &[0, 512]);
    }

    /// 2 of what would be sound, cleaned or faulty in a bank, whatever the lists are.
    fn lengths(&mut self) {
        for length in [0, 1, 20, SECTOR - 1, SECTOR + 1, 2 * SECTOR - 1, LARGEST + 1, LARGEST + SECTOR] {
            let mut banks = vec![Bank::blank(length)];
            if length > 40 {
                let bank = Bank::laid_out(length, &[stretch(20, 1)]);
                banks.extend([bank.changed(30, &[0x5A]), bank.changed(20, &[0x5A]), bank.changed(0, &[0x5A]), bank]);
            }
            for bank in banks {
                self.each(&bank.bytes, &[0, 1, 2, 64], &[0, 1, 512]);
            }
        }
    }

    /// Bodies, old bytes and lists of no plan; one bank in eight has a byte that is another, wherever that is.
    fn drawn(&mut self) {
        for _ in 0..150 {
            let (count, n) = (1 + self.draw.below(5), 1 + self.draw.below(3));
            let slot = (n * SECTOR - table_end(count)) / count;
            let stretches: Vec<Stretch> = (0..count)
                .map(|i| {
                    let size = 1 + self.draw.below(slot - 1);
                    stretch(table_end(count) + slot * i + self.draw.below(slot - size), size)
                })
                .collect();
            let bank = Bank::laid_out(n * SECTOR, &stretches);
            let (begins, reach) = (1 + self.draw.below(60), self.draw.below(20));
            let begins: Vec<usize> = (0..begins / 4).map(|_| self.draw.below(n * SECTOR)).collect();
            let old = |at: &usize| begins.iter().any(|begin| (*begin..=begin + reach).contains(at));
            let places: Vec<usize> = outside(&bank).into_iter().filter(old).collect();
            let mut bytes = with_old(&bank, &places, &mut self.draw);
            if self.draw.below(8) == 0 {
                bytes[self.draw.below(n * SECTOR)] = self.draw.byte();
            }
            let (runs, sectors) = cleaned(&bytes).map_or((4, 2), |done| (2 * done.runs.len(), done.sectors.len()));
            for _ in 0..4 {
                let (runs, sectors) = (runs + self.draw.below(5), sectors + self.draw.below(3));
                self.add(&bytes, runs.saturating_sub(2), sectors.saturating_sub(1));
            }
        }
    }
}
