//! The images that `hexout` is tried with, each for both banks: what lies at each edge, of a row, of a sector, of a bank and of an upper half,
//! and the lengths that no bank has. The same images at each run.
use crate::bank::{MOST_SECTORS, SECTOR};
use crate::draw::Draw;
use std::ops::Range;

pub fn all() -> Vec<Vec<u8>> {
    let mut cases = Cases { images: Vec::new(), draw: Draw(0x524F_5753) };
    cases.of_each_size();
    cases.up_to_an_upper_half();
    cases.one_byte();
    cases.one_blank_row();
    cases.edges();
    cases.upper_halves();
    cases.places_and_values();
    cases.of_no_bank();
    cases.images
}

const ROW: usize = 16;

const NUMBERS: [usize; 5] = [1, 2, 32, 129, MOST_SECTORS];

/// The offsets in a bank at which another upper half begins, since both banks start at 0x0A00 of one
const HALVES: [usize; 3] = [0xF600, 0x1_F600, 0x2_F600];

const LARGEST: usize = MOST_SECTORS * SECTOR;

/// What lies under each upper half in the largest bank.
fn parts() -> [Range<usize>; 4] {
    [0..HALVES[0], HALVES[0]..HALVES[1], HALVES[1]..HALVES[2], HALVES[2]..LARGEST]
}

/// The first row of the largest bank, its last, and those on both sides of where an upper half begins.
fn edges() -> Vec<usize> {
    parts().into_iter().flat_map(|part| [part.start, part.end - ROW]).collect()
}

fn blank(n: usize) -> Vec<u8> {
    vec![0xFF; n * SECTOR]
}

struct Cases {
    images: Vec<Vec<u8>>,
    draw: Draw,
}

impl Cases {
    /// A blank image of n sectors but for what `put` does to it.
    fn add(&mut self, n: usize, put: impl FnOnce(&mut [u8])) {
        let mut image = blank(n);
        put(&mut image);
        self.images.push(image);
    }

    /// An image of no blank row.
    fn full(&mut self, n: usize) -> Vec<u8> {
        (0..n * SECTOR).map(|_| self.draw.below(0xFF) as u8).collect()
    }

    fn of_each_size(&mut self) {
        for n in NUMBERS {
            self.images.extend([blank(n), vec![0x00; n * SECTOR], vec![0xFE; n * SECTOR]]);
            let drawn = self.draw.bytes(n * SECTOR);
            self.images.push(drawn.clone());
            // Every second row blank, from the first on and from the second; and rows of no plan
            for first in [0, 1] {
                let mut image = drawn.clone();
                image.chunks_mut(ROW).skip(first).step_by(2).for_each(|row| row.fill(0xFF));
                self.images.push(image);
            }
            let mut image = drawn;
            image.chunks_mut(ROW).filter(|_| self.draw.below(3) > 0).for_each(|row| row.fill(0xFF));
            self.images.push(image);
        }
    }

    /// Banks that end where an upper half does, and a sector behind that, full and with a last row alone.
    fn up_to_an_upper_half(&mut self) {
        for n in HALVES.into_iter().flat_map(|half| [half / SECTOR, half / SECTOR + 1]).chain([MOST_SECTORS - 1]) {
            let full = self.full(n);
            self.images.push(full);
            self.add(n, |image| image[n * SECTOR - 1] = 0x00);
        }
    }

    /// The first and the last byte of a row, a sector, a bank and an upper half, and those beside them, alone.
    fn one_byte(&mut self) {
        for (n, places) in [
            (1, vec![0, ROW - 1, ROW, 2 * ROW - 1, SECTOR - ROW, SECTOR - 1]),
            (2, vec![SECTOR - 1, SECTOR, 2 * SECTOR - 1]),
            (MOST_SECTORS, vec![1, SECTOR - 1, SECTOR, LARGEST - SECTOR - 1, LARGEST - SECTOR, LARGEST - ROW - 1]),
            (MOST_SECTORS, edges().into_iter().flat_map(|row| [row, row + ROW - 1]).collect()),
        ] {
            for (k, place) in places.into_iter().enumerate() {
                self.add(n, |image| image[place] = [0x00, 0xFE, 0x7F][k % 3]);
            }
        }
    }

    fn one_blank_row(&mut self) {
        for (n, rows) in [(1, vec![0, SECTOR - ROW]), (2, vec![SECTOR - ROW, SECTOR]), (MOST_SECTORS, edges())] {
            let full = self.full(n);
            for row in rows {
                let mut image = full.clone();
                image[row..row + ROW].fill(0xFF);
                self.images.push(image);
            }
        }
    }

    /// All of them blank, and nothing but them.
    fn edges(&mut self) {
        let full = self.full(MOST_SECTORS);
        let mut around = full.clone();
        edges().into_iter().for_each(|row| around[row..row + ROW].fill(0xFF));
        self.images.push(around);
        self.add(MOST_SECTORS, |image| {
            edges().into_iter().for_each(|row| image[row..row + ROW].copy_from_slice(&full[row..row + ROW]))
        });
    }

    /// Each choice of upper halves that have a row, one of no plan; and each half blank among full ones.
    fn upper_halves(&mut self) {
        for choice in 1..16 {
            let mut image = blank(MOST_SECTORS);
            for (_, part) in parts().into_iter().enumerate().filter(|(k, _)| choice >> k & 1 == 1) {
                image[part.start + self.draw.below(part.len())] = choice;
            }
            self.images.push(image);
        }
        let full = self.full(MOST_SECTORS);
        for part in parts() {
            let mut image = full.clone();
            image[part].fill(0xFF);
            self.images.push(image);
        }
    }

    /// Rows with one byte other than 0xFF, at each place in turn; and of each value, alone at a place and all over.
    fn places_and_values(&mut self) {
        for value in [0xFE, 0x7F, 0x00] {
            self.add(1, |image| (0..ROW).for_each(|place| image[ROW * place + place] = value));
        }
        self.add(8, |image| (0..256).for_each(|value| image[ROW * value + value % ROW] = value as u8));
        self.add(8, |image| image.chunks_mut(ROW).enumerate().for_each(|(value, row)| row.fill(value as u8)));
    }

    fn of_no_bank(&mut self) {
        for length in [
            0,
            1,
            ROW - 1,
            ROW,
            SECTOR - 1,
            SECTOR + 1,
            SECTOR + ROW,
            2 * SECTOR - 1,
            LARGEST - 1,
            LARGEST + 1,
            LARGEST + SECTOR,
            300_000,
            524_288,
            1_048_575,
            1_048_576,
            1_048_576 + SECTOR,
        ] {
            self.images.push(vec![0x00; length]);
        }
        self.images.extend([vec![0xFF; SECTOR - 1], vec![0xFF; LARGEST + SECTOR]]);
    }
}
