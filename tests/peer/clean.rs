//! What `clean` makes of a traded-in bank (§7 of the follow-up requests). A map says of each byte whether it is of the table, of a body or of neither,
//! and what is old is read off byte by byte: no gap is walked. That a bank has no other fault is seen from the bank check, which calls it
//! sound once its old bytes are 0xFF.
use crate::bank::{self, SECTOR};
use crate::{crc, hex};
use std::collections::BTreeSet;

#[derive(Clone, Debug, PartialEq)]
pub struct Cleaned {
    pub bank: Vec<u8>,
    /// Offset and length of each
    pub runs: Vec<(usize, usize)>,
    pub sectors: Vec<usize>,
}

#[derive(Clone, Copy, PartialEq)]
enum Of {
    Table,
    Body,
    Neither,
}

/// Or the number of the refusal. There is no 10: a list has the room that it takes. `lent` has lists of a length.
pub fn cleaned(traded_in: &[u8]) -> Result<Cleaned, u8> {
    bank::sectors(traded_in.len()).ok_or(2)?;
    let old: Vec<bool> = map(traded_in).iter().zip(traded_in).map(|(of, b)| *of == Of::Neither && *b != 0xFF).collect();
    let bank: Vec<u8> = traded_in.iter().zip(&old).map(|(byte, old)| if *old { 0xFF } else { *byte }).collect();
    bank::bodies(&bank).ok_or(9)?;
    let sectors: BTreeSet<usize> = places(&old, |_, old| old).map(|at| 1 + at / SECTOR).collect();
    Ok(Cleaned { bank, runs: runs(&old), sectors: sectors.into_iter().collect() })
}

/// What each byte is of, as far as a table can be read there, be it good or bad; a byte of the table is no body's.
fn map(bank: &[u8]) -> Vec<Of> {
    let mut map = vec![Of::Neither; bank.len()];
    let mut mark = |from: usize, end: usize, of: Of| {
        let end = end.min(bank.len());
        map[from.min(end)..end].fill(of);
    };
    let number =
        |at: usize| bank.get(at..at + 4).map(|four| u32::from_be_bytes(four.try_into().expect("four bytes")) as usize);
    let count = bank[3] as usize;
    for entry in (0..count).map(|i| 4 + 12 * i) {
        if let (Some(offset), Some(length)) = (number(entry), number(entry + 4)) {
            mark(offset, offset + length, Of::Body);
        }
    }
    mark(0, 4 + 12 * count + 4, Of::Table);
    map
}

/// The bytes for which a test of what stands before them, and of them, holds.
fn places(old: &[bool], test: impl Fn(bool, bool) -> bool) -> impl Iterator<Item = usize> {
    let before = [false].into_iter().chain(old.iter().copied());
    let at_end = old.iter().copied().chain([false]);
    let held: Vec<usize> =
        before.zip(at_end).enumerate().filter(|(_, (b, o))| test(*b, *o)).map(|(at, _)| at).collect();
    held.into_iter()
}

/// Each begins at an old byte behind one that is not, and ends before the next that is not, behind one that is.
fn runs(old: &[bool]) -> Vec<(usize, usize)> {
    let begins = places(old, |before, old| old && !before);
    let ends = places(old, |before, old| before && !old);
    begins.zip(ends).map(|(begin, end)| (begin, end - begin)).collect()
}

/// What comes back of a bank and lists that were lent: how many runs and sectors there are, or the number of the refusal; and what they then hold.
#[derive(Clone, Debug, PartialEq)]
pub struct Lent {
    pub outcome: Result<(usize, usize), u8>,
    pub bank: Vec<u8>,
    pub runs: Vec<u32>,
    pub sectors: Vec<u16>,
}

pub fn lent(bank: &[u8], runs: &[u32], sectors: &[u16]) -> Lent {
    let untouched =
        |refusal| Lent { outcome: Err(refusal), bank: bank.to_vec(), runs: runs.to_vec(), sectors: sectors.to_vec() };
    let done = match cleaned(bank) {
        Ok(done) => done,
        Err(refusal) => return untouched(refusal),
    };
    if 2 * done.runs.len() > runs.len() || done.sectors.len() > sectors.len() {
        return untouched(10);
    }
    let mut lent = untouched(0);
    for (place, number) in lent.runs.iter_mut().zip(done.runs.iter().flat_map(|(at, length)| [at, length])) {
        *place = *number as u32;
    }
    for (place, number) in lent.sectors.iter_mut().zip(&done.sectors) {
        *place = *number as u16;
    }
    Lent { outcome: Ok((done.runs.len(), done.sectors.len())), bank: done.bank, ..lent }
}

/// Lists of so many numbers, as the program `vectors` lends them.
pub fn lists(runs: usize, sectors: usize) -> (Vec<u32>, Vec<u16>) {
    ((0..runs).map(|i| 0xA500_0000 + i as u32).collect(), (0..sectors).map(|i| 0xA500 + i as u16).collect())
}

pub fn lent_line(lent: &Lent) -> String {
    let outcome = match lent.outcome {
        Ok((runs, sectors)) => format!("cleaned {} {}", runs, sectors),
        Err(refusal) => format!("refused {}", refusal),
    };
    let runs: Vec<u8> = lent.runs.iter().flat_map(|number| number.to_be_bytes()).collect();
    let sectors: Vec<u8> = lent.sectors.iter().flat_map(|number| number.to_be_bytes()).collect();
    format!("{} {} {} {:08X}", outcome, hex::text(&runs), hex::text(&sectors), crc::crc32(&lent.bank))
}

pub fn listing(outcome: &Result<Cleaned, u8>) -> Vec<String> {
    let cleaned = match outcome {
        Ok(cleaned) => cleaned,
        Err(refusal) => return vec![format!("refused {}", refusal)],
    };
    let mut lines: Vec<String> =
        cleaned.runs.iter().map(|(at, length)| format!("cleared {:08X} {}", at, length)).collect();
    lines.extend(cleaned.sectors.iter().map(|sector| format!("rewrite {:04X}", sector)));
    lines.push(format!("cleaned {} runs, {} sectors", cleaned.runs.len(), cleaned.sectors.len()));
    lines
}

/// The request line of `vectors` that has a bank checked.
pub fn check_line(bank: &[u8]) -> String {
    format!("check {}", told(bank))
}

/// And the one that has it cleaned, with lists of so many numbers.
pub fn clean_line(runs: usize, sectors: usize, bank: &[u8]) -> String {
    format!("clean {} {} {}", runs, sectors, told(bank))
}

/// A bank's length and pieces: what is not 0xFF, where bytes that count up from 0 are told by how many they are.
fn told(bank: &[u8]) -> String {
    let mut line = format!("{}", bank.len());
    let mut at = 0;
    while at < bank.len() {
        let ramp = bank[at..].iter().enumerate().take_while(|(i, byte)| **byte as usize == i % 251).count();
        if bank[at] == 0xFF {
            at += 1;
        } else if ramp > 8 {
            line += &format!(" {}~{}", at, ramp);
            at += ramp;
        } else {
            line += &format!(" {}:{:02X}", at, bank[at]);
            at += 1;
            while at < bank.len() && bank[at] != 0xFF && !bank[at..].starts_with(&[0, 1, 2, 3, 4, 5, 6, 7, 8]) {
                line += &format!("{:02X}", bank[at]);
                at += 1;
            }
        }
    }
    line
}
