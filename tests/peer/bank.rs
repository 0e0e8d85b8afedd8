//! Where banks lie, and what makes one sound: the paper's 'Banks and sectors' and 'The bank check'.
use crate::crc;

pub const SECTOR: usize = 512;
pub const MOST_SECTORS: usize = 491;

/// How many sectors a bank of that length has; None where no bank has it.
pub fn sectors(length: usize) -> Option<usize> {
    (1..=MOST_SECTORS).find(|n| n * SECTOR == length)
}

pub fn start(bank: usize) -> usize {
    [0x1000_0A00, 0x1400_0A00][bank]
}

/// The address of the last byte; None where no bank has so many sectors.
pub fn end(bank: usize, n: usize) -> Option<usize> {
    (1..=MOST_SECTORS).contains(&n).then(|| start(bank) + SECTOR * n - 1)
}

fn number(bytes: &[u8]) -> usize {
    bytes.iter().fold(0, |number, byte| number * 256 + *byte as usize)
}

/// The bodies of a sound bank, and None for one that is unsound. What lies outside is found byte by byte, from marks on what lies
/// inside, and not gap by gap.
pub fn bodies(bank: &[u8]) -> Option<Vec<&[u8]>> {
    let count = match bank {
        [0x04, 0x00, 1, count @ 1..=30, ..] => *count as usize,
        _ => return None,
    };
    let (covered, crc) = bank.get(..8 + 12 * count)?.split_at(4 + 12 * count);
    if number(crc) != crc::crc32(covered) as usize {
        return None;
    }
    let mut inside = vec![false; bank.len()];
    inside[..8 + 12 * count].fill(true);
    let (mut bodies, mut precedes) = (Vec::new(), 8 + 12 * count);
    for entry in covered[4..].chunks(12) {
        let (offset, length, crc) = (number(&entry[..4]), number(&entry[4..8]), number(&entry[8..]));
        let body = bank.get(offset..offset + length)?;
        if length < 1 || offset < precedes || crc::crc32(body) as usize != crc {
            return None;
        }
        inside[offset..offset + length].fill(true);
        bodies.push(body);
        precedes = offset + length;
    }
    let blank = bank.iter().zip(inside).all(|(byte, inside)| inside || *byte == 0xFF);
    blank.then_some(bodies)
}

/// Body i; empty where the bank's length is wrong or it is unsound, or has no such body.
pub fn body(bank: &[u8], i: usize) -> &[u8] {
    let bodies = sectors(bank.len()).and_then(|_| bodies(bank)).unwrap_or_default();
    bodies.get(i).copied().unwrap_or_default()
}
