//! Hex text: the paper's 'Hex text'. Each line is a record or a fault by itself; what a record means is then held against the lines before
//! it. The bytes are kept by their addresses, and come into the image only when the whole text is good.
use crate::bank;
use std::collections::BTreeMap;
use std::ops::RangeInclusive;

#[derive(Debug, PartialEq)]
pub enum Refusal {
    /// 3 or 2: the image is as it was.
    Number(u8),
    /// H1 to H6, the line, and the byte in it, both counted from 1: the image is all 0xFF.
    Fault(u8, usize, usize),
}

/// H1 to H6, and the byte in the line.
pub type Fault = (u8, usize);

#[derive(Debug, PartialEq)]
pub struct Record {
    pub kind: u8,
    pub offset: usize,
    pub data: Vec<u8>,
}

pub fn read(text: &[u8], number: usize, n: usize, image: &mut [u8]) -> Result<(), Refusal> {
    let end = bank::end(number, n).ok_or(Refusal::Number(3))?;
    if image.len() != n * bank::SECTOR {
        return Err(Refusal::Number(2));
    }
    image.fill(0xFF);
    for (address, byte) in data(text, bank::start(number)..=end)? {
        image[address - bank::start(number)] = byte;
    }
    Ok(())
}

/// A CR that no LF follows is a byte like any other, and nothing behind the last LF is no line.
fn lines(text: &[u8]) -> Vec<&[u8]> {
    let content = |line: &'_ [u8]| match line {
        [.., b'\r', b'\n'] => line.len() - 2,
        [.., b'\n'] => line.len() - 1,
        _ => line.len(),
    };
    text.split_inclusive(|b| *b == b'\n').map(|line| &line[..content(line)]).collect()
}

/// H1 and H2, which a line has by itself. H1 is at the byte that the walk cannot go on with, H2 at the checksum's first digit.
pub fn record(line: &[u8]) -> Result<Record, Fault> {
    let mut walk = Walk { line, byte: 1, sum: 0 };
    walk.step(|byte| (byte == b':').then_some(()))?;
    let count = walk.pair()?;
    let offset = 256 * walk.pair()? as usize + walk.pair()? as usize;
    let kind = walk.pair()?;
    let data = (0..count).map(|_| walk.pair()).collect::<Result<_, _>>()?;
    let checksum = walk.byte;
    walk.pair()?;
    if walk.byte <= line.len() {
        return Err((1, walk.byte));
    }
    if walk.sum != 0 {
        return Err((2, checksum));
    }
    Ok(Record { kind, offset, data })
}

/// A line from left to right, a byte at a step.
struct Walk<'a> {
    line: &'a [u8],
    /// The next one, or one past the line's end
    byte: usize,
    /// Of the pairs so far
    sum: u8,
}

impl Walk<'_> {
    fn step<T>(&mut self, known: impl Fn(u8) -> Option<T>) -> Result<T, Fault> {
        let found = self.line.get(self.byte - 1).and_then(|byte| known(*byte)).ok_or((1, self.byte))?;
        self.byte += 1;
        Ok(found)
    }

    fn digit(&mut self) -> Result<u8, Fault> {
        self.step(|byte| char::from(byte).to_digit(16).map(|digit| digit as u8))
    }

    fn pair(&mut self) -> Result<u8, Fault> {
        let value = 16 * self.digit()? + self.digit()?;
        self.sum = self.sum.wrapping_add(value);
        Ok(value)
    }
}

/// Each data byte of a good text by its address.
fn data(text: &[u8], bank: RangeInclusive<usize>) -> Result<BTreeMap<usize, u8>, Refusal> {
    let lines = lines(text);
    let (mut upper, mut ended, mut held) = (0, false, BTreeMap::new());
    for (k, line) in lines.iter().enumerate() {
        let inside = |(h, byte)| Refusal::Fault(h, k + 1, byte);
        // What is wrong with a line as a whole is named at its first byte.
        let fault = |h| inside((h, 1));
        if ended {
            return Err(fault(6));
        }
        let Record { kind, offset, data } = record(line).map_err(inside)?;
        match (kind, offset, &data[..]) {
            (0, _, _) => {
                let addresses = (65_536 * upper + offset..).take(data.len());
                if !addresses.clone().all(|address| bank.contains(&address)) {
                    return Err(fault(4));
                }
                // None starts below an earlier end, so the highest address held is that of the latest data.
                let below = |first| held.keys().next_back().map_or(false, |last| first <= *last);
                if addresses.clone().next().map_or(false, below) {
                    return Err(fault(5));
                }
                held.extend(addresses.zip(data));
            }
            (1, 0, []) => ended = true,
            (4, 0, [high, low]) => upper = 256 * *high as usize + *low as usize,
            (5, 0, [_, _, _, _]) => (),
            _ => return Err(fault(3)),
        }
    }
    if ended {
        Ok(held)
    } else {
        Err(Refusal::Fault(6, lines.len() + 1, 1))
    }
}
