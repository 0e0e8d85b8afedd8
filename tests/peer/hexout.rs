//! What `hexout` writes: hex text out of the image of a bank (§2 of the follow-up requests). Each byte other than 0xFF is put into its row, by
//! its address: a row is there since such a byte lies in it, and an upper half is told since a row lies under it.
use crate::bank;
use crate::texts::{data, upper, with_ends, END};
use std::collections::BTreeMap;

const ROW: usize = 16;

/// Rows by their offset, by their upper half
type Halves = BTreeMap<u16, BTreeMap<u16, [u8; ROW]>>;

pub fn written(image: &[u8], number: usize) -> Vec<u8> {
    match text(image, number) {
        Ok(text) => text,
        Err(refusal) => with_ends(&[format!("refused {}", refusal)], "\n"),
    }
}

pub fn text(image: &[u8], number: usize) -> Result<Vec<u8>, u8> {
    bank::sectors(image.len()).ok_or(2)?;
    let mut lines = Vec::new();
    for (half, rows) in held(image, number) {
        lines.push(upper(half));
        lines.extend(rows.iter().map(|(offset, row)| data(*offset, row)));
    }
    lines.push(END.to_string());
    Ok(with_ends(&lines, "\r\n"))
}

fn held(image: &[u8], number: usize) -> Halves {
    let mut halves = Halves::new();
    for (at, byte) in image.iter().enumerate().filter(|(_, byte)| **byte != 0xFF) {
        let address = bank::start(number) + at / ROW * ROW;
        let rows = halves.entry((address >> 16) as u16).or_default();
        rows.entry(address as u16).or_insert([0xFF; ROW])[at % ROW] = *byte;
    }
    halves
}
