//! Sound images to deliver: bodies of drawn bytes in drawn places, and 0xFF elsewhere.
use crate::bank::SECTOR;
use crate::crc::crc32;
use crate::draw::Draw;
use std::ops::Range;

pub struct Image {
    pub bytes: Vec<u8>,
    pub bodies: Vec<Range<usize>>,
}

/// One of at most 30 bodies, each within its own share of what the table leaves; a long one in one of four.
pub fn drawn(draw: &mut Draw, n: usize, count: usize) -> Image {
    let (length, table) = (n * SECTOR, 8 + 12 * count);
    let share = (length - table) / count;
    let mut image = Image { bytes: vec![0xFF; length], bodies: Vec::new() };
    for i in 0..count {
        let longest = if draw.below(4) == 0 { share } else { share.min(100) };
        let size = 1 + draw.below(longest);
        let from = table + i * share + draw.below(share - size + 1);
        image.bytes[from..from + size].copy_from_slice(&draw.bytes(size));
        image.bodies.push(from..from + size);
    }
    image.seal();
    image
}

/// One body of one byte over and over, up to the end: all sectors but the first are alike.
pub fn alike(draw: &mut Draw, n: usize) -> Image {
    let body = 20..n * SECTOR;
    let mut image = Image { bytes: vec![draw.below(0xFF) as u8; n * SECTOR], bodies: vec![body] };
    image.seal();
    image
}

impl Image {
    /// Writes the table for the bodies as they are.
    fn seal(&mut self) {
        let mut table = vec![0x04, 0x00, 1, self.bodies.len() as u8];
        for body in &self.bodies {
            let numbers = [body.start as u32, body.len() as u32, crc32(&self.bytes[body.clone()])];
            table.extend(numbers.map(u32::to_be_bytes).concat());
        }
        table.extend(crc32(&table).to_be_bytes());
        self.bytes[..table.len()].copy_from_slice(&table);
    }

    pub fn sector(&self, sector: usize) -> &[u8] {
        &self.bytes[(sector - 1) * SECTOR..sector * SECTOR]
    }

    /// The sectors that a sender sends: those with a byte other than 0xFF.
    pub fn sent(&self) -> Vec<usize> {
        (1..=self.bytes.len() / SECTOR).filter(|k| self.sector(*k).iter().any(|byte| *byte != 0xFF)).collect()
    }
}

/// Each of them at least once, and some again, in no order.
pub fn in_any_order(draw: &mut Draw, sectors: &[usize]) -> Vec<usize> {
    let mut order = sectors.to_vec();
    let again = draw.below(sectors.len() + 2);
    order.extend((0..again).map(|_| sectors[draw.below(sectors.len())]).collect::<Vec<_>>());
    for i in (1..order.len()).rev() {
        order.swap(i, draw.below(i + 1));
    }
    order
}
