//! The sender: requests, and the sector packets of an image by number. Where it refuses, it gives the number of the paper's 'What
//! comes back when it is no', and leaves the buffer as it was; else the frame's length.
use crate::bank::{self, SECTOR};
use crate::frame;

pub const START_MODE: u8 = 0x61;
pub const BANK: u8 = 0x62;
pub const VERSION: u8 = 0x68;
pub const START_WRITE: u8 = 0x40;
pub const END_WRITE: u8 = 0x45;
pub const FINISH_MODE: u8 = 0x64;

/// The longest packet's length, which every maker of a request asks for.
const ROOM: usize = 519;

pub fn request(code: u8, buffer: &mut [u8]) -> Result<usize, u8> {
    put(frame::control(code, &[]), buffer)
}

pub fn start_write(number: usize, n: usize, buffer: &mut [u8]) -> Result<usize, u8> {
    let end = bank::end(number, n).ok_or(3)?;
    let addresses = [bank::start(number) as u32, end as u32].map(u32::to_be_bytes).concat();
    put(frame::control(START_WRITE, &addresses), buffer)
}

pub fn count(image: &[u8], n: usize) -> Result<usize, u8> {
    Ok(sent(image, n)?.len())
}

pub fn packet(image: &[u8], n: usize, p: usize, buffer: &mut [u8]) -> Result<usize, u8> {
    let sent = sent(image, n)?;
    has_room(buffer)?;
    let sector = *sent.get(p).ok_or(5)?;
    let footer = if p + 1 == sent.len() { frame::END } else { frame::CONTINUED };
    put(frame::write(sector as u16, &image[(sector - 1) * SECTOR..sector * SECTOR], footer), buffer)
}

/// The numbers of the sectors that have a byte other than 0xFF.
fn sent(image: &[u8], n: usize) -> Result<Vec<usize>, u8> {
    if !(1..=bank::MOST_SECTORS).contains(&n) {
        return Err(3);
    }
    if image.len() != n * SECTOR {
        return Err(2);
    }
    let blank = [0xFF; SECTOR];
    Ok((1..=n).zip(image.chunks(SECTOR)).filter(|(_, bytes)| **bytes != blank).map(|(sector, _)| sector).collect())
}

fn has_room(buffer: &[u8]) -> Result<(), u8> {
    if buffer.len() < ROOM {
        Err(2)
    } else {
        Ok(())
    }
}

fn put(frame: Option<Vec<u8>>, buffer: &mut [u8]) -> Result<usize, u8> {
    has_room(buffer)?;
    let frame = frame.expect("a frame of at most 519 bytes");
    buffer[..frame.len()].copy_from_slice(&frame);
    Ok(frame.len())
}
