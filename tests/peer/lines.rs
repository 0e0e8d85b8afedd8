//! The request lines that the program `vectors` answers, and their answers: docs/REQUESTS.md has the form of both.
use crate::{bank, clean, crc, frame, hex};

const LONGEST_LINE: usize = 4_096;
const LONGEST_RUN: usize = 300_000;
const LARGEST_BUFFER: usize = 600;
const LONGEST_BANK: usize = 252_416;
const LONGEST_SHOWN: usize = 64;
const LONGEST_RUNS: usize = 64;
const LONGEST_SECTORS: usize = 512;

pub fn answers(text: &[u8]) -> Vec<String> {
    requests(text).into_iter().map(|line| line.and_then(known).unwrap_or_else(|| "?".to_string())).collect()
}

/// Each line; None where it is too long, or no text.
pub fn requests(text: &[u8]) -> Vec<Option<&str>> {
    if text.is_empty() {
        return Vec::new();
    }
    let text = text.strip_suffix(b"\n").unwrap_or(text);
    let short = |line: &&[u8]| line.len() <= LONGEST_LINE;
    let request = |line| Some(line).filter(short).and_then(|line| std::str::from_utf8(line).ok()).map(own);
    text.split(|b| *b == b'\n').map(request).collect()
}

/// A line without the CR at its end.
fn own(line: &str) -> &str {
    line.strip_suffix('\r').unwrap_or(line)
}

fn known(line: &str) -> Option<String> {
    match line.split(' ').collect::<Vec<_>>()[..] {
        ["crc", bytes] => Some(crc_line(&hex::bytes(bytes)?)),
        ["more", register, bytes] => {
            Some(format!("more {:08X}", crc::more(hex::number(register, 8)?, &hex::bytes(bytes)?)))
        }
        ["crcrun", byte, count] => Some(crc_line(&vec![hex::number(byte, 2)? as u8; decimal(count, LONGEST_RUN)?])),
        ["crcramp", count] => Some(crc_line(&ramp(decimal(count, LONGEST_RUN)?))),
        ["sum", bytes] => Some(format!("sum {:02X}", frame::checksum(&hex::bytes(bytes)?))),
        ["read", bytes] => Some(reading(frame::read(&hex::bytes(bytes)?))),
        ["control", code, bytes, room] => {
            let code = hex::number(code, 2)? as u8;
            Some(put(frame::control(code, &hex::bytes(bytes)?), decimal(room, LARGEST_BUFFER)?))
        }
        ["write", sector, bytes, footer, room] => {
            let sector = hex::number(sector, 4)? as u16;
            let footer = match footer {
                "03" => frame::END,
                "17" => frame::CONTINUED,
                _ => return None,
            };
            Some(put(frame::write(sector, &hex::bytes(bytes)?, footer), decimal(room, LARGEST_BUFFER)?))
        }
        ["error", room] => Some(put(Some(frame::ERROR.to_vec()), decimal(room, LARGEST_BUFFER)?)),
        ["layout", number @ ("0" | "1"), n] => {
            let (number, n) = (decimal(number, 1)?, decimal(n, usize::MAX)?);
            let end = bank::end(number, n).unwrap_or(0);
            Some(format!("layout {} {:08X} {:08X}", number, bank::start(number), end))
        }
        ["sectors", length] => Some(match bank::sectors(decimal(length, usize::MAX)?) {
            Some(n) => format!("sectors {}", n),
            None => "refused".to_string(),
        }),
        ["check", length, ref pieces @ ..] => Some(verdict(&held(length, pieces)?)),
        ["body", i, length, ref pieces @ ..] => {
            Some(body_line(bank::body(&held(length, pieces)?, decimal(i, usize::MAX)?)))
        }
        ["clean", runs, sectors, length, ref pieces @ ..] => {
            let (runs, sectors) = clean::lists(decimal(runs, LONGEST_RUNS)?, decimal(sectors, LONGEST_SECTORS)?);
            Some(clean::lent_line(&clean::lent(&held(length, pieces)?, &runs, &sectors)))
        }
        _ => None,
    }
}

/// The bytes of a bank.
fn held(length: &str, pieces: &[&str]) -> Option<Vec<u8>> {
    let mut bank = vec![0xFF; decimal(length, LONGEST_BANK)?];
    for piece in pieces {
        let (offset, bytes) = match (piece.split_once(':'), piece.split_once('~')) {
            (Some((offset, bytes)), None) => (offset, hex::bytes(bytes)?),
            (None, Some((offset, count))) => (offset, ramp(decimal(count, LONGEST_BANK)?)),
            _ => return None,
        };
        let offset = decimal(offset, LONGEST_BANK)?;
        bank.get_mut(offset..offset + bytes.len())?.copy_from_slice(&bytes);
    }
    Some(bank)
}

fn verdict(bank: &[u8]) -> String {
    match (bank::sectors(bank.len()), bank::bodies(bank)) {
        (None, _) => "refused".to_string(),
        (_, Some(_)) => "sound".to_string(),
        (_, None) => "unsound".to_string(),
    }
}

fn body_line(body: &[u8]) -> String {
    if body.len() <= LONGEST_SHOWN {
        return format!("body {}", hex::text(body));
    }
    format!("body {} {:08X}", body.len(), crc::crc32(body))
}

fn ramp(count: usize) -> Vec<u8> {
    (0..count).map(|i| (i % 251) as u8).collect()
}

fn crc_line(bytes: &[u8]) -> String {
    format!("crc {:08X}", crc::crc32(bytes))
}

fn reading(read: Option<frame::Frame>) -> String {
    match read {
        None => "fault".to_string(),
        Some(frame::Frame::Control { code, parameters }) => format!("control {:02X} {}", code, hex::text(&parameters)),
        Some(frame::Frame::Write { sector, data, footer }) => {
            format!("write {:04X} {:04X} {:02X} {}", sector, data.len(), footer, hex::text(&data))
        }
    }
}

/// A buffer after a frame was put to its front: the frame alone and the rest, or all of it where the frame does not fit.
fn put(frame: Option<Vec<u8>>, room: usize) -> String {
    let buffer = vec![0xA5; room];
    match frame.filter(|frame| frame.len() <= room) {
        Some(frame) => format!("frame {} {}", hex::text(&frame), hex::text(&buffer[frame.len()..])),
        None => format!("nothing {}", hex::text(&buffer)),
    }
}

/// A number of one to six digits.
pub fn decimal(text: &str, most: usize) -> Option<usize> {
    if text.is_empty() || text.len() > 6 || !text.bytes().all(|b| b.is_ascii_digit()) {
        return None;
    }
    text.parse().ok().filter(|n| *n <= most)
}
