//! The request lines that the program `sending` answers, and their answers: docs/REQUESTS.md has the form of both.
use crate::lines::{self, decimal};
use crate::response::Response;
use crate::{crc, hex, hexout, intel, packets, response, sender};

const LONGEST_TEXT: usize = 720_896;
const LONGEST_IMAGE: usize = 252_416;
const LARGEST_BUFFER: usize = 600;

pub fn answers(text: &[u8]) -> Vec<String> {
    let mut held = Held { text: Vec::new(), image: Vec::new() };
    lines::requests(text)
        .into_iter()
        .map(|line| line.and_then(|line| held.known(line)).unwrap_or_else(|| "?".to_string()))
        .collect()
}

struct Held {
    text: Vec<u8>,
    image: Vec<u8>,
}

impl Held {
    fn known(&mut self, line: &str) -> Option<String> {
        match line.split(' ').collect::<Vec<_>>()[..] {
            ["text", bytes] => {
                self.text = hex::bytes(bytes)?;
                Some(format!("text {}", self.text.len()))
            }
            ["more", bytes] => {
                let bytes = hex::bytes(bytes)?;
                if self.text.len() + bytes.len() > LONGEST_TEXT {
                    return None;
                }
                self.text.extend(bytes);
                Some(format!("text {}", self.text.len()))
            }
            ["read", number, n, length] => {
                let (number, n) = (bank(number)?, decimal(n, usize::MAX)?);
                self.image = vec![0xA5; decimal(length, LONGEST_IMAGE)?];
                let said = match intel::read(&self.text, number, n, &mut self.image) {
                    Ok(()) => "accepted".to_string(),
                    Err(refusal) => packets::refused(&refusal),
                };
                Some(format!("{} {:08X}", said, crc::crc32(&self.image)))
            }
            ["image", length] => {
                self.image = vec![0xFF; decimal(length, LONGEST_IMAGE)?];
                Some(format!("image {}", self.image.len()))
            }
            ["put", offset, bytes] => {
                let (offset, bytes) = (decimal(offset, LONGEST_IMAGE)?, hex::bytes(bytes)?);
                self.image.get_mut(offset..offset + bytes.len())?.copy_from_slice(&bytes);
                Some(format!("put {} {}", offset, bytes.len()))
            }
            ["length", number] => Some(match hexout::text(&self.image, bank(number)?) {
                Ok(text) => format!("length {}", text.len()),
                Err(number) => format!("refused {}", number),
            }),
            ["write", number, room] => {
                let number = bank(number)?;
                self.text = vec![0xA5; decimal(room, LONGEST_TEXT)?];
                let written = hexout::text(&self.image, number).and_then(|text| fitting(text, &mut self.text));
                let crc = crc::crc32(&self.text);
                Some(match written {
                    Ok(length) => {
                        self.text.truncate(length);
                        format!("written {} {:08X}", length, crc)
                    }
                    Err(number) => format!("refused {} {:08X}", number, crc),
                })
            }
            ["count", n] => Some(match sender::count(&self.image, decimal(n, usize::MAX)?) {
                Ok(count) => format!("count {}", count),
                Err(number) => format!("refused {}", number),
            }),
            ["packet", n, p, room] => {
                let (n, p) = (decimal(n, usize::MAX)?, decimal(p, usize::MAX)?);
                made(room, |buffer| sender::packet(&self.image, n, p, buffer))
            }
            ["request", "write", number, n, room] => {
                let (number, n) = (bank(number)?, decimal(n, usize::MAX)?);
                made(room, |buffer| sender::start_write(number, n, buffer))
            }
            ["request", word, room] => {
                let code = code(word)?;
                made(room, |buffer| sender::request(code, buffer))
            }
            ["response", bytes] => Some(reading(response::read(&hex::bytes(bytes)?))),
            _ => None,
        }
    }
}

/// To the front of a buffer that has room for all of it
fn fitting(text: Vec<u8>, buffer: &mut [u8]) -> Result<usize, u8> {
    buffer.get_mut(..text.len()).ok_or(2)?.copy_from_slice(&text);
    Ok(text.len())
}

fn bank(text: &str) -> Option<usize> {
    match text {
        "0" => Some(0),
        "1" => Some(1),
        _ => None,
    }
}

fn code(word: &str) -> Option<u8> {
    match word {
        "start" => Some(sender::START_MODE),
        "bank" => Some(sender::BANK),
        "version" => Some(sender::VERSION),
        "end" => Some(sender::END_WRITE),
        "finish" => Some(sender::FINISH_MODE),
        _ => None,
    }
}

fn made(room: &str, put: impl Fn(&mut [u8]) -> Result<usize, u8>) -> Option<String> {
    let mut buffer = vec![0xA5; decimal(room, LARGEST_BUFFER)?];
    Some(match put(&mut buffer) {
        Ok(length) => format!("frame {} {}", hex::text(&buffer[..length]), hex::text(&buffer[length..])),
        Err(number) => format!("refused {} {}", number, hex::text(&buffer)),
    })
}

fn reading(read: Option<Response>) -> String {
    match read {
        None => "refused 6".to_string(),
        Some(Response::Plain { code, result }) => format!("result {:02X} {:02X}", code, result),
        Some(Response::Bank(number)) => format!("bank {}", number),
        Some(Response::Version { id, major, minor, revision }) => {
            format!("version {:04X} {:02X} {:02X} {:08X}", id, major, minor, revision)
        }
        Some(Response::Written { sector, response, write, crc }) => {
            format!("written {:04X} {:02X} {:02X} {:08X}", sector, response, write, crc)
        }
    }
}
