//! What `update` writes: a hex text judged for a bank, and the script of the whole update.
use crate::bank::{self, SECTOR};
use crate::crc::crc32;
use crate::{hex, intel, packets, sender};

const LONGEST_TEXT: usize = 1_048_576;
const ROOM: usize = 519;

pub fn lines(text: &[u8], target: usize, n: usize) -> Vec<String> {
    if text.len() > LONGEST_TEXT {
        return vec!["too long".to_string()];
    }
    let mut image = vec![0; n * SECTOR];
    if let Err(refusal) = intel::read(text, target, n, &mut image) {
        return vec![packets::refused(&refusal)];
    }
    match bank::bodies(&image) {
        Some(bodies) => script(&image, &bodies, target, n),
        None => vec!["unsound".to_string()],
    }
}

fn script(image: &[u8], bodies: &[&[u8]], target: usize, n: usize) -> Vec<String> {
    let count = sender::count(image, n).expect("a good image");
    let mut lines = vec![format!("# a sound bank {} of {} sectors, sent as {} packets", target, n, count)];
    for (i, body) in bodies.iter().enumerate() {
        lines.push(format!("# body {}: {} bytes, CRC-32 {:08X}", i, body.len(), crc32(body)));
    }
    lines.extend([format!("client {} {} 0 0 0", n, 1 - target), "initiate".to_string()]);
    let mut send = |why: &str, put: &dyn Fn(&mut [u8]) -> Result<usize, u8>| {
        let mut buffer = [0; ROOM];
        let length = put(&mut buffer).expect("a frame");
        lines.extend([format!("# {}", why), format!("send {}", hex::text(&buffer[..length]))]);
    };
    send("Start OTA Mode", &|buffer| sender::request(sender::START_MODE, buffer));
    send("bank information", &|buffer| sender::request(sender::BANK, buffer));
    send("version", &|buffer| sender::request(sender::VERSION, buffer));
    send("Start OTA Write", &|buffer| sender::start_write(target, n, buffer));
    for p in 0..count {
        send(&format!("packet {}", p), &|buffer| sender::packet(image, n, p, buffer));
    }
    send("End OTA Write", &|buffer| sender::request(sender::END_WRITE, buffer));
    send("End OTA Mode", &|buffer| sender::request(sender::FINISH_MODE, buffer));
    lines.push("terminate".to_string());
    lines.extend((0..bodies.len()).map(|i| format!("body {}", i)));
    lines.extend(["record".to_string(), format!("crc {}", target)]);
    lines
}
