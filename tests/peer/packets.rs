//! The paper's program: hex text for bank 0 and N = 32, and a line for each packet that the sender would send.
use crate::bank::SECTOR;
use crate::intel::{self, Refusal};
use crate::sender;

const N: usize = 32;
const LONGEST_TEXT: usize = 48 * 1024;

pub fn lines(text: &[u8]) -> Vec<String> {
    if text.len() > LONGEST_TEXT {
        return vec!["too long".to_string()];
    }
    let mut image = [0; N * SECTOR];
    match intel::read(text, 0, N, &mut image) {
        Ok(()) => sent(&image),
        Err(refusal) => vec![refused(&refusal)],
    }
}

/// Sector and footer as they stand in the packet.
fn sent(image: &[u8]) -> Vec<String> {
    let mut lines = Vec::new();
    let mut packet = [0; 519];
    while sender::packet(image, N, lines.len(), &mut packet).is_ok() {
        lines.push(format!("{:02X}{:02X} {:02X}", packet[1], packet[2], packet[518]));
    }
    lines.push(format!("sent {}", lines.len()));
    lines
}

pub fn refused(refusal: &Refusal) -> String {
    match refusal {
        Refusal::Number(number) => format!("refused {}", number),
        Refusal::Fault(h, line, byte) => format!("refused H{} line {} byte {}", h, line, byte),
    }
}
