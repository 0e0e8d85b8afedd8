//! Hex text made: records, and texts of them with line ends and digits of either case.
use crate::bank;
use crate::frame::checksum;

pub const END: &str = ":00000001FF";

/// The paper's own listing.
pub const LISTING: [&str; 4] = [":020000041000EA", ":040A0000DEADBEEFBA", ":040E000001020304E4", END];

/// A line of any bytes, counted as they are.
pub fn counted(offset: u16, kind: u8, data: &[u8]) -> String {
    let mut bytes = vec![data.len() as u8];
    bytes.extend(offset.to_be_bytes());
    bytes.push(kind);
    bytes.extend(data);
    sealed(&bytes)
}

/// A line of those bytes and of the one that makes their sum 0.
pub fn sealed(bytes: &[u8]) -> String {
    line(&[bytes, &[checksum(bytes)]].concat())
}

pub fn line(bytes: &[u8]) -> String {
    bytes.iter().fold(":".to_string(), |line, byte| line + &format!("{:02X}", byte))
}

pub fn data(offset: u16, data: &[u8]) -> String {
    counted(offset, 0, data)
}

pub fn upper(half: u16) -> String {
    counted(0, 4, &half.to_be_bytes())
}

pub fn start(address: u32) -> String {
    counted(0, 5, &address.to_be_bytes())
}

/// The upper half of a bank's first byte.
pub fn half(number: usize) -> u16 {
    (bank::start(number) >> 16) as u16
}

/// Lines of data from an address on, with an upper half before the first and wherever it changes.
pub fn rows(address: usize, bytes: &[u8], row: usize) -> Vec<String> {
    let mut lines = Vec::new();
    let mut last = None;
    for (k, part) in bytes.chunks(row).enumerate() {
        let at = address + k * row;
        if last != Some(at >> 16) {
            lines.push(upper((at >> 16) as u16));
        }
        last = Some(at >> 16);
        lines.push(data(at as u16, part));
    }
    lines
}

pub fn with_ends<T: AsRef<str>>(lines: &[T], end: &str) -> Vec<u8> {
    lines.iter().fold(String::new(), |text, line| text + line.as_ref() + end).into_bytes()
}

/// The last line ends with the text.
pub fn without_last_end<T: AsRef<str>>(lines: &[T], end: &str) -> Vec<u8> {
    lines.iter().map(|line| line.as_ref()).collect::<Vec<_>>().join(end).into_bytes()
}

pub fn in_lf<T: AsRef<str>>(lines: &[T]) -> Vec<u8> {
    with_ends(lines, "\n")
}
