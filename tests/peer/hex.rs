//! Bytes as text: two digits each, and `-` for none. They are read in either case and written in upper case.

pub fn text(bytes: &[u8]) -> String {
    if bytes.is_empty() {
        return "-".to_string();
    }
    bytes.iter().map(|b| format!("{:02X}", b)).collect()
}

pub fn bytes(text: &str) -> Option<Vec<u8>> {
    if text == "-" {
        return Some(Vec::new());
    }
    if text.is_empty() || text.len() % 2 != 0 {
        return None;
    }
    (0..text.len() / 2).map(|i| Some(number(text.get(2 * i..2 * i + 2)?, 2)? as u8)).collect()
}

/// A number of exactly so many digits.
pub fn number(text: &str, digits: usize) -> Option<u32> {
    if text.len() != digits || !text.bytes().all(|b| b.is_ascii_hexdigit()) {
        return None;
    }
    u32::from_str_radix(text, 16).ok()
}
