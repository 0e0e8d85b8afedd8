//! The two kinds of frame: sections 3.2 and 3.4 of the J11 specification, and the paper's 'Frames'.

pub const CONTROL: u8 = 0x01;
pub const WRITE: u8 = 0x02;
pub const END: u8 = 0x03;
pub const CONTINUED: u8 = 0x17;

/// The answer to a frame that cannot be read.
pub const ERROR: [u8; 6] = [0x01, 0x02, 0xE0, 0x07, 0x17, 0x03];

pub enum Frame {
    Control { code: u8, parameters: Vec<u8> },
    Write { sector: u16, data: Vec<u8>, footer: u8 },
}

/// What has to be added to the bytes for a sum of 0 modulo 256: the same as taking each away from 0.
pub fn checksum(bytes: &[u8]) -> u8 {
    let sum: usize = bytes.iter().map(|b| *b as usize).sum();
    ((256 - sum % 256) % 256) as u8
}

/// First byte, what the checksum covers, the checksum, the footer.
pub fn framed(first: u8, covered: &[u8], footer: u8) -> Vec<u8> {
    let mut frame = vec![first];
    frame.extend(covered);
    frame.push(checksum(covered));
    frame.push(footer);
    frame
}

/// None where the length does not fit its byte.
pub fn control(code: u8, parameters: &[u8]) -> Option<Vec<u8>> {
    let length = u8::try_from(parameters.len() + 1).ok()?;
    let mut covered = vec![length, code];
    covered.extend(parameters);
    Some(framed(CONTROL, &covered, END))
}

/// None where the length does not fit its two bytes.
pub fn write(sector: u16, data: &[u8], footer: u8) -> Option<Vec<u8>> {
    let length = u16::try_from(data.len()).ok()?;
    let mut covered = sector.to_be_bytes().to_vec();
    covered.extend(length.to_be_bytes());
    covered.extend(data);
    Some(framed(WRITE, &covered, footer))
}

/// None for a frame fault.
pub fn read(datagram: &[u8]) -> Option<Frame> {
    let (first, covered, sum, footer) = match datagram {
        [first, covered @ .., sum, footer] => (*first, covered, *sum, *footer),
        _ => return None,
    };
    if checksum(covered) != sum {
        return None;
    }
    match (first, footer, covered) {
        (CONTROL, END, [length, code, parameters @ ..]) if *length as usize == 1 + parameters.len() => {
            Some(Frame::Control { code: *code, parameters: parameters.to_vec() })
        }
        (WRITE, END | CONTINUED, [s1, s2, m1, m2, data @ ..]) if *m1 as usize * 256 + *m2 as usize == data.len() => {
            Some(Frame::Write { sector: u16::from_be_bytes([*s1, *s2]), data: data.to_vec(), footer })
        }
        _ => None,
    }
}
