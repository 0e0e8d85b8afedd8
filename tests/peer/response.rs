//! Responses, and which are unreadable: number 6 of the paper's 'What comes back when it is no', with 02 §3.
use crate::frame::{self, Frame};

/// Table 9 of the J11 specification.
pub const RESULTS: [u8; 7] = [0x05, 0x06, 0x07, 0x15, 0x1C, 0x1D, 0x1E];

/// The six responses, and Respond Error.
pub const CODES: [u8; 7] = [0x71, 0x72, 0x78, 0x70, 0x75, 0x74, RESPOND_ERROR];

pub const RESPOND_ERROR: u8 = 0xE0;
/// A parameter fault, which Respond Error alone tells (02 §3).
pub const PARAMETER: u8 = 0x05;
const DONE: u8 = 0x06;
const OMITTED: u8 = 0x1D;

#[derive(Debug, PartialEq)]
pub enum Response {
    Plain { code: u8, result: u8 },
    Bank(u8),
    Version { id: u16, major: u8, minor: u8, revision: u32 },
    Written { sector: u16, response: u8, write: u8, crc: u32 },
}

/// None for one that is unreadable.
pub fn read(datagram: &[u8]) -> Option<Response> {
    match frame::read(datagram)? {
        Frame::Control { code, parameters } => control(code, &parameters),
        Frame::Write { sector, data, footer: frame::END } => written(sector, &data),
        Frame::Write { .. } => None,
    }
}

/// The added fields are there with 06 alone.
fn control(code: u8, parameters: &[u8]) -> Option<Response> {
    let (result, added) = parameters.split_first()?;
    if !CODES.contains(&code) || !RESULTS.contains(result) || *result == PARAMETER && code != RESPOND_ERROR {
        return None;
    }
    match (code, *result, added) {
        (0x72, DONE, [number @ (0 | 1)]) => Some(Response::Bank(*number)),
        (0x72 | 0x78, DONE, []) => None,
        (0x78, DONE, [i1, i2, major, minor, r1, r2, r3, r4]) => Some(Response::Version {
            id: u16::from_be_bytes([*i1, *i2]),
            major: *major,
            minor: *minor,
            revision: u32::from_be_bytes([*r1, *r2, *r3, *r4]),
        }),
        (_, _, []) => Some(Response::Plain { code, result: *result }),
        _ => None,
    }
}

fn written(sector: u16, data: &[u8]) -> Option<Response> {
    let (response, write, crc) = match data {
        [response, write, c1, c2, c3, c4] => (*response, *write, u32::from_be_bytes([*c1, *c2, *c3, *c4])),
        _ => return None,
    };
    let known = [response, write].iter().all(|result| RESULTS.contains(result) && *result != PARAMETER);
    let repeated = response == DONE || write == response;
    let has_crc = [response, write].iter().all(|result| [DONE, OMITTED].contains(result));
    (known && repeated && (has_crc || crc == 0)).then_some(Response::Written { sector, response, write, crc })
}
