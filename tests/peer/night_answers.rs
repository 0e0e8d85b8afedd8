//! Events that do not settle a request at its first try: what a radio, a board in another state or another board may bring.
use crate::crc::crc32;
use crate::frame::{framed, CONTINUED, END, WRITE};
use crate::hex;
use crate::night_steps::{response, sector, write_response, Kind, Step};
use crate::response::{CODES, RESPOND_ERROR, RESULTS};

pub const SILENCE: &str = "silence";

pub fn heard(bytes: &[u8]) -> String {
    format!("heard {}", hex::text(bytes))
}

/// Lines for step `at`, each once; some stop a night when its request was repeated, and the other bank always does.
pub fn unawaited(steps: &[Step], at: usize, image: &[u8], bank: usize) -> Vec<String> {
    let step = &steps[at];
    let mut answers = vec![step.refused.clone(), Vec::new(), step.request.clone()];
    answers.extend(RESULTS.iter().map(|result| response(RESPOND_ERROR, *result, &[])));
    answers.extend(damaged(&step.awaited[0]));
    answers.extend(CODES.iter().map(|code| response(*code, 0x15, &[])));
    answers.extend(steps.iter().map(|other| other.awaited[0].clone()));
    match step.kind {
        Kind::Packet => answers.extend(of_packet(steps, at, image)),
        _ => {
            let code = step.refused[2];
            answers.extend(RESULTS.iter().chain(&[0x08]).map(|result| response(code, *result, &[])));
            answers.push(response(code, 0x06, &[0, 0, 0]));
        }
    }
    match step.kind {
        Kind::Bank => {
            answers.extend([2, 0xFF].map(|number| response(0x72, 0x06, &[number])));
            answers.push(response(0x72, 0x15, &[bank as u8]));
            answers.push(other_bank(bank));
        }
        Kind::Version => {
            answers.extend([7, 9].map(|length| response(0x78, 0x06, &vec![4; length])));
            answers.push(response(0x78, 0x15, &[4, 0, 1, 2, 0, 0, 0, 42]));
        }
        _ => (),
    }
    let mut lines: Vec<String> = vec![SILENCE.to_string()];
    for line in answers.iter().filter(|answer| !step.is_settled_by(answer)).map(|answer| heard(answer)) {
        if !lines.contains(&line) {
            lines.push(line);
        }
    }
    lines
}

pub fn other_bank(bank: usize) -> Vec<u8> {
    response(0x72, 0x06, &[1 - bank as u8])
}

/// The awaited answer cut short, made longer, with one bit off or under another footer.
fn damaged(answer: &[u8]) -> Vec<Vec<u8>> {
    let length = answer.len();
    let mut all = vec![answer[..length - 1].to_vec(), answer[1..].to_vec(), [answer, &[0x03]].concat()];
    all.extend([0, 1, 2, 3, length / 2, length - 2, length - 1].map(|at| flipped(answer, at, at % 8)));
    all.push([&answer[..length - 1], &[CONTINUED]].concat());
    all
}

pub fn flipped(bytes: &[u8], at: usize, bit: usize) -> Vec<u8> {
    let mut flipped = bytes.to_vec();
    flipped[at] ^= 1 << bit;
    flipped
}

/// Other sectors, other results and other sums, under a frame that is right.
fn of_packet(steps: &[Step], at: usize, image: &[u8]) -> Vec<Vec<u8>> {
    let own = sector_of(&steps[at]);
    let crc = crc32(sector(image, own));
    let mut all = vec![write_response(own, [0x06, 0x06], 0), write_response(own, [0x06, 0x1D], !crc)];
    all.extend([own - 1, own + 1, own + 256, 0].map(|other| write_response(other, [0x06, 0x06], crc)));
    all.extend([0, 7, 8, 16, 31].map(|bit| write_response(own, [0x06, 0x06], crc ^ 1 << bit)));
    all.push(write_response(own, [0x06, 0x1D], crc ^ 1 << 13));
    all.push(write_response(own, [0x1D, 0x1D], crc));
    all.push(write_response(own, [0x1D, 0x06], crc));
    all.extend(RESULTS.iter().map(|result| write_response(own, [0x06, *result], 0)));
    all.extend(RESULTS.iter().map(|result| write_response(own, [*result, *result], 0)));
    let data = [&[0, own as u8, 0, 5, 0x06, 0x06][..], &crc.to_be_bytes()[..3]].concat();
    all.push(framed(WRITE, &data, END));
    for other in steps.iter().filter(|step| step.kind == Kind::Packet).map(sector_of) {
        all.push(write_response(own, [0x06, 0x06], crc32(sector(image, other))));
        all.push(write_response(other, [0x06, 0x06], crc));
    }
    all
}

/// As it stands in its frame.
fn sector_of(step: &Step) -> usize {
    step.request[1] as usize * 256 + step.request[2] as usize
}
