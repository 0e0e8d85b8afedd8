//! The texts that `packets` is tried with, each in a file of its own: a few of every kind, since each is a run of the program. Many more
//! go through `sending`.
use crate::bank::{self, SECTOR};
use crate::draw::Draw;
use crate::text_cases::{faulty, sound};
use crate::texts::{data, in_lf, rows, upper, with_ends, without_last_end, END, LISTING};

const LONGEST_TEXT: usize = 49_152;

pub fn all() -> Vec<Vec<u8>> {
    let mut texts = vec![Vec::new(), END.into(), in_lf(&[END]), in_lf(&LISTING), with_ends(&LISTING, "\r\n")];
    texts.push(without_last_end(&LISTING, "\n"));
    texts.push(in_lf(&LISTING).to_ascii_lowercase());
    texts.push(in_lf(&LISTING[..3]));
    texts.extend(one_fault());
    texts.extend(sectors());
    texts.extend(lengths());
    texts
}

/// Each fault at one place or another, with LF and CR LF.
fn one_fault() -> Vec<Vec<u8>> {
    let lines = sound(0);
    let place = |(k, fault): (usize, String)| {
        let mut with = lines.clone();
        with.insert(k % (lines.len() + 1), fault);
        with_ends(&with, ["\n", "\r\n"][k % 2])
    };
    faulty(0, 32).into_iter().step_by(5).chain(places()).enumerate().map(place).collect()
}

/// In a line's first bytes, at its last, behind that and one past it.
fn places() -> Vec<String> {
    let longest = data(0x0B00, &[0x5A; 255]);
    let most = &longest[..longest.len() - 1];
    let mut lines = [":", ":0G", ":00000001FG", ":00000001FF00G", ":020000041000EB", most].map(str::to_string).to_vec();
    lines.extend(["1", "G", "00", "0G"].map(|last| [most, last].concat()));
    lines
}

/// Each one alone that shows a digit's case or the bank's end, both ends, the wrong order, all of them, one too many, and none.
fn sectors() -> Vec<Vec<u8>> {
    let at = |sector: usize| data((0x0A00 + (sector - 1) * SECTOR) as u16, &[0x00]);
    let text = |sectors: &[usize]| {
        let data: Vec<String> = sectors.iter().map(|sector| at(*sector)).collect();
        in_lf(&[&[upper(0x1000)], &data[..], &[END.to_string()]].concat())
    };
    let mut texts: Vec<Vec<u8>> = [1, 9, 10, 15, 16, 26, 31, 32, 33].iter().map(|sector| text(&[*sector])).collect();
    texts.push(text(&[1, 32]));
    texts.push(text(&[2, 1]));
    texts.push(text(&(1..=32).collect::<Vec<_>>()));
    texts.push(text(&(1..=33).collect::<Vec<_>>()));
    texts.push(in_lf(&[upper(0x1000), data(0x0A00, &[0xFF; 255]), END.to_string()]));
    texts.push(in_lf(&[upper(0x1400), data(0x0A00, &[0x00]), END.to_string()]));
    texts
}

/// A full bank; and both sides of the longest text: of text that is good, of lines behind its end, of one line, and of bytes of no plan.
fn lengths() -> Vec<Vec<u8>> {
    let mut draw = Draw(0x5041_434B);
    let bytes = draw.bytes(32 * SECTOR);
    let full = [rows(bank::start(0), &bytes, 16), vec![END.to_string()]].concat();
    let mut texts = vec![with_ends(&full, "\r\n"), in_lf(&full), with_ends(&full, "\r\n")[1..].to_vec()];
    for length in [LONGEST_TEXT, LONGEST_TEXT + 1] {
        let mut good = in_lf(&full[..full.len() - 1]);
        // Filled up by data of no bytes, in lines of 12, or with CR LF of 13.
        let left = length - good.len() - END.len();
        let (short, long) = (left / 12 - left % 12, left % 12);
        good.extend(with_ends(&vec![data(0, &[]); short], "\n"));
        good.extend(with_ends(&vec![data(0, &[]); long], "\r\n"));
        good.extend(END.bytes());
        texts.push(good);
        texts.push([in_lf(&LISTING), vec![b'\n'; length - in_lf(&LISTING).len()]].concat());
        texts.push(vec![b':'; length]);
        texts.push(draw.bytes(length));
    }
    texts.push(in_lf(&[&full[..], &full].concat()));
    texts
}
