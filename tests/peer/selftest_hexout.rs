//! The peer's hex text out of a bank, held to published hex text, to the paper's listing and to rows worked out by hand.
use crate::draw::Draw;
use crate::hexout::written;
use crate::selftest::{bytes, Checks};
use crate::texts::{in_lf, with_ends, END, LISTING};
use crate::{bank, intel};

pub fn all() -> Vec<Checks> {
    vec![texts(), lengths(), read_back()]
}

/// The rows of the example of a whole file in the page on the format of Wikipedia ("Intel HEX")
const PUBLISHED: [&str; 4] = [
    ":10010000214601360121470136007EFE09D2190140",
    ":100110002146017E17C20001FF5F16002148011928",
    ":10012000194E79234623965778239EDA3F01B2CAA7",
    ":100130003F0156702B5E712B722B732146013421C7",
];

/// What stands before the end record. A byte 0xFF more is one more in the count too, and the sum has 256 more: filled up to 16, the rows of the
/// paper's listing keep their checksums. Of the others, 10 + FF + F0 and fifteen FF are 10F0, 10 and those F01, 10 + DF + F0 and those 10D0.
fn texts() -> Checks {
    let mut listed = vec![0; 3 * bank::SECTOR];
    intel::read(&in_lf(&LISTING), 0, 3, &mut listed).expect("the paper's listing");
    let published: Vec<u8> = PUBLISHED.iter().flat_map(|line| bytes(&line[9..41])).collect();
    let held = |n: usize, at: usize, bytes: &[u8]| {
        let mut image = vec![0xFF; n * bank::SECTOR];
        image[at..at + bytes.len()].copy_from_slice(bytes);
        image
    };
    let texts: [(&str, Vec<u8>, usize, Vec<&str>); 8] = [
        ("blank, bank 0", held(1, 0, &[]), 0, vec![]),
        ("blank, bank 1", held(491, 0, &[]), 1, vec![]),
        ("published, bank 0", held(124, 0xF700, &published), 0, [&[":020000041001E9"], &PUBLISHED[..]].concat()),
        ("published, bank 1", held(124, 0xF700, &published), 1, [&[":020000041401E5"], &PUBLISHED[..]].concat()),
        (
            "the paper's listing",
            listed,
            0,
            vec![
                LISTING[0],
                ":100A0000DEADBEEFFFFFFFFFFFFFFFFFFFFFFFFFBA",
                ":100E000001020304FFFFFFFFFFFFFFFFFFFFFFFFE4",
            ],
        ),
        (
            "a row of zeros",
            held(1, 0, &[0; 16]),
            1,
            vec![":020000041400E6", ":100A000000000000000000000000000000000000E6"],
        ),
        (
            "both sides of a change of the upper half",
            held(124, 0xF5FF, &[0, 0]),
            0,
            vec![
                LISTING[0],
                ":10FFF000FFFFFFFFFFFFFFFFFFFFFFFFFFFFFF0010",
                ":020000041001E9",
                ":1000000000FFFFFFFFFFFFFFFFFFFFFFFFFFFFFFFF",
            ],
        ),
        (
            "the last byte",
            held(491, 0x3_D5FF, &[0]),
            1,
            vec![":020000041403E3", ":10DFF000FFFFFFFFFFFFFFFFFFFFFFFFFFFFFF0030"],
        ),
    ];
    texts
        .iter()
        .map(|(what, image, number, rows)| {
            let wanted = with_ends(&[&rows[..], &[END]].concat(), "\r\n");
            (format!("hexout: {}", what), written(image, *number) == wanted)
        })
        .collect()
}

/// A row is 45 bytes, an upper half 17 and the end 13; the refusals.
fn lengths() -> Checks {
    let mut checks: Checks = [(1, 1_470), (32, 46_110), (123, 177_150), (124, 178_607), (491, 707_121)]
        .iter()
        .map(|(n, length)| {
            (format!("hexout: length for N = {}", n), written(&vec![0; n * bank::SECTOR], 0).len() == *length)
        })
        .collect();
    for length in [0, 16, 511, 513, 528, 251_391, 251_393, 251_904] {
        let good = written(&vec![0; length], 1) == b"refused 2\n";
        checks.push((format!("hexout: an image of {} bytes", length), good));
    }
    checks
}

/// Reading it gives the same image.
fn read_back() -> Checks {
    let mut draw = Draw(0x4845_584F);
    [(0, 1), (1, 2), (0, 200), (1, 491)]
        .iter()
        .map(|(number, n)| {
            let mut image = draw.bytes(n * bank::SECTOR);
            image.chunks_mut(16).filter(|_| draw.below(2) == 0).for_each(|row| row.fill(0xFF));
            let mut again = vec![0xA5; image.len()];
            let good = intel::read(&written(&image, *number), *number, *n, &mut again) == Ok(());
            (format!("hexout: read back, bank {} and N = {}", number, n), good && again == image)
        })
        .collect()
}
