//! The peer's hex text, sender and reader of responses, held to published hex text and to the paper's examples.
use crate::frame::{framed, CONTINUED, CONTROL, END as FOOTER, WRITE};
use crate::intel::{record, Record, Refusal};
use crate::response::Response;
use crate::selftest::{bytes, Checks};
use crate::texts::{in_lf, END, LISTING};
use crate::{frame, intel, packets, response, sender};

pub fn all() -> Vec<Checks> {
    let mut checks = vec![records(), faults(), places(), numbers(), program(), requests(), sector_packets()];
    checks.extend([responses(), respond_errors(), own_parameter_faults(), unreadable()]);
    checks
}

/// Lines that stand as examples in the pages on the format of Wikipedia ("Intel HEX") and of Keil ("General: Intel HEX file format"). Each is
/// also read with its last digit away, and with another.
fn records() -> Checks {
    let published: [(&str, u8, usize, &[u8]); 9] = [
        (
            ":10010000214601360121470136007EFE09D2190140",
            0,
            0x0100,
            b"\x21\x46\x01\x36\x01\x21\x47\x01\x36\x00\x7E\xFE\x09\xD2\x19\x01",
        ),
        (":0B0010006164647265737320676170A7", 0, 0x0010, b"address gap"),
        (":10246200464C5549442050524F46494C4500464C33", 0, 0x2462, b"FLUID PROFILE\0FL"),
        (":0300300002337A1E", 0, 0x0030, b"\x02\x33\x7A"),
        (":020000021200EA", 2, 0, b"\x12\x00"),
        (":0400000300003800C1", 3, 0, b"\x00\x00\x38\x00"),
        (":02000004FFFFFC", 4, 0, b"\xFF\xFF"),
        (":04000005000000CD2A", 5, 0, b"\x00\x00\x00\xCD"),
        (":00000001FF", 1, 0, b""),
    ];
    published
        .iter()
        .map(|(line, kind, offset, data)| {
            let whole = Record { kind: *kind, offset: *offset, data: data.to_vec() };
            let short = &line[..line.len() - 1];
            let other = [short, if line.ends_with('0') { "1" } else { "0" }].concat();
            let good = record(line.as_bytes()) == Ok(whole)
                && record(short.as_bytes()) == Err((1, line.len()))
                && record(other.as_bytes()) == Err((2, line.len() - 1));
            (format!("hex record {}", line), good)
        })
        .collect()
}

/// Example 10, and one of each fault, for bank 0 and N = 3; a refused text leaves 0xFF alone.
fn faults() -> Checks {
    let [upper, first, second, end] = LISTING;
    let texts: [(&str, &str, Option<(u8, usize, usize)>); 15] = [
        ("no text (example 10)", "", Some((6, 1, 1))),
        ("an end record alone (example 10)", END, None),
        ("CR LF", &[upper, "\r\n", first, "\r\n", end, "\r\n"].concat(), None),
        ("a blank line", &[upper, "\n\n", end].concat(), Some((1, 2, 1))),
        ("a lone CR", &[upper, "\n\r\n\r", end].concat(), Some((1, 2, 1))),
        ("a CR that ends the text", &[upper, "\n", end, "\r"].concat(), Some((1, 2, 12))),
        ("a wrong sum", &[upper, "\n", first, "\n:040E000001020304E5\n", end].concat(), Some((2, 3, 18))),
        ("type 02", &[upper, "\n:020000021200EA\n", end].concat(), Some((3, 2, 1))),
        ("an upper half of 0", &[first, "\n", end].concat(), Some((4, 1, 1))),
        ("data of a sector too far", &[upper, "\n:01100000FFF0\n", end].concat(), Some((4, 2, 1))),
        ("data of no bytes, anywhere", &[upper, "\n", second, "\n:0000000000\n:00FFFF0002\n", end].concat(), None),
        ("data twice", &[upper, "\n", second, "\n", second, "\n", end].concat(), Some((5, 3, 1))),
        ("no end record", &[upper, "\n", first, "\n"].concat(), Some((6, 3, 1))),
        ("a blank line behind the end", &[upper, "\n", end, "\n\n"].concat(), Some((6, 3, 1))),
        ("a faulty line behind the end", &[upper, "\n", end, "\n:0G"].concat(), Some((6, 3, 1))),
    ];
    texts
        .iter()
        .map(|(what, text, fault)| {
            let mut image = [0xA5; 3 * 512];
            let wanted = fault.map_or(Ok(()), |(h, line, byte)| Err(Refusal::Fault(h, line, byte)));
            let good = intel::read(text.as_bytes(), 0, 3, &mut image) == wanted;
            (format!("hex text: {}", what), good && (fault.is_none() || image == [0xFF; 3 * 512]))
        })
        .collect()
}

/// Lines at which the byte was counted by hand, as a text's first and as its second: before LF, before CR LF and at the text's end.
fn places() -> Checks {
    let zeros = |count: usize| "0".repeat(count);
    // 255 bytes 0 from address 0 on: 0xFF + 0x01 is 0 as a byte.
    let longest = [":FF000000", &zeros(510), "01"].concat();
    let lines: [(&str, &str, u8, usize); 39] = [
        ("no byte", "", 1, 1),
        ("no colon", "00000001FF", 1, 1),
        ("a blank before the colon", " :00000001FF", 1, 1),
        ("a CR alone, before CR LF and LF", "\r\r", 1, 1),
        ("a colon alone", ":", 1, 2),
        ("two colons", "::00000001FF", 1, 2),
        ("no digit first in the count", ":G", 1, 2),
        ("no digit in the count, of a line as long as an end record", ":G0000001FF", 1, 2),
        ("half a count", ":0", 1, 3),
        ("no digit second in the count", ":0G", 1, 3),
        ("a colon second in the count, and one behind it", ":0::", 1, 3),
        ("a count of 0 alone", ":00", 1, 4),
        ("a count of 255 alone", ":FF", 1, 4),
        ("half an address", ":000", 1, 5),
        ("no digit right behind the count, and too long", ":00G00001FF00", 1, 4),
        ("no digit in the type", ":0000000g FF", 1, 9),
        ("no type", ":000000", 1, 8),
        ("no checksum", ":00000001", 1, 10),
        ("half a checksum", ":00000001F", 1, 11),
        ("no digit last in the checksum", ":00000001FG", 1, 11),
        ("a digit behind the checksum", ":00000001FF0", 1, 12),
        ("digits behind the checksum and then none", ":00000001FF00G", 1, 12),
        ("no digit right behind the checksum", ":00000001FFG", 1, 12),
        ("a CR that no LF follows, behind an end record", ":00000001FF\r ", 1, 12),
        ("a digit behind the checksum, which is wrong", ":00000001FE0", 1, 12),
        ("a count of one too many", ":01000001FF", 1, 12),
        ("a count of one too few", ":000A0000005A9C", 1, 12),
        ("no digit at the last byte that is counted", ":010A0000009G", 1, 13),
        ("no digit right behind the last byte that is counted", ":010A000000F5G", 1, 14),
        ("a count in lower case, of 10, and 40 digits", &[":0a", &zeros(40)].concat(), 1, 32),
        ("255 bytes and a checksum of one digit", &longest[..520], 1, 521),
        ("255 bytes and a digit too many", &[&longest, "0"].concat(), 1, 522),
        ("255 bytes, and digits up to byte 600", &[&longest, &zeros(79)[..]].concat(), 1, 522),
        ("another last digit (the paper's first record)", ":020000041000EB", 2, 14),
        ("another data digit", ":020000041001EA", 2, 14),
        ("another type, and a sum of before", ":00000002FF", 2, 10),
        ("255 bytes and another checksum", &[&longest[..520], "2"].concat(), 2, 520),
        ("255 bytes outside the bank", &longest, 4, 1),
        ("type 02", ":020000021200EA", 3, 1),
    ];
    let mut checks = Vec::new();
    for (what, line, h, byte) in lines {
        for (end, behind) in [("LF", "\n"), ("CR LF", "\r\n"), ("no end", "")] {
            // No byte at the text's end is no line.
            if line.is_empty() && behind.is_empty() {
                continue;
            }
            for (before, number) in [("", 1), (":0000000000\r\n", 2)] {
                let mut image = [0xA5; 512];
                let text = [before, line, behind].concat();
                let good = intel::read(text.as_bytes(), 0, 1, &mut image) == Err(Refusal::Fault(h, number, byte));
                checks.push((format!("hex text: {}, {}, line {}", what, end, number), good));
            }
        }
    }
    checks
}

/// 3 before 2, and the image as it was.
fn numbers() -> Checks {
    [(0, 0, 3), (492, 512, 3), (1, 513, 2), (2, 512, 2)]
        .iter()
        .map(|(n, length, number)| {
            let mut image = vec![0xA5; *length];
            let good = intel::read(b"", 0, *n, &mut image) == Err(Refusal::Number(*number));
            (format!("hex text: N = {} and {} bytes", n, length), good && image == vec![0xA5; *length])
        })
        .collect()
}

/// The paper's listing and its other lines.
fn program() -> Checks {
    let text = in_lf(&LISTING);
    let wrong = String::from_utf8(text.clone()).expect("text").replace("E4", "E5");
    [
        ("the listing", text.clone(), vec!["0001 17", "0003 03", "sent 2"]),
        ("a refusal", wrong.into_bytes(), vec!["refused H2 line 3 byte 18"]),
        ("an end record alone", END.into(), vec!["sent 0"]),
        ("48 KiB", vec![b'\n'; 48 * 1024], vec!["refused H1 line 1 byte 1"]),
        ("a byte more", vec![b'\n'; 48 * 1024 + 1], vec!["too long"]),
    ]
    .iter()
    .map(|(what, text, wanted)| (format!("program: {}", what), packets::lines(text) == *wanted))
    .collect()
}

/// Examples 1, 4 and 5; a buffer and an N that will not do.
fn requests() -> Checks {
    let made = |put: &dyn Fn(&mut [u8]) -> Result<usize, u8>, room: usize| {
        let mut buffer = vec![0xA5; room];
        put(&mut buffer).map(|length| buffer[..length].to_vec())
    };
    [
        ("example 1", made(&|buffer| sender::request(0x61, buffer), 519), Ok(bytes("0101619E03"))),
        (
            "example 4",
            made(&|buffer| sender::start_write(1, 491, buffer), 519),
            Ok(bytes("01094014000A001403DFFFA403")),
        ),
        ("example 5", made(&|buffer| sender::start_write(1, 32, buffer), 600), Ok(bytes("01094014000A00140049FF3D03"))),
        ("a buffer of 518", made(&|buffer| sender::request(0x61, buffer), 518), Err(2)),
        ("N = 492 and a buffer of 518", made(&|buffer| sender::start_write(1, 492, buffer), 518), Err(3)),
    ]
    .iter()
    .map(|(what, made, wanted)| (format!("request: {}", what), made == wanted))
    .collect()
}

/// Example 11, as the first packet and as the last.
fn sector_packets() -> Checks {
    let mut image = vec![0xFF; 5 * 512];
    image[1024..1028].copy_from_slice(&[1, 2, 3, 4]);
    let alone = image.clone();
    image[4 * 512] = 0;
    let made = |image: &[u8], n: usize, p: usize, room: usize| {
        let mut buffer = vec![0xA5; room];
        sender::packet(image, n, p, &mut buffer).map(|length| (length, buffer[..9].to_vec(), buffer[517..519].to_vec()))
    };
    let third = |footer: u8| Ok((519, bytes("020003020001020304"), vec![0xED, footer]));
    [
        ("example 11, with one behind it", made(&image, 5, 0, 519), third(0x17)),
        ("example 11, alone", made(&alone, 5, 0, 520), third(0x03)),
        ("past the last", made(&alone, 5, 1, 519), Err(5)),
        ("an image of 0xFF", made(&[0xFF; 512], 1, 0, 519), Err(5)),
        ("past the last, a buffer of 518", made(&alone, 5, 1, 518), Err(2)),
        ("another N", made(&alone, 4, 0, 519), Err(2)),
        ("N = 0 and no image", made(&[], 0, 0, 519), Err(3)),
    ]
    .iter()
    .map(|(what, made, wanted)| (format!("packet: {}", what), made == wanted))
    .collect()
}

/// The responses among the examples, and those that follow from the rules under 'Frames'.
fn responses() -> Checks {
    let written = |response: u8, write: u8, crc: u32| Response::Written { sector: 1, response, write, crc };
    [
        ("010271068703", Response::Plain { code: 0x71, result: 0x06 }),
        ("010275068303", Response::Plain { code: 0x75, result: 0x06 }),
        ("01037206018403", Response::Bank(1)),
        ("010A7806040001020000002A4703", Response::Version { id: 0x0400, major: 1, minor: 2, revision: 42 }),
        ("0200010006151500000000CF03", written(0x15, 0x15, 0)),
        ("0200010006061C00000000D703", written(0x06, 0x1C, 0)),
        ("0200010006060600000000ED03", written(0x06, 0x06, 0)),
        ("02000100061D1DCBF43926A103", written(0x1D, 0x1D, 0xCBF4_3926)),
    ]
    .iter()
    .map(|(datagram, wanted)| {
        (format!("response {}", datagram), response::read(&bytes(datagram)).as_ref() == Some(wanted))
    })
    .collect()
}

/// E0 with each result of Table 9.
fn respond_errors() -> Checks {
    [
        ("0102E0051903", 0x05),
        ("0102E0061803", 0x06),
        ("0102E0071703", 0x07),
        ("0102E0150903", 0x15),
        ("0102E01C0203", 0x1C),
        ("0102E01D0103", 0x1D),
        ("0102E01E0003", 0x1E),
    ]
    .iter()
    .map(|(datagram, result)| {
        let read = response::read(&bytes(datagram));
        (format!("response {}", datagram), read == Some(Response::Plain { code: 0xE0, result: *result }))
    })
    .collect()
}

/// 05 in each response but E0, and as either result of a write response: good frames, and unreadable (02 §3).
fn own_parameter_faults() -> Checks {
    [
        "010271058803",
        "010272058703",
        "010278058103",
        "010270058903",
        "010275058403",
        "010274058503",
        "0200010006050500000000EF03",
        "0200010006060500000000EE03",
    ]
    .iter()
    .map(|datagram| {
        let bytes = bytes(datagram);
        let good = frame::read(&bytes).is_some() && response::read(&bytes).is_none();
        (format!("unreadable: 05 in {}", datagram), good)
    })
    .collect()
}

/// One of each reason for number 6, under a checksum that is right.
fn unreadable() -> Checks {
    [
        ("a frame fault", framed(CONTROL, &bytes("037106"), FOOTER)),
        ("a request", framed(CONTROL, &bytes("026106"), FOOTER)),
        ("an unknown result", framed(CONTROL, &bytes("027108"), FOOTER)),
        ("no result", framed(CONTROL, &bytes("0171"), FOOTER)),
        ("a byte more", framed(CONTROL, &bytes("03710600"), FOOTER)),
        ("no bank number", framed(CONTROL, &bytes("027206"), FOOTER)),
        ("bank number 2", framed(CONTROL, &bytes("03720602"), FOOTER)),
        ("a bank number with 15", framed(CONTROL, &bytes("03721501"), FOOTER)),
        ("a version too short", framed(CONTROL, &bytes("0978060400010200002A"), FOOTER)),
        ("footer 17", framed(WRITE, &bytes("000100060606CBF43926"), CONTINUED)),
        ("M of 5", framed(WRITE, &bytes("000100050606000000"), FOOTER)),
        ("an unknown write result", framed(WRITE, &bytes("00010006060800000000"), FOOTER)),
        ("15 and 06", framed(WRITE, &bytes("00010006150600000000"), FOOTER)),
        ("1D and 06", framed(WRITE, &bytes("000100061D0600000000"), FOOTER)),
        ("06 and 15 with a CRC", framed(WRITE, &bytes("00010006061500000001"), FOOTER)),
    ]
    .iter()
    .map(|(what, datagram)| (format!("unreadable: {}", what), response::read(datagram).is_none()))
    .collect()
}
