//! The peer held to what others have published, so that an agreement with it means something.
use crate::{bank, board, crc, frame, hex, selftest_clean, selftest_hexout, selftest_night, selftest_sending};

pub fn run() -> Result<(), String> {
    let mut checks = vec![crcs(), continued(), checksums(), frames(), faults(), addresses(), banks()];
    checks.extend([clients(), write_results(), parameter_faults(), strangers(), openers()]);
    checks.extend(selftest_sending::all());
    checks.extend(selftest_hexout::all());
    checks.extend(selftest_clean::all());
    checks.extend(selftest_night::all());
    let count: usize = checks.iter().map(Vec::len).sum();
    match checks.concat().into_iter().find(|(_, good)| !good) {
        Some((what, _)) => Err(format!("selftest: {}", what)),
        None => {
            println!("{} published values and worked examples hold", count);
            Ok(())
        }
    }
}

/// What each is, and whether it holds.
pub type Checks = Vec<(String, bool)>;

/// `123456789` is the check value of the catalogues of CRCs (CRC-32/ISO-HDLC); the others are what zlib's crc32 gives
/// (python3 -c 'import zlib; print(hex(zlib.crc32(bytes(65536))))' for the longest).
fn crcs() -> Checks {
    let ramp: Vec<u8> = (0..32).collect();
    let fox = b"The quick brown fox jumps over the lazy dog";
    let published: [(&str, &[u8], u32); 9] = [
        ("no bytes", b"", 0x0000_0000),
        ("a", b"a", 0xE8B7_BE43),
        ("abc", b"abc", 0x3524_41C2),
        ("123456789", b"123456789", 0xCBF4_3926),
        ("32 bytes 00", &[0x00; 32], 0x190A_55AD),
        ("32 bytes FF", &[0xFF; 32], 0xFF6C_AB0B),
        ("bytes 0 to 31", &ramp, 0x9126_7E8A),
        ("the quick brown fox", fox, 0x414F_A339),
        ("65,536 bytes 00", &[0x00; 65_536], 0xD797_8EEB),
    ];
    published.iter().map(|(what, bytes, crc)| (format!("CRC-32 of {}", what), crc::crc32(bytes) == *crc)).collect()
}

/// A published value again, from two parts at each place where it can be cut.
fn continued() -> Checks {
    let text = b"123456789";
    (0..=text.len())
        .map(|cut| {
            let crc = !crc::more(crc::more(!0, &text[..cut]), &text[cut..]);
            (format!("CRC-32 of 123456789, cut at {}", cut), crc == 0xCBF4_3926)
        })
        .collect()
}

/// The two sums of the specification's section 3.4, and those of the paper's examples 4, 5 and 11.
fn checksums() -> Checks {
    let mut sector = vec![0x00, 0x03, 0x02, 0x00, 0x01, 0x02, 0x03, 0x04];
    sector.resize(4 + 512, 0xFF);
    [
        ("example 1", bytes("0161"), 0x9E),
        ("example 2", bytes("00010004FF804022"), 0x1A),
        ("example 4", bytes("094014000A001403DFFF"), 0xA4),
        ("example 5", bytes("094014000A00140049FF"), 0x3D),
        ("example 11", sector, 0xED),
    ]
    .iter()
    .map(|(what, covered, sum)| (format!("checksum of {}", what), frame::checksum(covered) == *sum))
    .collect()
}

/// The frames of the paper's examples, made and read again.
fn frames() -> Checks {
    let mut sector = vec![0x01, 0x02, 0x03, 0x04];
    sector.resize(512, 0xFF);
    let long = format!("0200030200{}ED17", hex::text(&sector));
    let start = |end: &str| bytes(&format!("14000A00{}", end));
    [
        ("example 1", frame::control(0x61, &[]), "0101619E03"),
        ("example 1, answer", frame::control(0x71, &[0x06]), "010271068703"),
        ("example 2", frame::write(1, &bytes("FF804022"), frame::END), "0200010004FF8040221A03"),
        ("example 3", frame::control(0xE0, &[0x05]), "0102E0051903"),
        ("example 4", frame::control(0x40, &start("1403DFFF")), "01094014000A001403DFFFA403"),
        ("example 5", frame::control(0x40, &start("140049FF")), "01094014000A00140049FF3D03"),
        ("example 6", Some(frame::ERROR.to_vec()), "0102E0071703"),
        ("example 11", frame::write(3, &sector, frame::CONTINUED), &long),
    ]
    .iter()
    .map(|(what, made, wanted)| {
        let again = made.as_deref().and_then(frame::read).and_then(|read| match read {
            frame::Frame::Control { code, parameters } => frame::control(code, &parameters),
            frame::Frame::Write { sector, data, footer } => frame::write(sector, &data, footer),
        });
        (format!("frame of {}", what), *made == Some(bytes(wanted)) && again == *made)
    })
    .collect()
}

/// One of each fault that the paper lists.
fn faults() -> Checks {
    [
        ("no bytes (example 6)", ""),
        ("another first byte", "0301619E03"),
        ("L of 0", "01000003"),
        ("a byte more", "0101619E0300"),
        ("a byte less", "0101619E"),
        ("a length of one more", "0102619D03"),
        ("a wrong checksum", "0101619F03"),
        ("footer 17 on a control frame", "0101619E17"),
        ("another footer on a write frame", "0200010004FF8040221A04"),
    ]
    .iter()
    .map(|(what, datagram)| (format!("fault: {}", what), frame::read(&bytes(datagram)).is_none()))
    .collect()
}

/// The two end addresses that the paper gives, and that of example 5.
fn addresses() -> Checks {
    [(0, 491, Some(0x1003_DFFF)), (1, 491, Some(0x1403_DFFF)), (1, 32, Some(0x1400_49FF)), (0, 492, None), (0, 0, None)]
        .iter()
        .map(|(number, n, end)| (format!("end of bank {} for N = {}", number, n), bank::end(*number, *n) == *end))
        .collect()
}

/// A sector with the bodies DEADBEEF and 00, right behind the table and at the very end, and one break of each rule. Every CRC is right
/// but where it says so, and is what zlib's crc32 gives.
fn banks() -> Checks {
    let (first, last) = ("00000020000000047C9CA35A", "000001FF00000001D202EF8D");
    let sound = format!("04000102{}{}7D30BF30", first, last);
    let tables = [
        ("ID low byte first", format!("00040102{}{}1AA62001", first, last)),
        ("edition 2", format!("04000202{}{}8F6752C8", first, last)),
        ("count 0", "04000100B73D790A".to_string()),
        ("a wrong CRC of the table", format!("04000102{}{}7D30BF31", first, last)),
        ("a body of no bytes", format!("04000102{}000001FF000000000000000085662342", first)),
        ("bodies in the other order", format!("04000102{}{}9EC2C9B9", last, first)),
        ("an overlap by one", format!("04000102{}0000002300000001E2B71064198D05D7", first)),
        ("an end one past the bank", format!("04000102{}000001FF00000002D202EF8D3A90C5E0", first)),
        ("a sum past 2^32", format!("04000102{}FFFFFFF80000000800000000F3D05BAF", first)),
    ];
    let held = |table: &str, change: Option<(usize, u8)>| {
        let mut bank = vec![0xFF; 512];
        bank[32..36].copy_from_slice(&[0xDE, 0xAD, 0xBE, 0xEF]);
        bank[511] = 0x00;
        bank.splice(..table.len() / 2, bytes(table));
        change.into_iter().for_each(|(at, byte)| bank[at] = byte);
        bank
    };
    let bodies: [&[u8]; 2] = [&[0xDE, 0xAD, 0xBE, 0xEF], &[0x00]];
    let mut checks = vec![("sound bank".to_string(), bank::bodies(&held(&sound, None)) == Some(bodies.to_vec()))];
    for (what, table) in tables {
        checks.push((format!("unsound bank: {}", what), bank::bodies(&held(&table, None)).is_none()));
    }
    for (what, at) in [("a byte of a body", 33), ("the first byte outside", 36), ("the last byte outside", 510)] {
        checks.push((format!("unsound bank: {}", what), bank::bodies(&held(&sound, Some((at, 0xFE)))).is_none()));
    }
    checks
}

/// The paper's examples 1 to 9 and 11 on a client, 7 and 8 as 02 §3 reads them: the line of a board's script, and what it writes. The CRCs
/// are zlib's.
fn clients() -> Checks {
    let none = "00".repeat(16);
    let (long, longer) = ("00".repeat(512), "00".repeat(516));
    let padded = format!("01020304{}", "FF".repeat(508));
    let example_1 = format!("answer 010271068703 notice 6033 {}", none);
    let record = format!("record 491 0 0 write nothing {} 1 2 3 1,2,3,491", none);
    let start = [
        ("a new client", "client 491 0 1 2 3", "done"),
        ("initiated", "initiate", "done"),
        ("example 6", "send -", "answer 0102E0071703"),
        ("example 3", "send 0101609F03", "answer 0102E0051903"),
        ("example 1", "send 0101619E03", &example_1),
        ("example 5, of another N", "send 01094014000A00140049FF3D03", "answer 0102E0051903"),
        ("example 4", "send 01094014000A001403DFFFA403", "answer 010270068803"),
        ("example 2", "send 0200010004FF8040221A03", "answer 02000100060606DF61DC389903"),
        ("example 9", "send 0200010004FF8040221A03", "answer 0200010006061DDF61DC388203"),
        ("example 7, sector 491", "send 0201EB0004FF8040222F17", "answer 0201EB00060606DF61DC38AE03"),
        ("example 7, sector 492", "send 0201EC0004FF8040222E17", "answer 0102E0051903"),
        ("example 7, sector 0", "send 0200000004FF8040221B03", "answer 0102E0051903"),
        ("example 8, M of 0", "send 0200010000FF03", "answer 0102E0051903"),
        ("example 8, M of 6", "send 0200010006000000000000F903", "answer 0102E0051903"),
    ];
    let sectors = [
        ("example 8, M of 512", format!("send 0200020200{}FC03", long), "answer 02000200060606B2AA7578A303"),
        ("example 8, M of 516", format!("send 0200010204{}F903", longer), "answer 0102E0051903"),
        ("example 11", format!("send 0200030200{}ED17", padded), "answer 02000300060606132351D88C03"),
        ("the record", "record".to_string(), &record),
        ("a new client, N = 32", "client 32 0 1 2 3".to_string(), "done"),
        ("initiated, N = 32", "initiate".to_string(), "done"),
        ("example 1, N = 32", "send 0101619E03".to_string(), &example_1),
        ("example 5", "send 01094014000A00140049FF3D03".to_string(), "answer 010270068803"),
    ];
    let mut lines: Vec<(&str, String, &str)> =
        start.map(|(what, line, written)| (what, line.to_string(), written)).to_vec();
    lines.extend(sectors);
    held("client", &lines)
}

/// The forms of a write answer that the paper's rules leave no choice in: 15, 1C, and 1D for blanks; then an unsound end, and the notices.
fn write_results() -> Checks {
    let none = "00".repeat(16);
    let started = format!("answer 010271068703 notice 6033 {}", none);
    let (failed, without) =
        (format!("answer 010274068403 notice 6034 02 {none}"), format!("answer 010274068403 notice 6034 03 {none}"));
    let lines = [
        ("a new client", "client 1 1 0 0 0", "done"),
        ("no answer when closed", "send -", "refused 1"),
        ("initiated", "initiate", "done"),
        ("initiated in vain", "initiate", "refused 4"),
        ("mode start", "send 0101619E03", &started),
        ("a packet in control state", "send 0200010004FF8040221A03", "answer 0200010006151500000000CF03"),
        ("no session", "send 0101649B03", &without),
        ("mode start again", "send 0101619E03", &started),
        ("write start of the running bank", "send 01094014000A0014000BFF7B03", "answer 0102E0051903"),
        ("write start", "send 01094010000A0010000BFF8303", "answer 010270068803"),
        ("a mark", "mark 1 40", "mark 1 40"),
        ("a packet for a worn sector", "send 0200010004FF8040221A03", "answer 0200010006061C00000000D703"),
        ("no mark", "mark 1 00", "mark 1 00"),
        ("leftovers", "put 0 508 00112233", "put 0 508 4"),
        ("blanks over leftovers", "send 0200010004FFFFFFFFFF03", "answer 0200010006061DBD7BC39F3C03"),
        ("the leftovers are gone", "show 0 508 4", "show FFFFFFFF"),
        ("an unsound end", "send 010145BA03", "answer 0102751E6B03"),
        ("mode end", "send 0101649B03", &failed),
        ("too short a buffer", "buffer 13 00", "buffer 13"),
        ("number 2", "send -", "refused 2"),
        ("N of 492", "client 492 0 0 0 0", "refused 3"),
        ("number 3", "send -", "refused 3"),
        ("a record with a bad N", "record", "record 492 0 0 closed nothing - 0 0 0 -"),
    ];
    held("write results", &lines.map(|(what, line, written)| (what, line.to_string(), written)))
}

/// E0 with 05 for each fault of 02 §3, where the paper's order puts it: a length before the state, values behind it and before a worn mark. The
/// session goes on.
fn parameter_faults() -> Checks {
    let error = "answer 0102E0051903";
    let none = "00".repeat(16);
    let started = format!("answer 010271068703 notice 6033 {}", none);
    let record = format!("record 1 1 1 write nothing {} 0 0 0 1", none);
    let lines = [
        ("a new client", "client 1 1 0 0 0", "done"),
        ("a parameter too many when closed", "send 010261009D03", "refused 1"),
        ("initiated", "initiate", "done"),
        ("a parameter too many", "send 010261009D03", error),
        ("a parameter too many, and the state", "send 01024500B903", error),
        ("another address pair in idle state", "send 01094014000A0014000BFF7B03", "answer 010270157903"),
        ("sector 0 in idle state", "send 0200000004FF8040221B03", "answer 0200000006151500000000D003"),
        ("mode start", "send 0101619E03", &started),
        ("no address pair", "send 010140BF03", error),
        ("another start address", "send 01094014000A0010000BFF7F03", error),
        ("another end address", "send 01094010000A0014000BFF7F03", error),
        ("M of 6 in control state", "send 0200010006000000000000F903", "answer 0200010006151500000000CF03"),
        ("write start", "send 01094010000A0010000BFF8303", "answer 010270068803"),
        ("a packet", "send 0200010004FFFFFFFFFF03", "answer 0200010006061DBD7BC39F3C03"),
        ("a mark", "mark 1 40", "mark 1 40"),
        ("M of 6 for a worn sector", "send 0200010006000000000000F903", error),
        ("sector 2 of 1", "send 0200020004FF8040221903", error),
        ("another address pair in write state", "send 01094014000A0014000BFF7B03", "answer 010270157903"),
        ("an end with a parameter", "send 01024500B903", error),
        ("the session goes on", "record", &record),
        ("a worn end", "send 010145BA03", "answer 0102751C6D03"),
    ];
    held("parameter faults", &lines.map(|(what, line, written)| (what, line.to_string(), written)))
}

const OPENER: &str = "000102030405060708090A0B0C0D0E0F";
/// It has another last byte.
const STRANGER: &str = "000102030405060708090A0B0C0D0E10";

/// 15 for each request and packet of a stranger, by 02 §5: behind the frame, the code and the parameters' length, before values and worn marks.
fn strangers() -> Checks {
    let (opener, stranger) = (format!("address {}", OPENER), format!("address {}", STRANGER));
    let started = format!("answer 010271068703 notice 6033 {}", OPENER);
    let (control, write) = ("record 1 1 1 control nothing", "record 1 1 1 write nothing");
    let (control, write) = (format!("{} {} 0 0 0 -", control, OPENER), format!("{} {} 0 0 0 1", write, OPENER));
    let ended = format!("answer 010274068403 notice 6034 02 {}", OPENER);
    let lines = [
        ("a new client", "client 1 1 0 0 0", "done"),
        ("initiated", "initiate", "done"),
        ("the opener", &opener, "address 16"),
        ("its mode start", "send 0101619E03", &started),
        ("a stranger", &stranger, "address 16"),
        ("mode start", "send 0101619E03", "answer 010271157803"),
        ("bank information", "send 0101629D03", "answer 010272157703"),
        ("version", "send 0101689703", "answer 010278157103"),
        ("write start", "send 01094010000A0010000BFF8303", "answer 010270157903"),
        ("another address pair", "send 01094014000A0014000BFF7B03", "answer 010270157903"),
        ("mode end", "send 0101649B03", "answer 010274157503"),
        ("no bytes", "send -", "answer 0102E0071703"),
        ("code 60", "send 0101609F03", "answer 0102E0051903"),
        ("a parameter too many", "send 010261009D03", "answer 0102E0051903"),
        ("nothing has changed", "record", &control),
        ("the opener again", &opener, "address 16"),
        ("its write start", "send 01094010000A0010000BFF8303", "answer 010270068803"),
        ("its packet", "send 0200010004FFFFFFFFFF03", "answer 0200010006061DBD7BC39F3C03"),
        ("the stranger again", &stranger, "address 16"),
        ("a packet", "send 0200010004FF8040221A03", "answer 0200010006151500000000CF03"),
        ("sector 0", "send 0200000004FF8040221B03", "answer 0200000006151500000000D003"),
        ("M of 6", "send 0200010006000000000000F903", "answer 0200010006151500000000CF03"),
        ("a mark", "mark 1 40", "mark 1 40"),
        ("a packet for a worn sector", "send 0200010004FF8040221A03", "answer 0200010006151500000000CF03"),
        ("write end", "send 010145BA03", "answer 010275157403"),
        ("no mark", "mark 1 00", "mark 1 00"),
        ("an address too short", "address 000102030405060708090A0B0C0D0E", "address 15"),
        ("number 2", "send 010145BA03", "refused 2"),
        ("the session goes on", "record", &write),
        ("nothing was stored", "show 0 0 4", "show FFFFFFFF"),
        ("the opener once more", &opener, "address 16"),
        ("its write end", "send 010145BA03", "answer 0102751E6B03"),
        ("the stranger after the write end", &stranger, "address 16"),
        ("mode end after the write end", "send 0101649B03", "answer 010274157503"),
        ("the opener at last", &opener, "address 16"),
        ("its mode end", "send 0101649B03", &ended),
    ];
    held("strangers", &lines.map(|(what, line, written)| (what, line.to_string(), written)))
}

/// How long an address is the opener's: to the end of the mode, or until the host terminates. One of 16 times 00 is one like another.
fn openers() -> Checks {
    let (zeros, stranger) = ("00".repeat(16), format!("address {}", STRANGER));
    let [by_zeros, by_stranger] = [&zeros[..], STRANGER].map(|a| format!("answer 010271068703 notice 6033 {}", a));
    let [of_zeros, of_stranger] = [&zeros[..], STRANGER].map(|a| format!("record 1 1 1 control nothing {} 0 0 0 -", a));
    let ended = format!("answer 010274068403 notice 6034 03 {}", zeros);
    let first = format!("address {}", zeros);
    let lines = [
        ("a new client", "client 1 1 0 0 0", "done"),
        ("none when closed", "record", "record 1 1 1 closed nothing - 0 0 0 -"),
        ("initiated", "initiate", "done"),
        ("a mode start from 16 times 00", "send 0101619E03", &by_zeros),
        ("the opener", "record", &of_zeros),
        ("a stranger", &stranger, "address 16"),
        ("its mode end", "send 0101649B03", "answer 010274157503"),
        ("16 times 00", &first, "address 16"),
        ("mode end", "send 0101649B03", &ended),
        ("none in idle state", "record", "record 1 1 1 idle nothing - 0 0 0 -"),
        ("the stranger again", &stranger, "address 16"),
        ("15 in idle state, by the state alone", "send 0101649B03", "answer 010274157503"),
        ("its mode start", "send 0101619E03", &by_stranger),
        ("the new opener", "record", &of_stranger),
        ("the former one", &first, "address 16"),
        ("is a stranger now", "send 0101649B03", "answer 010274157503"),
        ("terminated", "terminate", "done"),
        ("none when terminated", "record", "record 1 1 1 closed nothing - 0 0 0 -"),
        ("initiated again", "initiate", "done"),
        ("a mode start from 16 times 00 again", "send 0101619E03", &by_zeros),
    ];
    held("openers", &lines.map(|(what, line, written)| (what, line.to_string(), written)))
}

fn held(about: &str, lines: &[(&str, String, &str)]) -> Checks {
    let script: Vec<String> = lines.iter().map(|line| line.1.clone()).collect();
    let written = board::run(script.join("\n").as_bytes(), None);
    let ended = vec![(format!("{}: a line for each", about), written.len() == lines.len())];
    let each = lines
        .iter()
        .zip(&written)
        .map(|((what, _, wanted), got)| (format!("{}: {}: {}", about, what, got), got == wanted));
    ended.into_iter().chain(each).collect()
}

pub fn bytes(text: &str) -> Vec<u8> {
    if text.is_empty() {
        Vec::new()
    } else {
        hex::bytes(text).expect("hex in the self-test")
    }
}
