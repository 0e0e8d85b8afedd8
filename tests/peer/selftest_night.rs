//! The peer's night sender, held to runs that were written by hand from 02 §4: the image of the paper's listing for bank 0, N = 32, which has two
//! packets. The two CRC-32 are what zlib's crc32 gives.
use crate::night::{Event, Next, Night, Reason, Request};
use crate::night_talk::{talk, Ends, Words};
use crate::selftest::{bytes, Checks};
use crate::texts::{in_lf, END, LISTING};

const MODE_START: &str = "send 0101619E03";
const VERSION: &str = "send 0101689703";
const BANK: &str = "send 0101629D03";
const WRITE_START: &str = "send 01094010000A00100049FF4503";
const WRITE_END: &str = "send 010145BA03";
const MODE_END: &str = "send 0101649B03";

const STARTED: &str = "heard 010271068703";
const VERSION_TOLD: &str = "heard 010A7806040001020000002A4703";
const BANK_TOLD: &str = "heard 01037206008503";
const OTHER_BANK: &str = "heard 01037206018403";
const WRITE_STARTED: &str = "heard 010270068803";
const STORED: &str = "heard 020001000606069BA3B739BF03";
const ANOTHER_CRC: &str = "heard 020001000606069BA3B738C003";
const OMITTED: &str = "heard 0200030006061D132351D87503";
const WRITE_ENDED: &str = "heard 010275068303";
const UNSOUND: &str = "heard 0102751E6B03";
const MODE_ENDED: &str = "heard 010274068403";

const MODE_STARTED_BEFORE: &str = "heard 010271157803";
const WRITE_STARTED_BEFORE: &str = "heard 010270157903";
const WRITE_ENDED_BEFORE: &str = "heard 010275157403";
const MODE_ENDED_BEFORE: &str = "heard 010274157503";
const ERROR_15: &str = "heard 0102E0150903";

pub fn all() -> Vec<Checks> {
    vec![runs(), refusals(), after_the_end()]
}

/// Example 11 and the packet before it.
fn first() -> String {
    format!("send 0200010200DEADBEEF{}C117", "FF".repeat(508))
}

fn second() -> String {
    format!("send 020003020001020304{}ED03", "FF".repeat(508))
}

fn said(words: &[&str], text: &[u8], events: &[&str]) -> (Vec<String>, i32) {
    let (events, mut output) = (in_lf(events), Vec::new());
    let words = Words::of(words).expect("good words");
    let mut ends = Ends { events: &mut &events[..], requests: &mut output, progress: &mut std::io::sink() };
    let status = talk(text, &words, &mut ends, None).expect("memory is read and written");
    (String::from_utf8(output).expect("text").lines().map(str::to_string).collect(), status)
}

/// What T is, the lines by turns, the night's first, and the status.
fn runs() -> Checks {
    let (first, second) = (&first()[..], &second()[..]);
    let head = [MODE_START, STARTED, VERSION, VERSION_TOLD, BANK, BANK_TOLD, WRITE_START, WRITE_STARTED];
    let sent = [&head[..], &[first, STORED, second, OMITTED]].concat();
    let runs: [(&str, &str, Vec<&str>, i32); 12] = [
        (
            "each answered at once",
            "1",
            [&sent[..], &[WRITE_END, WRITE_ENDED, MODE_END, MODE_ENDED, "finished"]].concat(),
            0,
        ),
        ("15 to a first mode start", "1", vec![MODE_START, MODE_STARTED_BEFORE, "gave up at mode start: tries"], 1),
        (
            "15 to a repeated mode start, at the last try",
            "2",
            vec![MODE_START, "silence", MODE_START, MODE_STARTED_BEFORE, VERSION],
            3,
        ),
        (
            "15 by Respond Error",
            "2",
            vec![MODE_START, "silence", MODE_START, ERROR_15, "gave up at mode start: tries"],
            1,
        ),
        ("another bank", "9", [&head[..5], &[OTHER_BANK, "gave up at bank: wrong bank"]].concat(), 1),
        (
            "15 to a repeated write start",
            "3",
            [&head[..7], &[WRITE_STARTED_BEFORE, WRITE_START, WRITE_STARTED_BEFORE, first]].concat(),
            3,
        ),
        (
            "another CRC-32",
            "2",
            [&head[..], &[first, ANOTHER_CRC, first, ANOTHER_CRC, "gave up at packet 0 sector 0001: tries"]].concat(),
            1,
        ),
        (
            "the answer to the packet before",
            "1",
            [&head[..], &[first, STORED, second, STORED, "gave up at packet 1 sector 0003: tries"]].concat(),
            1,
        ),
        (
            "an unsound bank, and then 15",
            "9",
            [&sent[..], &[WRITE_END, UNSOUND, WRITE_END, WRITE_ENDED_BEFORE, "gave up at write end: unknown"]].concat(),
            1,
        ),
        (
            "15 to a first write end, and then 06",
            "2",
            [&sent[..], &[WRITE_END, WRITE_ENDED_BEFORE, WRITE_END, WRITE_ENDED, MODE_END]].concat(),
            3,
        ),
        (
            "15 to a repeated mode end",
            "2",
            [
                &sent[..],
                &[WRITE_END, WRITE_ENDED, MODE_END, MODE_ENDED_BEFORE, MODE_END, MODE_ENDED_BEFORE, "finished"],
            ]
            .concat(),
            0,
        ),
        (
            "silence to each mode end",
            "2",
            [
                &sent[..],
                &[WRITE_END, WRITE_ENDED, MODE_END, "silence", MODE_END, "silence", "gave up at mode end: tries"],
            ]
            .concat(),
            1,
        ),
    ];
    runs.iter()
        .map(|(what, tries, lines, status)| {
            let night: Vec<&str> = lines.iter().step_by(2).copied().collect();
            let events: Vec<&str> = lines.iter().skip(1).step_by(2).copied().collect();
            let (wrote, ended) = said(&["0", "32", tries], &in_lf(&LISTING), &events);
            (format!("night: {}", what), wrote == night && ended == *status)
        })
        .collect()
}

/// 3, the hex faults, 7 and 8, in this order.
fn refusals() -> Checks {
    let faulty = String::from_utf8(in_lf(&LISTING)).expect("text").replace("E4", "E5").into_bytes();
    let (good, blank, long) = (in_lf(&LISTING), in_lf(&[END]), vec![b'\n'; 1_048_577]);
    [
        ("0", "1", &faulty, "refused 3"),
        ("492", "0", &good, "refused 3"),
        ("32", "0", &faulty, "refused H2 line 3 byte 18"),
        ("32", "0", &blank, "refused 7"),
        ("32", "10", &good, "refused 7"),
        ("32", "9", &blank, "refused 8"),
        ("32", "9", &long, "too long"),
    ]
    .iter()
    .map(|(n, tries, text, line)| {
        let wanted = (vec![line.to_string()], 1);
        (format!("night: {}, N = {}, T = {}", line, n, tries), said(&["0", n, tries], text, &["silence"]) == wanted)
    })
    .collect()
}

/// The same end again, whatever comes; and 2 between 3 and 7.
fn after_the_end() -> Checks {
    let (mut night, request) = Night::start(&[0; 512], 0, 1, 1, None).expect("a night");
    let end = Next::GaveUp(Request::ModeStart, Reason::Tries);
    let ended = night.event(&Event::Silence);
    let again = [bytes("010271068703"), Vec::new()].map(|heard| night.event(&Event::Heard(&heard)));
    let told = ended == end && again.iter().all(|next| *next == end);
    let short = Night::start(&[0; 511], 0, 1, 0, None).err() == Some(2);
    let no_n = Night::start(&[0; 511], 0, 0, 0, None).err() == Some(3);
    [("the first request", request == bytes("0101619E03")), ("events after the end", told), ("3, 2, 7", short && no_n)]
        .map(|(what, good)| (format!("night: {}", what), good))
        .to_vec()
}
