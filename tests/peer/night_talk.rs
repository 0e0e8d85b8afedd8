//! What the program `night` does around its machine: words and hex text in, a line for each request out, a line for each event in.
use crate::bank::{MOST_SECTORS, SECTOR};
use crate::night::{Event, Next, Night};
use crate::wrong_nights::Wrong;
use crate::{hex, intel, lines, packets};
use std::io::{self, BufRead, Write};

const LONGEST_TEXT: usize = 1_048_576;
const LONGEST_LINE: usize = 4_096;
const LARGEST_NUMBER: usize = 999_999;

/// The status, as docs/RUNNING.md has it.
pub const FINISHED: i32 = 0;
pub const REFUSED: i32 = 1;
pub const WRONGLY: i32 = 2;
pub const UNREAD: i32 = 3;

pub struct Words {
    pub bank: usize,
    pub n: usize,
    pub tries: usize,
}

impl Words {
    /// None where the program is called wrongly.
    pub fn of(words: &[&str]) -> Option<Words> {
        let [bank @ ("0" | "1"), n, tries] = words else {
            return None;
        };
        let (n, tries) = (lines::decimal(n, LARGEST_NUMBER)?, lines::decimal(tries, LARGEST_NUMBER)?);
        Some(Words { bank: (*bank == "1") as usize, n, tries })
    }
}

/// Where events come from, and where lines go.
pub struct Ends<'a> {
    pub events: &'a mut dyn BufRead,
    pub requests: &'a mut dyn Write,
    pub progress: &'a mut dyn Write,
}

/// `peer night`: the status that it ends with.
pub fn called(words: &[&str], file: &str) -> i32 {
    let Some(words) = Words::of(words) else {
        eprintln!("night: BANK is 0 or 1, N and T are numbers");
        return WRONGLY;
    };
    let text = match std::fs::read(file) {
        Ok(text) => text,
        Err(why) => {
            eprintln!("night: {}: {}", file, why);
            return UNREAD;
        }
    };
    let (mut events, mut requests, mut progress) = (io::stdin().lock(), io::stdout().lock(), io::stderr().lock());
    let mut ends = Ends { events: &mut events, requests: &mut requests, progress: &mut progress };
    talk(&text, &words, &mut ends, None).unwrap_or_else(|why| {
        eprintln!("night: {}", why);
        UNREAD
    })
}

/// The status of a whole night; an error of reading or writing is the caller's to tell.
pub fn talk(text: &[u8], words: &Words, ends: &mut Ends, wrong: Option<Wrong>) -> io::Result<i32> {
    let (mut night, mut request) = match begun(text, words, wrong) {
        Ok(begun) => begun,
        Err(refusal) => {
            say(ends.requests, &refusal)?;
            return Ok(REFUSED);
        }
    };
    let mut status = FINISHED;
    loop {
        let _ = writeln!(ends.progress, "night: {}, try {} of {}", night.at_hand(), night.times_sent(), words.tries);
        say(ends.requests, &format!("send {}", hex::text(&request)))?;
        let heard = loop {
            let mut line = Vec::new();
            if ends.events.read_until(b'\n', &mut line)? == 0 {
                let _ = writeln!(ends.progress, "night: the events end before the night is over");
                return Ok(UNREAD);
            }
            if let Some(heard) = event(line.strip_suffix(b"\n").unwrap_or(&line)) {
                break heard;
            }
            status = REFUSED;
            say(ends.requests, "?")?;
        };
        match night.event(&heard.as_deref().map_or(Event::Silence, Event::Heard)) {
            Next::Send(bytes) => request = bytes,
            Next::Finished => {
                say(ends.requests, "finished")?;
                return Ok(status);
            }
            Next::GaveUp(request, reason) => {
                say(ends.requests, &format!("gave up at {}: {}", request, reason))?;
                return Ok(REFUSED);
            }
        }
    }
}

/// A night, or the line that refuses it.
fn begun(text: &[u8], words: &Words, wrong: Option<Wrong>) -> Result<(Night, Vec<u8>), String> {
    let Words { bank, n, tries } = *words;
    if text.len() > LONGEST_TEXT {
        return Err("too long".to_string());
    }
    let mut image = vec![0; n.min(MOST_SECTORS) * SECTOR];
    intel::read(text, bank, n, &mut image).map_err(|refusal| packets::refused(&refusal))?;
    Night::start(&image, bank, n, tries, wrong).map_err(|number| format!("refused {}", number))
}

/// The bytes that were heard, or silence; None for a line that is neither.
pub fn event(line: &[u8]) -> Option<Option<Vec<u8>>> {
    if line.len() > LONGEST_LINE {
        return None;
    }
    match std::str::from_utf8(line.strip_suffix(b"\r").unwrap_or(line)).ok()? {
        "silence" => Some(None),
        line => hex::bytes(line.strip_prefix("heard ")?).map(Some),
    }
}

/// Who sends it on waits for the line.
fn say(output: &mut dyn Write, line: &str) -> io::Result<()> {
    output.write_all(format!("{}\n", line).as_bytes())?;
    output.flush()
}
