//! The cases that `night` is tried with, each a hex text, words and the events that come: every answer to every request, at its first try,
//! repeated and at the last one, the lines and words that are none, and walks of no plan. The same at each run.
use crate::bank::{self, MOST_SECTORS, SECTOR};
use crate::draw::Draw;
use crate::night::{Event, Next, Night};
use crate::night_answers::{heard, other_bank, unawaited, SILENCE};
use crate::night_judge::{holds, Judge, Said};
use crate::night_steps::{self, response, write_response, Kind, Step};
use crate::night_talk::{self, talk, Ends, Words};
use crate::texts::{data, half, in_lf, rows, upper, with_ends, END, LISTING};
use crate::wrong_nights::Wrong;
use crate::{hexout, intel};

const LONGEST_TEXT: usize = 1_048_576;
const LONGEST_LINE: usize = 4_096;

pub struct Case {
    /// BANK, N and T
    pub words: String,
    pub text: Vec<u8>,
    pub events: Vec<u8>,
}

#[derive(PartialEq)]
pub struct Run {
    pub output: Vec<u8>,
    pub status: i32,
}

pub fn all() -> Vec<Case> {
    let mut cases = Cases { cases: Vec::new(), draw: Draw(0x4E49_4748_54) };
    cases.first_tries();
    cases.repeated();
    cases.last_tries();
    cases.refused_by_state();
    cases.versions_and_banks();
    cases.all_tries_of_all();
    cases.refused();
    cases.lines_that_are_none();
    cases.endings();
    cases.walks(100);
    // Those that take long stand last, since a wrong night is mostly told before.
    cases.texts();
    cases.images();
    cases.cases
}

/// DIRECTORY/NNN.words, NNN.hex and NNN.events.
pub fn write(directory: &str) -> Result<(), String> {
    for (k, case) in all().iter().enumerate() {
        let words = format!("{}\n", case.words);
        let parts = [("words", words.as_bytes()), ("hex", &case.text[..]), ("events", &case.events[..])];
        for (kind, bytes) in parts {
            let file = format!("{}/{:03}.{}", directory, k, kind);
            std::fs::write(&file, bytes).map_err(|e| format!("{}: {}", file, e))?;
        }
    }
    Ok(())
}

impl Case {
    /// What the peer's own program makes of it.
    pub fn run(&self, wrong: Option<Wrong>) -> Run {
        let Some(words) = self.words() else {
            return Run { output: Vec::new(), status: night_talk::WRONGLY };
        };
        let (mut events, mut output) = (&self.events[..], Vec::new());
        let mut ends = Ends { events: &mut events, requests: &mut output, progress: &mut std::io::sink() };
        let status = talk(&self.text, &words, &mut ends, wrong).expect("memory is read and written");
        Run { output, status }
    }

    fn words(&self) -> Option<Words> {
        Words::of(&self.words.split(' ').collect::<Vec<_>>())
    }

    /// Whether the run may be, by the judge; and then, whether it used up all of T·(P + 6) events. A refusal is not judged.
    pub fn judged(&self, run: &Run) -> Result<bool, String> {
        let text = String::from_utf8(run.output.clone()).map_err(|e| e.to_string())?;
        let mut lines = text.lines();
        let first = match lines.next() {
            Some(line) if !line.starts_with("refused ") && line != "too long" => line,
            _ => return Ok(false),
        };
        let Words { bank, n, tries } = self.words().ok_or("a night of wrong words")?;
        let mut image = vec![0; n * SECTOR];
        intel::read(&self.text, bank, n, &mut image).map_err(|_| "a night of a faulty text")?;
        let mut judge = Judge::new(&image, bank, tries);
        judge.says(first)?;
        let mut strange = false;
        let events = self.events.strip_suffix(b"\n").unwrap_or(&self.events);
        for event in events.split(|byte| *byte == b'\n').filter(|_| !self.events.is_empty()) {
            let Some(came) = night_talk::event(event) else {
                strange = true;
                holds(lines.next() == Some("?"), "a line that is no event is not told so")?;
                continue;
            };
            judge.hears(came)?;
            let said = judge.says(lines.next().ok_or("it ends without a word")?)?;
            if said != Said::Sends {
                let status = (said != Said::Finished || strange) as i32;
                holds(lines.next().is_none() && run.status == status, "it goes on, or has another status")?;
                return Ok(judge.events == judge.most_events());
            }
        }
        holds(lines.next().is_none() && run.status == night_talk::UNREAD, "the events are over, and it is not")?;
        Ok(false)
    }
}

/// An image of drawn bytes in those sectors, and 0xFF elsewhere.
fn image(draw: &mut Draw, n: usize, sectors: &[usize]) -> Vec<u8> {
    let mut image = vec![0xFF; n * SECTOR];
    for k in sectors {
        let length = [4, 100, SECTOR][draw.below(3)];
        let from = (k - 1) * SECTOR + draw.below(SECTOR - length + 1);
        image[from..from + length].copy_from_slice(&draw.bytes(length));
        image[from] = 0x5A;
    }
    image
}

fn text_of(image: &[u8], bank: usize) -> Vec<u8> {
    hexout::text(image, bank).expect("an image of a bank")
}

/// A case on its way: the peer's night says which request is at hand.
struct Course {
    bank: usize,
    tries: usize,
    image: Vec<u8>,
    steps: Vec<Step>,
    night: Night,
    over: bool,
    lines: Vec<String>,
}

impl Course {
    fn new(image: &[u8], bank: usize, tries: usize) -> Course {
        let n = image.len() / SECTOR;
        let (night, _) = Night::start(image, bank, n, tries, None).expect("a night that is not refused");
        let (image, steps, lines) = (image.to_vec(), night_steps::all(image, bank), Vec::new());
        Course { bank, tries, image, steps, night, over: false, lines }
    }

    fn step(&self) -> &Step {
        &self.steps[self.night.at()]
    }

    fn add(&mut self, line: &str) {
        self.lines.push(line.to_string());
        if let Some(heard) = night_talk::event(line.as_bytes()) {
            let next = self.night.event(&heard.as_deref().map_or(Event::Silence, Event::Heard));
            self.over = !matches!(next, Next::Send(_));
        }
    }

    fn silences(&mut self, count: usize) {
        (0..count).for_each(|_| self.add(SILENCE));
    }

    fn answered(&mut self) {
        let line = heard(&self.step().awaited[0]);
        self.add(&line);
    }

    /// Each request answered at once, until that step is at hand.
    fn on_to(&mut self, at: usize) {
        while !self.over && self.night.at() < at {
            self.answered();
        }
    }

    fn to_the_end(&mut self) {
        while !self.over {
            self.answered();
        }
    }

    fn unawaited(&self) -> Vec<String> {
        unawaited(&self.steps, self.night.at(), &self.image, self.bank)
    }

    /// Whether the line settles the request at hand or ends the night, this time.
    fn leads_on(&self, line: &str) -> bool {
        let step = self.step();
        let repeated = self.night.times_sent() >= 2 && line == heard(&step.refused);
        let settles = repeated && matches!(step.kind, Kind::Switch | Kind::WriteEnd);
        settles || step.kind == Kind::Bank && line == heard(&other_bank(self.bank))
    }

    fn case(self) -> Case {
        Case {
            words: format!("{} {} {}", self.bank, self.image.len() / SECTOR, self.tries),
            text: text_of(&self.image, self.bank),
            events: in_lf(&self.lines),
        }
    }
}

struct Cases {
    cases: Vec<Case>,
    draw: Draw,
}

impl Cases {
    /// Three packets with gaps between them.
    fn course(&mut self, tries: usize) -> Course {
        let bank = self.cases.len() % 2;
        Course::new(&image(&mut self.draw, 6, &[1, 3, 6]), bank, tries)
    }

    fn push(&mut self, course: Course) {
        self.cases.push(course.case());
    }

    fn longest_list(&mut self) -> usize {
        let course = self.course(1);
        (0..course.steps.len())
            .map(|at| unawaited(&course.steps, at, &course.image, course.bank).len())
            .max()
            .unwrap_or(0)
    }

    /// Of each request each event that does not settle it comes first in one of these; what would end the night is left out.
    fn first_tries(&mut self) {
        for k in 0..self.longest_list() {
            let mut course = self.course(2);
            while !course.over {
                let lines = course.unawaited();
                let line = &lines[(k + 5 * course.night.at()) % lines.len()];
                if !course.leads_on(line) {
                    course.add(line);
                }
                course.answered();
            }
            self.push(course);
        }
    }

    /// The same after a first silence, where 15 may count.
    fn repeated(&mut self) {
        for k in 0..self.longest_list() {
            let mut course = self.course(3);
            while !course.over {
                course.add(SILENCE);
                let lines = course.unawaited();
                let line = &lines[(k + 7 * course.night.at()) % lines.len()];
                if !course.leads_on(line) {
                    course.add(line);
                }
                course.answered();
            }
            self.push(course);
        }
    }

    /// At the last try of each request: 15, what stands last in its list, and some by the draw.
    fn last_tries(&mut self) {
        let steps = self.course(1).steps.len();
        for (tries, drawn) in [(1, 2), (2, 6), (3, 1), (9, 0)] {
            for at in 0..steps {
                for k in 0..2 + drawn {
                    let mut course = self.course(tries);
                    course.on_to(at);
                    course.silences(tries - 1);
                    let lines = course.unawaited();
                    let line = match k {
                        0 => heard(&course.step().refused),
                        1 => lines[lines.len() - 1].clone(),
                        _ => lines[self.draw.below(lines.len())].clone(),
                    };
                    course.add(&line);
                    course.to_the_end();
                    self.push(course);
                }
            }
        }
    }

    /// 15 in its own response, in E0 and in another's, at each try from the first to the last; and again and again.
    fn refused_by_state(&mut self) {
        let steps = self.course(1).steps.len();
        for at in 0..steps {
            for kind in 0..4 {
                let mut course = self.course(4);
                course.on_to(at);
                let refused = match kind {
                    0 => course.step().refused.clone(),
                    1 => response(0xE0, 0x15, &[]),
                    2 => course.steps[if at == 0 { 3 } else { 0 }].refused.clone(),
                    _ => write_response(1, [0x15, 0x15], 0),
                };
                while !course.over && course.night.at() == at {
                    course.add(&heard(&refused));
                }
                course.to_the_end();
                self.push(course);
            }
        }
        // That one request was repeated says nothing of the next.
        let mut course = self.course(3);
        while !course.over {
            let refused = heard(&course.step().refused);
            match course.step().kind {
                Kind::Switch => (0..2).for_each(|_| course.add(&refused)),
                _ => {
                    course.add(&refused);
                    course.answered();
                }
            }
        }
        self.push(course);
    }

    fn versions_and_banks(&mut self) {
        for version in [[0; 8], [0xFF; 8], [4, 0, 255, 255, 255, 255, 255, 255], [0, 4, 9, 9, 9, 9, 9, 9]] {
            let mut course = self.course(1);
            course.on_to(1);
            course.add(&heard(&response(0x78, 0x06, &version)));
            course.to_the_end();
            self.push(course);
        }
        for tries in [1, 2, 9] {
            for silences in [0, tries - 1] {
                let mut course = self.course(tries);
                course.on_to(night_steps::BANK_STEP);
                course.silences(silences);
                let other = heard(&other_bank(course.bank));
                course.add(&other);
                course.to_the_end();
                self.push(course);
            }
        }
    }

    /// T·(P + 6) events, and not over before: it finishes at the last one, or gives up there.
    fn all_tries_of_all(&mut self) {
        for tries in 1..=9 {
            for sectors in [&[1][..], &[2, 3], &[1, 2, 3, 4, 5, 6, 7]] {
                for finishes in [true, false] {
                    let n = 7;
                    let mut course = Course::new(&image(&mut self.draw, n, sectors), tries % 2, tries);
                    while !course.over {
                        course.silences(tries - 1);
                        match finishes || course.night.at() + 1 < course.steps.len() {
                            true => course.answered(),
                            false => course.add(SILENCE),
                        }
                    }
                    // What comes behind the end is not looked at.
                    course.lines.push("heard 010271068703".to_string());
                    self.push(course);
                }
            }
        }
    }

    /// One packet or all of them, at each edge; 1D for some.
    fn images(&mut self) {
        let all = |n: usize| (1..=n).collect::<Vec<_>>();
        let mut images =
            vec![(1, vec![1]), (2, vec![2]), (3, all(3)), (32, vec![1, 32]), (32, all(32)), (257, vec![256])];
        images.extend([
            (MOST_SECTORS, vec![MOST_SECTORS]),
            (MOST_SECTORS, all(MOST_SECTORS)),
            (300, vec![1, 255, 256, 257]),
        ]);
        for (n, sectors) in images {
            for bank in [0, 1] {
                let mut course = Course::new(&image(&mut self.draw, n, &sectors), bank, 3);
                while !course.over {
                    let awaited = &course.step().awaited;
                    let line = heard(&awaited[self.draw.below(awaited.len())]);
                    course.add(&line);
                }
                self.push(course);
            }
        }
    }

    fn plain(&mut self, words: &str, text: Vec<u8>) {
        let events = in_lf(&["silence"; 10]);
        self.cases.push(Case { words: words.to_string(), text, events });
    }

    /// 3, 7 and 8, the hex faults before 7, and words that are none.
    fn refused(&mut self) {
        let listing = || in_lf(&LISTING);
        for words in
            ["0 0 3", "0 492 3", "0 999999 3", "1 491 0", "0 32 0", "0 32 10", "0 32 999999", "0 0 0", "0 492 10"]
        {
            self.plain(words, listing());
            self.plain(words, in_lf(&[END]));
            self.plain(words, in_lf(&LISTING[..3]));
        }
        for words in ["0 32 1", "1 32 9", "1 1 1", "0 491 9"] {
            self.plain(words, in_lf(&[END]));
            self.plain(words, Vec::new());
        }
        self.plain("0 1 2", in_lf(&[upper(half(0)), data(0x0A00, &[0xFF; 255]), END.to_string()]));
        self.plain("0 03 002", listing());
        for words in
            ["2 32 3", "x 32 3", "01 32 3", "-1 32 3", "0 x 3", "0 32x 3", "0 +32 3", "0 -1 3", "0 32 x", "0 32 -1"]
        {
            self.plain(words, listing());
        }
        for words in ["0 32 3x", "0 32 +3", "0 3.2 3", "0 0x20 3", "1 32 ?"] {
            self.plain(words, listing());
        }
    }

    /// Each hex fault, and both sides of the longest text.
    fn texts(&mut self) {
        let [first, second, third, end] = LISTING;
        let faulty = [
            vec![first, second, ":040E000001020304E5", end],
            vec![first, "", second, end],
            vec![first, ":040A0000DEADBEEFB", end],
            vec![first, ":020000021200EA", end],
            vec![second, end],
            vec![first, third, second, end],
            vec![first, second, third],
            vec![first, second, end, third],
            vec![],
        ];
        for lines in faulty {
            self.plain("0 32 3", in_lf(&lines));
            self.plain("0 4 10", with_ends(&lines, "\r\n"));
        }
        self.plain("1 32 3", in_lf(&LISTING));
        self.plain("0 2 3", in_lf(&LISTING));
        self.plain("0 3 2", in_lf(&LISTING).to_ascii_lowercase());
        for length in [LONGEST_TEXT, LONGEST_TEXT + 1] {
            let mut text = in_lf(&rows(bank::start(0), &[0x11; 2 * SECTOR], 16));
            // Filled up by data of no bytes, in lines of 12, or with CR LF of 13.
            let left = length - text.len() - END.len();
            let (short, long) = (left / 12 - left % 12, left % 12);
            text.extend(in_lf(&vec![data(0, &[]); short]));
            text.extend(with_ends(&vec![data(0, &[]); long], "\r\n"));
            text.extend(END.bytes());
            self.plain("0 2 2", text);
            self.plain("0 2 2", vec![b':'; length]);
        }
    }

    /// Lines that are no event use up nothing, wherever they come; the status is 1 then.
    fn lines_that_are_none(&mut self) {
        let longest = format!("heard {}", "00".repeat((LONGEST_LINE - 6) / 2));
        assert_eq!(longest.len(), LONGEST_LINE);
        let mut none: Vec<String> =
            ["", " ", "#", "# silence", "silence ", " silence", "Silence", "SILENCE", "silence -", "silences", "heard"]
                .map(str::to_string)
                .to_vec();
        none.extend(
            ["heard ", "heard  -", "heard - ", "heard --", "heard 0", "heard 010", "heard 01 02", "heard 0G"]
                .map(str::to_string),
        );
        none.extend(
            ["heard 0x01", "heard -01", "HEARD 01", "heard01", "send 010271068703", "finished", "?"]
                .map(str::to_string),
        );
        none.extend([longest.clone() + "00", longest.clone() + "0", " ".repeat(5_000), "silence".repeat(700)]);
        none.extend(["heard \u{e4}", "silence\u{0}", "\u{0}", "silence\r\r", "heard 01\t"].map(str::to_string));
        for (k, line) in none.iter().enumerate() {
            let mut course = self.course(2);
            course.on_to(k % 5);
            course.add(line);
            course.to_the_end();
            self.push(course);
        }
        // Again and again, also beyond T·(P + 6), and with the night given up.
        let mut course = self.course(2);
        for line in &none {
            if course.night.at() < 8 {
                course.add(line);
                course.add(line);
                course.answered();
            }
        }
        (0..40).for_each(|_| course.add("?"));
        course.silences(2);
        self.push(course);
        // A line of the full length is an answer that cannot be read, with either end.
        for line in [longest.clone(), longest[..LONGEST_LINE - 2].to_string() + "\r"] {
            let mut course = self.course(2);
            course.add(&line);
            course.to_the_end();
            self.push(course);
        }
        let mut course = self.course(1);
        course.add(&format!("{}\r", longest));
        course.to_the_end();
        self.push(course);
        // Bytes that are no text
        let mut course = self.course(1);
        course.to_the_end();
        let mut case = course.case();
        case.events.splice(..0, *b"heard \xFF\xFE\n\xC3\n");
        self.cases.push(case);
    }

    /// Events that end early, with and without a last LF; CR LF; digits of either case; none at all.
    fn endings(&mut self) {
        for (k, end) in [(0, "\n"), (1, "\n"), (2, "\r\n"), (4, "\n"), (6, "\n"), (8, "\r\n")] {
            let mut course = self.course(2);
            course.on_to(k);
            course.silences(k % 2);
            let lines = course.lines.clone();
            let mut case = course.case();
            case.events = with_ends(&lines, end);
            let without = case.events[..case.events.len().saturating_sub(end.len())].to_vec();
            self.cases.push(Case { words: case.words.clone(), text: case.text.clone(), events: without });
            self.cases.push(case);
        }
        for (end, cut) in [("\n", 0), ("\n", 1), ("\r\n", 0), ("\r\n", 1), ("\r\n", 2)] {
            let mut course = self.course(2);
            course.to_the_end();
            let lines = course.lines.clone();
            let mut case = course.case();
            case.events = with_ends(&lines, end).to_ascii_lowercase();
            case.events.truncate(case.events.len() - cut);
            self.cases.push(case);
        }
        // A strange line, and then no more: the worse of both statuses is told (docs/RUNNING.md).
        let mut course = self.course(2);
        course.add("so?");
        self.push(course);
    }

    /// By the draw, as long as they last; mostly the awaited answer, so that they come far.
    fn walks(&mut self, count: usize) {
        for _ in 0..count {
            let (n, tries) = (1 + self.draw.below(9), 1 + self.draw.below(9));
            let mut sectors: Vec<usize> = (1..=n).filter(|_| self.draw.below(2) == 0).collect();
            sectors.push(1 + self.draw.below(n));
            let bank = self.draw.below(2);
            let mut course = Course::new(&image(&mut self.draw, n, &sectors), bank, tries);
            let good = [2, 4, 12][self.draw.below(3)];
            while !course.over {
                let lines = course.unawaited();
                match self.draw.below(good + 3) {
                    0 => course.add(SILENCE),
                    1 => course.add(&lines[self.draw.below(lines.len())]),
                    2 => {
                        let refused = heard(&course.step().refused);
                        course.add(&refused);
                    }
                    _ => {
                        let awaited = &course.step().awaited;
                        let line = heard(&awaited[self.draw.below(awaited.len())]);
                        course.add(&line);
                    }
                }
            }
            self.push(course);
        }
    }
}
