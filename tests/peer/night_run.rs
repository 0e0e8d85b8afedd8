//! A night of the program, held to the judge as it runs, and to the board's bytes when it is over.
use crate::hex;
use crate::night_judge::{holds, Heard, Judge, Said};
use crate::night_steps::Kind;
use crate::program::Program;
use crate::rack::{self, Evening, Found};
use std::collections::BTreeMap;

/// What there was, over all nights.
#[derive(Default)]
pub struct Count {
    pub finished: usize,
    pub gave_up: BTreeMap<String, usize>,
    pub requests: usize,
    pub lost: usize,
    pub answers_lost: usize,
    pub doubled: usize,
    pub late: usize,
    /// Requests that were older than one that had come, and were not handed to the board.
    pub too_old: usize,
    /// Datagrams of other gateways.
    pub strangers: usize,
}

impl Count {
    pub fn add(&mut self, other: &Count) {
        self.finished += other.finished;
        self.requests += other.requests;
        self.lost += other.lost;
        self.answers_lost += other.answers_lost;
        self.doubled += other.doubled;
        self.late += other.late;
        self.too_old += other.too_old;
        self.strangers += other.strangers;
        for (name, count) in &other.gave_up {
            *self.gave_up.entry(name.clone()).or_default() += count;
        }
    }

    /// In one line; nights that all come to nothing show nothing.
    pub fn told(&self, nights: usize) -> Result<String, String> {
        let gave_up: Vec<String> = self.gave_up.iter().map(|(name, count)| format!("{} {}", name, count)).collect();
        let Count { finished, requests, lost, answers_lost, doubled, late, too_old, strangers, .. } = self;
        let said = format!(
            "{} nights, {} finished, {} gave up ({}); {} requests, {} lost, {} doubled, {} too old; {} answers lost, {} late; {} datagrams of strangers",
            nights,
            finished,
            nights - finished,
            gave_up.join(", "),
            requests,
            lost,
            doubled,
            too_old,
            answers_lost,
            late,
            strangers
        );
        match finished * 5 >= nights {
            true => Ok(said),
            false => Err(format!("too few nights finish: {}", said)),
        }
    }
}

/// The hex text, for as long as the night is looked at.
struct File(String);

impl Drop for File {
    fn drop(&mut self) {
        let _ = std::fs::remove_file(&self.0);
    }
}

pub struct Night {
    program: Program,
    judge: Judge,
    _text: File,
    pub count: Count,
    /// Whether a try of the request at hand went through both ways.
    through: bool,
    /// Whether the write end has come to the board, and whether its answer was lost when it first did.
    write_end_came: bool,
    first_end_lost: bool,
}

impl Night {
    pub fn begin(command: &str, evening: &Evening) -> Result<Night, String> {
        let file = File(std::env::temp_dir().join(format!("night-{}.hex", std::process::id())).display().to_string());
        std::fs::write(&file.0, evening.text()).map_err(|e| format!("{}: {}", file.0, e))?;
        let program = Program::start(command, &evening.words(&file.0))?;
        let judge = Judge::new(&evening.image, evening.bank, evening.tries);
        let (count, through) = (Count::default(), false);
        Ok(Night { program, judge, _text: file, count, through, write_end_came: false, first_end_lost: false })
    }

    pub fn says(&mut self) -> Result<Said, String> {
        let line = self.program.hear()?;
        let before = self.name().to_string();
        let said = self.judge.says(&line)?;
        if self.name() != before {
            self.through = false;
        }
        Ok(said)
    }

    /// Of the request at hand.
    pub fn name(&self) -> &str {
        &self.judge.at_hand().name
    }

    pub fn request(&self) -> Vec<u8> {
        self.judge.at_hand().request.clone()
    }

    /// Of the request at hand: whether it came to the board this time, and whether its answer came back.
    pub fn tried(&mut self, came: bool, answered: bool) {
        self.through |= answered;
        if came && self.judge.at_hand().kind == Kind::WriteEnd && !self.write_end_came {
            (self.write_end_came, self.first_end_lost) = (true, !answered);
        }
    }

    pub fn hears(&mut self, heard: Heard) -> Result<(), String> {
        let line = match &heard {
            None => "silence".to_string(),
            Some(bytes) => format!("heard {}", hex::text(bytes)),
        };
        self.judge.hears(heard)?;
        self.program.say(&line)
    }

    /// What is found in the morning, where nobody else has sent. `alone`: but for losses nothing was done to requests and answers.
    pub fn over(
        self,
        evening: &Evening,
        said: &Said,
        board: &mut Program,
        before: &Found,
        alone: bool,
    ) -> Result<Count, String> {
        let found = rack::look(board, evening.board_n)?;
        let running = evening.running;
        holds(found.banks[running] == before.banks[running], "the running bank has changed")?;
        if said.is_in() {
            holds(evening.sound, "an unsound image is said to be in place")?;
            holds(found.n == evening.n, "the board has another N")?;
            holds(
                evening.bank != running && found.banks[evening.bank] == evening.image,
                "the target is not the image",
            )?;
            holds(found.next == evening.bank, "the image does not start next")?;
        }
        if alone && evening.fits() && *said != Said::Finished {
            let end_lost = self.judge.at_hand().kind == Kind::WriteEnd && self.first_end_lost;
            holds(!self.through || end_lost, "it gives up though a try went through both ways")?;
        }
        self.ends(said)
    }

    /// Its status, and what there was.
    pub fn ends(mut self, said: &Said) -> Result<Count, String> {
        let status = self.program.end()?;
        holds(status == (*said != Said::Finished) as i32, "another status than its last line says")?;
        self.count.requests = self.judge.requests;
        match said {
            Said::GaveUp(name, reason) => {
                let kind = if name.starts_with("packet ") { "packet" } else { name };
                self.count.gave_up.insert(format!("{}: {}", kind, reason), 1);
            }
            _ => self.count.finished = 1,
        }
        Ok(self.count)
    }
}
