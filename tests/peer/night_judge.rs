//! What a night sender may say: 02 §4 read over bytes and events, line by line, with no night sender of the peer's own.
//!
//! The requests go out in order, each at most T times; the next one goes out when the event before settled the one at hand, and never else;
//! it is over within T·(P + 6) events; a give-up has its name and its reason.
use crate::hex;
use crate::night_steps::{self, Kind, Step};

type Judged<T> = Result<T, String>;

/// Silence is None.
pub type Heard = Option<Vec<u8>>;

enum Verdict {
    Settled,
    Spent,
    Stop(&'static str),
}

pub struct Judge {
    pub steps: Vec<Step>,
    tries: usize,
    at: usize,
    /// How often the request at hand has gone out.
    sent: usize,
    /// What came since it last went out.
    latest: Option<Heard>,
    pub events: usize,
    pub requests: usize,
}

/// What a line says.
#[derive(PartialEq, Debug)]
pub enum Said {
    Sends,
    Finished,
    /// The name of the step and the reason
    GaveUp(String, &'static str),
}

impl Said {
    /// That the image is in, as far as a night can tell.
    pub fn is_in(&self) -> bool {
        match self {
            Said::Finished => true,
            Said::GaveUp(name, _) => name == "mode end",
            Said::Sends => false,
        }
    }
}

impl Judge {
    pub fn new(image: &[u8], bank: usize, tries: usize) -> Judge {
        let steps = night_steps::all(image, bank);
        Judge { steps, tries, at: 0, sent: 0, latest: None, events: 0, requests: 0 }
    }

    pub fn at_hand(&self) -> &Step {
        &self.steps[self.at]
    }

    /// T·(P + 6)
    pub fn most_events(&self) -> usize {
        self.tries * self.steps.len()
    }

    pub fn hears(&mut self, heard: Heard) -> Judged<()> {
        self.events += 1;
        self.latest = Some(heard);
        holds(self.events <= self.most_events(), "it goes on beyond T times P + 6 events")
    }

    pub fn says(&mut self, line: &str) -> Judged<Said> {
        let wanted = self.wanted();
        let said = match line {
            "finished" => Said::Finished,
            _ => match line.strip_prefix("send ") {
                Some(bytes) => {
                    let at_hand = hex::text(&self.at_hand().request);
                    holds(bytes == at_hand, "it sends another request than the one that is due")?;
                    Said::Sends
                }
                None => self.gave_up(line)?,
            },
        };
        match said == wanted {
            true => Ok(said),
            false => Err(format!("it should be {:?}, and it says {:.60}", wanted, line)),
        }
    }

    /// What has to come of the latest event; the request at hand is then the one that goes out.
    fn wanted(&mut self) -> Said {
        let verdict = match self.latest.take() {
            None => Verdict::Spent,
            Some(heard) => self.verdict(heard),
        };
        match verdict {
            Verdict::Settled if self.at + 1 == self.steps.len() => return Said::Finished,
            Verdict::Settled => (self.at, self.sent) = (self.at + 1, 0),
            Verdict::Spent if self.sent == self.tries => return self.give_up("tries"),
            Verdict::Spent => (),
            Verdict::Stop(reason) => return self.give_up(reason),
        }
        self.sent += 1;
        self.requests += 1;
        Said::Sends
    }

    fn give_up(&self, reason: &'static str) -> Said {
        Said::GaveUp(self.at_hand().name.clone(), reason)
    }

    fn gave_up(&self, line: &str) -> Judged<Said> {
        let said = ["tries", "wrong bank", "unknown"].into_iter().find_map(|reason| {
            let name = line.strip_prefix("gave up at ")?.strip_suffix(reason)?.strip_suffix(": ")?;
            Some(Said::GaveUp(name.to_string(), reason))
        });
        said.ok_or_else(|| format!("it says what no night says: {:.60}", line))
    }

    fn verdict(&self, heard: Heard) -> Verdict {
        let step = self.at_hand();
        let Some(answer) = heard else {
            return Verdict::Spent;
        };
        let other_bank = |bank| answer == night_steps::response(0x72, 0x06, &[bank]);
        match step.kind {
            _ if step.is_settled_by(&answer) => Verdict::Settled,
            Kind::Bank if other_bank(0) || other_bank(1) => Verdict::Stop("wrong bank"),
            Kind::Switch if answer == step.refused && self.sent >= 2 => Verdict::Settled,
            Kind::WriteEnd if answer == step.refused && self.sent >= 2 => Verdict::Stop("unknown"),
            _ => Verdict::Spent,
        }
    }
}

pub fn holds(it: bool, otherwise: &str) -> Judged<()> {
    it.then_some(()).ok_or_else(|| otherwise.to_string())
}
