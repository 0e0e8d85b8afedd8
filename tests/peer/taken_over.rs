//! What 'one gateway at a time' gives a night and what it does not, run by run, with a second gateway that wants to write.
//!
//! Until the mode is left nobody else can write: its write start behind our write end is answered 15, and the image starts next. A board that takes
//! everyone for who opened the mode obeys it. But once our mode end has come, the mode is anyone's: if the answer to it is lost and the other one
//! opens the mode and begins to write, 15 to our repeat counts as done, and the night is finished with a board that does not start the new bank.
use crate::draw::Draw;
use crate::hex;
use crate::night_judge::{holds, Said};
use crate::night_run::Night;
use crate::program::Program;
use crate::rack::{self, Evening};
use crate::script::{request, write_start, MODE_START};
use crate::stranger;
use crate::two_gateways::Watched;

const LAST: &str = "mode end";

const MODE_STARTED: &str = "010271068703";
const WRITE_STARTED: &str = "010270068803";
const WRITE_REFUSED: &str = "010270157903";
const MODE_ENDED: &str = "010274068403";
const MODE_ENDED_BEFORE: &str = "010274157503";

pub fn run(night: &str, board: &str) -> Result<String, String> {
    let peer = std::env::current_exe().map_err(|e| e.to_string())?.display().to_string();
    let (kept, broken) = write_start_behind(night, board, WRITE_REFUSED)?;
    holds(broken.is_none() && kept, "another gateway writes while the mode is ours")?;
    let (kept, broken) = write_start_behind(night, &format!("{} wrong-board Everyone", peer), WRITE_STARTED)?;
    let why = broken.ok_or("a board that takes everyone for the opener is not found out")?;
    holds(!kept, "the image still starts next")?;
    Ok(format!(
        "another gateway's write start behind the write end is answered 15, and the image starts next; on a board that obeys it {}; {}",
        why,
        taken_over(night, board)?
    ))
}

/// The other gateway sends a write start while our mode end is at hand, and is answered so. Whether the image starts next in the morning, and what was wrong
/// before the mode was left; it is finished in any case.
fn write_start_behind(night: &str, board: &str, answered: &str) -> Result<(bool, Option<String>), String> {
    let mut draw = Draw(0x4245_4849_4E44);
    let evening = Evening { tries: 3, ..Evening::fitting(&mut draw) };
    let mut board = Program::start(board, &[])?;
    evening.set_up(&mut board, &mut draw)?;
    let [ours, other, _] = stranger::addresses(&mut draw);
    let mut watched = Watched::new(&mut board, &evening, &ours);
    let mut night = Night::begin(night, &evening)?;
    up_to_the_last(&mut night, &mut watched)?;
    let said = heard(watched.theirs(&other, &write_start(evening.bank, evening.n))?)?;
    holds(said == answered, "the other's write start is answered otherwise")?;
    let ended = loop {
        let answer = watched.ours(&night.request())?;
        night.hears(answer)?;
        let said = night.says()?;
        if said != Said::Sends {
            break said;
        }
    };
    let broken = watched.broken;
    let kept = rack::look(&mut board, evening.n)?.next == evening.bank;
    holds(ended == Said::Finished, "it does not finish")?;
    night.ends(&ended)?;
    Ok((kept, broken))
}

fn taken_over(night: &str, board: &str) -> Result<String, String> {
    let mut draw = Draw(0x5441_4B45_4E);
    let evening = Evening { tries: 3, ..Evening::fitting(&mut draw) };
    let mut board = Program::start(board, &[])?;
    let before = evening.set_up(&mut board, &mut draw)?;
    let [ours, other, _] = stranger::addresses(&mut draw);
    let mut watched = Watched::new(&mut board, &evening, &ours);
    let mut night = Night::begin(night, &evening)?;
    up_to_the_last(&mut night, &mut watched)?;
    // Our mode end comes, and its answer is lost.
    let said = heard(watched.ours(&night.request())?)?;
    holds(said == MODE_ENDED, "the mode end is not answered 06")?;
    night.hears(None)?;
    // The other gateway opens the mode and begins to write.
    let said = heard(watched.theirs(&other, &request(MODE_START, &[]))?)?;
    holds(said == MODE_STARTED, "the other's mode start is not answered 06")?;
    let said = heard(watched.theirs(&other, &write_start(evening.bank, evening.n))?)?;
    holds(said == WRITE_STARTED, "the other's write start is not answered 06")?;
    // Our mode end goes out again.
    holds(night.says()? == Said::Sends && night.name() == LAST, "the mode end is not sent again")?;
    let answer = watched.ours(&night.request())?;
    holds(heard(answer.clone())? == MODE_ENDED_BEFORE, "the repeat is not answered 15")?;
    night.hears(answer)?;
    let ended = night.says()?;
    holds(ended == Said::Finished, "15 to the repeat does not finish it")?;
    holds(watched.broken.is_none() && watched.taken_over, "the image was not in until the mode was left")?;
    let found = rack::look(&mut board, evening.n)?;
    holds(found.state == "write" && found.opener == other, "the mode is not the other's")?;
    holds(found.banks[evening.bank] == evening.image, "the target is not the image")?;
    match night.over(&evening, &ended, &mut board, &before, false) {
        Err(why) if why == "the image does not start next" => Ok(format!(
            "a mode taken over before the repeat of a mode end: finished, and bank {} starts next, not the new bank {}",
            found.next, evening.bank
        )),
        Err(why) => Err(why),
        Ok(_) => Err("a mode that was taken over is not seen in the morning".to_string()),
    }
}

/// Each request is answered at once, until the mode end is at hand.
fn up_to_the_last(night: &mut Night, watched: &mut Watched) -> Result<(), String> {
    while night.says()? == Said::Sends {
        if night.name() == LAST {
            return Ok(());
        }
        let answer = watched.ours(&night.request())?;
        night.hears(answer)?;
    }
    Err("it ends before the mode end".to_string())
}

fn heard(answer: Option<Vec<u8>>) -> Result<String, String> {
    answer.map(|bytes| hex::text(&bytes)).ok_or("the board is silent".to_string())
}
