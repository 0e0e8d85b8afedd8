//! Why a radio has to keep the order of requests: a write start is doubled, and its copy comes after the write end was answered. The board begins a new
//! session, and the night is finished all the same, with a board that does not start the new bank.
use crate::draw::Draw;
use crate::hex;
use crate::night_judge::{holds, Said};
use crate::night_run::Night;
use crate::program::Program;
use crate::rack::{self, Evening};
use crate::radio::call;

const WRITE_START: &str = "write start";
const MODE_END: &str = "mode end";

pub fn run(night: &str, board: &str) -> Result<String, String> {
    let mut draw = Draw(0x4C41_5445);
    let evening = Evening { tries: 3, ..Evening::fitting(&mut draw) };
    let mut board = Program::start(board, &[])?;
    let before = evening.set_up(&mut board, &mut draw)?;
    let mut night = Night::begin(night, &evening)?;
    let (mut copy, mut last_answers) = (None, Vec::new());
    while night.says()? == Said::Sends {
        if night.name() == WRITE_START {
            copy = Some(night.request());
        }
        if night.name() == MODE_END {
            // The write end was answered 06, and now the copy comes.
            if let Some(late) = copy.take() {
                let answer = call(&mut board, &late)?.ok_or("the board is silent")?;
                holds(hex::text(&answer) == "010270068803", "the late write start is not answered 06")?;
            }
        }
        let answer = call(&mut board, &night.request())?.ok_or("the board is silent")?;
        if night.name() == MODE_END {
            last_answers.push(hex::text(&answer));
        }
        night.hears(Some(answer))?;
    }
    holds(last_answers == ["010274157503", "010274157503"], "the mode end is not answered 15 twice")?;
    let found = rack::look(&mut board, evening.n)?;
    holds(found.state == "write" && found.next == evening.running, "the board begins no new session")?;
    holds(found.banks[evening.bank] == evening.image, "the target is not the image")?;
    match night.over(&evening, &Said::Finished, &mut board, &before, false) {
        Err(why) if why == "the image does not start next" => Ok(format!(
            "a late write start: finished, and bank {} starts next, not the new bank {}",
            found.next, evening.bank
        )),
        Err(why) => Err(why),
        Ok(_) => Err("a late write start is not seen in the morning".to_string()),
    }
}
