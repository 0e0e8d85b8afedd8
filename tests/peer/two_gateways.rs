//! Nights beside another gateway, by a seed: whatever it sends, from one or two addresses, comes to the board before, between and behind the night's own
//! requests, over a radio as in radio.rs. The night hears what the board answered to its own requests, and nothing else.
//!
//! What has to hold if it finishes or gives up at the mode end: from the write end that the board answered 06 until the mode that it opened is left,
//! by its own mode end or by the host, or else to the end of the run, the target is the image and starts next. Then the mode is anyone's.
use crate::draw::Draw;
use crate::night_judge::{holds, Said};
use crate::night_run::{Count, Night};
use crate::program::Program;
use crate::rack::{self, Evening};
use crate::radio::{call, Radio};
use crate::script::{own, request, MODE_END, MODE_START, WRITE_END};
use crate::stranger;
use crate::wrong::Wrong;

/// What the others brought about, over all nights.
#[derive(Default)]
struct Beside {
    looks: usize,
    /// Nights that finished and whose mode was left and then opened by another, and those of them whose image was taken back.
    taken_over: usize,
    taken_back: usize,
}

pub fn nights(seed: u64, count: usize, night: &str, board: &str) -> Result<String, String> {
    let mut board = Program::start(board, &[])?;
    let (mut total, mut beside) = (Count::default(), Beside::default());
    for k in 0..count {
        let mut draw = Draw(seed.wrapping_mul(1_000_003).wrapping_add(k as u64));
        let counted = one(&mut draw, night, &mut board, &mut beside);
        total.add(&counted.map_err(|why| format!("seed {}, night {} among strangers: {}", seed, k, why))?);
    }
    let Beside { looks, taken_over, taken_back } = beside;
    let said = format!(
        "{}, {looks} looks from write end to mode end; {taken_over} finished and were then taken over, \
         {taken_back} of them taken back",
        total.told(count)?
    );
    let left_open = total.gave_up.get("mode end: tries").copied().unwrap_or(0);
    let seldom = taken_over >= count / 12 && taken_back >= count / 60 && left_open >= count / 60;
    match total.strangers >= 20 * count && looks >= count && seldom {
        true => Ok(said),
        false => Err(format!("too little goes on: {}", said)),
    }
}

fn one(draw: &mut Draw, night: &str, board: &mut Program, beside: &mut Beside) -> Result<Count, String> {
    let addresses = stranger::addresses(draw);
    let evening = if draw.below(2) == 0 { Evening::fitting(draw) } else { Evening::any(draw) };
    let evening = Evening { former: addresses[[0, 0, 1, 2][draw.below(4)]].clone(), ..evening };
    let before = evening.set_up(board, draw)?;
    let (radio, odds) = (Radio::drawn(draw), 2 + draw.below(12));
    let mut street = Street {
        watched: Watched::new(board, &evening, &addresses[0]),
        others: &addresses[1..],
        most: 1 + draw.below(4),
        host: radio == Radio::Wild && draw.below(5) == 0,
    };
    let (mut night, mut given) = (Night::begin(night, &evening)?, Vec::new());
    // No mode end comes to the board, so that the mode stays open.
    let stays_open = draw.below(8) == 0;
    let ended = loop {
        let said = night.says()?;
        if said != Said::Sends {
            break said;
        }
        let earlier = given.len();
        street.others(draw)?;
        let copies = radio.copies(draw, odds, &mut night.count);
        for _ in 0..if stays_open && night.name() == "mode end" { 0 } else { copies } {
            given.extend(street.watched.ours(&night.request())?);
            street.others(draw)?;
        }
        let heard = radio.heard(draw, odds, &given, earlier, &mut night);
        night.hears(heard)?;
    };
    // It is over for the night, and the others go on.
    for _ in 0..draw.below(16) {
        street.others(draw)?;
    }
    let Watched { was_in, broken, taken_over, strangers, looks, .. } = street.watched;
    let found = rack::look(board, evening.board_n)?;
    holds(found.banks[evening.running] == before.banks[evening.running], "the running bank has changed")?;
    if ended.is_in() {
        holds(was_in, "no write end of this night was answered 06")?;
        broken.map_or(Ok(()), Err)?;
    }
    night.count.strangers = strangers;
    beside.looks += looks;
    beside.taken_over += (ended == Said::Finished && taken_over) as usize;
    beside.taken_back += (ended == Said::Finished && taken_over && found.next != evening.bank) as usize;
    night.ends(&ended)
}

struct Street<'a> {
    watched: Watched<'a>,
    others: &'a [String],
    /// Of the others' datagrams at a time.
    most: usize,
    /// The host of the board gives commands now and then.
    host: bool,
}

impl Street<'_> {
    fn others(&mut self, draw: &mut Draw) -> Result<(), String> {
        let Evening { board_n, running, .. } = *self.watched.evening;
        for _ in 0..draw.below(self.most + 1) {
            let (other, sent) = (draw.below(self.others.len()), stranger::sends(draw, board_n, 1 - running));
            self.watched.theirs(&self.others[other], &sent.datagram)?;
        }
        if self.host && draw.below(30) == 0 {
            let commands: &[&str] = [&["terminate"][..], &["initiate"], &["terminate", "initiate"]][draw.below(3)];
            commands.iter().try_for_each(|command| self.watched.host(command))?;
        }
        Ok(())
    }
}

/// A board that several gateways speak to. After each input from the write end on until the mode is left it is looked at.
pub struct Watched<'a> {
    board: &'a mut Program,
    evening: &'a Evening,
    ours: &'a str,
    /// Whether our write end has been answered 06, and our mode was not left since.
    holds: bool,
    was_in: bool,
    left: bool,
    /// What was wrong at the first look that showed something else than the image, about to start.
    pub broken: Option<String>,
    /// Whether another has opened the mode since ours was left.
    pub taken_over: bool,
    strangers: usize,
    looks: usize,
}

impl<'a> Watched<'a> {
    pub fn new(board: &'a mut Program, evening: &'a Evening, ours: &'a str) -> Watched<'a> {
        let (holds, was_in, left, taken_over) = (false, false, false, false);
        Watched { board, evening, ours, holds, was_in, left, broken: None, taken_over, strangers: 0, looks: 0 }
    }

    /// A request of the night comes, and is answered, unless the board is silent.
    pub fn ours(&mut self, datagram: &[u8]) -> Result<Option<Vec<u8>>, String> {
        let answer = self.comes(self.ours, datagram)?;
        if is_done(WRITE_END, datagram, &answer) {
            (self.holds, self.was_in) = (true, true);
        }
        if is_done(MODE_END, datagram, &answer) {
            (self.holds, self.left) = (false, true);
        }
        self.look()?;
        Ok(answer)
    }

    pub fn theirs(&mut self, address: &str, datagram: &[u8]) -> Result<Option<Vec<u8>>, String> {
        self.strangers += 1;
        let answer = self.comes(address, datagram)?;
        self.taken_over |= self.left && is_done(MODE_START, datagram, &answer);
        self.look()?;
        Ok(answer)
    }

    fn host(&mut self, command: &str) -> Result<(), String> {
        let said = self.board.ask(command)?;
        holds(said == "done" || said == "refused 4", "a host command is answered otherwise")?;
        if command == "terminate" && said == "done" {
            (self.holds, self.left) = (false, self.was_in);
        }
        self.look()
    }

    fn comes(&mut self, address: &str, datagram: &[u8]) -> Result<Option<Vec<u8>>, String> {
        holds(self.board.ask(&format!("address {}", address))? == "address 16", "no address is lent")?;
        call(self.board, datagram)
    }

    fn look(&mut self) -> Result<(), String> {
        if !self.holds || self.broken.is_some() {
            return Ok(());
        }
        self.looks += 1;
        let found = rack::look(self.board, self.evening.board_n)?;
        if found.banks[self.evening.bank] != self.evening.image {
            self.broken = Some("the target is not the image, and the mode was not left".to_string());
        } else if found.next != self.evening.bank {
            self.broken = Some("the image does not start next, and the mode was not left".to_string());
        }
        Ok(())
    }
}

/// Whether this request was sent, and answered 06.
fn is_done(code: u8, datagram: &[u8], answer: &Option<Vec<u8>>) -> bool {
    datagram == request(code, &[]) && *answer == Some(request(own(code), &[0x06]))
}

/// Boards on which another gateway can take back what is in while the mode is ours: their nights are refused, and those of a right one are not.
pub fn selftest() -> Result<String, String> {
    let peer = std::env::current_exe().map_err(|e| e.to_string())?.display().to_string();
    let on = |board: String| nights(1, 60, &format!("{} night", peer), &format!("{} {}", peer, board));
    on("board".to_string())?;
    let wrongs = [Wrong::Everyone, Wrong::ForgetsOpener];
    for wrong in wrongs {
        match on(format!("wrong-board {:?}", wrong)) {
            Err(why) if why.ends_with(", and the mode was not left") => (),
            otherwise => return Err(format!("nights among strangers on {:?}: {:?}", wrong, otherwise)),
        }
    }
    Ok(format!("{} by nights among strangers", wrongs.len()))
}
