//! Nights over real sockets on the loopback: a gateway beside the night sender, which takes a time without an answer for silence, and one beside the
//! board. Each loses by its own draw, and the board's one is slow now and then, so that answers come late. A stranger's gateway, with an address of its
//! own, sends between the requests while the mode is open.
//!
//! Between the gateways a datagram has four bytes before it, its number. The board's gateway hands on no request that is older than one that
//! came, so that none comes after a later one; the other one takes no answer to a request of an earlier night.
use crate::draw::Draw;
use crate::hex;
use crate::night_judge::{holds, Said};
use crate::night_run::{Count, Night};
use crate::program::Program;
use crate::rack::Evening;
use crate::radio::call;
use crate::stranger;
use std::io::{self, ErrorKind};
use std::net::{IpAddr, Ipv4Addr, SocketAddr, UdpSocket};
use std::sync::atomic::{AtomicBool, Ordering};
use std::thread;
use std::time::Duration;

/// As long as a gateway waits where something may be lost, and as the other one is slow.
const SILENCE: Duration = Duration::from_millis(4);
const SLOW: Duration = Duration::from_millis(6);
/// As long as it waits where nothing is lost.
const PATIENCE: Duration = Duration::from_secs(30);

/// The night sender's and the board's, and the stranger's.
const HOME: Ipv4Addr = Ipv4Addr::new(127, 0, 0, 1);
const NEXT_DOOR: Ipv4Addr = Ipv4Addr::new(127, 0, 0, 2);

const HEADER: usize = 4;
const LONGEST: usize = 1_024;

pub fn nights(seed: u64, count: usize, night: &str, board: &str) -> Result<String, String> {
    let sockets = match sockets() {
        Ok(sockets) => sockets,
        Err(why) => return Ok(format!("no nights over sockets, since the loopback has none: {}", why)),
    };
    let mut board = Program::start(board, &[])?;
    let (mut total, mut number) = (Count::default(), 0);
    for k in 0..count {
        let mut draw = Draw(seed.wrapping_mul(1_000_003).wrapping_add(k as u64));
        let loses = k % 4 != 0;
        let counted = one(&mut draw, loses, night, &mut board, &sockets, &mut number);
        total.add(&counted.map_err(|why| format!("seed {}, night {} over sockets: {}", seed, k, why))?);
    }
    total.told(count)
}

/// The night sender's, the stranger's and the board's, to which the others send.
fn sockets() -> io::Result<[UdpSocket; 3]> {
    let sockets = [UdpSocket::bind((HOME, 0))?, UdpSocket::bind((NEXT_DOOR, 0))?, UdpSocket::bind((HOME, 0))?];
    for k in 0..2 {
        sockets[k].connect(sockets[2].local_addr()?)?;
    }
    Ok(sockets)
}

/// As the board is lent it, in 16 bytes.
fn address(ip: IpAddr) -> String {
    match ip {
        IpAddr::V4(ip) => hex::text(&ip.to_ipv6_mapped().octets()),
        IpAddr::V6(ip) => hex::text(&ip.octets()),
    }
}

fn one(
    draw: &mut Draw,
    loses: bool,
    night: &str,
    board: &mut Program,
    [near, next_door, far]: &[UdpSocket; 3],
    number: &mut u32,
) -> Result<Count, String> {
    let evening = if loses && draw.below(2) == 0 { Evening::any(draw) } else { Evening::fitting(draw) };
    let evening = Evening { former: address(HOME.into()), ..evening };
    let found = evening.set_up(board, draw)?;
    empty(far).map_err(|e| e.to_string())?;
    let mut night = Night::begin(night, &evening)?;
    let over = AtomicBool::new(false);
    let mut beside =
        Far { socket: far, latest: *number + 1, draw: Draw(draw.0 ^ 0x4641_52), loses, count: Count::default() };
    let (ended, served) = thread::scope(|scope| {
        let served = scope.spawn(|| beside.serve(board, &over));
        let (first, latest, sent) = (*number + 1, *number, Vec::new());
        let mut gateway = Near { socket: near, next_door, evening: &evening, first, latest, draw, loses, sent };
        let ended = gateway.speak(&mut night);
        *number = gateway.latest;
        over.store(true, Ordering::SeqCst);
        (ended, served.join().expect("a gateway that comes to its end"))
    });
    served?;
    let ended = ended?;
    if !loses {
        holds(ended == Said::Finished, "it does not finish though nothing was lost")?;
    }
    night.count.add(&beside.count);
    night.over(&evening, &ended, board, &found, false)
}

/// Beside the night sender.
struct Near<'a> {
    socket: &'a UdpSocket,
    next_door: &'a UdpSocket,
    evening: &'a Evening,
    /// The number of this night's first request.
    first: u32,
    latest: u32,
    draw: &'a mut Draw,
    loses: bool,
    /// What was sent this night.
    sent: Vec<Vec<u8>>,
}

impl Near<'_> {
    fn speak(&mut self, night: &mut Night) -> Result<Said, String> {
        let wait = if self.loses { SILENCE } else { PATIENCE };
        self.socket.set_read_timeout(Some(wait)).map_err(|e| e.to_string())?;
        loop {
            let said = night.says()?;
            if said != Said::Sends {
                return Ok(said);
            }
            self.stranger_sends(night).map_err(|e| e.to_string())?;
            self.send(night).map_err(|e| e.to_string())?;
            let heard = self.listen(night).map_err(|e| e.to_string())?;
            night.hears(heard)?;
        }
    }

    /// Not before the mode is open, nor behind its end: else it would be the stranger's.
    fn stranger_sends(&mut self, night: &mut Night) -> io::Result<()> {
        let open = night.name() != "mode start" && night.name() != "mode end";
        for _ in 0..if open { self.draw.below(3) } else { 0 } {
            let sent = stranger::sends(self.draw, self.evening.board_n, 1 - self.evening.running);
            self.next_door.send(&sent.datagram)?;
            night.count.strangers += 1;
        }
        Ok(())
    }

    fn send(&mut self, night: &mut Night) -> io::Result<()> {
        self.latest += 1;
        self.sent.push([&self.latest.to_be_bytes(), &night.request()[..]].concat());
        let copies = match self.draw.below(6) {
            0 if self.loses => 0,
            1 if self.loses => 2,
            _ => 1,
        };
        night.count.lost += (copies == 0) as usize;
        night.count.doubled += (copies == 2) as usize;
        for _ in 0..copies {
            self.socket.send(&self.sent[self.sent.len() - 1])?;
        }
        // One from earlier, which the radio had kept.
        if self.loses && self.draw.below(6) == 0 {
            self.socket.send(&self.sent[self.draw.below(self.sent.len())])?;
        }
        Ok(())
    }

    fn listen(&mut self, night: &mut Night) -> io::Result<Option<Vec<u8>>> {
        loop {
            let Some((_, datagram)) = received(self.socket)? else {
                return Ok(None);
            };
            if let Some((number, answer)) = numbered(&datagram).filter(|(number, _)| *number >= self.first) {
                night.count.late += (number < self.latest) as usize;
                return Ok(Some(answer.to_vec()));
            }
        }
    }
}

/// Beside the board.
struct Far<'a> {
    socket: &'a UdpSocket,
    /// The largest number that came, or this night's first.
    latest: u32,
    draw: Draw,
    loses: bool,
    count: Count,
}

impl Far<'_> {
    fn serve(&mut self, board: &mut Program, over: &AtomicBool) -> Result<(), String> {
        self.socket.set_read_timeout(Some(SILENCE)).map_err(|e| e.to_string())?;
        while !over.load(Ordering::SeqCst) {
            let Some((from, datagram)) = received(self.socket).map_err(|e| e.to_string())? else {
                continue;
            };
            board.ask(&format!("address {}", address(from.ip())))?;
            if from.ip() == NEXT_DOOR {
                if let Some(answer) = call(board, &datagram)? {
                    self.socket.send_to(&answer, from).map_err(|e| e.to_string())?;
                }
                continue;
            }
            let Some((number, request)) = numbered(&datagram) else {
                continue;
            };
            if number < self.latest {
                self.count.too_old += 1;
                continue;
            }
            self.latest = number;
            if let Some(answer) = call(board, request)? {
                self.answer(from, number, &answer).map_err(|e| e.to_string())?;
            }
        }
        Ok(())
    }

    fn answer(&mut self, to: SocketAddr, number: u32, answer: &[u8]) -> io::Result<()> {
        match self.draw.below(8) {
            0 if self.loses => {
                self.count.answers_lost += 1;
                return Ok(());
            }
            1 if self.loses => thread::sleep(SLOW),
            _ => (),
        }
        self.socket.send_to(&[&number.to_be_bytes(), answer].concat(), to).map(|_| ())
    }
}

/// A datagram, and who sent it; None where none comes in time.
fn received(socket: &UdpSocket) -> io::Result<Option<(SocketAddr, Vec<u8>)>> {
    let mut buffer = [0; LONGEST];
    match socket.recv_from(&mut buffer) {
        Ok((length, from)) => Ok(Some((from, buffer[..length].to_vec()))),
        Err(why) if matches!(why.kind(), ErrorKind::WouldBlock | ErrorKind::TimedOut | ErrorKind::Interrupted) => {
            Ok(None)
        }
        Err(why) => Err(why),
    }
}

/// The number of a gateway's datagram, and what stands behind it.
fn numbered(datagram: &[u8]) -> Option<(u32, &[u8])> {
    let number = datagram.get(..HEADER)?.try_into().ok()?;
    Some((u32::from_be_bytes(number), &datagram[HEADER..]))
}

/// What is left of an earlier night is nobody's any more.
fn empty(socket: &UdpSocket) -> io::Result<()> {
    socket.set_nonblocking(true)?;
    while received(socket)?.is_some() {}
    socket.set_nonblocking(false)
}
