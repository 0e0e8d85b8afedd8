//! Cases of two and three addresses on a board: 02 §5 at every request, fault and state, at every byte of an address, over all of the opener's time,
//! and through whole updates.
use crate::board_cases::Cases;
use crate::hex;
use crate::image;
use crate::script::{packet, request, write_start, REQUESTS, STATES};
use crate::script::{MODE_END, MODE_START, VERSION, WRITE_END};
use crate::stranger;

impl Cases {
    pub fn strangers(&mut self) {
        self.each_datagram();
        self.every_byte();
        self.odd_addresses();
        self.all_its_time();
        self.one_after_another();
        self.strangers_lengths();
        self.updates_among_strangers();
    }

    fn speaks(&mut self, address: &str) {
        self.script.add(format!("address {}", address));
    }

    /// A board that the first of three addresses brought on to a state.
    fn opened_in(&mut self, about: &str, state: &str, n: usize, running: usize) -> [String; 3] {
        let addresses = stranger::addresses(&mut self.draw);
        self.board(&format!("{}, {}, N = {}", about, state, n), n, running);
        self.speaks(&addresses[0]);
        self.script.on_to(state, running, n);
        addresses
    }

    /// All that can be asked, and a packet.
    fn asks_all(&mut self, n: usize, running: usize) {
        for code in REQUESTS {
            let sent = stranger::asks(code, n, 1 - running);
            self.script.send(&sent.datagram);
        }
        let data = self.draw.bytes(12);
        self.script.send(&packet(n, &data));
    }

    /// Requests, packets and faults of every kind, each in each state, once with a worn sector; then the opener goes on.
    fn each_datagram(&mut self) {
        for (n, running) in [(1, 0), (3, 1)] {
            let mut datagrams: Vec<Vec<u8>> =
                REQUESTS.iter().map(|code| stranger::asks(*code, n, 1 - running).datagram).collect();
            datagrams.extend([packet(1, &[0x5A; 8]), packet(n, &[0xFF; 512]), Vec::new(), vec![0x01, 0x01, 0x61]]);
            datagrams.extend([0x00, 0x60, 0xE0].map(|code| request(code, &[])));
            datagrams.extend(self.faults(n, running));
            for (state, datagram) in STATES.iter().flat_map(|state| datagrams.iter().map(move |sent| (state, sent))) {
                let [opener, strangers @ ..] = self.opened_in("a stranger's datagram", state, n, running);
                self.script.send(&packet(1, &[0x33; 16]));
                let k = self.draw.below(2);
                self.speaks(&strangers[k]);
                self.script.send(datagram);
                self.script.look();
                self.script.add("mark 1 01");
                self.script.send(datagram);
                self.script.look();
                self.script.add("mark 1 00");
                self.speaks(&opener);
                self.script.send(&packet(1, &[0x44; 16]));
                self.script.ask(WRITE_END);
                self.script.look();
                self.script.ask(MODE_END);
                self.script.add("record");
            }
        }
    }

    /// Addresses that differ from the opener's in one byte, at each place.
    fn every_byte(&mut self) {
        for state in ["control", "write"] {
            let [opener, ..] = self.opened_in("each byte of an address", state, 2, 0);
            let own = hex::bytes(&opener).expect("an address");
            for at in 0..own.len() {
                for flip in [0x01, 0x10, 0x80, 0xFF] {
                    let mut other = own.clone();
                    other[at] ^= flip;
                    self.speaks(&hex::text(&other));
                    self.asks_all(2, 0);
                    self.script.add("record");
                }
            }
            self.script.look();
            self.speaks(&opener);
            self.asks_all(2, 0);
            self.script.look();
        }
    }

    /// An address is one like another: none of them is nobody's or everybody's.
    fn odd_addresses(&mut self) {
        let ends = |first: &str, last: &str| format!("{}{}{}", first, "00".repeat(14), last);
        let odd = [ends("00", "00"), ends("00", "01"), ends("80", "00"), "FF".repeat(16), "0F".repeat(16)];
        for (opener, other) in odd.iter().flat_map(|opener| odd.iter().map(move |other| (opener, other))) {
            self.board("odd addresses", 2, 1);
            self.speaks(opener);
            self.script.on_to("control", 1, 2);
            self.speaks(other);
            self.asks_all(2, 1);
            self.script.look();
            self.speaks(opener);
            self.script.send(&write_start(0, 2));
            self.script.send(&packet(2, &[0x77; 4]));
            self.speaks(other);
            self.asks_all(2, 1);
            self.script.look();
            self.speaks(opener);
            self.script.ask(WRITE_END);
            self.script.ask(MODE_END);
            self.script.look();
        }
    }

    /// After each way in which a session, a mode or a client ends, three addresses ask in turn.
    fn all_its_time(&mut self) {
        let ends = ["good", "unsound", "worn", "mode end", "terminate", "terminate in write"];
        for k in 0..ends.len() * 6 {
            let (end, n, running) = (ends[k % 6], [1, 2, 3][k % 3], k / 6 % 2);
            let mut addresses = self.opened_in(&format!("the opener after {}", end), "write", n, running);
            let count = self.count();
            let image = image::drawn(&mut self.draw, n, count);
            if end != "unsound" {
                self.deliver(&image);
            }
            if end == "worn" {
                self.script.add(format!("mark {} 01", n));
            }
            if end != "terminate in write" {
                self.script.ask(WRITE_END);
                self.script.add("record");
            }
            self.script.add(format!("marks {}", n));
            if end == "mode end" {
                self.script.ask(MODE_END);
            }
            if end.starts_with("terminate") {
                self.script.add_all("terminate|record|initiate|initiate|record");
            }
            addresses.rotate_left(1 + k / 12);
            for address in addresses {
                self.speaks(&address);
                self.script.ask(WRITE_END);
                self.script.ask(VERSION);
                self.script.ask(MODE_END);
                self.script.ask(MODE_START);
                self.script.look();
                self.asks_all(n, running);
                self.script.look();
            }
        }
    }

    /// A mode after a mode, each with its opener: the one before is a stranger then, and so is who was one all the time.
    fn one_after_another(&mut self) {
        for k in 0..12 {
            let (n, running) = ([1, 2, 3][k % 3], k % 2);
            let addresses = self.opened_in("one opener after another", "idle", n, running);
            for turn in 0..5 {
                let [opener, others @ ..] = [turn, turn + 1, turn + 2].map(|i| addresses[i % 3].clone());
                self.speaks(&opener);
                self.script.ask(MODE_START);
                self.script.add("record");
                for other in others {
                    self.speaks(&other);
                    self.asks_all(n, running);
                    self.script.look();
                }
                self.speaks(&opener);
                self.script.send(&write_start(1 - running, n));
                self.script.ask(WRITE_END);
                match (k + turn) % 3 {
                    0 => self.script.add_all("terminate|initiate"),
                    _ => self.script.ask(MODE_END),
                }
                self.script.look();
            }
        }
    }

    /// Lent lengths come before the address: a stranger's are refused as anyone's, and so is an address that goes on behind the opener's.
    fn strangers_lengths(&mut self) {
        for state in ["idle", "control", "write"] {
            let (n, running) = (3, 1);
            let [opener, near, _] = self.opened_in("a stranger's lent lengths", state, n, running);
            let mut lendings = self.lendings(n, &near);
            for long in [opener[..30].to_string(), format!("{}00", opener), format!("{opener}{opener}")] {
                lendings.push([format!("address {}", long), format!("address {}", near)]);
            }
            self.speaks(&near);
            for [line, back] in lendings {
                self.lend(&line, n, running);
                self.script.add(back);
            }
            self.script.look();
            self.speaks(&opener);
            self.asks_all(n, running);
            self.script.look();
        }
    }

    /// The opener delivers an image, others send whatever there is between its calls, and try to end what it began.
    fn updates_among_strangers(&mut self) {
        for k in 0..60 {
            let (n, running) = ([1, 2, 3, 32][k % 4], k / 4 % 2);
            let addresses = self.opened_in("an update among strangers", "control", n, running);
            let count = self.count();
            let image = image::drawn(&mut self.draw, n, count);
            self.others_send(&addresses, n, running);
            self.script.send(&write_start(1 - running, n));
            for sector in image::in_any_order(&mut self.draw, &image.sent()) {
                self.others_send(&addresses, n, running);
                self.script.send(&packet(sector, image.sector(sector)));
            }
            for end in [WRITE_END, MODE_END] {
                self.speaks(&addresses[1 + k % 2]);
                self.script.ask(end);
                self.script.look();
                self.speaks(&addresses[0]);
                self.others_send(&addresses, n, running);
                self.script.ask(end);
                self.script.look();
                self.script.add("body 0");
            }
            self.others_send(&addresses, n, running);
            self.script.look();
        }
    }

    /// Up to three datagrams of the others; then the first is back.
    fn others_send(&mut self, addresses: &[String; 3], n: usize, running: usize) {
        for _ in 0..self.draw.below(4) {
            let other = 1 + self.draw.below(2);
            self.speaks(&addresses[other]);
            let sent = stranger::sends(&mut self.draw, n, 1 - running);
            self.script.send(&sent.datagram);
        }
        self.speaks(&addresses[0]);
    }
}
