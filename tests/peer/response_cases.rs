//! The request lines on responses. The same lines at each run.
use crate::draw::Draw;
use crate::frame::{control, framed, write, CONTINUED, CONTROL, END, WRITE};
use crate::hex;
use crate::response::{CODES, RESULTS};

pub fn all() -> Vec<String> {
    let mut cases = Cases { lines: Vec::new(), draw: Draw(0x5245_5350) };
    cases.examples();
    cases.every_result();
    cases.every_code();
    cases.lengths();
    cases.added_fields();
    cases.written_results();
    cases.written_fields();
    cases.written_lengths();
    cases.damaged();
    cases.drawn();
    cases.lines
}

/// Numbers of added bytes: those of each response, and beside them.
const ADDED: [usize; 7] = [0, 1, 2, 7, 8, 9, 16];

struct Cases {
    lines: Vec<String>,
    draw: Draw,
}

impl Cases {
    fn add(&mut self, datagram: &[u8]) {
        self.lines.push(format!("response {}", hex::text(datagram)));
    }

    fn add_control(&mut self, code: u8, parameters: &[u8]) {
        self.add(&control(code, parameters).expect("few parameters"));
    }

    fn add_written(&mut self, sector: u16, data: &[u8]) {
        self.add(&write(sector, data, END).expect("little data"));
    }

    /// As the papers have them, in digits of either case; and the requests, which are no responses.
    fn examples(&mut self) {
        for datagram in [
            "010271068703",
            "010271058803",
            "0102E0051903",
            "0102E0071703",
            "0102e0071703",
            "0101619E03",
            "01094014000A001403DFFFA403",
        ] {
            self.lines.push(format!("response {}", datagram));
        }
        for written in ["0505", "0605", "1D05", "1515", "061C", "1C1C", "0606", "061D", "1D1D", "061E", "1D06"] {
            let data = hex::bytes(&format!("{}00000000", written)).expect("hex");
            for sector in [0, 1, 491, 492, 0xFFFF] {
                self.add_written(sector, &data);
            }
        }
        self.add(&[]);
    }

    /// Every result of each response, and with as many added bytes as the banks' number and the version have.
    fn every_result(&mut self) {
        for result in 0..=255 {
            for code in CODES {
                self.add_control(code, &[result]);
            }
            for code in [0x72, 0x78, 0xE0] {
                self.add_control(code, &[result, 1]);
                self.add_control(code, &[result, 1, 1, 1, 1, 1, 1, 1, 1]);
            }
        }
    }

    /// Every code, with results that are known and one that is not.
    fn every_code(&mut self) {
        for code in 0..=255 {
            self.add_control(code, &[]);
            for result in [0x05, 0x06, 0x1E, 0x00] {
                self.add_control(code, &[result]);
            }
            self.add_control(code, &[0x06, 0x00]);
            self.add_control(code, &[0x06, 0x04, 0x00, 1, 2, 3, 4, 5, 6]);
        }
    }

    fn lengths(&mut self) {
        for code in CODES {
            for result in RESULTS.iter().chain(&[0x00, 0x08]) {
                for added in ADDED.iter().chain(&[3, 4, 5, 6, 64, 253]) {
                    let parameters = [vec![*result], vec![0; *added]].concat();
                    self.add_control(code, &parameters);
                }
            }
        }
    }

    /// Every bank number; versions of no plan, and of all the same byte.
    fn added_fields(&mut self) {
        for number in 0..=255 {
            self.add_control(0x72, &[0x06, number]);
            self.add_control(0x78, &[vec![0x06], vec![number; 8]].concat());
        }
        for _ in 0..60 {
            let fields = self.draw.bytes(8);
            self.add_control(0x78, &[&[0x06], &fields[..]].concat());
        }
    }

    /// Every pair of known results and some more; every result where it is repeated, and behind 06; each with a CRC of 0 and others.
    fn written_results(&mut self) {
        let mut pairs: Vec<(u8, u8)> = (0..=255).flat_map(|result| [(result, result), (0x06, result)]).collect();
        for response in RESULTS.iter().chain(&[0x00, 0x08, 0x16, 0xFF]) {
            pairs.extend(RESULTS.iter().chain(&[0x00, 0x08, 0x16, 0xFF]).map(|write| (*response, *write)));
        }
        for (response, write) in pairs {
            let crc = self.draw.bytes(4);
            for crc in [&[0; 4][..], &crc] {
                self.add_written(1, &[&[response, write], crc].concat());
            }
        }
        for (response, write) in [(0x06, 0x06), (0x06, 0x1C), (0x1D, 0x1D), (0x15, 0x15)] {
            for bit in 0..32 {
                self.add_written(1, &[&[response, write], &(1u32 << bit).to_be_bytes()[..]].concat());
            }
        }
    }

    /// Sectors, footers and first bytes on a response that is good but for them.
    fn written_fields(&mut self) {
        for data in [[0x06, 0x06, 0xCB, 0xF4, 0x39, 0x26], [0x15, 0x15, 0, 0, 0, 0]] {
            for sector in (0..=20).chain(485..=520).chain([255, 256, 0x1234, 0x8000, 0xFFFE, 0xFFFF]) {
                self.add_written(sector, &data);
            }
            self.add(&write(491, &data, CONTINUED).expect("little data"));
            let good = write(491, &data, END).expect("little data");
            for at in [0, good.len() - 1] {
                for byte in 0..=255 {
                    let mut other = good.clone();
                    other[at] = byte;
                    self.add(&other);
                }
            }
        }
    }

    /// Every M to 20 in a frame that fits it, and M that it does not fit.
    fn written_lengths(&mut self) {
        for count in (0..=20).chain([262, 512]) {
            for results in [[0x06, 0x06], [0x06, 0x1C], [0x15, 0x15]] {
                let data: Vec<u8> = results.into_iter().chain([0; 510]).take(count).collect();
                for footer in [END, CONTINUED] {
                    self.add(&write(2, &data, footer).expect("little data"));
                }
                for length in [5u16, 6, 7, 0x0106, 0x0600] {
                    let covered = [&[0x00, 0x02], &length.to_be_bytes()[..], &data].concat();
                    self.add(&framed(WRITE, &covered, END));
                }
            }
        }
    }

    /// Each byte of one response of each kind another, with the old sum and with one that is right; cut at each place; and longer.
    fn damaged(&mut self) {
        let version = [0x06, 0x04, 0x00, 0x01, 0x02, 0x00, 0x00, 0x00, 0x2A];
        let mut good = vec![
            control(0x72, &[0x06, 0x01]),
            control(0x78, &version),
            write(3, &[0x06, 0x06, 1, 2, 3, 4], END),
            write(3, &[0x1D, 0x1D, 1, 2, 3, 4], END),
            write(3, &[0x06, 0x1C, 0, 0, 0, 0], END),
            write(3, &[0x15, 0x15, 0, 0, 0, 0], END),
        ];
        good.extend(CODES.map(|code| control(code, &[0x15])));
        good.push(control(0xE0, &[0x05]));
        for frame in good.into_iter().flatten() {
            let (last, drawn) = (frame.len() - 1, self.draw.bytes(4));
            self.add(&frame);
            for at in 0..frame.len() {
                for by in [1, 16, 128, 255].iter().chain(&drawn[..2]) {
                    let mut other = frame.clone();
                    other[at] = other[at].wrapping_add(*by);
                    self.add(&other);
                    if (1..last - 1).contains(&at) {
                        self.add(&framed(frame[0], &other[1..last - 1], frame[last]));
                    }
                }
                self.add(&frame[..at]);
                self.add(&frame[at + 1..]);
                self.add(&framed(frame[0], &frame[1..1 + at.min(last - 2)], frame[last]));
            }
            for more in 1..=4 {
                self.add(&[&frame[..], &drawn[..more]].concat());
                self.add(&framed(frame[0], &[&frame[1..last - 1], &drawn[..more]].concat(), frame[last]));
            }
        }
    }

    /// Of no plan behind a first byte, and known codes and results with fields of no plan.
    fn drawn(&mut self) {
        for k in 0..300 {
            let covered = self.draw.bytes(k % 20);
            self.add(&framed([CONTROL, WRITE][k % 2], &covered, END));
            self.add(&covered);
            let (code, result) = (CODES[self.draw.below(7)], RESULTS[self.draw.below(7)]);
            let added = ADDED[self.draw.below(7)];
            let fields = self.draw.bytes(added);
            self.add_control(code, &[&[result], &fields[..]].concat());
            let (sector, write) = (self.draw.below(65_536) as u16, RESULTS[self.draw.below(7)]);
            let crc = self.draw.bytes(4);
            self.add_written(sector, &[&[result, write], &crc[..]].concat());
        }
    }
}
