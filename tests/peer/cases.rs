//! The request lines on sums and frames. The same lines at each run: the numbers that are drawn come from a fixed seed.
use crate::draw::Draw;
use crate::frame::{control, framed, write, CONTINUED, CONTROL, END, WRITE};
use crate::hex;

pub fn all() -> Vec<String> {
    let mut cases = Cases { lines: Vec::new(), draw: Draw(0x4A31_314F_5441) };
    cases.crcs();
    cases.long_crcs();
    cases.registers();
    cases.sums();
    cases.good_frames();
    cases.whole_ranges();
    cases.no_frames();
    cases.stated_lengths();
    cases.drawn_frames();
    cases.made_controls();
    cases.made_writes();
    cases.made_errors();
    cases.no_requests();
    cases.lines
}

/// Lengths of a write frame's data: none, a few, and both sides of a sector's 512 and of a carry in the length field.
fn data_lengths() -> Vec<usize> {
    (0..=16).chain(253..=259).chain(508..=520).collect()
}

const SECTORS: [u16; 9] = [0, 1, 2, 255, 256, 491, 492, 0x1234, 0xFFFF];

/// By the word that they begin with; `|` parts one line from the next.
const NO_REQUESTS: [&str; 10] = [
    "| |-|?|\t|crcs 00|cr 00|CRC 00|CRCRUN 00 1",
    "crc|crc |crc  |crc 0|crc 000|crc 0G|crc 0a|crc --|crc -0|crc 00 | crc 00|crc 00 00|crc  00|crc\t00|crc 00\r",
    "more|more 00000000|more 0000000 00|more 000000000 00|more 00000000 0|more - 00|more FFFFFFFG -",
    "crcrun 00|crcrun - 1|crcrun 0 1|crcrun 000 1|crcrun 00 -|crcrun 00 1x|crcrun 00 000001|crcrun 00 0000001",
    "crcrun 00 300001|crcrun 00 999999|crcrun 00 1000000|crcramp|crcramp |crcramp -|crcramp 300001|crcramp 0x10",
    "sum|sum 1|sum 00 11|read|read 0|read 01 01",
    "control 61 -|control 61 - |control 6 - 9|control 061 - 9|control 61 - 601|control 61 - 1000|control 61  9",
    "control 61 - 9 9|control - - 9|write 0001 - 03|write 001 - 03 9|write 00001 - 03 9|write 0001 - 04 9",
    "write 0001 - 3 9|write 0001 - 003 9|write 0001 - 17 601|write 0001 0 17 60|write 0001 - - 9",
    "error|error |error -|error -1|error 601|error 6 6|error 00006|error 000006|error 0000006",
];

struct Cases {
    lines: Vec<String>,
    draw: Draw,
}

impl Cases {
    fn add(&mut self, line: String) {
        self.lines.push(line);
    }

    fn add_read(&mut self, datagram: &[u8]) {
        self.add(format!("read {}", hex::text(datagram)));
    }

    fn sector(&mut self) -> u16 {
        self.draw.below(65_536) as u16
    }

    /// Every length to 600 twice, every single byte, and every single bit of a short message and of one that no way for short
    /// messages takes: a CRC is a sum over bits, so that a wrong entry of any table shows.
    fn crcs(&mut self) {
        for _ in 0..2 {
            for length in 0..=600 {
                let bytes = self.draw.bytes(length);
                self.add(format!("crc {}", hex::text(&bytes)));
            }
        }
        for byte in 0..=255 {
            self.add(format!("crc {}", hex::text(&[byte])));
        }
        for length in [16, 192] {
            for bit in 0..8 * length {
                let mut bytes = vec![0; length];
                bytes[bit / 8] = 1 << (bit % 8);
                self.add(format!("crc {}", hex::text(&bytes)));
            }
        }
    }

    /// Where a longer message might be taken another way, and each way's own end: both sides of powers of two, each rest
    /// by 32, every byte value, and more than one piece.
    fn long_crcs(&mut self) {
        let near = [1000, 1024, 2048, 4096, 8192, 16_384, 32_768, 65_536];
        let mut lengths: Vec<usize> = near.iter().flat_map(|n| n - 2..=n + 2).collect();
        lengths.extend(2049..2049 + 32);
        lengths.extend(65_536 - 33..65_536);
        lengths.extend([0, 1, 250, 251, 252, 70_000, 131_071, 131_072, 131_073, 196_608, 251_392, 300_000]);
        lengths.extend((0..24).map(|_| 1000 + self.draw.below(69_000)).collect::<Vec<_>>());
        for length in &lengths {
            let byte = self.draw.byte();
            self.add(format!("crcramp {}", length));
            self.add(format!("crcrun {:02X} {}", byte, length));
        }
        for byte in 0..=255 {
            self.add(format!("crcrun {:02X} 4099", byte));
        }
    }

    fn registers(&mut self) {
        for register in [0u32, 1, 0x8000_0000, 0xFFFF_FFFF, 0xEDB8_8320, 0x04C1_1DB7] {
            for length in 0..=40 {
                let bytes = self.draw.bytes(length);
                self.add(format!("more {:08X} {}", register, hex::text(&bytes)));
            }
        }
        for length in 0..=600 {
            let register = self.draw.below(1 << 16) << 16 | self.draw.below(1 << 16);
            let bytes = self.draw.bytes(length);
            self.add(format!("more {:08X} {}", register, hex::text(&bytes)));
        }
    }

    fn sums(&mut self) {
        for length in 0..=300 {
            let bytes = self.draw.bytes(length);
            self.add(format!("sum {}", hex::text(&bytes)));
        }
        for byte in 0..=255 {
            self.add(format!("sum {}", hex::text(&[byte])));
            self.add(format!("sum {}", hex::text(&[byte, byte, 0xFF])));
        }
    }

    /// Good frames: every code, every number of parameters, every length of data; each is then damaged.
    fn good_frames(&mut self) {
        let mut good = Vec::new();
        for code in 0..=255 {
            good.push(control(code, &[]));
        }
        for count in 0..=254 {
            let (code, parameters) = (self.draw.byte(), self.draw.bytes(count));
            good.push(control(code, &parameters));
        }
        for count in data_lengths() {
            for footer in [END, CONTINUED] {
                let data = self.draw.bytes(count);
                let sector = self.sector();
                good.push(write(sector, &data, footer));
            }
        }
        for sector in SECTORS {
            let data = self.draw.bytes(4);
            good.push(write(sector, &data, END));
        }
        for (k, frame) in good.into_iter().flatten().enumerate() {
            self.add_read(&frame);
            self.damaged(&frame);
            if frame.len() <= 20 && k % 8 == 0 || frame.len() == 519 {
                self.each_byte_changed(&frame);
            }
            if frame.len() <= 20 && k % 8 == 0 {
                self.each_length(&frame);
            }
        }
    }

    /// What can happen to any frame.
    fn damaged(&mut self, frame: &[u8]) {
        let (last, drawn) = (frame.len() - 1, self.draw.byte());
        self.add_read(&frame[..last]);
        self.add_read(&frame[1..]);
        self.add_read(&[frame, &[drawn]].concat());
        self.add_read(&[frame, &[frame[last]]].concat());
        for footer in [END, CONTINUED, 0x00, 0x13, drawn] {
            self.changed(frame, last, footer);
        }
        for first in [CONTROL, WRITE, 0x00, 0x03, drawn] {
            self.changed(frame, 0, first);
        }
        let sum = frame[last - 1];
        for other in [sum.wrapping_add(1), sum.wrapping_sub(1), !sum, sum.wrapping_sub(frame[0]), drawn] {
            self.changed(frame, last - 1, other);
        }
        let (at, by) = (1 + self.draw.below(last - 2), 1 + self.draw.below(255) as u8);
        self.changed(frame, at, frame[at].wrapping_add(by));
        self.moved(frame, at, by);
    }

    fn changed(&mut self, frame: &[u8], at: usize, byte: u8) {
        let mut other = frame.to_vec();
        other[at] = byte;
        self.add_read(&other);
    }

    /// A covered byte raised and the next lowered by as much: the checksum is right again, and what it says another.
    fn moved(&mut self, frame: &[u8], at: usize, by: u8) {
        if at + 3 < frame.len() {
            let mut other = frame.to_vec();
            other[at] = other[at].wrapping_add(by);
            other[at + 1] = other[at + 1].wrapping_sub(by);
            self.add_read(&other);
        }
    }

    fn each_byte_changed(&mut self, frame: &[u8]) {
        for at in 0..frame.len() {
            let by = 1 + self.draw.below(255) as u8;
            self.changed(frame, at, frame[at].wrapping_add(by));
        }
    }

    /// The frame cut at each place, and with up to four bytes more.
    fn each_length(&mut self, frame: &[u8]) {
        for end in 0..frame.len() {
            self.add_read(&frame[..end]);
        }
        for more in 1..=4 {
            let drawn = self.draw.bytes(more);
            self.add_read(&[frame, &drawn].concat());
        }
    }

    /// Every first byte, checksum and footer on a frame of each kind.
    fn whole_ranges(&mut self) {
        let kinds = [control(0x61, &[]), control(0x40, &[0x14; 8]), write(1, &[0xFF, 0x80, 0x40, 0x22], END)];
        for frame in kinds.into_iter().flatten() {
            for byte in 0..=255 {
                self.changed(&frame, 0, byte);
                self.changed(&frame, frame.len() - 2, byte);
                self.changed(&frame, frame.len() - 1, byte);
            }
        }
    }

    /// Too short to be a frame, and L of 0 with all else as it should be.
    fn no_frames(&mut self) {
        self.add_read(&[]);
        for byte in 0..=255 {
            self.add_read(&[byte]);
            self.add_read(&[CONTROL, byte]);
            self.add_read(&[WRITE, byte]);
            self.add_read(&[CONTROL, byte, byte.wrapping_neg()]);
            self.add_read(&framed(CONTROL, &[byte], END));
            self.add_read(&framed(WRITE, &[byte], END));
            self.add_read(&framed(byte, &[], END));
        }
        for count in 0..=8 {
            let mut covered = vec![0];
            covered.extend(self.draw.bytes(count));
            self.add_read(&framed(CONTROL, &covered, END));
            self.add_read(&framed(CONTROL, &covered, CONTINUED));
        }
        for count in 0..=5 {
            for footer in [END, CONTINUED] {
                let covered = self.draw.bytes(count);
                self.add_read(&framed(WRITE, &vec![0; count], footer));
                self.add_read(&framed(WRITE, &covered, footer));
            }
        }
    }

    /// Lengths that are not the real one under a checksum that is right: off by a few, by 256, low byte first.
    fn stated_lengths(&mut self) {
        for count in [0, 1, 2, 8, 16, 127, 128, 253, 254, 255, 256, 300] {
            for off in [-4, -3, -2, -1, 0, 1, 2, 3, 4i32] {
                let mut covered = vec![(count as i32 + 1 + off) as u8];
                covered.extend(self.draw.bytes(count + 1));
                self.add_read(&framed(CONTROL, &covered, END));
            }
        }
        for count in data_lengths() {
            for off in [-256, -4, -2, -1, 0, 1, 2, 4, 256i32] {
                let length = (count as i32 + off) as u16;
                self.stated(length.to_be_bytes(), count);
            }
            self.stated((count as u16).to_le_bytes(), count);
        }
    }

    fn stated(&mut self, length: [u8; 2], count: usize) {
        let mut covered = self.draw.bytes(2);
        covered.extend(length);
        covered.extend(self.draw.bytes(count));
        let footer = if self.draw.below(2) == 0 { END } else { CONTINUED };
        self.add_read(&framed(WRITE, &covered, footer));
    }

    /// Bytes of no plan behind each first byte, with and without a checksum and a footer that fit.
    fn drawn_frames(&mut self) {
        for count in 0..=200 {
            for first in [CONTROL, WRITE] {
                let covered = self.draw.bytes(count);
                self.add_read(&[&[first], &covered[..]].concat());
                self.add_read(&framed(first, &covered, END));
            }
        }
    }

    fn made_controls(&mut self) {
        for count in (0..=256).chain([300, 520]) {
            let (code, parameters) = (self.draw.byte(), self.draw.bytes(count));
            for room in rooms(count + 5) {
                self.add(format!("control {:02X} {} {}", code, hex::text(&parameters), room));
            }
        }
        for code in 0..=255 {
            self.add(format!("control {:02X} - 14", code));
        }
    }

    fn made_writes(&mut self) {
        for count in data_lengths() {
            for footer in [END, CONTINUED] {
                let (sector, data) = (self.sector(), self.draw.bytes(count));
                for room in rooms(count + 7) {
                    self.add(format!("write {:04X} {} {:02X} {}", sector, hex::text(&data), footer, room));
                }
            }
        }
        for sector in SECTORS {
            self.add(format!("write {:04X} FF804022 03 519", sector));
        }
    }

    fn made_errors(&mut self) {
        for room in (0..=20).chain([14, 519, 600]) {
            self.add(format!("error {}", room));
        }
    }

    /// Lines that are no request: the two readers of this form are held to each other too.
    fn no_requests(&mut self) {
        for group in NO_REQUESTS {
            for line in group.split('|') {
                self.add(line.to_string());
            }
        }
        for digits in [4090, 4091, 4092, 4094, 5000, 9000] {
            self.add(format!("crc {}", "0".repeat(digits)));
        }
    }
}

/// One byte short, exact, one more, none, and the most, as far as there is such a buffer.
fn rooms(exact: usize) -> Vec<usize> {
    [exact - 1, exact, exact + 1, 0, 600].iter().copied().filter(|room| *room <= 600).collect()
}
