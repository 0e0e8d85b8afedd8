//! Lines that are none, each of which ends a script with a word on what the command takes: the reader of docs/BOARD.md's lines is held to them.

/// `|` parts one from the next.
pub fn all() -> Vec<String> {
    let unknown = "x|Record|records|crc\t0| record|client32|CRC 0|\u{e9}|-|\r\r|record\r\r|record \r|//";
    let quoted = "refused H2 line 5 byte 74|unsound|too long|x y z|x  y|! ~|~\u{7f}|\u{7f}|x\ty|\tx|x\u{1f}y|x y\u{80}|x \u{e9}|x y\r| |x | x|  x";
    let client = "client|client 1|client 1 0 0 0|client 1 2 0 0 0|client 1 0 256 0 0|client 1 0 0 256 0|client 1 0 0 0 4294967296|\
        client 1000000 0 0 0 0|client 1 0 0 0 00000000000|client 1 0 0 0 0 0|client 1 0 0 0 0 |client  1 0 0 0 0|client -1 0 0 0 0";
    let bank = "bank|bank 0|bank 2 0|bank 0 252417|bank 0 0000000|bank 0 x|bank 00 0|bank 0 1 1|fill 0|fill 0 0|fill 0 000|fill 2 00|fill 0 0G|fill 0 -";
    let put = "put 0 0|put 2 0 00|put 0 252416 00|put 0 252415 0000|put 0 252417 -|put 0 0 0|put 0 0 0x|put 0 0 00 00|put 0  00|put 0 x 00|put 0 0 --";
    let marks = "marks|marks 513|marks x|marks 1 1|mark 0 00|mark 513 00|mark 1|mark 1 0|mark 1 000|mark 1 00 00|address|address 0|address \
        |address 000102030405060708090A0B0C0D0E0F101112131415161718191A1B1C1D1E1F20|buffer 1025 00|buffer 1|buffer 1 0|buffer x 00";
    let calls = "send|send |send 0|send 00 00|send 0g|send  00|body|body x|body 1000000|body 0 0|body -1|crc|crc 2|crc 0 0|show|show 0 0\
        |show 0 252416 1|show 0 252417 0|show 0 0 252417|show 2 0 1|show 0 0 1 1";
    let nothing = "initiate 1|initiate |terminate x|record 0|record -|rest 0|rest ";
    let groups = [unknown, quoted, client, bank, put, marks, calls, nothing];
    let mut endings: Vec<String> = groups.iter().flat_map(|group| group.split('|')).map(str::to_string).collect();
    for length in [79, 80, 81, 4_096] {
        endings.push("x".repeat(length));
        endings.push(format!("{} y", "x".repeat(length - 2)));
        endings.push(format!("{}\t", "x".repeat(length - 1)));
        endings.push(format!("{}\u{7f}", "x".repeat(length - 1)));
    }
    endings.push(format!("send {}", "00".repeat(2_046)));
    endings.push(format!("send {} ", "00".repeat(2_045)));
    endings.push(format!("#{}", "#".repeat(4_096)));
    endings
}
