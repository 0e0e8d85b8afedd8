//! The peer: what the proved programs are held to from outside. It is written from the paper and from section 3 of the J11
//! specification alone, shares no code and no table with the crates, and uses nothing but Rust's standard library.
//!
//!     peer selftest          its own CRC-32, frames, bank check, hex text and client against published values and the paper's examples
//!     peer cases             the request lines that `vectors` is tried with
//!     peer vectors           the answer to each request line on standard input (docs/REQUESTS.md has the form of both)
//!     peer sending-cases [FILE.hex ..]
//!                            the request lines that `sending` is tried with, on those files too
//!     peer sending           the answer to each of them (docs/REQUESTS.md)
//!     peer packets           what the paper's program writes for the text on standard input
//!     peer update BANK N     what `update` writes for the text on standard input
//!     peer hexout BANK       what `hexout` writes for the image on standard input
//!     peer clean FILE OUT    what `clean` does with the bank in FILE: the list on standard output, the cleaned bank in OUT, and its status
//!     peer night BANK N T FILE.hex
//!                            what `night` does: requests on standard output, events on standard input, and its status
//!     peer texts DIRECTORY   the texts that `packets` is tried with, each in a file of its own
//!     peer images DIRECTORY  the images that `hexout` is tried with, each in a file of its own
//!     peer clean-banks DIRECTORY
//!                            the banks that `clean` is tried with, each in a file of its own
//!     peer checks FILE ..    the request lines that have the banks in these files checked by `vectors`
//!     peer board-cases       the script that `board` is tried with
//!     peer board-endings     lines that are none, each of which ends a script
//!     peer board             what the script on standard input writes, on a board with the peer's own client (docs/BOARD.md)
//!     peer wrong-board NAME  the same on a board that goes wrong, by its name in wrong.rs
//!     peer demands DIR       two scripts, DIR/first.script and DIR/second.script, for the user's demands
//!     peer judge DIR         whether DIR/first.output and DIR/second.output, as a board wrote them, meet the demands
//!     peer wrong-boards      that the script tells each wrong board from a right one, and that the judge refuses it
//!     peer night-cases DIR   the cases that `night` is tried with: DIR/NNN.words, NNN.hex and NNN.events
//!     peer wrong-nights      that the cases tell each wrong night sender from a right one, and that its judge refuses it
//!     peer nights SEED COUNT NIGHT BOARD
//!                            so many nights over a radio by the seed, between the commands NIGHT, which is given its four words, and BOARD
//!     peer nights-udp SEED COUNT NIGHT BOARD
//!                            the same over sockets of the loopback, where there is one
//!     peer nights-among SEED COUNT NIGHT BOARD
//!                            so many nights beside another gateway
//!     peer late NIGHT BOARD  the night on which a write start comes too late
//!     peer taken-over NIGHT BOARD
//!                            nights on which another gateway wants to write when ours has done so
mod bank;
mod bank_cases;
mod board;
mod board_cases;
mod board_endings;
mod board_strangers;
mod cases;
mod clean;
mod clean_banks;
mod clean_cases;
mod client;
mod crc;
mod demands;
mod draw;
mod frame;
mod hex;
mod hexout;
mod hexout_images;
mod image;
mod intel;
mod judge;
mod late;
mod lines;
mod night;
mod night_answers;
mod night_cases;
mod night_judge;
mod night_run;
mod night_steps;
mod night_talk;
mod packets;
mod packets_texts;
mod program;
mod rack;
mod radio;
mod radio_udp;
mod response;
mod response_cases;
mod script;
mod selftest;
mod selftest_clean;
mod selftest_hexout;
mod selftest_night;
mod selftest_sending;
mod sender;
mod sending;
mod sending_cases;
mod stranger;
mod taken_over;
mod text_cases;
mod texts;
mod two_gateways;
mod update;
mod wrong;
mod wrong_nights;

use std::io::{self, BufWriter, Read, Write};
use std::path::Path;
use std::process::exit;

fn main() {
    let words: Vec<String> = std::env::args().skip(1).collect();
    let done = match words.iter().map(String::as_str).collect::<Vec<_>>()[..] {
        ["selftest"] => selftest::run(),
        ["cases"] => write_out(&[cases::all(), bank_cases::all(), clean_cases::all()].concat()),
        ["vectors"] => read_in().and_then(|text| write_out(&lines::answers(&text))),
        ["board"] => talk(None),
        ["wrong-board", name] => wrong::named(name).and_then(|wrong| talk(Some(wrong))),
        ["board-cases"] => write_out(&board_cases::all()),
        ["board-endings"] => write_out(&board_endings::all()),
        ["demands", directory] => demands::write(directory),
        ["judge", directory] => told(demands::judge(directory)),
        ["wrong-boards"] => told(wrong_boards()),
        ["night", bank, n, tries, file] => exit(night_talk::called(&[bank, n, tries], file)),
        ["night-cases", directory] => night_cases::write(directory),
        ["nights", seed, count, night, board] => {
            counted(seed, count).and_then(|(seed, count)| told(radio::nights(seed, count, night, board)))
        }
        ["nights-udp", seed, count, night, board] => {
            counted(seed, count).and_then(|(seed, count)| told(radio_udp::nights(seed, count, night, board)))
        }
        ["nights-among", seed, count, night, board] => {
            counted(seed, count).and_then(|(seed, count)| told(two_gateways::nights(seed, count, night, board)))
        }
        ["late", night, board] => told(late::run(night, board)),
        ["taken-over", night, board] => told(taken_over::run(night, board)),
        ["wrong-nights"] => told(wrong_nights::told()),
        ["sending-cases", ref files @ ..] => {
            let texts: Result<Vec<Vec<u8>>, String> = files.iter().map(|file| read_file(file)).collect();
            texts.and_then(|texts| write_out(&sending_cases::all(&texts)))
        }
        ["sending"] => read_in().and_then(|text| write_out(&sending::answers(&text))),
        ["packets"] => read_in().and_then(|text| write_out(&packets::lines(&text))),
        ["update", target @ ("0" | "1"), n] => read_in().and_then(|text| {
            let n = lines::decimal(n, bank::MOST_SECTORS).filter(|n| *n > 0).ok_or("N is 1 to 491")?;
            write_out(&update::lines(&text, (target == "1") as usize, n))
        }),
        ["hexout", number @ ("0" | "1")] => {
            read_in().and_then(|image| write_bytes(&hexout::written(&image, (number == "1") as usize)))
        }
        ["clean", file, out] => match clean_file(file, out) {
            Ok(status) => exit(status),
            Err(why) => Err(why),
        },
        ["clean-banks", directory] => write_files(directory, "bank", &clean_banks::all()),
        ["checks", ref files @ ..] => {
            let lines: Result<Vec<String>, String> =
                files.iter().map(|file| Ok(clean::check_line(&read_file(file)?))).collect();
            lines.and_then(|lines| write_out(&lines))
        }
        ["texts", directory] => write_files(directory, "hex", &packets_texts::all()),
        ["images", directory] => write_files(directory, "bank", &hexout_images::all()),
        _ => {
            eprintln!("usage: peer COMMAND [ARGUMENT ..]; the head of main.rs has the commands");
            exit(2)
        }
    };
    if let Err(why) = done {
        eprintln!("peer: {}", why);
        exit(1);
    }
}

fn told(said: Result<String, String>) -> Result<(), String> {
    said.map(|said| println!("{}", said))
}

fn counted(seed: &str, count: &str) -> Result<(u64, usize), String> {
    let number = |word: &str| lines::decimal(word, 999_999).ok_or("SEED and COUNT are numbers");
    Ok((number(seed)? as u64, number(count)?))
}

fn read_in() -> Result<Vec<u8>, String> {
    let mut text = Vec::new();
    io::stdin().read_to_end(&mut text).map_err(|e| e.to_string())?;
    Ok(text)
}

fn read_file(name: &str) -> Result<Vec<u8>, String> {
    std::fs::read(name).map_err(|e| format!("{}: {}", name, e))
}

fn write_out(lines: &[String]) -> Result<(), String> {
    let mut text = lines.join("\n");
    if !lines.is_empty() {
        text.push('\n');
    }
    write_bytes(text.as_bytes())
}

fn write_bytes(bytes: &[u8]) -> Result<(), String> {
    io::stdout().write_all(bytes).map_err(|e| e.to_string())
}

fn write_files(directory: &str, kind: &str, contents: &[Vec<u8>]) -> Result<(), String> {
    for (k, bytes) in contents.iter().enumerate() {
        let file = Path::new(directory).join(format!("{:03}.{}", k, kind));
        std::fs::write(&file, bytes).map_err(|e| format!("{}: {}", file.display(), e))?;
    }
    Ok(())
}

/// The status of the program: 0, or 1 where the bank is refused, which leaves OUT alone.
fn clean_file(file: &str, out: &str) -> Result<i32, String> {
    let outcome = clean::cleaned(&read_file(file)?);
    write_out(&clean::listing(&outcome))?;
    if let Ok(cleaned) = &outcome {
        std::fs::write(out, &cleaned.bank).map_err(|e| format!("{}: {}", out, e))?;
    }
    Ok(outcome.is_err() as i32)
}

fn talk(wrong: Option<wrong::Wrong>) -> Result<(), String> {
    board::talk(io::stdin(), BufWriter::new(io::stdout()), wrong).map_err(|e| e.to_string())
}

/// That the checks of a board can fail.
fn wrong_boards() -> Result<String, String> {
    Ok(format!("{}; {}, {}", board_cases::selftest()?, demands::selftest()?, two_gateways::selftest()?))
}
