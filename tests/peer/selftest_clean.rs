//! The peer's cleaner, held to banks worked out by hand; and that the banks tell cleaners that go wrong in one way from a right one.
use crate::bank::SECTOR;
use crate::clean::{check_line, cleaned, lent, listing, lists, Cleaned, Lent};
use crate::clean_cases::Trial;
use crate::lines::answers;
use crate::selftest::{bytes, Checks};
use crate::{bank, clean_banks, clean_cases};

pub fn all() -> Vec<Checks> {
    vec![by_hand(), refusals(), lines(), kept(), wrong(), lent_by_hand(), wrong_lists()]
}

/// A bank of two sectors and a body of nine bytes, `123456789`, at 0x1FB: it lies over the end of the first sector. Its CRC-32 is the catalogues' check value, and
/// that of the table what zlib has (python3 -c 'import zlib; print(hex(zlib.crc32(bytes.fromhex("0400 0101 000001FB 00000009 CBF43926"))))').
fn worked() -> Vec<u8> {
    let mut bank = vec![0xFF; 2 * SECTOR];
    bank[..20].copy_from_slice(&bytes("04000101000001FB00000009CBF43926416AD165"));
    bank[0x1FB..0x204].copy_from_slice(b"123456789");
    bank
}

fn with_old(old: &[usize]) -> Vec<u8> {
    let mut bank = worked();
    old.iter().for_each(|at| bank[*at] = 0x00);
    bank
}

fn by_hand() -> Checks {
    let stretches =
        |stretches: &[(usize, usize)]| stretches.iter().flat_map(|(from, end)| *from..*end).collect::<Vec<usize>>();
    let banks: [(&str, Vec<usize>, &[&str]); 12] = [
        ("sound", vec![], &["cleaned 0 runs, 0 sectors"]),
        ("behind the table", vec![20], &["cleared 00000014 1", "rewrite 0001", "cleaned 1 runs, 1 sectors"]),
        ("before the body", vec![0x1FA], &["cleared 000001FA 1", "rewrite 0001", "cleaned 1 runs, 1 sectors"]),
        ("behind the body", vec![0x204], &["cleared 00000204 1", "rewrite 0002", "cleaned 1 runs, 1 sectors"]),
        ("the last byte", vec![0x3FF], &["cleared 000003FF 1", "rewrite 0002", "cleaned 1 runs, 1 sectors"]),
        (
            "on both sides of the body",
            vec![0x1FA, 0x204],
            &["cleared 000001FA 1", "cleared 00000204 1", "rewrite 0001", "rewrite 0002", "cleaned 2 runs, 2 sectors"],
        ),
        (
            "with a byte 0xFF between",
            vec![0x100, 0x102],
            &["cleared 00000100 1", "cleared 00000102 1", "rewrite 0001", "cleaned 2 runs, 1 sectors"],
        ),
        ("side by side", vec![0x100, 0x101], &["cleared 00000100 2", "rewrite 0001", "cleaned 1 runs, 1 sectors"]),
        ("ten", stretches(&[(0x100, 0x10A)]), &["cleared 00000100 10", "rewrite 0001", "cleaned 1 runs, 1 sectors"]),
        ("a gap", stretches(&[(0x204, 0x400)]), &["cleared 00000204 508", "rewrite 0002", "cleaned 1 runs, 1 sectors"]),
        (
            "both gaps",
            stretches(&[(20, 0x1FB), (0x204, 0x400)]),
            &[
                "cleared 00000014 487",
                "cleared 00000204 508",
                "rewrite 0001",
                "rewrite 0002",
                "cleaned 2 runs, 2 sectors",
            ],
        ),
        (
            "all but the second byte and the last but one of a gap",
            stretches(&[(0x204, 0x205), (0x206, 0x3FE), (0x3FF, 0x400)]),
            &[
                "cleared 00000204 1",
                "cleared 00000206 504",
                "cleared 000003FF 1",
                "rewrite 0002",
                "cleaned 3 runs, 1 sectors",
            ],
        ),
    ];
    let mut checks: Checks = banks
        .iter()
        .map(|(what, old, wanted)| {
            let outcome = cleaned(&with_old(old));
            let sound = outcome.as_ref().map(|done| done.bank == worked()) == Ok(true);
            (format!("clean: {}", what), sound && listing(&outcome) == *wanted)
        })
        .collect();
    // The same body alone in the first of four sectors: a run over all ends, from the last byte of sector 1 on
    let mut bank = worked();
    bank[0x1FB..0x204].fill(0xFF);
    bank.resize(4 * SECTOR, 0xFF);
    bank[..20].copy_from_slice(&bytes("040001010000001400000009CBF439264B27F461"));
    bank[20..29].copy_from_slice(b"123456789");
    let sound = bank.clone();
    bank[0x1FF..0x601].fill(0xFE);
    let wanted = [
        "cleared 000001FF 1026",
        "rewrite 0001",
        "rewrite 0002",
        "rewrite 0003",
        "rewrite 0004",
        "cleaned 1 runs, 4 sectors",
    ];
    let outcome = cleaned(&bank);
    let good = outcome.as_ref().map(|done| done.bank == sound) == Ok(true) && listing(&outcome) == wanted;
    checks.push(("clean: over three ends of sectors".to_string(), good));
    checks
}

/// The order of the refusals: a length that is no bank's is told of faulty bytes too.
fn refusals() -> Checks {
    let changed = |at: usize| {
        let mut bank = with_old(&[0x300]);
        bank[at] ^= 1;
        bank
    };
    let mut checks: Checks = [
        (0, "ID"),
        (2, "edition"),
        (3, "count"),
        (6, "offset"),
        (11, "length"),
        (12, "a body's CRC"),
        (16, "the table's CRC"),
    ]
    .iter()
    .chain(&[(0x1FB, "a body's first byte"), (0x203, "a body's last byte")])
    .map(|(at, what)| (format!("clean: {}", what), listing(&cleaned(&changed(*at))) == ["refused 9"]))
    .collect();
    for length in [0, 3, 20, 512 - 1, 1023, 1025, 251_393, 251_904] {
        let mut bank = with_old(&[0x300]);
        bank.resize(length, 0xFF);
        let good = listing(&cleaned(&bank)) == ["refused 2"] && listing(&cleaned(&vec![0; length])) == ["refused 2"];
        checks.push((format!("clean: {} bytes", length), good));
    }
    checks.push(("clean: a blank bank".to_string(), cleaned(&[0xFF; 512]) == Err(9)));
    checks
}

/// The requests by which the proved check is asked.
fn lines() -> Checks {
    let mut ramp = vec![0xFF; SECTOR];
    ramp[7..20].copy_from_slice(&[9, 0, 1, 2, 3, 4, 5, 6, 7, 8, 9, 7, 7]);
    ramp[511] = 0;
    let body = "507:313233343536373839";
    let table = "0:04000101000001FB00000009CBF43926416AD165";
    vec![
        ("clean: a line of a bank".to_string(), check_line(&worked()) == format!("check 1024 {} {}", table, body)),
        ("clean: a line with a ramp".to_string(), check_line(&ramp) == "check 512 7:09 8~10 18:0707 511:00"),
    ]
}

/// What must hold of each bank that is taken, whatever the lists are: it is sound, differs where it was not 0xFF outside, is 0xFF there, and is left so.
fn kept() -> Checks {
    let (mut taken, mut good) = (0, true);
    for bank in clean_banks::all().iter().filter(|bank| bank.len() <= 4 * SECTOR) {
        if let Ok(done) = cleaned(bank) {
            let bodies = bank::bodies(&done.bank);
            let within = |at: usize| done.runs.iter().any(|(from, length)| (*from..from + length).contains(&at));
            let cleared = (0..bank.len()).all(|at| {
                if within(at) {
                    done.bank[at] == 0xFF && bank[at] != 0xFF
                } else {
                    done.bank[at] == bank[at]
                }
            });
            let again = cleaned(&done.bank) == Ok(Cleaned { bank: done.bank.clone(), runs: vec![], sectors: vec![] });
            taken += 1;
            good = good && bodies.is_some() && cleared && again;
        }
    }
    vec![(format!("clean: what is kept and cleared in {} banks", taken), good && taken > 100)]
}

type Outcome = Result<Cleaned, u8>;

/// A cleaner that goes wrong in one way: what it makes of a bank of which a right one makes that.
type Wrong = fn(&[u8], Cleaned) -> Outcome;

fn sectors_of(runs: &[(usize, usize)]) -> Vec<usize> {
    let mut sectors: Vec<usize> =
        runs.iter().flat_map(|(at, length)| at / SECTOR..=(at + length - 1) / SECTOR).map(|k| k + 1).collect();
    sectors.dedup();
    sectors
}

/// With the runs that are left, and what they come to.
fn with_runs(bank: &[u8], runs: Vec<(usize, usize)>) -> Outcome {
    let mut bytes = bank.to_vec();
    runs.iter().for_each(|(at, length)| bytes[*at..at + length].fill(0xFF));
    Ok(Cleaned { bank: bytes, sectors: sectors_of(&runs), runs })
}

/// Runs with no more than so many bytes between them as one.
fn joined(runs: &[(usize, usize)], between: usize) -> Vec<(usize, usize)> {
    let mut out: Vec<(usize, usize)> = Vec::new();
    for (at, length) in runs {
        match out.last_mut() {
            Some(last) if last.0 + last.1 + between >= *at => last.1 = at + length - last.0,
            _ => out.push((*at, *length)),
        }
    }
    out
}

fn cut(runs: &[(usize, usize)]) -> Vec<(usize, usize)> {
    let mut out = Vec::new();
    for (at, length) in runs {
        let mut from = *at;
        while from < at + length {
            let end = (from / SECTOR * SECTOR + SECTOR).min(at + length);
            out.push((from, end - from));
            from = end;
        }
    }
    out
}

/// The runs without the byte at a place.
fn without(runs: &[(usize, usize)], place: usize) -> Vec<(usize, usize)> {
    let parts = |(at, length): &(usize, usize)| match (*at..at + length).contains(&place) {
        true => vec![(*at, place - at), (place + 1, at + length - place - 1)],
        false => vec![(*at, *length)],
    };
    runs.iter().flat_map(parts).filter(|(_, length)| *length > 0).collect()
}

fn table_end(bank: &[u8]) -> usize {
    8 + 12 * bank[3] as usize
}

const WRONG: [(&str, Wrong); 21] = [
    ("cuts runs at the ends of sectors", |_, done| Ok(Cleaned { runs: cut(&done.runs), ..done })),
    ("takes two runs with a byte between for one", |_, done| Ok(Cleaned { runs: joined(&done.runs, 1), ..done })),
    ("lists from the highest on", |_, done| Ok(Cleaned { runs: done.runs.iter().rev().copied().collect(), ..done })),
    ("lists where a run ends", |_, done| {
        Ok(Cleaned { runs: done.runs.iter().map(|(at, l)| (*at, at + l)).collect(), ..done })
    }),
    ("counts offsets from 1", |_, done| {
        Ok(Cleaned { runs: done.runs.iter().map(|(at, l)| (at + 1, *l)).collect(), ..done })
    }),
    ("numbers sectors from 0", |_, done| Ok(Cleaned { sectors: done.sectors.iter().map(|s| s - 1).collect(), ..done })),
    ("names a sector for each run", |_, done| {
        Ok(Cleaned { sectors: done.runs.iter().flat_map(|run| sectors_of(&[*run])).collect(), ..done })
    }),
    ("names the sector where a run begins", |_, done| {
        let begins: Vec<(usize, usize)> = done.runs.iter().map(|(at, _)| (*at, 1)).collect();
        Ok(Cleaned { sectors: sectors_of(&begins), ..done })
    }),
    ("names the sector where a run ends", |_, done| {
        let ends: Vec<(usize, usize)> = done.runs.iter().map(|(at, length)| (at + length - 1, 1)).collect();
        Ok(Cleaned { sectors: sectors_of(&ends), ..done })
    }),
    ("names the sectors between two runs", |_, done| {
        let all = joined(&done.runs, usize::MAX / 2);
        Ok(Cleaned { sectors: sectors_of(&all), ..done })
    }),
    ("forgets the byte behind the table", |bank, done| with_runs(bank, without(&done.runs, table_end(bank)))),
    ("forgets the last byte of the bank", |bank, done| with_runs(bank, without(&done.runs, bank.len() - 1))),
    ("forgets what lies behind the last body", |bank, done| {
        let end =
            bank::bodies(&done.bank).and_then(|bodies| bodies.last().map(|body| body.as_ptr_range().end as usize));
        let end = end.map_or(0, |end| end - done.bank.as_ptr() as usize);
        with_runs(bank, done.runs.iter().copied().filter(|(at, _)| *at < end).collect())
    }),
    ("leaves a value alone", |bank, done| {
        let zero = |at: &usize| bank[*at] == 0x00;
        let zeros: Vec<usize> = done.runs.iter().flat_map(|(at, length)| *at..at + length).filter(zero).collect();
        with_runs(bank, zeros.iter().fold(done.runs, |runs, at| without(&runs, *at)))
    }),
    ("lists and leaves the bytes", |bank, done| Ok(Cleaned { bank: bank.to_vec(), ..done })),
    ("takes an entry off the table", |bank, done| {
        let mut dropped = bank.to_vec();
        dropped[3] -= 1;
        Ok(Cleaned { bank: dropped, ..done })
    }),
    ("clears and lists nothing", |_, done| Ok(Cleaned { runs: vec![], sectors: vec![], ..done })),
    ("names every sector", |bank, done| Ok(Cleaned { sectors: (1..=bank.len() / bank::SECTOR).collect(), ..done })),
    ("clears the byte behind each run", |bank, done| {
        let mut cleared = done.bank.clone();
        done.runs
            .iter()
            .map(|(at, length)| at + length)
            .filter(|at| *at < bank.len())
            .for_each(|at| cleared[at] = 0xFF);
        Ok(Cleaned { bank: cleared, ..done })
    }),
    ("refuses a sound bank", |_, done| if done.runs.is_empty() { Err(9) } else { Ok(done) }),
    ("has room for one run", |_, done| if done.runs.len() > 1 { Err(10) } else { Ok(done) }),
];

/// What is wrong in what they take.
fn wrong() -> Checks {
    let banks = clean_banks::all();
    let right: Vec<Outcome> = banks.iter().map(|bank| cleaned(bank)).collect();
    let mut checks: Checks = WRONG
        .iter()
        .map(|(what, wrong)| {
            let told = banks
                .iter()
                .zip(&right)
                .any(|(bank, right)| matches!(right, Ok(done) if wrong(bank, done.clone()) != *right));
            (format!("clean: a cleaner that {} is told from a right one", what), told)
        })
        .collect();
    let refused = |number: u8| right.iter().filter(|outcome| **outcome == Err(number)).count();
    checks.push((
        "clean: banks of each kind".to_string(),
        refused(2) > 40 && refused(9) > 70 && refused(2) + refused(9) + 200 < right.len(),
    ));
    let with_old = |bank: &Vec<u8>| bank.len() > 950 && bank[950] == 0x5A;
    let beside = banks.iter().zip(&right).filter(|(bank, right)| **right == Err(9) && with_old(bank)).count();
    checks.push(("clean: other faults beside an old byte".to_string(), beside > 50));
    checks
}

/// The bank of two sectors with lists of a length: the entries in front, and behind them, or where it is refused, what the lists held. The CRC-32 of the bank is
/// zlib's, with its old bytes where it is refused.
fn lent_by_hand() -> Checks {
    let worked = "1024 0:04000101000001FB00000009CBF43926416AD165 507:313233343536373839";
    let (beside, parted) = (format!("{} 506:00 516:00", worked), format!("{} 256:00 258:00", worked));
    let (faulty, short) =
        (format!("{} 768:00 0:05", worked), format!("{} 768:00 0:05", worked.replace("1024", "1023")));
    [
        ("a sound bank, no room", "0 0", worked, "cleaned 0 0 - - 6C379019"),
        ("a sound bank, some room", "3 1", worked, "cleaned 0 0 A5000000A5000001A5000002 A500 6C379019"),
        ("no room", "0 0", &beside, "refused 10 - - 549F0D6D"),
        ("exactly enough", "4 2", &beside, "cleaned 2 2 000001FA000000010000020400000001 00010002 6C379019"),
        (
            "one number more than enough",
            "5 3",
            &beside,
            "cleaned 2 2 000001FA000000010000020400000001A5000004 00010002A502 6C379019",
        ),
        ("half a run too short", "3 2", &beside, "refused 10 A5000000A5000001A5000002 A500A501 549F0D6D"),
        ("a sector too short", "4 1", &beside, "refused 10 A5000000A5000001A5000002A5000003 A500 549F0D6D"),
        (
            "two runs of a sector",
            "6 1",
            &parted,
            "cleaned 2 1 00000100000000010000010200000001A5000004A5000005 0001 6C379019",
        ),
        ("one run too short", "2 4", &parted, "refused 10 A5000000A5000001 A500A501A502A503 BC8D6316"),
        ("faulty, no room", "1 0", &faulty, "refused 9 A5000000 - E0C47DE2"),
        ("faulty, enough room", "2 1", &faulty, "refused 9 A5000000A5000001 A500 E0C47DE2"),
        ("no bank's length, faulty, no room", "0 1", &short, "refused 2 - A500 1EFE8CD3"),
        ("no bytes", "0 0", "0", "refused 2 - - 00000000"),
    ]
    .iter()
    .map(|(what, rooms, bank, wanted)| {
        let line = format!("clean {} {}", rooms, bank);
        (format!("clean, with lists: {}", what), answers(line.as_bytes()) == [*wanted])
    })
    .collect()
}

/// A cleaner that goes wrong with lists, in one way: what it leaves of bank and lists where a right one leaves that.
type WrongLists = fn(&Trial, Lent) -> Lent;

/// As if the lists were so long.
fn with_room(trial: &Trial, runs: usize, sectors: usize) -> Lent {
    let (held, numbers) = lists(runs, sectors);
    let mut lent = lent(&trial.bank, &held, &numbers);
    lent.runs.truncate(trial.runs);
    lent.sectors.truncate(trial.sectors);
    lent
}

const WRONG_LISTS: [(&str, WrongLists); 11] = [
    ("takes a list of odd length for one longer", |trial, _| {
        with_room(trial, trial.runs.div_ceil(2) * 2, trial.sectors)
    }),
    ("takes a run for one number", |trial, _| with_room(trial, 2 * trial.runs, trial.sectors)),
    ("forgets the room for sectors", |trial, _| with_room(trial, trial.runs, 512)),
    ("leaves the last place of the runs free", |trial, right| match right.outcome {
        Ok((runs, _)) if runs > 0 && 2 * runs == trial.runs => Lent { outcome: Err(10), ..right },
        _ => right,
    }),
    ("leaves the last place of the sectors free", |trial, right| match right.outcome {
        Ok((_, sectors)) if sectors > 0 && sectors == trial.sectors => Lent { outcome: Err(10), ..right },
        _ => right,
    }),
    ("asks a sound bank for room", |trial, right| match right.outcome {
        Ok((0, 0)) if trial.runs < 2 => Lent { outcome: Err(10), ..right },
        _ => right,
    }),
    ("looks for room before faults", |trial, right| match right.outcome {
        Err(9) if trial.runs < 2 => Lent { outcome: Err(10), ..right },
        _ => right,
    }),
    ("looks for faults before the length", |trial, right| match right.outcome {
        Err(2) if trial.bank.get(0) == Some(&0x5A) => Lent { outcome: Err(9), ..right },
        _ => right,
    }),
    ("lists what has room before it refuses", |trial, right| match right.outcome {
        Err(10) => Lent { outcome: Err(10), bank: right.bank, ..with_room(trial, 1000, 512) },
        _ => right,
    }),
    ("cleans the bank before it refuses", |trial, right| match right.outcome {
        Err(10) => Lent { bank: with_room(trial, 1000, 512).bank, ..right },
        _ => right,
    }),
    ("clears the rest of a list", |_, mut right| {
        if let Ok((runs, sectors)) = right.outcome {
            right.runs[2 * runs..].fill(0);
            right.sectors[sectors..].fill(0);
        }
        right
    }),
];

fn wrong_lists() -> Checks {
    let trials = clean_cases::trials();
    let right: Vec<Lent> = trials
        .iter()
        .map(|trial| {
            let (runs, sectors) = lists(trial.runs, trial.sectors);
            lent(&trial.bank, &runs, &sectors)
        })
        .collect();
    let mut checks: Checks = WRONG_LISTS
        .iter()
        .map(|(what, wrong)| {
            let told = trials.iter().zip(&right).any(|(trial, right)| wrong(trial, right.clone()) != *right);
            (format!("clean, with lists: a cleaner that {} is told from a right one", what), told)
        })
        .collect();
    let count = |test: fn(&Lent) -> bool| right.iter().filter(|lent| test(lent)).count();
    let refused = [count(|lent| lent.outcome == Err(2)), count(|lent| lent.outcome == Err(9))];
    let (no_room, done) = (count(|lent| lent.outcome == Err(10)), count(|lent| lent.outcome.is_ok()));
    let enough = refused.iter().all(|count| *count > 200) && no_room > 800 && done > 800;
    checks.push(("clean, with lists: trials of each kind".to_string(), enough));
    checks
}
