//! Night senders that go wrong on purpose, each in one way: what the cases have to tell from a right one, and the judge has to refuse.
use crate::night_cases;

#[derive(Clone, Copy, PartialEq, Debug)]
pub enum Wrong {
    /// A request goes out T + 1 times.
    OneTryMore,
    /// No try is the last.
    NeverGivesUp,
    /// Tries are counted over all requests together.
    KeepsTries,
    /// Silence spends no try.
    SilenceIsFree,
    /// What cannot be read spends no try.
    UnreadableIsFree,
    /// 1C or 1E is given up at once.
    StopsAtTheWorn,
    /// 15 to a first mode start counts as done.
    FirstStartCounts,
    /// 15 to a first write end is given up as unknown.
    FirstEndUnknown,
    /// 15 to a repeated write end counts as done.
    UnknownGoesOn,
    /// 15 to a repeated version or bank counts as done.
    ReadingCounts,
    /// 15 to a repeated packet counts as done.
    PacketRefusalCounts,
    /// That a request was repeated is forgotten.
    ForgetsRepeats,
    /// That a request was repeated is kept for those behind it.
    KeepsRepeated,
    /// 15 at the last try is a try like another.
    LastTryFirst,
    /// 15 by Respond Error counts like 15 in the request's own response.
    ErrorCounts,
    /// 15 in any response counts like 15 in the request's own.
    AnyRefusalCounts,
    /// 06 in any response counts like 06 in the request's own.
    AnyDoneCounts,
    /// The CRC-32 is not compared.
    AnyCrc,
    /// A packet whose last try was answered with another CRC-32 is left out.
    SkipsWrongCrc,
    /// The response to another sector's packet is taken.
    AnySector,
    /// 06 with 1D is not awaited.
    NeverOmitted,
    /// 1D with 1D is taken.
    BothOmitted,
    /// Another bank than the image's is gone on with.
    AnyBank,
    /// Another bank than the image's spends a try.
    BankIsATry,
    /// The bank is asked for before the version.
    BankFirst,
    /// An ID of firmware other than 0400 is not taken.
    OneVersion,
    /// The first event finishes.
    FinishedAtOnce,
    /// It finishes with the write end, and leaves out the mode end.
    EndsWithTheWrite,
}

pub const ALL: [Wrong; 28] = [
    Wrong::OneTryMore,
    Wrong::NeverGivesUp,
    Wrong::KeepsTries,
    Wrong::SilenceIsFree,
    Wrong::UnreadableIsFree,
    Wrong::StopsAtTheWorn,
    Wrong::FirstStartCounts,
    Wrong::FirstEndUnknown,
    Wrong::UnknownGoesOn,
    Wrong::ReadingCounts,
    Wrong::PacketRefusalCounts,
    Wrong::ForgetsRepeats,
    Wrong::KeepsRepeated,
    Wrong::LastTryFirst,
    Wrong::ErrorCounts,
    Wrong::AnyRefusalCounts,
    Wrong::AnyDoneCounts,
    Wrong::AnyCrc,
    Wrong::SkipsWrongCrc,
    Wrong::AnySector,
    Wrong::NeverOmitted,
    Wrong::BothOmitted,
    Wrong::AnyBank,
    Wrong::BankIsATry,
    Wrong::BankFirst,
    Wrong::OneVersion,
    Wrong::FinishedAtOnce,
    Wrong::EndsWithTheWrite,
];

/// That the cases and the judge can fail, and that the right one fails neither.
pub fn told() -> Result<String, String> {
    let cases = night_cases::all();
    let right: Vec<_> = cases.iter().map(|case| case.run(None)).collect();
    let mut over_full = 0;
    for (k, (case, run)) in cases.iter().zip(&right).enumerate() {
        over_full += case.judged(run).map_err(|why| format!("case {:03}, the right night: {}", k, why))? as usize;
    }
    if over_full < 20 {
        return Err(format!("{} cases alone use up all of T times P + 6 events", over_full));
    }
    for wrong in ALL {
        // Lazily: the first case that tells it is enough.
        let others = || cases.iter().zip(&right).map(|(case, right)| (case, right, case.run(Some(wrong))));
        if !others().any(|(_, right, run)| run != *right) {
            return Err(format!("the cases do not tell {:?} from a right night", wrong));
        }
        if !others().any(|(case, _, run)| case.judged(&run).is_err()) {
            return Err(format!("the judge does not refuse {:?}", wrong));
        }
    }
    Ok(format!(
        "{} wrong nights are told from the right one by {} cases, and refused by the judge; {} cases use up all of T times P + 6 events",
        ALL.len(),
        cases.len(),
        over_full
    ))
}
