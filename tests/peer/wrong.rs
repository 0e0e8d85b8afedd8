//! Clients that go wrong on purpose: what the checks have to see. The paper's 'Shortcuts that bring the leftovers back', what it shuts out
//! under 'How much each function must say', slips of order, 05 where it stood before 02 §3, the "discarded" of J11 7.2 taken for
//! all that the session received, and what goes wrong about the address that opened the mode (02 §5).

#[derive(Clone, Copy, PartialEq, Debug)]
pub enum Wrong {
    /// A short packet leaves what stood behind its data.
    KeepsTail,
    /// 1D, and no store, where the bytes that were sent are there already.
    ComparesSent,
    /// A packet of nothing but 0xFF is acknowledged and not carried out.
    SkipsBlanks,
    /// The end erases nothing.
    LeavesUnsent,
    /// The end erases before it looks at the worn marks.
    SweepsWorn,
    /// A packet for a worn sector counts as received.
    CountsRefused,
    /// A packet for a worn sector that has nothing to store is answered 1D.
    WornOmitted,
    /// What is stored in the target is stored in the running bank too.
    WritesRunning,
    /// Of a session's packets the first is stored, and the others are acknowledged.
    StoresFirst,
    /// Nothing is stored or erased; the answers are right.
    StoresNothing,
    /// A sector that was received is not written again in the same session.
    KeepsFirst,
    /// What was received before the write start counts on.
    KeepsReceived,
    /// The write start leaves the next-start bank.
    KeepsNext,
    /// An unsound bank becomes the next-start bank.
    TakesUnsound,
    /// Values of a write packet are looked at before the state.
    ValuesFirst,
    /// The state is looked at before the parameters' length.
    StateFirst,
    /// A wrong parameter length is answered 05 in the command's own response.
    OwnParameterLength,
    /// A wrong address pair is answered 05 in the command's own response.
    OwnAddressPair,
    /// A sector out of range is answered 05 in the write response.
    OwnSector,
    /// A data length out of range is answered 05 in the write response.
    OwnDataLength,
    /// A parameter fault discards what the session has received, and not the faulty datagram alone.
    FaultDiscards,
    /// A write start of the running bank is taken too.
    TakesRunning,
    /// The end of the mode forgets how the session ended.
    ForgetsEnd,
    /// Whoever sends is taken for who opened the mode.
    Everyone,
    /// Of the two addresses the last byte is not compared.
    ComparesFirst15,
    /// Of the two addresses the first byte is not compared.
    ComparesLast15,
    /// An opener whose address is 16 times 00 counts as none.
    ZerosOpenNothing,
    /// The end of the mode leaves the opener: in idle state the others are answered 15.
    KeepsOpenerIdle,
    /// Terminate leaves the opener: in idle state the others are answered 15.
    KeepsOpenerClosed,
    /// The first opener stays for good: another one may open the mode, and is a stranger in it.
    KeepsFirstOpener,
    /// The end of a write session forgets the opener.
    ForgetsOpener,
    /// A mode start that is answered 15 makes its sender the opener.
    TakesOver,
    /// A write end is taken from anyone.
    AnyoneEnds,
    /// Packets are taken from anyone.
    AnyonesPackets,
    /// A stranger's packet is answered 15, and stored.
    StoresStrangers,
    /// A stranger is answered 15 by Respond Error.
    StrangersError,
    /// The address is looked at before the parameters' length.
    AddressFirst,
    /// The address is looked at behind state and values.
    AddressLast,
    /// No call is taken.
    RefusesAll,
    /// Every datagram has the answer of a good end.
    OneAnswer,
}

pub const ALL: [Wrong; 40] = [
    Wrong::KeepsTail,
    Wrong::ComparesSent,
    Wrong::SkipsBlanks,
    Wrong::LeavesUnsent,
    Wrong::SweepsWorn,
    Wrong::CountsRefused,
    Wrong::WornOmitted,
    Wrong::WritesRunning,
    Wrong::StoresFirst,
    Wrong::StoresNothing,
    Wrong::KeepsFirst,
    Wrong::KeepsReceived,
    Wrong::KeepsNext,
    Wrong::TakesUnsound,
    Wrong::ValuesFirst,
    Wrong::StateFirst,
    Wrong::OwnParameterLength,
    Wrong::OwnAddressPair,
    Wrong::OwnSector,
    Wrong::OwnDataLength,
    Wrong::FaultDiscards,
    Wrong::TakesRunning,
    Wrong::ForgetsEnd,
    Wrong::Everyone,
    Wrong::ComparesFirst15,
    Wrong::ComparesLast15,
    Wrong::ZerosOpenNothing,
    Wrong::KeepsOpenerIdle,
    Wrong::KeepsOpenerClosed,
    Wrong::KeepsFirstOpener,
    Wrong::ForgetsOpener,
    Wrong::TakesOver,
    Wrong::AnyoneEnds,
    Wrong::AnyonesPackets,
    Wrong::StoresStrangers,
    Wrong::StrangersError,
    Wrong::AddressFirst,
    Wrong::AddressLast,
    Wrong::RefusesAll,
    Wrong::OneAnswer,
];

/// By its name here.
pub fn named(name: &str) -> Result<Wrong, String> {
    ALL.into_iter().find(|wrong| format!("{:?}", wrong) == name).ok_or_else(|| format!("no wrong board {}", name))
}
