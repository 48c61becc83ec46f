//! The refusals and their numbers.

#[derive(Clone, Copy, Debug, PartialEq, Eq)]
pub enum Refusal {
    Unreadable,
    Nobody,
    NoMove,
    NoPartner,
    NoFit,
    Installing,
    SerialsSpent,
    Deep,
    Long,
    ShortOutput,
    NotFresh,
    UnknownSerial,
    NotDecimal,
    /// Taking back: the journal doesn't match.
    Unmatched,
    JournalShort,
    IndexShort,
    HouseFull,
    StillAtWork,
    /// Keeper against the river: more than 6.
    TooManyMoves,
}

impl Refusal {
    pub fn number(self) -> u8 {
        match self {
            Refusal::Unreadable => 1,
            Refusal::Nobody => 2,
            Refusal::NoMove => 3,
            Refusal::NoPartner => 4,
            Refusal::NoFit => 5,
            Refusal::Installing => 6,
            Refusal::SerialsSpent => 7,
            Refusal::Deep => 8,
            Refusal::Long => 9,
            Refusal::ShortOutput => 10,
            Refusal::NotFresh => 11,
            Refusal::UnknownSerial => 12,
            Refusal::NotDecimal => 13,
            Refusal::Unmatched => 15,
            Refusal::JournalShort => 16,
            Refusal::IndexShort => 17,
            Refusal::HouseFull => 21,
            Refusal::StillAtWork => 22,
            Refusal::TooManyMoves => 23,
        }
    }
}
