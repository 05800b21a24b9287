//! Certificates that are nearly as the rules want them.

/// What a faulty site tries to be let through with: certificates that are nearly as the rules want
/// them. A check that is not strict in one of these is found out by what follows.
#[derive(Clone, Copy, Debug, PartialEq, Eq)]
pub enum Loose {
    No,
    AnyValue,
    AnyFlag,
    AnyRound,
    AnyQuestion,
    OneFewer,
    Twice,
    OneGroup,
}

pub const LOOSE: [Loose; 8] = [
    Loose::No,
    Loose::AnyValue,
    Loose::AnyFlag,
    Loose::AnyRound,
    Loose::AnyQuestion,
    Loose::OneFewer,
    Loose::Twice,
    Loose::OneGroup,
];
