//! Whose answer it is that a sample keeps.

use compare::Kind;

#[derive(Clone, Copy, Debug, PartialEq, Eq, PartialOrd, Ord)]
pub enum Source {
    /// The published text, byte for byte: the domain of equality.
    Plain,
    /// The text with ties ordered by identity.
    Ties,
    /// The same. Some slot is wide, and the answer is the module's all the same.
    TiesWide,
    /// The text with ties ordered by identity, stopped by the harness at the split that finds no
    /// record. The number 10 is document 01's.
    StoppedAtSplit,
    /// The text with ties ordered by identity, stopped at this record by its own debug assertion.
    /// The number 13 is document 01's.
    StoppedByAssertion,
    /// The entry checks in the second reading; the module has none.
    SecondReading,
}

/// What a sample does with a case.
pub enum Use {
    Keep(Source),
    /// The module's answer is another one, as docs/DIFFERENCES.md lists.
    LeaveOut,
    /// An error of the harness.
    Stop(String),
}

impl Source {
    pub const ALL: [Source; 6] = [
        Source::Plain,
        Source::Ties,
        Source::TiesWide,
        Source::StoppedAtSplit,
        Source::StoppedByAssertion,
        Source::SecondReading,
    ];

    /// A few words for a comment and a table.
    pub fn title(self) -> &'static str {
        match self {
            Source::Plain => "plain",
            Source::Ties => "ties",
            Source::TiesWide => "ties, some slot wide",
            Source::StoppedAtSplit => "ties, stopped at a split",
            Source::StoppedByAssertion => "ties, stopped by an assertion",
            Source::SecondReading => "second reading",
        }
    }
}

/// What to do with a case of this kind.
pub fn of(kind: &Kind) -> Use {
    match kind {
        Kind::Equal => Use::Keep(Source::Plain),
        Kind::EqualByIdentity => Use::Keep(Source::Ties),
        Kind::WideButEqual => Use::Keep(Source::TiesWide),
        Kind::NoRecord => Use::Keep(Source::StoppedAtSplit),
        Kind::FixedClash(_) => Use::Keep(Source::StoppedByAssertion),
        Kind::BadSafepoint(_) | Kind::RefusedAtEntry(_) => Use::Keep(Source::SecondReading),
        Kind::WideSlots => Use::LeaveOut,
        Kind::NotCompared | Kind::Claim(_) | Kind::Unlisted(_) => Use::Stop(kind.title()),
    }
}
