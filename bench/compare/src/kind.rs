//! The kinds of agreement and difference.

use tables::answer::{
    Answer, Ending, Verdict, BAD_SAFEPOINT, DONE, FIXED_CLASH, NO_RECORD, NO_ROOM,
};
use tables::case::{Case, Claim};
use tables::words::{capacity, pair, RECORD_WORDS};
use tables::{placed, sound};

/// Room for the release build where it is asked what it does with refused tables: more records
/// than any run of document 01 makes, so that a run that fills it is taken to be endless.
const ENDLESS: usize = 20_000;

/// What the release build of the module does where document 01 refuses.
#[derive(Clone, Copy, Debug, PartialEq, Eq, PartialOrd, Ord)]
pub enum Release {
    /// It returns, and some piece is empty: its first point is after its last.
    EmptyPiece,
    /// It returns without an empty piece.
    Returns,
    /// It returns an error.
    Errs,
    /// It splits for ever.
    Endless,
    /// It panics.
    Panics,
}

#[derive(Clone, Debug, PartialEq, Eq, PartialOrd, Ord)]
pub enum Kind {
    /// On the domain of equality: no tie, slot sizes 1, accepted, room enough. Equal to the
    /// published module.
    Equal,
    /// The same but for ties: equal to the module with ties ordered by identity.
    EqualByIdentity,
    /// Some slot is wider than 1, but the answer is the module's all the same.
    WideButEqual,
    /// Answer 10. The module has no limit; stopped at the split that has no record, it names the
    /// same record.
    NoRecord,
    /// Difference: the module advances slots by 1 after a wide one. Equal to the module with
    /// slots advanced by their size.
    WideSlots,
    /// Difference: answer 13. A debug assertion stops the module at the same record; this is what
    /// its release build does.
    FixedClash(Release),
    /// Difference: answer 7; this is what the module's release build does.
    BadSafepoint(Release),
    /// Difference: answers 2 to 9 but 7. The module has no entry checks and is not asked.
    RefusedAtEntry(u32),
    /// The module is not at hand: only the entry checks are compared, with their second reading.
    NotCompared,
    /// A claim: the checker's answer is that of the second reading of the placement rules.
    Claim(u32),
    /// A difference that is not listed: an error of the port, of the shim or of the list.
    Unlisted(String),
}

impl Kind {
    /// One line for docs and reports.
    pub fn title(&self) -> String {
        match self {
            Kind::Equal => "equal, on the domain of equality".to_string(),
            Kind::EqualByIdentity => "equal, ties ordered by identity".to_string(),
            Kind::WideButEqual => "equal, although some slot is wide".to_string(),
            Kind::NoRecord => "10, stopped at the same record by the harness".to_string(),
            Kind::WideSlots => "listed: slots after a wide one (`inc(1)`)".to_string(),
            Kind::FixedClash(release) => format!("listed: 13, the release build: {release:?}"),
            Kind::BadSafepoint(release) => format!("listed: 7, the release build: {release:?}"),
            Kind::RefusedAtEntry(number) => format!("listed: {number}, refused at entry, not run"),
            Kind::NotCompared => "accepted; the module is not at hand".to_string(),
            Kind::Claim(number) => format!("a claim, {number}, equal to the second reading"),
            Kind::Unlisted(why) => format!("NOT LISTED: {why}"),
        }
    }

    pub fn is_unlisted(&self) -> bool {
        matches!(self, Kind::Unlisted(_))
    }
}

fn unlisted(why: &str) -> Kind {
    Kind::Unlisted(why.to_string())
}

/// The module gives something else. The reason is short, so that there are few of them; the case
/// is printed with it.
fn otherwise(ours: &Answer, module: &Verdict) -> Kind {
    let theirs = match module.answer() {
        Some(answer) => format!("{} at {}", answer.number, answer.place),
        None => "a panic".to_string(),
    };
    if module
        .answer()
        .is_some_and(|answer| answer.number == ours.number)
    {
        return unlisted(&format!(
            "{}, but with another place or other records",
            ours.number
        ));
    }
    unlisted(&format!(
        "ours {} at {}, the module {theirs}",
        ours.number, ours.place
    ))
}

/// Compares an answer with the module's builds.
pub fn classify(case: &Case, ours: &Answer) -> Kind {
    match classify_entry(case, ours) {
        Kind::NotCompared => accepted(case, ours),
        Kind::RefusedAtEntry(BAD_SAFEPOINT) => Kind::BadSafepoint(release(case)),
        kind => kind,
    }
}

/// Compares an answer with the second reading of the entry checks.
pub fn classify_entry(case: &Case, ours: &Answer) -> Kind {
    let refused_at_entry = (2..=NO_ROOM).contains(&ours.number);
    match sound::refusal(case) {
        Some(answer) if answer != *ours => unlisted("the entry checks answer otherwise"),
        Some(answer) => Kind::RefusedAtEntry(answer.number),
        None if refused_at_entry => unlisted("sound tables are refused at entry"),
        None => Kind::NotCompared,
    }
}

/// Compares an answer of the checker with the second reading of the placement rules.
pub fn classify_claim(case: &Case, claim: &Claim, ours: &Answer) -> Kind {
    let second = placed::verdict(case, claim);
    if second != *ours {
        let (ours, second) = (ours.number, second.number);
        return unlisted(&format!("claim: ours {ours}, the second reading {second}"));
    }
    Kind::Claim(ours.number)
}

/// What document 01 would answer, by the module with both lines patched: a stand-in for the port
/// until its archive is there. A debug assertion is taken for 13. None where the room ends at a
/// record at which, with more room, an assertion stops the module: that is 10 or 13, and only the
/// rules can tell.
pub fn module_alone(case: &Case) -> Option<Answer> {
    if let Some(answer) = sound::refusal(case) {
        return Some(answer);
    }
    let limit = capacity(case.room().result);
    match oracle_wide::assign(case, limit).ending {
        Ending::Done(answer) | Ending::Error(answer) => Some(answer),
        Ending::Full(answer) if stops_at(case, answer.place) => None,
        Ending::Full(answer) => Some(answer),
        Ending::Panicked { record, .. } => Some(Answer::refused(FIXED_CLASH, record)),
    }
}

/// True where an assertion stops the module at this record, with room enough.
fn stops_at(case: &Case, record: u32) -> bool {
    let ending = oracle_wide::assign(case, ENDLESS).ending;
    matches!(ending, Ending::Panicked { record: at, .. } if at == record)
}

/// Accepted tables: 1 and 10 to 13.
fn accepted(case: &Case, ours: &Answer) -> Kind {
    let limit = capacity(case.room().result);
    let by_identity = oracle_ties::assign(case, limit);
    if !is_placed(case, ours) {
        return unlisted("a done result breaks a placement rule");
    }
    if ours.number == FIXED_CLASH {
        return fixed_clash(case, ours, &by_identity);
    }
    if case.has_wide_slot() {
        return wide(ours, &by_identity, &oracle_wide::assign(case, limit));
    }
    let same = by_identity.answer() == Some(ours);
    match (same, by_identity.tie) {
        (false, _) => otherwise(ours, &by_identity),
        (true, _) if ours.number == NO_RECORD => Kind::NoRecord,
        (true, true) => Kind::EqualByIdentity,
        (true, false) => untied(ours, &oracle::assign(case, limit)),
    }
}

/// A done result obeys the placement rules.
fn is_placed(case: &Case, ours: &Answer) -> bool {
    let Answer {
        count,
        total,
        ref words,
        ..
    } = *ours;
    let claim = Claim {
        count,
        total,
        words: words.clone(),
    };
    ours.number != DONE || placed::verdict(case, &claim).number == DONE
}

/// Without a tie the published text itself must agree.
fn untied(ours: &Answer, plain: &Verdict) -> Kind {
    if plain.tie || plain.answer() != Some(ours) {
        return unlisted("the published module differs from the patched one without a tie");
    }
    Kind::Equal
}

fn wide(ours: &Answer, by_identity: &Verdict, by_size: &Verdict) -> Kind {
    if by_size.answer() != Some(ours) {
        return otherwise(ours, by_size);
    }
    match by_identity.answer() == Some(ours) {
        true if ours.number == NO_RECORD => Kind::NoRecord,
        true => Kind::WideButEqual,
        false => Kind::WideSlots,
    }
}

/// What the module's debug assertions say where a piece would be empty.
const EMPTY_PIECE: [&str; 2] = [
    "assertion failed: parent_start <= parent_end",
    "trying to split unit fragment",
];

fn fixed_clash(case: &Case, ours: &Answer, by_identity: &Verdict) -> Kind {
    // 13 is decided before the split that it replaces. Where that split has no record, the module
    // meets the end of its room first: with more room it must stop at the same record.
    if by_identity.answer() == Some(&Answer::refused(NO_RECORD, ours.place)) {
        return clash_ending(case, ours, &oracle_ties::assign(case, ENDLESS));
    }
    clash_ending(case, ours, by_identity)
}

/// A debug assertion must stop the module where the answer is 13.
fn clash_ending(case: &Case, ours: &Answer, by_identity: &Verdict) -> Kind {
    match &by_identity.ending {
        Ending::Panicked { record, why }
            if *record == ours.place && EMPTY_PIECE.contains(&why.as_str()) =>
        {
            Kind::FixedClash(release(case))
        }
        _ => otherwise(ours, by_identity),
    }
}

/// What the release build does with these tables.
fn release(case: &Case) -> Release {
    match oracle_loose::assign(case, ENDLESS).ending {
        Ending::Done(answer) if has_empty_piece(&answer) => Release::EmptyPiece,
        Ending::Done(_) => Release::Returns,
        Ending::Error(_) => Release::Errs,
        Ending::Full(_) => Release::Endless,
        Ending::Panicked { .. } => Release::Panics,
    }
}

fn has_empty_piece(answer: &Answer) -> bool {
    answer.words.chunks_exact(RECORD_WORDS).any(|row| {
        let (first, last) = pair(row[1]);
        first > last
    })
}
