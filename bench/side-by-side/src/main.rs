//! `side-by-side [--count N] [--from SEED] [--file CASES] [--smallest]`: the port and the published
//! module on the same tables, made up or from a file. Counts by kind; fails where a difference is
//! not listed. Without the archive the module's builds are compared with each other.

use compare::{Kind, Tally};
use std::process::ExitCode;
use tables::answer::{Answer, DONE};
use tables::case::{Case, Claim};
use tables::{generate, text};

const HOW: &str = "use: side-by-side [--count N] [--from SEED] [--file CASES] [--smallest]";
/// The count of `./test`; a full run is a million.
const USUAL_COUNT: u64 = 20_000;

/// How many damaged copies of a done result the checker is asked about.
const DAMAGED_CLAIMS: u64 = 2;

struct Wanted {
    count: u64,
    from: u64,
    file: Option<String>,
    smallest: bool,
}

fn main() -> ExitCode {
    let Some(wanted) = parse(std::env::args().skip(1)) else {
        eprintln!("{HOW}");
        return ExitCode::FAILURE;
    };
    if !compare::MODULE_AT_HAND {
        println!("side-by-side: skipped, the published module is not at hand");
        return ExitCode::SUCCESS;
    }
    compare::silence_panics();
    match run(&wanted) {
        Ok(tally) => tally.report(wanted.smallest, &what(&wanted)),
        Err(why) => {
            eprintln!("side-by-side: {why}");
            ExitCode::FAILURE
        }
    }
}

/// What is compared.
fn what(wanted: &Wanted) -> String {
    let cases = match &wanted.file {
        Some(path) => path.clone(),
        None => format!("{} made-up tables", wanted.count),
    };
    if port::AT_HAND {
        format!("{cases}, with their claims, module and archive")
    } else {
        format!("{cases}, the module's builds alone (no archive: run `./archive` at the root)")
    }
}

fn parse(mut words: impl Iterator<Item = String>) -> Option<Wanted> {
    let mut wanted = Wanted {
        count: USUAL_COUNT,
        from: 0,
        file: None,
        smallest: false,
    };
    while let Some(word) = words.next() {
        match word.as_str() {
            "--count" => wanted.count = words.next()?.parse().ok()?,
            "--from" => wanted.from = words.next()?.parse().ok()?,
            "--file" => wanted.file = Some(words.next()?),
            "--smallest" => wanted.smallest = true,
            _ => return None,
        }
    }
    Some(wanted)
}

fn run(wanted: &Wanted) -> Result<Tally, String> {
    let mut tally = Tally::default();
    let Some(path) = &wanted.file else {
        for seed in wanted.from..wanted.from + wanted.count {
            side_by_side(&made_up(seed), &mut tally);
        }
        return Ok(tally);
    };
    let cases = std::fs::read_to_string(path).map_err(|e| format!("{path}: {e}"))?;
    for case in text::read(&cases) {
        let case = case.map_err(|bad| format!("{} line {}: {}", bad.name, bad.line, bad.what))?;
        side_by_side(&case, &mut tally);
    }
    Ok(tally)
}

/// One in ten is damaged, so that the refusals at entry are compared too.
fn made_up(seed: u64) -> Case {
    if seed % 10 == 9 {
        generate::damaged(seed)
    } else {
        generate::any(seed)
    }
}

/// One case through both, and where it is done, its result through the checker.
fn side_by_side(case: &Case, tally: &mut Tally) {
    if !port::AT_HAND {
        if let Some(answer) = compare::module_alone(case) {
            tally.add(compare::classify(case, &answer), case, &answer);
        }
        return;
    }
    match port::answer(case) {
        Ok(answer) => {
            tally.add(compare::classify(case, &answer), case, &answer);
            if answer.number == DONE {
                check_claims(case, &answer, tally);
            }
        }
        Err(why) => tally.add(Kind::Unlisted(why), case, &Answer::refused(0, 0)),
    }
}

/// The result itself, and damaged copies of it: the checker answers as the second reading does.
fn check_claims(case: &Case, answer: &Answer, tally: &mut Tally) {
    let Answer {
        count,
        total,
        ref words,
        ..
    } = *answer;
    let whole = Claim {
        count,
        total,
        words: words.clone(),
    };
    let seed = u64::from(count) << 32 | u64::from(case.instructions);
    let damaged = (0..DAMAGED_CLAIMS).map(|i| generate::damaged_claim(seed + i, &whole));
    for claim in std::iter::once(whole.clone()).chain(damaged) {
        let verdict = port::checked(case, &claim);
        let kind = compare::classify_claim(case, &claim, &verdict);
        let with_claim = Case {
            claim: Some(claim),
            ..case.clone()
        };
        tally.add(kind, &with_claim, &verdict);
    }
}
