//! `recorded CASES ANSWERS [--smallest]`: compares recorded answers with the published module, case
//! by case, and counts by kind; recorded answers to claims with the placement rules; and, where the
//! archive is there, both with the port. It fails where a difference is not listed.

use compare::{Kind, Tally};
use std::collections::HashMap;
use std::process::ExitCode;
use tables::answer::Answer;
use tables::case::Case;
use tables::text;

const HOW: &str = "use: recorded CASES ANSWERS [--smallest]";

fn main() -> ExitCode {
    let words: Vec<String> = std::env::args().skip(1).collect();
    let show = words.iter().any(|word| word == "--smallest");
    let files: Vec<&String> = words
        .iter()
        .filter(|word| !word.starts_with("--"))
        .collect();
    let [cases, answers] = files[..] else {
        eprintln!("{HOW}");
        return ExitCode::FAILURE;
    };
    match run(cases, answers) {
        Ok(tally) => tally.report(show, &format!("{answers}, {}", with_what())),
        Err(why) => {
            eprintln!("recorded: {why}");
            ExitCode::FAILURE
        }
    }
}

/// What recorded answers are compared with.
fn with_what() -> &'static str {
    match (compare::MODULE_AT_HAND, port::AT_HAND) {
        (true, true) => "with the module and the archive",
        (true, false) => "with the module, and no archive",
        (false, true) => "with the archive (the module is not at hand: skipped)",
        (false, false) => "with the second reading (no module and no archive: skipped)",
    }
}

fn run(cases: &str, answers: &str) -> Result<Tally, String> {
    let read = |path: &str| std::fs::read_to_string(path).map_err(|e| format!("{path}: {e}"));
    let recorded = parse_answers(&read(answers)?)?;
    compare::silence_panics();
    let mut tally = Tally::default();
    let found = text::read(&read(cases)?);
    if found.len() != recorded.len() {
        let (cases, answers) = (found.len(), recorded.len());
        return Err(format!("{cases} cases, but {answers} answers"));
    }
    for case in found {
        let case = case.map_err(|bad| format!("{} line {}: {}", bad.name, bad.line, bad.what))?;
        let Some(answer) = recorded.get(&case.name) else {
            return Err(format!("no answer for {}", case.name));
        };
        tally.add(kind(&case, answer), &case, answer);
    }
    Ok(tally)
}

/// The port must give the recorded answer. Then a claim is compared with the second reading of the
/// placement rules, and anything else with the module.
fn kind(case: &Case, recorded: &Answer) -> Kind {
    if port::AT_HAND {
        match ours(case) {
            Ok(answer) if answer == *recorded => {}
            Ok(answer) => return Kind::Unlisted(format!("the port answers {answer:?}")),
            Err(why) => return Kind::Unlisted(why),
        }
    }
    match &case.claim {
        Some(claim) => compare::classify_claim(case, claim, recorded),
        None if compare::MODULE_AT_HAND => compare::classify(case, recorded),
        None => compare::classify_entry(case, recorded),
    }
}

fn ours(case: &Case) -> Result<Answer, String> {
    match &case.claim {
        Some(claim) => Ok(port::checked(case, claim)),
        None => port::answer(case),
    }
}

fn parse_answers(text: &str) -> Result<HashMap<String, Answer>, String> {
    let parse = |line: &str| Answer::parse(line).ok_or_else(|| format!("no answer: {line}"));
    text.lines().map(parse).collect()
}
