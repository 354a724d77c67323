//! `sample EACH CASES ANSWERS`: writes made-up cases and their answers to two files, and prints how
//! many there are of which. Cases are sorted into cells: whose answer it is, its number, the shape,
//! the options, and whether something was split. Each cell gets up to EACH cases, the first by seed
//! that are small. No option but the strategy is read where tables are refused at entry, so those
//! cells are without options and larger. The seed of a case stands in its name. The same words give
//! the same files.

mod source;

use source::{Source, Use};
use std::collections::BTreeMap;
use std::process::ExitCode;
use tables::answer::Answer;
use tables::case::Case;
use tables::generate::{self, Shape};
use tables::text;

const HOW: &str = "use: sample EACH CASES ANSWERS";
/// How many seeds are looked at.
const SEEDS: u64 = 60_000;
/// Larger cases are left out: a replay reads them one by one.
const MOST_WORDS: usize = 100;
/// One case in so many is lent the most, and has no `room` line.
const LENT_THE_MOST: u64 = 8;

/// A cell of refusals at entry is larger so many times.
const ENTRY_TIMES: u32 = 5;

/// Strategy, partial split, near the end.
type Settings = (u32, bool, bool);
type Cell = (Source, u32, Shape, Option<Settings>, bool);

#[derive(Default)]
struct Sample {
    cells: BTreeMap<Cell, u32>,
    counts: BTreeMap<(u32, Source), u32>,
    cases: String,
    answers: String,
}

fn main() -> ExitCode {
    let words: Vec<String> = std::env::args().skip(1).collect();
    let [each, cases, answers] = &words[..] else {
        eprintln!("{HOW}");
        return ExitCode::FAILURE;
    };
    let Ok(each) = each.parse::<u32>() else {
        eprintln!("{HOW}");
        return ExitCode::FAILURE;
    };
    if !compare::MODULE_AT_HAND {
        println!("sample: skipped, the published module is not at hand");
        return ExitCode::SUCCESS;
    }
    compare::silence_panics();
    match write(each, cases, answers) {
        Ok(()) => ExitCode::SUCCESS,
        Err(why) => {
            eprintln!("sample: {why}");
            ExitCode::FAILURE
        }
    }
}

fn write(each: u32, cases: &str, answers: &str) -> Result<(), String> {
    let sample = sample(each)?;
    let put = |path: &str, text: &str| std::fs::write(path, text).map_err(|e| e.to_string());
    put(cases, &sample.cases)?;
    put(answers, &sample.answers)?;
    print_counts(&sample);
    Ok(())
}

fn sample(each: u32) -> Result<Sample, String> {
    let mut sample = Sample::default();
    for seed in 0..SEEDS {
        let case = made_up(seed);
        if words(&case) > MOST_WORDS {
            continue;
        }
        let Some(answer) = compare::module_alone(&case) else {
            continue;
        };
        match source::of(&compare::classify(&case, &answer)) {
            Use::Keep(source) => sample.add(each, seed, &case, &answer, source),
            Use::LeaveOut => {}
            Use::Stop(why) => return Err(format!("{}: {why}", case.name)),
        }
    }
    Ok(sample)
}

impl Sample {
    fn add(&mut self, each: u32, seed: u64, case: &Case, answer: &Answer, source: Source) {
        let o = case.options;
        let at_entry = source == Source::SecondReading;
        let settings = (!at_entry).then_some((o.strategy, o.partial_split, o.near_end));
        let most = if at_entry { each * ENTRY_TIMES } else { each };
        let split = answer.count as usize > case.interval_count();
        let cell = (
            source,
            answer.number,
            generate::shape(seed),
            settings,
            split,
        );
        let taken = self.cells.entry(cell).or_insert(0);
        if *taken == most {
            return;
        }
        *taken += 1;
        *self.counts.entry((answer.number, source)).or_insert(0) += 1;
        let (title, text) = (source.title(), text::write(case));
        self.cases.push_str(&format!("# {title}\n{text}"));
        self.answers.push_str(&answer.line(&case.name));
        self.answers.push('\n');
    }
}

/// Every other one is damaged.
fn made_up(seed: u64) -> Case {
    let mut case = if seed % 2 == 1 {
        generate::damaged(seed)
    } else {
        generate::any(seed)
    };
    if seed % LENT_THE_MOST == 0 {
        case.room = None;
    }
    case
}

fn words(case: &Case) -> usize {
    let tables = [
        &case.classes,
        &case.registers,
        &case.fragments,
        &case.intervals,
    ];
    let rest = [&case.mentions, &case.safepoints];
    tables.iter().chain(&rest).map(|table| table.len()).sum()
}

/// A table of answers by whose they are.
fn print_counts(sample: &Sample) {
    let titles: Vec<&str> = Source::ALL.iter().map(|source| source.title()).collect();
    println!("| answer | {} |", titles.join(" | "));
    println!("|---{}|", "|---".repeat(titles.len()));
    let numbers: std::collections::BTreeSet<u32> =
        sample.counts.keys().map(|(number, _)| *number).collect();
    for number in numbers {
        let count = |source: &Source| sample.counts.get(&(number, *source));
        let shown = |source: &Source| count(source).map_or(String::new(), u32::to_string);
        let row: Vec<String> = Source::ALL.iter().map(shown).collect();
        println!("| {number} | {} |", row.join(" | "));
    }
    let total: u32 = sample.counts.values().sum();
    println!("{total} cases");
}
