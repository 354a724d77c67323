//! Counts by kind, with the smallest case of each.

use crate::kind::Kind;
use std::collections::BTreeMap;
use std::process::ExitCode;
use tables::answer::Answer;
use tables::case::Case;
use tables::text;

struct Row {
    count: u64,
    smallest: Case,
    answer: Answer,
}

#[derive(Default)]
pub struct Tally {
    /// By kind and answer.
    rows: BTreeMap<(Kind, u32), Row>,
}

/// How much there is to read in a case.
fn size(case: &Case) -> usize {
    case.classes.len()
        + case.registers.len()
        + case.fragments.len()
        + case.intervals.len()
        + case.mentions.len()
        + case.safepoints.len()
}

impl Tally {
    pub fn add(&mut self, kind: Kind, case: &Case, answer: &Answer) {
        let fresh = || Row {
            count: 0,
            smallest: case.clone(),
            answer: answer.clone(),
        };
        let row = self.rows.entry((kind, answer.number)).or_insert_with(fresh);
        row.count += 1;
        if size(case) < size(&row.smallest) {
            row.smallest = case.clone();
            row.answer = answer.clone();
        }
    }

    /// Prints the counts, the smallest cases if asked for, and a last line that says what was done.
    /// It fails, with the cases, where a difference is not one that docs/DIFFERENCES.md lists.
    pub fn report(&self, smallest: bool, what: &str) -> ExitCode {
        self.print();
        if smallest {
            self.print_cases(|_| true);
        }
        if self.rows.keys().any(|(kind, _)| kind.is_unlisted()) {
            self.print_cases(Kind::is_unlisted);
            return ExitCode::FAILURE;
        }
        let count: u64 = self.rows.values().map(|row| row.count).sum();
        println!("{what}: {count} compared, no difference that is not listed");
        ExitCode::SUCCESS
    }

    /// Counts by answer, and by kind and answer.
    fn print(&self) {
        let mut numbers: BTreeMap<u32, u64> = BTreeMap::new();
        for ((_, number), row) in &self.rows {
            *numbers.entry(*number).or_insert(0) += row.count;
        }
        let by_number: Vec<String> = numbers.iter().map(|(n, c)| format!("{n}: {c}")).collect();
        println!("answers  {}", by_number.join(", "));
        for ((kind, number), row) in &self.rows {
            let name = &row.smallest.name;
            println!(
                "{:9}  {number:2}  {} (smallest: {name})",
                row.count,
                kind.title()
            );
        }
    }

    /// Cases of the wanted kinds as text, the smallest of each kind and answer.
    fn print_cases(&self, wanted: impl Fn(&Kind) -> bool) {
        for ((kind, _), row) in self.rows.iter().filter(|((kind, _), _)| wanted(kind)) {
            println!("# {}", kind.title());
            println!("# {}", row.answer.line(&row.smallest.name));
            println!("{}", text::write(&row.smallest));
        }
    }
}
