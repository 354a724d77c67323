//! What was measured, in lines: a row for each workload, then size classes, growth and the bar.

use crate::clock::{Ours, Times};
use crate::workloads::Workload;

/// The bar holds for workloads of at least so many intervals: ours takes no longer than the module.
const BAR_FROM: usize = 50;
/// The least interval count of each size class of a file's cases.
const CLASSES: [usize; 5] = [0, BAR_FROM, 100, 200, 400];
/// Growth is told from the first of these interval counts to the second.
const GROWTH: (usize, usize) = (100, 4_000);

/// A workload that was timed.
pub struct Row {
    name: String,
    series: Option<&'static str>,
    from_file: bool,
    intervals: usize,
    times: Times,
}

fn micros(nanos: u64) -> f64 {
    nanos as f64 / 1_000.0
}

fn ratio(a: u64, b: u64) -> f64 {
    a as f64 / b as f64
}

fn mark(intervals: usize, ratio: f64) -> &'static str {
    match (intervals >= BAR_FROM, ratio <= 1.0) {
        (false, _) => "",
        (true, true) => "held",
        (true, false) => "MISSED",
    }
}

pub fn print_head() {
    println!(
        "{:52} {:>9} {:>8} {:>11} {:>11} {:>7} {:>11} {:>8}  bar",
        "workload", "intervals", "records", "module us", "ours us", "ratio", "check us", "of ours"
    );
}

impl Row {
    pub fn new(workload: &Workload, times: Times) -> Self {
        Row {
            name: workload.name().to_string(),
            series: workload.series,
            from_file: workload.from_file,
            intervals: workload.case.interval_count(),
            times,
        }
    }

    fn ratio(&self) -> Option<f64> {
        self.times
            .ours
            .map(|ours| ratio(ours.assign, self.times.module))
    }

    pub fn print(&self) {
        let Times {
            records, module, ..
        } = self.times;
        let module_us = micros(module);
        let start = format!(
            "{:52} {:>9} {records:>8} {module_us:>11.2}",
            self.name, self.intervals
        );
        let Some(Ours { assign, check, .. }) = self.times.ours else {
            println!("{start}");
            return;
        };
        let of_module = ratio(assign, module);
        println!(
            "{start} {:>11.2} {of_module:>7.3} {:>11.2} {:>8.3}  {}",
            micros(assign),
            micros(check),
            ratio(check, assign),
            mark(self.intervals, of_module)
        );
    }
}

/// The cases of a file by size: the sums of their times, and the worst ratio.
pub fn print_classes(rows: &[Row]) {
    let of_file: Vec<&Row> = rows.iter().filter(|row| row.from_file).collect();
    if of_file.is_empty() {
        return;
    }
    println!("\ncases of the file by size, times summed:");
    for (i, least) in CLASSES.iter().enumerate() {
        let next = CLASSES.get(i + 1).copied();
        let inside =
            |row: &&&Row| row.intervals >= *least && next.is_none_or(|next| row.intervals < next);
        let class: Vec<&Row> = of_file.iter().filter(inside).copied().collect();
        let name = match next {
            Some(next) => format!("{least} to {} intervals", next - 1),
            None => format!("{least} intervals and more"),
        };
        print_class(&name, *least, &class);
    }
}

fn print_class(name: &str, least: usize, class: &[&Row]) {
    let sum = |time: fn(&Ours) -> u64| {
        class
            .iter()
            .filter_map(|row| row.times.ours.as_ref().map(time))
            .sum::<u64>()
    };
    let module: u64 = class.iter().map(|row| row.times.module).sum();
    let (assign, check) = (sum(|ours| ours.assign), sum(|ours| ours.check));
    let worst = class
        .iter()
        .filter_map(|row| row.ratio())
        .fold(0.0, f64::max);
    if class.is_empty() || assign == 0 {
        println!("{name:24} {:>4} cases", class.len());
        return;
    }
    println!(
        "{name:24} {:>4} cases, ratio {:.3}, worst {worst:.3}, check {:.3} of ours  {}",
        class.len(),
        ratio(assign, module),
        ratio(check, assign),
        mark(least, worst)
    );
}

fn per_record(nanos: u64, records: usize) -> f64 {
    nanos as f64 / records.max(1) as f64
}

/// The time for a record as programs grow.
pub fn print_growth(rows: &[Row]) {
    println!("\nnanoseconds per record as programs grow:");
    for row in rows {
        let Some(series) = row.series else { continue };
        let module = per_record(row.times.module, row.times.records);
        let ours = match row.times.ours {
            Some(ours) => format!(", ours {:8.1}", per_record(ours.assign, ours.records)),
            None => String::new(),
        };
        println!(
            "{series}, {:>5} intervals: module {module:8.1}{ours}",
            row.intervals
        );
    }
    for row in rows.iter().filter(|row| row.intervals == GROWTH.1) {
        let small = rows
            .iter()
            .find(|small| small.series == row.series && small.intervals == GROWTH.0);
        if let (Some(series), Some(small)) = (row.series, small) {
            print_grown(series, small.times, row.times);
        }
    }
}

fn print_grown(series: &str, small: Times, large: Times) {
    let module = per_record(large.module, large.records) / per_record(small.module, small.records);
    let ours = |t: Times| t.ours.map(|ours| per_record(ours.assign, ours.records));
    let (from, to) = GROWTH;
    print!("{series}, from {from} to {to} intervals: module times {module:.2}");
    match (ours(large), ours(small)) {
        (Some(large), Some(small)) => println!(", ours times {:.2}", large / small),
        _ => println!(),
    }
}

/// How many workloads of 50 intervals and more are within the bar.
pub fn print_bar(rows: &[Row]) {
    let ratios: Vec<f64> = rows
        .iter()
        .filter(|row| row.intervals >= BAR_FROM)
        .filter_map(Row::ratio)
        .collect();
    if ratios.is_empty() {
        return;
    }
    let held = ratios.iter().filter(|ratio| **ratio <= 1.0).count();
    let worst = ratios.iter().copied().fold(0.0, f64::max);
    println!(
        "\nthe bar, {BAR_FROM} intervals and more, ratio at most 1: held by {held} of {}, worst ratio {worst:.3}",
        ratios.len()
    );
}
