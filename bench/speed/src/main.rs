//! `speed [--rounds N] [--file CASES]`: the archive and the published module in one process on the
//! same inputs, both built for release. Rounds are interleaved and the least time of each counts.
//! The module's input is cloned outside the clock; the archive's entry checks are inside.

mod clock;
mod report;
mod workloads;

use clock::{measure, Measured};
use report::Row;
use std::path::PathBuf;
use std::process::ExitCode;

const HOW: &str = "use: speed [--rounds N] [--file CASES]";
const USUAL_ROUNDS: u32 = 200;
/// The folder of recorded workloads: the one that this variable names, else one beside the
/// repository.
const VARIABLE: &str = "WORKLOADS";
const BESIDE_THE_REPOSITORY: &str =
    concat!(env!("CARGO_MANIFEST_DIR"), "/../../../shared/workloads");
const REAL_CODE: &str = "open.txt";

struct Wanted {
    rounds: u32,
    file: Option<PathBuf>,
}

fn main() -> ExitCode {
    let Some(wanted) = parse(std::env::args().skip(1)) else {
        eprintln!("{HOW}");
        return ExitCode::FAILURE;
    };
    if !compare::MODULE_AT_HAND {
        println!("speed: skipped, the published module is not at hand");
        return ExitCode::SUCCESS;
    }
    compare::silence_panics();
    caution(&wanted);
    match run(&wanted) {
        Ok(()) => ExitCode::SUCCESS,
        Err(why) => {
            eprintln!("speed: {why}");
            ExitCode::FAILURE
        }
    }
}

fn parse(mut words: impl Iterator<Item = String>) -> Option<Wanted> {
    let mut wanted = Wanted {
        rounds: USUAL_ROUNDS,
        file: recorded_workloads(),
    };
    while let Some(word) = words.next() {
        match word.as_str() {
            "--rounds" => wanted.rounds = words.next()?.parse().ok().filter(|n| *n > 0)?,
            "--file" => wanted.file = Some(words.next()?.into()),
            _ => return None,
        }
    }
    Some(wanted)
}

/// The cases made from real code, where they are at hand.
fn recorded_workloads() -> Option<PathBuf> {
    let folder = std::env::var_os(VARIABLE).unwrap_or_else(|| BESIDE_THE_REPOSITORY.into());
    Some(PathBuf::from(folder).join(REAL_CODE)).filter(|file| file.is_file())
}

/// What makes the numbers below worth less.
fn caution(wanted: &Wanted) {
    if !oracle_speed::DEBIAN_CRATES {
        println!("# the module runs on stand-ins for smallvec, log and rustc-hash: install Debian's librust-smallvec-dev, librust-log-dev and librust-rustc-hash-dev for times that count");
    }
    if !port::AT_HAND {
        println!("# no archive (run `./archive` at the root): only the module is timed");
    }
    if wanted.file.is_none() {
        println!("# the cases from real code are not at hand (name their folder in {VARIABLE}): only made-up programs are timed");
    }
}

fn run(wanted: &Wanted) -> Result<(), String> {
    report::print_head();
    let mut rows = Vec::new();
    for workload in workloads::all(wanted.file.as_deref())? {
        match measure(&workload.case, wanted.rounds) {
            Measured::Times(times) => {
                let row = Row::new(&workload, times);
                row.print();
                rows.push(row);
            }
            Measured::Not(why) => println!("{:52} not timed: {why}", workload.name()),
        }
    }
    report::print_classes(&rows);
    report::print_growth(&rows);
    report::print_bar(&rows);
    Ok(())
}
