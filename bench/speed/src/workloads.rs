//! What is timed: programs of growing size, long intervals, and the cases of a file.

use std::path::Path;
use tables::answer::Ending;
use tables::case::Case;
use tables::generate::{self, Program};
use tables::text;
use tables::words::MAX_RECORDS;

pub struct Workload {
    pub case: Case,
    /// The row of growing sizes that it belongs to.
    pub series: Option<&'static str>,
    pub from_file: bool,
}

const SIZES: [u32; 9] = [10, 50, 100, 200, 400, 800, 1_600, 3_200, 4_000];
const LONG_SIZES: [u32; 3] = [20, 60, 90];
const FEW: &str = "program, few registers";
const MANY: &str = "program, many registers";
const NAME_WIDTH: usize = 52;
/// How many classes the timed build of the module has.
const MODULE_CLASSES: usize = 5;
/// How many seeds are tried for a case that the module finishes.
const TRIES: u64 = 200;

impl Workload {
    /// The name, cut to the table's column from the left.
    pub fn name(&self) -> &str {
        let name = self.case.name.as_str();
        &name[name.len().saturating_sub(NAME_WIDTH)..]
    }
}

pub fn all(file: Option<&Path>) -> Result<Vec<Workload>, String> {
    let mut all = Vec::new();
    all.extend(SIZES.iter().filter_map(|size| few_registers(*size)));
    all.extend(SIZES.iter().filter_map(|size| many_registers(*size)));
    all.extend(LONG_SIZES.iter().filter_map(|size| long(*size)));
    if let Some(path) = file {
        all.extend(from_file(path)?);
    }
    Ok(all)
}

/// True where the checked build of the module, which cannot run for ever, returns a result, and
/// the timed build has as many classes.
pub fn finishes(case: &Case) -> bool {
    case.classes.len() <= MODULE_CLASSES
        && matches!(oracle::assign(case, MAX_RECORDS).ending, Ending::Done(_))
}

fn first_that_finishes(make: impl Fn(u64) -> Case) -> Option<Case> {
    (0..TRIES).map(make).find(finishes)
}

/// Registers are scarce, so that much is split and spilled.
fn few_registers(values: u32) -> Option<Workload> {
    let program = Program {
        values,
        classes: 2,
        registers: 6,
        reach: 30,
        call_percent: 5,
        reference_percent: 10,
    };
    let mut case = first_that_finishes(|seed| generate::program(seed, program))?;
    case.name = format!("{FEW}, {values}");
    Some(Workload {
        case,
        series: Some(FEW),
        from_file: false,
    })
}

/// Registers are plenty, so that little is spilled.
fn many_registers(values: u32) -> Option<Workload> {
    let program = Program {
        values,
        classes: 3,
        registers: 16,
        reach: 12,
        call_percent: 3,
        reference_percent: 0,
    };
    let mut case = first_that_finishes(|seed| generate::program(seed, program))?;
    case.name = format!("{MANY}, {values}");
    Some(Workload {
        case,
        series: Some(MANY),
        from_file: false,
    })
}

fn long(values: u32) -> Option<Workload> {
    let mut case = first_that_finishes(|seed| generate::long(seed, values))?;
    case.name = format!("long intervals, {values}");
    Some(Workload {
        case,
        series: None,
        from_file: false,
    })
}

fn from_file(path: &Path) -> Result<Vec<Workload>, String> {
    let cases = std::fs::read_to_string(path).map_err(|e| format!("{}: {e}", path.display()))?;
    let keep = |case| Workload {
        case,
        series: None,
        from_file: true,
    };
    let read = text::read(&cases).into_iter();
    let plain = read.map(|case| case.map(keep));
    plain
        .collect::<Result<_, _>>()
        .map_err(|bad| format!("{} line {}: {}", bad.name, bad.line, bad.what))
}
