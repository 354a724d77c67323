//! Interleaved rounds, the least of many.

use crate::workloads::finishes;
use oracle_speed::Prepared;
use std::hint::black_box;
use std::time::Instant;
use tables::answer::DONE;
use tables::case::Case;

/// Least times in nanoseconds.
#[derive(Clone, Copy)]
pub struct Times {
    pub records: usize,
    pub module: u64,
    pub ours: Option<Ours>,
}

/// The archive's assigner and its checker.
#[derive(Clone, Copy)]
pub struct Ours {
    pub records: usize,
    pub assign: u64,
    pub check: u64,
}

pub enum Measured {
    Times(Times),
    /// Why there is none.
    Not(&'static str),
}

/// A round with a large case costs less care: rounds stop after this much time.
const ENOUGH_NANOS: u64 = 2_000_000_000;
const LEAST_ROUNDS: u32 = 10;

/// Times a case that both finish.
pub fn measure(case: &Case, rounds: u32) -> Measured {
    if !finishes(case) {
        return Measured::Not("the module does not finish");
    }
    let prepared = Prepared::new(case);
    let mut lent = Lent::new(case);
    let Some(records) = prepared.run(prepared.input()).records() else {
        return Measured::Not("the module does not finish");
    };
    if port::AT_HAND && lent.records(case).is_none() {
        return Measured::Not("ours refuses");
    }
    let mut times = Times {
        records,
        module: u64::MAX,
        ours: None,
    };
    let began = Instant::now();
    for round in 0..rounds {
        times.module = times.module.min(time_module(&prepared));
        if port::AT_HAND {
            times.ours = Some(lent.time(case).least(times.ours));
        }
        if round >= LEAST_ROUNDS && nanos(began) > ENOUGH_NANOS {
            break;
        }
    }
    Measured::Times(times)
}

impl Ours {
    fn least(self, before: Option<Ours>) -> Ours {
        let before = before.unwrap_or(self);
        Ours {
            assign: self.assign.min(before.assign),
            check: self.check.min(before.check),
            ..self
        }
    }
}

fn nanos(from: Instant) -> u64 {
    from.elapsed().as_nanos() as u64
}

/// The clone before and the drop after are outside the clock.
fn time_module(prepared: &Prepared) -> u64 {
    let input = prepared.input();
    let began = Instant::now();
    let output = black_box(prepared.run(black_box(input)));
    let took = nanos(began);
    drop(output);
    took
}

/// The areas that the archive is lent, again and again.
struct Lent {
    result: Vec<u32>,
    work: Vec<u32>,
}

impl Lent {
    fn new(case: &Case) -> Self {
        let room = case.room();
        Lent {
            result: vec![0; room.result],
            work: vec![0; room.work],
        }
    }

    /// How many records a done run has.
    fn records(&mut self, case: &Case) -> Option<usize> {
        let four = port::assign(case, &mut self.result, &mut self.work);
        (four.number == DONE).then_some(four.count as usize)
    }

    /// A call of the assigner, then one of the checker on its result.
    fn time(&mut self, case: &Case) -> Ours {
        let began = Instant::now();
        let four = black_box(port::assign(
            black_box(case),
            &mut self.result,
            &mut self.work,
        ));
        let assign = nanos(began);
        let began = Instant::now();
        black_box(port::check(
            black_box(case),
            &self.result,
            four.count,
            four.total,
        ));
        Ours {
            records: four.count as usize,
            assign,
            check: nanos(began),
        }
    }
}
