//! Cases as text, many to a file.
//!
//! ```text
//! case NAME
//! opts STRATEGY PARTIAL NEAR_END
//! insts N
//! classes W W ..      (regs, frags, intervals, mentions, safepoints alike)
//! room RESULT_WORDS WORK_WORDS
//! claim COUNT TOTAL W W ..
//! end
//! ```

use crate::case::{Case, Claim, Options, Room};
use std::fmt::Write;

/// A case that cannot be read: its name, the line, and what is wrong there.
#[derive(Clone, Debug, PartialEq, Eq)]
pub struct Unreadable {
    pub name: String,
    pub line: usize,
    pub what: String,
}

type Read<T> = Result<T, String>;

/// Reads every case of a text. A case that cannot be read does not stop those after it.
pub fn read(text: &str) -> Vec<Result<Case, Unreadable>> {
    let mut reader = Reader {
        open: None,
        found: Vec::new(),
    };
    for (i, line) in text.lines().enumerate() {
        let content = line.split('#').next().unwrap_or("");
        reader.line(i + 1, content);
    }
    reader.close(text.lines().count());
    reader.found
}

/// A case being read; `bad` keeps its first fault.
struct Open {
    case: Case,
    bad: Option<Unreadable>,
}

struct Reader {
    open: Option<Open>,
    found: Vec<Result<Case, Unreadable>>,
}

impl Reader {
    fn line(&mut self, number: usize, content: &str) {
        let fields: Vec<&str> = content.split_whitespace().collect();
        match fields.split_first() {
            None => {}
            Some((&"case", rest)) => self.begin(number, rest),
            Some((&"end", [])) => self.end(number),
            Some((word, rest)) => self.field(number, word, rest),
        }
    }

    fn begin(&mut self, number: usize, rest: &[&str]) {
        self.close(number);
        let name = rest.first().copied().unwrap_or("?");
        self.open = Some(Open {
            case: Case::new(name),
            bad: None,
        });
        if rest.len() != 1 {
            self.fault(number, "a case has one name".to_string());
        }
    }

    fn end(&mut self, number: usize) {
        match self.open.take() {
            None => self.stray(number, "end without a case"),
            Some(Open { bad: Some(bad), .. }) => self.found.push(Err(bad)),
            Some(Open { case, bad: None }) => self.found.push(Ok(case)),
        }
    }

    /// A new case, or the end of the text, while a case is open: its `end` is missing.
    fn close(&mut self, number: usize) {
        if self.open.is_some() {
            self.fault(number, "missing end".to_string());
            self.end(number);
        }
    }

    fn field(&mut self, number: usize, word: &str, rest: &[&str]) {
        let Some(open) = &mut self.open else {
            return self.stray(number, "a line outside a case");
        };
        if let Err(what) = set(&mut open.case, word, rest) {
            self.fault(number, what);
        }
    }

    fn fault(&mut self, line: usize, what: String) {
        if let Some(Open {
            case,
            bad: bad @ None,
        }) = &mut self.open
        {
            *bad = Some(Unreadable {
                name: case.name.clone(),
                line,
                what,
            });
        }
    }

    fn stray(&mut self, line: usize, what: &str) {
        self.found.push(Err(Unreadable {
            name: "?".to_string(),
            line,
            what: what.to_string(),
        }));
    }
}

fn set(case: &mut Case, word: &str, rest: &[&str]) -> Read<()> {
    match word {
        "opts" => case.options = options(rest)?,
        "insts" => case.instructions = only(rest)?,
        "classes" => case.classes = table(rest)?,
        "regs" => case.registers = table(rest)?,
        "frags" => case.fragments = table(rest)?,
        "intervals" => case.intervals = table(rest)?,
        "mentions" => case.mentions = table(rest)?,
        "safepoints" => case.safepoints = table(rest)?,
        "room" => case.room = Some(room(rest)?),
        "claim" => case.claim = Some(claim(rest)?),
        _ => return Err(format!("unknown word {word}")),
    }
    Ok(())
}

fn decimal(field: &str) -> Read<u32> {
    let plain = !field.is_empty() && field.bytes().all(|b| b.is_ascii_digit());
    let value = if plain { field.parse().ok() } else { None };
    value.ok_or_else(|| format!("{field} is no number below 2^32"))
}

fn flag(field: &str) -> Read<bool> {
    match field {
        "0" => Ok(false),
        "1" => Ok(true),
        _ => Err(format!("{field} is no flag (0 or 1)")),
    }
}

fn hex(field: &str) -> Read<u32> {
    let plain = (1..=8).contains(&field.len()) && field.bytes().all(|b| b.is_ascii_hexdigit());
    let value = if plain {
        u32::from_str_radix(field, 16).ok()
    } else {
        None
    };
    value.ok_or_else(|| format!("{field} is no hex word of 1 to 8 digits"))
}

fn only(rest: &[&str]) -> Read<u32> {
    match rest {
        [field] => decimal(field),
        _ => Err("one number is wanted".to_string()),
    }
}

fn options(rest: &[&str]) -> Read<Options> {
    let [strategy, partial, near_end] = rest else {
        return Err("opts wants a strategy and two flags".to_string());
    };
    Ok(Options {
        strategy: decimal(strategy)?,
        partial_split: flag(partial)?,
        near_end: flag(near_end)?,
    })
}

/// A table may be longer than its limit: the answer 3 is for the port to give.
fn table(rest: &[&str]) -> Read<Vec<u32>> {
    rest.iter().map(|field| hex(field)).collect()
}

fn room(rest: &[&str]) -> Read<Room> {
    let [result, work] = rest else {
        return Err("room wants two numbers".to_string());
    };
    Ok(Room {
        result: decimal(result)? as usize,
        work: decimal(work)? as usize,
    })
}

fn claim(rest: &[&str]) -> Read<Claim> {
    let [count, total, words @ ..] = rest else {
        return Err("claim wants a count, a total and words".to_string());
    };
    let words: Read<Vec<u32>> = words.iter().map(|field| hex(field)).collect();
    Ok(Claim {
        count: decimal(count)?,
        total: decimal(total)?,
        words: words?,
    })
}

/// Writes a case as text.
pub fn write(case: &Case) -> String {
    let mut text = format!("case {}\n", case.name);
    let o = case.options;
    let (partial, near_end) = (u32::from(o.partial_split), u32::from(o.near_end));
    let _ = writeln!(text, "opts {} {partial} {near_end}", o.strategy);
    let _ = writeln!(text, "insts {}", case.instructions);
    write_table(&mut text, "classes", &case.classes);
    write_table(&mut text, "regs", &case.registers);
    write_table(&mut text, "frags", &case.fragments);
    write_table(&mut text, "intervals", &case.intervals);
    write_table(&mut text, "mentions", &case.mentions);
    write_table(&mut text, "safepoints", &case.safepoints);
    if let Some(room) = case.room {
        let _ = writeln!(text, "room {} {}", room.result, room.work);
    }
    if let Some(claim) = &case.claim {
        write_table(
            &mut text,
            &format!("claim {} {}", claim.count, claim.total),
            &claim.words,
        );
    }
    text.push_str("end\n");
    text
}

fn write_table(text: &mut String, head: &str, words: &[u32]) {
    text.push_str(head);
    for word in words {
        let _ = write!(text, " {word:x}");
    }
    text.push('\n');
}

#[cfg(test)]
mod tests {
    use super::*;

    const ONE: &str = "# a comment\ncase a\nopts 7 1 0\n\ninsts 5\nclasses 28080 # one class\nregs 0 0\nfrags\nintervals 0 10001 1 0\nmentions 1\nsafepoints\nroom 3 272\nend\n";

    #[test]
    fn reads_back_what_it_writes() {
        let case = read(ONE).remove(0).unwrap();
        assert_eq!(case.classes, [0x28080]);
        assert_eq!(
            case.options,
            Options {
                strategy: 7,
                partial_split: true,
                near_end: false
            }
        );
        assert_eq!(read(&write(&case)), [Ok(case)]);
    }

    #[test]
    fn a_bad_case_does_not_stop_the_next() {
        let text = format!("case b\nclasses 123456789\nend\ncase c\ninsts 1\n{ONE}");
        let found = read(&text);
        assert_eq!(found.len(), 3);
        assert_eq!(found[0].as_ref().unwrap_err().line, 2);
        assert_eq!(found[1].as_ref().unwrap_err().what, "missing end");
        assert!(found[2].is_ok());
    }
}
