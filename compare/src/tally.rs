//! Counts inputs and differences, and for each part of the comparison the refusals by number and the accepted calls by outcome. A part
//! must meet every number and outcome that its calls can give, and what else is looked for.

use crate::operations::Refusal;
use std::time::Instant;

/// After so many differences the program stops.
const ENOUGH: u64 = 20;

/// Refusal numbers go from 1 to this.
const LAST_NUMBER: usize = 21;

pub struct Tally {
    started: Instant,
    inputs: u64,
    differences: u64,
    part: Counts,
    /// What did not occur in the parts that have ended, a line for each.
    missing: Vec<String>,
}

/// The counts of a part.
#[derive(Default)]
struct Counts {
    inputs: u64,
    accepted: u64,
    /// By number; entry 0 is not used.
    refused: [u64; LAST_NUMBER + 1],
    outcomes: [u64; 3],
}

/// The counts other than 0, each after what it counts.
fn listed(counts: &[u64]) -> String {
    let met = counts.iter().enumerate().filter(|(_, &count)| count > 0);
    met.map(|(index, count)| format!(" {index}: {count}")).collect::<Vec<String>>().join(",")
}

impl Default for Tally {
    fn default() -> Tally {
        Tally { started: Instant::now(), inputs: 0, differences: 0, part: Counts::default(), missing: Vec::new() }
    }
}

impl Tally {
    /// Counts one input; if it is not the same on both sides, prints what `describe` says of it.
    pub fn input(&mut self, same: bool, describe: impl FnOnce() -> String) {
        self.inputs += 1;
        self.part.inputs += 1;
        if !same {
            self.difference(describe());
        }
    }

    /// Counts what the second implementation gives, for a call without outcomes.
    pub fn answer<T>(&mut self, result: &Result<T, Refusal>) {
        match result {
            Ok(_) => self.part.accepted += 1,
            Err(refusal) => self.part.refused[refusal.number as usize] += 1,
        }
    }

    /// The same for a call that gives an outcome.
    pub fn outcome(&mut self, result: &Result<u32, Refusal>) {
        self.answer(result);
        if let Ok(outcome) = result {
            self.part.outcomes[*outcome as usize] += 1;
        }
    }

    pub fn difference(&mut self, text: String) {
        self.differences += 1;
        println!("DIFFERENCE {}: {}", self.differences, text);
        if self.differences >= ENOUGH {
            println!("{}", self.line());
            std::process::exit(1);
        }
    }

    /// Ends a part whose calls can give these refusals and outcomes: prints its counts, and notes what did not occur.
    pub fn end_part(&mut self, name: &str, numbers: &[usize], outcomes: &[usize]) {
        let part = std::mem::take(&mut self.part);
        let by_outcome = if outcomes.is_empty() { String::new() } else { format!(", by outcome{}", listed(&part.outcomes)) };
        let refused = listed(&part.refused);
        println!("{name}: {} inputs, {:.1} s so far", part.inputs, self.started.elapsed().as_secs_f64());
        println!("    accepted {}{by_outcome}; refused, by number{refused}", part.accepted);
        if part.accepted == 0 {
            self.missing.push(format!("{name}: no call was accepted"));
        }
        self.look_for(name, "refusal", numbers, &part.refused);
        self.look_for(name, "outcome", outcomes, &part.outcomes);
    }

    /// What can be given must occur, and nothing else may.
    fn look_for(&mut self, name: &str, what: &str, given: &[usize], counts: &[u64]) {
        for (index, &count) in counts.iter().enumerate() {
            if given.contains(&index) {
                self.must_occur(&format!("{name}: {what} {index}"), count);
            } else if count > 0 {
                self.difference(format!("{name}: {what} {index} occurred, which its calls cannot give"));
            }
        }
    }

    /// Notes that something did not occur, if so.
    pub fn must_occur(&mut self, what: &str, count: u64) {
        if count == 0 {
            self.missing.push(format!("{what} did not occur"));
        }
    }

    /// Prints what is missing and the last line. Returns whether nothing differs and nothing is missing.
    pub fn passes(&self) -> bool {
        self.missing.iter().for_each(|line| println!("MISSING {line}"));
        println!("{}", self.line());
        self.differences == 0 && self.missing.is_empty()
    }

    fn line(&self) -> String {
        format!("compare: {} inputs, {} differences, {} refusals or outcomes missing", self.inputs, self.differences, self.missing.len())
    }
}

/// How often things have occurred that must occur.
#[derive(Default)]
pub struct Occurrences {
    counts: Vec<(&'static str, u64)>,
}

impl Occurrences {
    /// Counts something if it occurred; from then on it is looked for in any case.
    pub fn note(&mut self, what: &'static str, occurred: bool) {
        match self.counts.iter_mut().find(|(known, _)| *known == what) {
            Some((_, count)) => *count += u64::from(occurred),
            None => self.counts.push((what, u64::from(occurred))),
        }
    }

    /// Prints each count, after the name of what it belongs to; none may be 0.
    pub fn look_for(&self, tally: &mut Tally, name: &str) {
        for (what, count) in &self.counts {
            println!("{name} {what}: {count}");
            tally.must_occur(&format!("{name} {what}"), *count);
        }
    }
}
