//! The test program of Split. A case is the lengths of targets, lows, highs, weights and masses, at most 600 each, and the total; then the
//! four lists. Before the call each mass is 7. An accepted call tells d.

use crate::output;
use compare::numbers::{each_case, Numbers};
use compare::operations::split;
use compare::program::Program;

const MOST: usize = 600;
/// The sum printed stops here.
const MOST_SUM: i128 = 1 << 31;

/// What masses have above 0, added up.
fn sum_above(masses: &[i64]) -> u64 {
    let sum: i128 = masses.iter().map(|&mass| i128::from(mass.max(0))).sum();
    sum.min(MOST_SUM) as u64
}

fn case(numbers: &mut Numbers) -> String {
    let lengths = [0; 5].map(|_| numbers.length(MOST));
    let total = numbers.signed();
    let mut list = |length: usize| (0..length).map(|_| numbers.signed()).collect::<Vec<i64>>();
    let (targets, lows, highs, weights) = (list(lengths[0]), list(lengths[1]), list(lengths[2]), list(lengths[3]));
    let mut masses = vec![7; lengths[4]];
    let answer = match split(&targets, &lows, &highs, &weights, total, &mut masses) {
        Ok(deficit) => format!("done {deficit}"),
        Err(refusal) => output::refused(refusal),
    };
    format!("{answer}{}\n", output::masses(&masses, sum_above(&masses)))
}

pub fn expected(program: &Program) -> String {
    each_case(&program.input(), case).concat()
}
