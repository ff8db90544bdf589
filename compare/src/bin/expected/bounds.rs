//! The test program of bounds from mixing ratios. A case is the lengths of air masses, low ratios, high ratios, lows, highs, safe lows and
//! safe highs, at most 600 each, and a source; then air masses, low ratios, high ratios and as many targets as air masses, in runs. Before
//! the call each entry of the lent lists is 7. After a call that was done the field with these bounds is stepped from nothing by the
//! source, with weights 1 and one root above all cells.

use crate::output;
use crate::runs::{targets, words};
use compare::book::{fresh_book, LentBook};
use compare::numbers::{each_case, Numbers};
use compare::operations::{step, Balance, SCRATCH_PER_NODE};
use compare::program::Program;
use compare::random::flat;
use compare::ratios::bounds;
use compare::tree::{Field, Workspace};

const MOST: usize = 600;

/// The line of the step, from kept masses 0 at scale 0.
fn step_line(workspace: &mut Workspace, source: i32, field: &Field) -> String {
    let balance = Balance { total: 0, scale: 0 };
    let (mut kept, mut scratch) = (vec![0; field.targets.len()], vec![0; SCRATCH_PER_NODE * field.parents.len()]);
    let (mut buffer, length) = fresh_book(balance.total);
    let book = LentBook { buffer: &mut buffer, length };
    let result = step(workspace, balance, &mut kept, source, balance.scale, &field.lists(), &mut scratch, book);
    format!("step {}{}\n", output::repaired(result.map(|stepped| stepped.repair)), output::words(&kept))
}

fn case(workspace: &mut Workspace, numbers: &mut Numbers) -> String {
    let lengths = [MOST; 7].map(|most| numbers.length(most));
    let source = numbers.signed().clamp(i64::from(i32::MIN), i64::from(i32::MAX)) as i32;
    let [air, low_ratios, high_ratios] = [0, 1, 2].map(|list| words(numbers, lengths[list]));
    let targets = targets(numbers, air.len());
    let [mut lows, mut highs, mut safe_lows, mut safe_highs] = [3, 4, 5, 6].map(|list| vec![7; lengths[list]]);
    let result = bounds(&air, &low_ratios, &high_ratios, &mut lows, &mut highs, &mut safe_lows, &mut safe_highs);
    let answer = result.map_or_else(output::refused, |()| "done".to_string());
    let lists = [("lows", &lows), ("highs", &highs), ("safe-lows", &safe_lows), ("safe-highs", &safe_highs)];
    let line = answer + &lists.map(|(name, list)| format!(" {name}{}", output::words(list))).concat() + "\n";
    if result.is_err() {
        return line;
    }
    let (weights, parents) = (vec![1; air.len()], flat(air.len()));
    line + &step_line(workspace, source, &Field { targets, lows, highs, safe_lows, safe_highs, weights, parents })
}

pub fn expected(program: &Program) -> String {
    let mut workspace = Workspace::default();
    each_case(&program.input(), |numbers| case(&mut workspace, numbers)).concat()
}
