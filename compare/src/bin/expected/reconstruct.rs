//! The test program of Reconstruct. A case is the lengths of targets, lows, highs, safe lows, safe highs, weights, parents, masses and
//! scratch, and the total; then the seven lists, in runs. Before the call each mass is 7 and each number of the scratch 5.

use crate::output;
use crate::runs::{targets, words};
use compare::numbers::{each_case, Numbers};
use compare::operations::{reconstruct, SCRATCH_PER_NODE};
use compare::program::Program;
use compare::tree::{Field, Workspace};

/// How many of the first `SCRATCH_PER_NODE` numbers for each node are 0, how many of the later ones are 5, and how many of the first.
fn scratch_counts(scratch: &[i64], nodes: usize) -> [usize; 3] {
    let (first, later) = scratch.split_at(scratch.len().min(SCRATCH_PER_NODE * nodes));
    let count = |list: &[i64], value| list.iter().filter(|&&number| number == value).count();
    [count(first, 0), count(later, 5), count(first, 5)]
}

fn case(workspace: &mut Workspace, numbers: &mut Numbers) -> String {
    let lengths = [600, 600, 600, 600, 600, 600, 1100, 600, 6600].map(|most| numbers.length(most));
    let total = numbers.signed().clamp(0, i64::from(u32::MAX)) as u32;
    let field = Field {
        targets: targets(numbers, lengths[0]),
        lows: words(numbers, lengths[1]),
        highs: words(numbers, lengths[2]),
        safe_lows: words(numbers, lengths[3]),
        safe_highs: words(numbers, lengths[4]),
        weights: words(numbers, lengths[5]),
        parents: words(numbers, lengths[6]),
    };
    let (mut masses, mut scratch) = (vec![7; lengths[7]], vec![5; lengths[8]]);
    let answer = output::repaired(reconstruct(workspace, &field.lists(), total, &mut masses, &mut scratch));
    let counts = output::spaced(scratch_counts(&scratch, lengths[6]));
    format!("{answer}{} scratch{counts}\n", output::words(&masses))
}

pub fn expected(program: &Program) -> String {
    let mut workspace = Workspace::default();
    each_case(&program.input(), |numbers| case(&mut workspace, numbers)).concat()
}
