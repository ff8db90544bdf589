//! The test program of Open and Step: four openings, a line for each; from the last, of 8 kept cells, 12,000 steps whose fields are drawn
//! by a generator, some with a fault, and a line after every 500.

use crate::draws::{draw_field, Draws, CELLS};
use crate::output;
use compare::book::{fresh_book, LentBook};
use compare::operations::{open, step, Balance, Refusal, SCRATCH_PER_NODE};
use compare::program::Program;
use compare::tree::{sum, Workspace};

/// The kept field of a run.
struct Run {
    kept: [u32; CELLS],
    balance: Balance,
    accepted: u32,
    refused: u32,
    /// The calls refused with 17.
    refused_for_scale: u32,
    /// What the accepted steps have shared out.
    shared: u64,
}

/// Draws a field and a source, and a fault or none: another total, crossed bounds, a node that is its own parent, a source that goes too
/// far down or up, a scale out of range or another one, another scale of the record, or both out of range. Then steps.
fn one_step(workspace: &mut Workspace, draws: &mut Draws, run: &mut Run) {
    let mut field = draw_field(draws, &run.kept);
    let (mut balance, mut source, mut scale) = (run.balance, draws.below(3001) as i32 - 1500, run.balance.scale);
    match draws.below(14) {
        1 => balance.total += 1,
        2 => (field.lows[3], field.highs[3]) = (field.highs[3], field.lows[3]),
        3 => field.parents[0] = 0,
        4 => source = i32::MIN,
        5 => source = 2_000_000,
        6 => scale = 31,
        7 => scale += 1,
        8 => balance.scale += 1,
        9 => (balance.scale, scale) = (31, 31),
        _ => {}
    }
    let mut scratch = vec![0; SCRATCH_PER_NODE * field.parents.len()];
    let (mut buffer, length) = fresh_book(run.balance.total);
    let book = LentBook { buffer: &mut buffer, length };
    match step(workspace, balance, &mut run.kept, source, scale, &field.lists(), &mut scratch, book) {
        Ok(stepped) => {
            run.accepted += 1;
            run.balance = stepped.balance;
            run.shared += stepped.repair.shared;
        }
        Err(refusal) => {
            run.refused += 1;
            run.refused_for_scale += u32::from(refusal.number == 17);
        }
    }
}

fn line(steps: u32, run: &Run) -> String {
    let Run { kept, balance, accepted, refused, refused_for_scale, shared } = run;
    let counts = format!("calls {steps} accepted {accepted} refused {refused} with-17 {refused_for_scale}");
    let check = output::check(sum(kept), &kept.map(i64::from));
    format!("{counts} total {} scale {}{check} shared {shared}\n", balance.total, balance.scale)
}

fn opening_line(opened: Result<Balance, Refusal>) -> String {
    match opened {
        Ok(balance) => format!("open {} scale {}\n", balance.total, balance.scale),
        Err(refusal) => format!("open refused {}\n", refusal.number),
    }
}

pub fn expected(_: &Program) -> String {
    let (heavy, kept) = ([300_000_000; CELLS], [1000; CELLS]);
    let openings = [open(&[], 31), open(&heavy, 31), open(&heavy, 30), open(&kept, 20)];
    let mut text = openings.map(opening_line).concat();
    let Ok(balance) = openings[3] else {
        return text;
    };
    let mut run = Run { kept, balance, accepted: 0, refused: 0, refused_for_scale: 0, shared: 0 };
    let (mut workspace, mut draws) = (Workspace::default(), Draws::default());
    for steps in 1..=12_000 {
        one_step(&mut workspace, &mut draws, &mut run);
        if steps % 500 == 0 {
            text += &line(steps, &run);
        }
    }
    text
}
