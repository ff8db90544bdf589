//! Split, Reconstruct, Open and Step with all that they turn down, after the section "Operations and what each turns down" of 01 and
//! tickets 2, 7, 9 and 12 of 02. Checks stand in the papers' order. Written from the papers alone; shares no code with the library.

use crate::book::{check_room, LentBook, Record};
use crate::split::{share_out, Item};
use crate::tree::{broken_node, repair, sum, Lists, Repair, Workspace};

pub const MAX_CELLS: usize = 512;
pub const MAX_NODES: usize = 1024;
pub const LIMIT: u64 = 2147483647;
pub const MAX_SCALE: u32 = 30;
/// Scratch numbers that Reconstruct and Step ask for and clear, for each node.
pub const SCRATCH_PER_NODE: usize = 4;
/// The same before ticket 9.
pub const FORMER_SCRATCH_PER_NODE: usize = 6;

/// A refusal: its number and its place.
#[derive(Clone, Copy, Debug, PartialEq)]
pub struct Refusal {
    pub number: u32,
    pub place: u32,
}

/// A refusal with place 0.
pub fn refuse<T>(number: u32) -> Result<T, Refusal> {
    refuse_at(number, 0)
}

pub fn refuse_at<T>(number: u32, place: usize) -> Result<T, Refusal> {
    Err(Refusal { number, place: place as u32 })
}

/// A sum that no list of 64-bit numbers can overflow.
fn wide_sum(list: &[i64]) -> i128 {
    list.iter().map(|&value| i128::from(value)).sum()
}

/// Returns d.
pub fn split(targets: &[i64], lows: &[i64], highs: &[i64], weights: &[i64], total: i64, masses: &mut [i64]) -> Result<i64, Refusal> {
    let count = targets.len();
    check_cells(count)?;
    if [lows.len(), highs.len(), weights.len(), masses.len()] != [count; 4] {
        return refuse(3);
    }
    if let Some(item) = (0..count).find(|&item| lows[item] < 0 || lows[item] > highs[item]) {
        return refuse_at(5, item);
    }
    if wide_sum(highs) > i128::from(LIMIT) {
        return refuse(6);
    }
    if weights.iter().any(|&weight| weight < 0) || wide_sum(weights) > i128::from(LIMIT) {
        return refuse(7);
    }
    if i128::from(total) < wide_sum(lows) || i128::from(total) > wide_sum(highs) {
        return refuse(8);
    }
    let mut items: Vec<Item> =
        (0..count).map(|item| Item { target: targets[item], low: lows[item], high: highs[item], weight: weights[item], mass: 0 }).collect();
    let difference = share_out(&mut items, total, |_| ());
    for (mass, item) in masses.iter_mut().zip(&items) {
        *mass = item.mass;
    }
    Ok(difference)
}

/// Check 1, of cells or items.
pub fn check_cells(cells: usize) -> Result<(), Refusal> {
    if cells == 0 || cells > MAX_CELLS {
        return refuse(1);
    }
    Ok(())
}

/// Check 9.
pub fn check_scale(scale: u32) -> Result<(), Refusal> {
    if scale > MAX_SCALE {
        return refuse(9);
    }
    Ok(())
}

/// Checks 1 and 2.
pub fn check_counts(cells: usize, nodes: usize) -> Result<(), Refusal> {
    check_cells(cells)?;
    if nodes < cells || nodes > MAX_NODES {
        return refuse(2);
    }
    Ok(())
}

/// Check 3: `masses` is the length of the list that the masses go to, `per_node` how many scratch numbers a node needs.
fn check_lengths(lists: &Lists, masses: usize, scratch: usize, per_node: usize) -> Result<(), Refusal> {
    let cells = lists.targets.len();
    let lengths = [lists.lows.len(), lists.highs.len(), lists.safe_lows.len(), lists.safe_highs.len(), lists.weights.len(), masses];
    if lengths != [cells; 6] || scratch < per_node * lists.parents.len() {
        return refuse(3);
    }
    Ok(())
}

/// Checks 4 to 7.
fn check_field(workspace: &mut Workspace, lists: &Lists) -> Result<(), Refusal> {
    let cells = lists.targets.len();
    if let Some(node) = broken_node(workspace, cells, lists.parents) {
        return refuse_at(4, node);
    }
    let crossed = |cell: usize| {
        let (safe_low, low) = (lists.safe_lows[cell], lists.lows[cell]);
        let (high, safe_high) = (lists.highs[cell], lists.safe_highs[cell]);
        !(safe_low <= low && low <= high && high <= safe_high)
    };
    if let Some(cell) = (0..cells).find(|&cell| crossed(cell)) {
        return refuse_at(5, cell);
    }
    if sum(lists.safe_highs) > LIMIT {
        return refuse(6);
    }
    if sum(lists.weights) > LIMIT {
        return refuse(7);
    }
    Ok(())
}

/// Check 8.
fn check_total(lists: &Lists, total: u32) -> Result<(), Refusal> {
    if u64::from(total) < sum(lists.safe_lows) || u64::from(total) > sum(lists.safe_highs) {
        return refuse(8);
    }
    Ok(())
}

pub fn reconstruct(
    workspace: &mut Workspace,
    lists: &Lists,
    total: u32,
    masses: &mut [u32],
    scratch: &mut [i64],
) -> Result<Repair, Refusal> {
    check_counts(lists.targets.len(), lists.parents.len())?;
    check_lengths(lists, masses.len(), scratch.len(), SCRATCH_PER_NODE)?;
    check_field(workspace, lists)?;
    check_total(lists, total)?;
    Ok(repair_to::<SCRATCH_PER_NODE>(workspace, lists, total, masses, scratch))
}

/// What Reconstruct and Step do with masses and scratch, for lists and a total that have passed every check.
fn repair_to<const PER_NODE: usize>(
    workspace: &mut Workspace,
    lists: &Lists,
    total: u32,
    masses: &mut [u32],
    scratch: &mut [i64],
) -> Repair {
    let repair = repair(workspace, lists, total, masses);
    scratch[..PER_NODE * lists.parents.len()].fill(0);
    repair
}

/// The record of a kept field.
#[derive(Clone, Copy, Debug, PartialEq)]
pub struct Balance {
    pub total: u32,
    pub scale: u32,
}

pub fn open(kept: &[u32], scale: u32) -> Result<Balance, Refusal> {
    check_cells(kept.len())?;
    check_scale(scale)?;
    Ok(Balance { total: opening_total(kept)?, scale })
}

/// The total of an opening, after check 13.
pub fn opening_total(kept: &[u32]) -> Result<u32, Refusal> {
    let total = sum(kept);
    if total > LIMIT {
        return refuse(13);
    }
    Ok(total as u32)
}

/// Check 17: `scale` is the one that the step names.
fn check_step_scale(balance: Balance, scale: u32) -> Result<(), Refusal> {
    if scale > MAX_SCALE || scale != balance.scale {
        return refuse(17);
    }
    Ok(())
}

/// What an accepted step gives.
#[derive(Clone, Copy, Debug, PartialEq)]
pub struct Stepped {
    pub repair: Repair,
    /// The new record of the kept field.
    pub balance: Balance,
    /// The new length of the book.
    pub length: usize,
}

#[allow(clippy::too_many_arguments)] // those of the ticket, and the workspace
pub fn step(
    workspace: &mut Workspace,
    balance: Balance,
    kept: &mut [u32],
    source: i32,
    scale: u32,
    lists: &Lists,
    scratch: &mut [i64],
    book: LentBook,
) -> Result<Stepped, Refusal> {
    step_by::<SCRATCH_PER_NODE>(workspace, balance, kept, source, scale, lists, scratch, book)
}

/// Step with `PER_NODE` scratch numbers for each node, so that the version before ticket 9 can be run too.
#[allow(clippy::too_many_arguments)] // those of Step
pub fn step_by<const PER_NODE: usize>(
    workspace: &mut Workspace,
    balance: Balance,
    kept: &mut [u32],
    source: i32,
    scale: u32,
    lists: &Lists,
    scratch: &mut [i64],
    book: LentBook,
) -> Result<Stepped, Refusal> {
    let total = check_step::<PER_NODE>(workspace, balance, kept, source, scale, lists, scratch, &book)?;
    finish_step::<PER_NODE>(workspace, balance, kept, source, total, lists, scratch, book)
}

/// Step's checks up to 13: all but 8 and those of the book. Returns the new total.
#[allow(clippy::too_many_arguments)] // those of Step
pub fn check_step<const PER_NODE: usize>(
    workspace: &mut Workspace,
    balance: Balance,
    kept: &[u32],
    source: i32,
    scale: u32,
    lists: &Lists,
    scratch: &[i64],
    book: &LentBook,
) -> Result<u32, Refusal> {
    check_counts(lists.targets.len(), lists.parents.len())?;
    check_lengths(lists, kept.len(), scratch.len(), PER_NODE)?;
    check_room(book.buffer)?;
    check_step_scale(balance, scale)?;
    check_field(workspace, lists)?;
    if sum(kept) != u64::from(balance.total) {
        return refuse(12);
    }
    let total = i64::from(balance.total) + i64::from(source);
    if total < 0 || total > LIMIT as i64 {
        return refuse(13);
    }
    Ok(total as u32)
}

/// The checks after those, and then what Step does. `total` is the new total.
#[allow(clippy::too_many_arguments)] // those of Step
pub fn finish_step<const PER_NODE: usize>(
    workspace: &mut Workspace,
    balance: Balance,
    kept: &mut [u32],
    source: i32,
    total: u32,
    lists: &Lists,
    scratch: &mut [i64],
    book: LentBook,
) -> Result<Stepped, Refusal> {
    check_total(lists, total)?;
    let mut read = book.check(balance.total)?;
    let repair = repair_to::<PER_NODE>(workspace, lists, total, kept, scratch);
    let length = read.add(Record { source, outcome: repair.outcome, total }, book.buffer);
    Ok(Stepped { repair, balance: Balance { total, ..balance }, length })
}
