//! Edits of a field in the region below one of its nodes, after ticket 13 of 02: those that keep the six sums of cell values there, and
//! those that change one. Shares no code with the library.

use crate::operations::LIMIT;
use crate::random::{self, Random};
use crate::tree::Field;

/// The values of a cell, by number in the order of a field file.
pub const VALUES: [&str; 6] = ["target", "low", "high", "safe low", "safe high", "weight"];
const TARGET: usize = 0;
const WEIGHT: usize = 5;
/// The four bounds in rising order.
const BOUNDS: [usize; 4] = [3, 1, 2, 4];

/// The part of a tree below a node.
#[derive(Clone, Debug)]
pub struct Region {
    pub top: usize,
    /// For each node whether it lies below the top: it is the top, or parents lead up from it to the top.
    pub below: Vec<bool>,
}

impl Region {
    /// For a sound tree: a parent has a larger number.
    pub fn new(parents: &[u32], top: usize) -> Region {
        let mut below = vec![false; parents.len()];
        below[top] = true;
        for node in (0..top).rev() {
            below[node] = below[parents[node] as usize];
        }
        Region { top, below }
    }

    /// Of so many cells those below the top.
    pub fn cells(&self, count: usize) -> Vec<usize> {
        (0..count).filter(|&cell| self.below[cell]).collect()
    }

    /// Whether two lists of masses are the same outside the region, and so is their sum below the top and below every node outside.
    pub fn is_same_outside(&self, parents: &[u32], one: &[u32], other: &[u32]) -> bool {
        let sums = node_sums(parents, one).into_iter().zip(node_sums(parents, other));
        sums.enumerate().all(|(node, (one, other))| one == other || (self.below[node] && node != self.top))
    }
}

/// For each node the sum over the cells below it.
pub fn node_sums(parents: &[u32], cells: &[u32]) -> Vec<u64> {
    let mut sums: Vec<u64> = cells.iter().map(|&value| u64::from(value)).collect();
    sums.resize(parents.len(), 0);
    for node in 0..parents.len() - 1 {
        sums[parents[node] as usize] += sums[node];
    }
    sums
}

// ---- the values of a cell ----

fn value(field: &Field, number: usize, cell: usize) -> i64 {
    match number {
        0 => i64::from(field.targets[cell]),
        1 => i64::from(field.lows[cell]),
        2 => i64::from(field.highs[cell]),
        3 => i64::from(field.safe_lows[cell]),
        4 => i64::from(field.safe_highs[cell]),
        _ => i64::from(field.weights[cell]),
    }
}

fn set(field: &mut Field, number: usize, cell: usize, value: i64) {
    match number {
        0 => field.targets[cell] = value as i32,
        1 => field.lows[cell] = value as u32,
        2 => field.highs[cell] = value as u32,
        3 => field.safe_lows[cell] = value as u32,
        4 => field.safe_highs[cell] = value as u32,
        _ => field.weights[cell] = value as u32,
    }
}

/// Adds to a value of a cell, which has the room for it.
pub fn add(field: &mut Field, number: usize, cell: usize, amount: i64) {
    let sum = value(field, number, cell) + amount;
    set(field, number, cell, sum);
}

/// How far a value of a cell can fall and rise with safe low ≤ low ≤ high ≤ safe high in 32 bits.
fn room(field: &Field, number: usize, cell: usize) -> (i64, i64) {
    let of = |number| value(field, number, cell);
    let (least, most) = match number {
        0 => (i64::from(i32::MIN), i64::from(i32::MAX)),
        1 => (of(3), of(2)),
        2 => (of(1), of(4)),
        3 => (0, of(1)),
        4 => (of(2), i64::from(u32::MAX)),
        _ => (0, i64::from(u32::MAX)),
    };
    (of(number) - least, most - of(number))
}

/// Moves an amount of a value from one cell to another: `most`, or what there is room for in both if that is less.
pub fn shift(field: &mut Field, number: usize, from: usize, to: usize, most: i64) {
    let amount = most.min(room(field, number, from).0).min(room(field, number, to).1);
    add(field, number, from, -amount);
    add(field, number, to, amount);
}

// ---- edits that keep the sums ----

/// Gives each of two cells all values of the other.
fn exchange(field: &mut Field, one: usize, other: usize) {
    for number in 0..VALUES.len() {
        let (first, second) = (value(field, number, one), value(field, number, other));
        set(field, number, one, second);
        set(field, number, other, first);
    }
}

/// An amount of any size.
fn some_amount(random: &mut Random) -> i64 {
    let any = (random.bits() >> random.between(31, 63)) as i64;
    random.pick(&[1, i64::MAX, any, any])
}

/// Draws the values of the cells anew: of each bound what it has over the one before it, of the weights all; targets are moved from cell to
/// cell.
fn redraw(random: &mut Random, field: &mut Field, cells: &[usize]) {
    let sum = |field: &Field, number| cells.iter().map(|&cell| value(field, number, cell)).sum::<i64>();
    let sums = BOUNDS.map(|number| sum(field, number));
    let mut drawn = vec![0; cells.len()];
    for (place, number) in BOUNDS.into_iter().enumerate() {
        let before = if place == 0 { 0 } else { sums[place - 1] };
        let parts = random::partition(random, (sums[place] - before) as u32, cells.len());
        for ((&cell, bound), part) in cells.iter().zip(&mut drawn).zip(parts) {
            *bound += i64::from(part);
            set(field, number, cell, *bound);
        }
    }
    let weights = random::partition(random, sum(field, WEIGHT) as u32, cells.len());
    for (&cell, weight) in cells.iter().zip(weights) {
        set(field, WEIGHT, cell, i64::from(weight));
    }
    for &cell in cells {
        shift(field, TARGET, cell, random.pick(cells), some_amount(random));
    }
}

/// The field edited in the region, with the six sums there kept: all cells drawn anew, or not, then some of them exchanged, and amounts of
/// single values moved from one to another.
pub fn edited(random: &mut Random, field: &Field, region: &Region) -> Field {
    let (mut edited, cells) = (field.clone(), region.cells(field.targets.len()));
    if random.chance(30) {
        redraw(random, &mut edited, &cells);
    }
    for _ in 0..1 + random.index(2 * cells.len().min(20)) {
        let (from, to) = (random.pick(&cells), random.pick(&cells));
        if random.chance(20) {
            exchange(&mut edited, from, to);
        } else {
            shift(&mut edited, random.index(VALUES.len()), from, to, some_amount(random));
        }
    }
    edited
}

// ---- one that changes a sum ----

/// The field with another sum of one value in the region, by the value of one cell there; nothing if the amount drawn is 0. The field is
/// sound as before.
pub fn with_changed_sum(random: &mut Random, field: &Field, region: &Region, number: usize) -> Option<Field> {
    let cells = field.targets.len();
    let cell = random.pick(&region.cells(cells));
    let (fall, rise) = room(field, number, cell);
    let sum: i64 = (0..cells).map(|cell| value(field, number, cell)).sum();
    let most = if number == TARGET { rise } else { rise.min(LIMIT as i64 - sum) };
    let (any, few) = (random.between(-fall, most), random.between(-5, 5).clamp(-fall, most));
    let amount = random.pick(&[-fall, most, any, few, few]);
    let mut changed = field.clone();
    add(&mut changed, number, cell, amount);
    (amount != 0).then_some(changed)
}
