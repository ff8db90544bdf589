//! What the test programs of kept fields draw: numbers, and fields of 8 cells around kept masses.

use compare::random::{binary, chain, flat};
use compare::tree::Field;

pub const CELLS: usize = 8;

/// The generator of those programs, a linear congruential one.
pub struct Draws {
    state: u64,
}

impl Default for Draws {
    fn default() -> Draws {
        Draws { state: 1 }
    }
}

impl Draws {
    /// A number below `end`.
    pub fn below(&mut self, end: u32) -> u32 {
        self.state = (self.state * 1103515245 + 12345) % (1 << 31);
        (self.state >> 16) as u32 % end
    }
}

/// Draws the cells of a field around the kept masses.
pub fn draw_cells(draws: &mut Draws, kept: &[u32; CELLS]) -> Field {
    let mut field = Field::default();
    for &mass in kept {
        let (target, below, above) = (draws.below(201), draws.below(150), draws.below(150));
        let (safe_below, safe_above, weight) = (draws.below(300), draws.below(300), draws.below(4));
        let (low, high) = (mass.saturating_sub(below), mass + above);
        field.targets.push((i64::from(mass) + i64::from(target) - 100) as i32);
        field.lows.push(low);
        field.highs.push(high);
        field.safe_lows.push(low.saturating_sub(safe_below));
        field.safe_highs.push(high + safe_above);
        field.weights.push(weight);
    }
    field
}

/// The kinds of trees over the cells.
pub const TREES: u32 = 3;

/// The tree of a kind: flat, balanced or a caterpillar.
pub fn tree(kind: u32) -> Vec<u32> {
    match kind {
        0 => flat(CELLS),
        1 => binary(CELLS),
        _ => chain(CELLS),
    }
}

/// Draws a tree, and then the cells.
pub fn draw_field(draws: &mut Draws, kept: &[u32; CELLS]) -> Field {
    let parents = tree(draws.below(TREES));
    Field { parents, ..draw_cells(draws, kept) }
}
