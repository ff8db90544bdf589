//! Inputs for the comparison: a small seeded generator, trees, fields and their totals, valid and broken. The generator is splitmix64.

use crate::operations::LIMIT;
use crate::tree::{sum, Field};

pub struct Random {
    state: u64,
}

impl Random {
    pub fn new(seed: u64) -> Random {
        Random { state: seed }
    }

    pub fn bits(&mut self) -> u64 {
        self.state = self.state.wrapping_add(0x9e3779b97f4a7c15);
        let mut mixed = self.state;
        mixed = (mixed ^ (mixed >> 30)).wrapping_mul(0xbf58476d1ce4e5b9);
        mixed = (mixed ^ (mixed >> 27)).wrapping_mul(0x94d049bb133111eb);
        mixed ^ (mixed >> 31)
    }

    /// A number under `end`, which is not 0.
    pub fn below(&mut self, end: u64) -> u64 {
        ((u128::from(self.bits()) * u128::from(end)) >> 64) as u64
    }

    /// A number from `least` to `most`, both included.
    pub fn between(&mut self, least: i64, most: i64) -> i64 {
        least + self.below((most - least) as u64 + 1) as i64
    }

    /// An index of a list that is not empty.
    pub fn index(&mut self, length: usize) -> usize {
        self.below(length as u64) as usize
    }

    pub fn chance(&mut self, percent: u64) -> bool {
        self.below(100) < percent
    }

    pub fn pick<T: Copy>(&mut self, choices: &[T]) -> T {
        choices[self.index(choices.len())]
    }
}

/// Any bytes.
pub fn bytes(random: &mut Random, length: usize) -> Vec<u8> {
    let mut bytes = Vec::with_capacity(length + 7);
    while bytes.len() < length {
        bytes.extend_from_slice(&random.bits().to_le_bytes());
    }
    bytes.truncate(length);
    bytes
}

// ---- trees ----

/// One root above all cells.
pub fn flat(cells: usize) -> Vec<u32> {
    vec![cells as u32; cells + 1]
}

/// Nodes are paired in order; with a power of two of cells the tree is balanced. One cell is its own root.
pub fn binary(cells: usize) -> Vec<u32> {
    let nodes = 2 * cells - 1;
    (0..nodes).map(|node| (cells + node / 2).min(nodes - 1) as u32).collect()
}

/// Each inner node has the one before it and a cell as children. One cell is its own root.
pub fn chain(cells: usize) -> Vec<u32> {
    let nodes = 2 * cells - 1;
    let parent = |node: usize| match node {
        _ if node >= cells => node + 1,
        0 => cells,
        _ => cells + node - 1,
    };
    (0..nodes).map(|node| parent(node).min(nodes - 1) as u32).collect()
}

/// One node above all cells, and above it nodes with one child each.
pub fn tall(cells: usize, nodes: usize) -> Vec<u32> {
    (0..nodes).map(|node| (node + 1).max(cells).min(nodes - 1) as u32).collect()
}

/// Each inner node takes some of the nodes that have no parent yet, the root all of them.
pub fn grown(random: &mut Random, cells: usize, nodes: usize) -> Vec<u32> {
    let mut parents = vec![nodes as u32 - 1; nodes];
    let mut free: Vec<usize> = (0..cells).collect();
    for node in cells..nodes - 1 {
        let most = if random.chance(50) { 2 } else { free.len() };
        for _ in 0..1 + random.index(most.min(free.len())) {
            let child = free.swap_remove(random.index(free.len()));
            parents[child] = node as u32;
        }
        free.push(node);
    }
    parents
}

pub fn tree(random: &mut Random, cells: usize) -> Vec<u32> {
    let most = if random.chance(20) { 1024 } else { (2 * cells + 4).min(1024) };
    let nodes = random.between(cells as i64 + 1, most as i64) as usize;
    match random.below(8) {
        0 => flat(cells),
        1 => binary(cells),
        2 => chain(cells),
        3 => tall(cells, nodes),
        _ => grown(random, cells, nodes),
    }
}

// ---- fields ----

/// A number of cells: mostly few, with the numbers around full blocks among them.
pub fn cell_count(random: &mut Random) -> usize {
    match random.below(20) {
        0..=11 => random.between(1, 8) as usize,
        12..=15 => random.between(9, 40) as usize,
        16 => random.between(41, 511) as usize,
        _ => random.pick(&[1, 19, 20, 21, 39, 40, 41, 124, 125, 126, 250, 251, 500, 501, 511, 512]),
    }
}

/// Parts that add up to the total.
pub fn partition(random: &mut Random, total: u32, parts: usize) -> Vec<u32> {
    let mut cuts: Vec<u64> = (1..parts).map(|_| random.below(u64::from(total) + 1)).collect();
    cuts.push(u64::from(total));
    cuts.sort_unstable();
    let mut before = 0;
    cuts.iter()
        .map(|&cut| {
            let part = (cut - before) as u32;
            before = cut;
            part
        })
        .collect()
}

fn safe_highs(random: &mut Random, cells: usize) -> Vec<u32> {
    let even = LIMIT / cells as u64;
    let most = match random.below(6) {
        0 => 3,
        1 | 2 => 1000,
        3 => even,
        4 => return partition(random, LIMIT as u32, cells),
        _ => {
            let only = random.index(cells);
            return (0..cells).map(|cell| if cell == only { LIMIT as u32 } else { 0 }).collect();
        }
    };
    (0..cells).map(|_| random.below(most + 1) as u32).collect()
}

/// Safe low, low and high under a safe high.
fn lower_bounds(random: &mut Random, safe_high: u32) -> [u32; 3] {
    let mut bounds = [0; 3].map(|_| random.below(u64::from(safe_high) + 1) as u32);
    bounds.sort_unstable();
    match random.below(8) {
        0 => [safe_high; 3],
        1 => [0, 0, safe_high],
        2 => [bounds[0], bounds[2], bounds[2]],
        3 => [bounds[0], bounds[0], bounds[2]],
        4 => [0, bounds[1], safe_high],
        _ => bounds,
    }
}

pub fn target(random: &mut Random, style: u64, low: u32, high: u32) -> i32 {
    let (low, high) = (i64::from(low), i64::from(high));
    let wanted = match if style == 5 { random.below(5) } else { style } {
        0 => random.between(low, high),
        1 => random.between(low - 3, low + 3),
        2 => random.between(high - 3, high + 3),
        3 => random.between(i64::from(i32::MIN), i64::from(i32::MAX)),
        _ => random.pick(&[i64::from(i32::MIN), -1, 0, i64::from(i32::MAX)]),
    };
    wanted.clamp(i64::from(i32::MIN), i64::from(i32::MAX)) as i32
}

pub fn weights(random: &mut Random, cells: usize) -> Vec<u32> {
    match random.below(6) {
        0 | 1 => vec![0; cells],
        2 => vec![1; cells],
        3 => (0..cells).map(|_| random.below(1001) as u32).collect(),
        4 => (0..cells).map(|_| if random.chance(20) { random.below(50) as u32 } else { 0 }).collect(),
        _ => partition(random, LIMIT as u32, cells),
    }
}

/// A valid field.
pub fn field(random: &mut Random, cells: usize) -> Field {
    let mut field = Field { safe_highs: safe_highs(random, cells), weights: weights(random, cells), ..Field::default() };
    let style = random.below(8).min(5);
    for cell in 0..cells {
        let [safe_low, low, high] = lower_bounds(random, field.safe_highs[cell]);
        field.safe_lows.push(safe_low);
        field.lows.push(low);
        field.highs.push(high);
        field.targets.push(target(random, style, low, high));
    }
    field.parents = tree(random, cells);
    field
}

/// A total for the field: within each pair of sums, at a sum, next to one, or far away.
pub fn total(random: &mut Random, field: &Field) -> u32 {
    let sums = [&field.safe_lows, &field.lows, &field.highs, &field.safe_highs].map(|list| sum(list) as i64);
    let wanted = match random.below(12) {
        0..=4 => random.between(sums[1].min(sums[2]), sums[2].max(sums[1])),
        5 | 6 => random.between(sums[0].min(sums[1]), sums[1].max(sums[0])),
        7 | 8 => random.between(sums[2].min(sums[3]), sums[3].max(sums[2])),
        9 => random.pick(&sums),
        10 => random.pick(&sums) + random.between(-1, 1),
        _ => random.pick(&[0, 1, LIMIT as i64, LIMIT as i64 + 1, i64::from(u32::MAX)]),
    };
    wanted.clamp(0, i64::from(u32::MAX)) as u32
}

/// A number that is likely to be wrong somewhere in a field of so many cells and nodes.
pub fn odd_number(random: &mut Random, cells: usize, nodes: usize) -> u32 {
    let (cells, nodes) = (cells as u32, nodes as u32);
    match random.below(4) {
        0 => random.pick(&[0, 1, cells, cells.wrapping_sub(1), cells + 1, nodes, nodes.wrapping_sub(1), nodes + 1]),
        1 => random.pick(&[LIMIT as u32, LIMIT as u32 + 1, u32::MAX, u32::MAX - 1, 512, 513, 1024, 1025]),
        2 => random.below(u64::from(nodes) + 2) as u32,
        _ => random.bits() as u32,
    }
}

pub fn break_list(random: &mut Random, list: &mut [u32], value: u32) {
    if !list.is_empty() {
        let index = random.index(list.len());
        list[index] = value;
    }
}

/// Raises an entry so that the list adds up to one more than the limit.
fn pass_limit(random: &mut Random, list: &mut [u32]) {
    let missing = (LIMIT + 1).saturating_sub(sum(list)) as u32;
    if !list.is_empty() {
        let index = random.index(list.len());
        list[index] = list[index].saturating_add(missing);
    }
}

/// Breaks a field's sense, or tries to: a parent, a bound or a weight.
pub fn break_field(random: &mut Random, field: &mut Field) {
    let value = odd_number(random, field.targets.len(), field.parents.len());
    let nearby = |list: &[u32]| list.first().map_or(0, |&first| first.wrapping_add(1));
    match random.below(12) {
        0..=3 => break_list(random, &mut field.parents, value),
        4 => {
            let node = field.parents.len().wrapping_sub(1) as u32;
            break_list(random, &mut field.parents, node);
        }
        5 => break_list(random, &mut field.lows, value),
        6 => break_list(random, &mut field.highs, value),
        7 => {
            let value = nearby(&field.lows);
            break_list(random, &mut field.safe_lows, value);
        }
        8 => break_list(random, &mut field.safe_highs, value),
        9 => pass_limit(random, &mut field.safe_highs),
        10 => pass_limit(random, &mut field.weights),
        _ => break_list(random, &mut field.weights, value),
    }
}
