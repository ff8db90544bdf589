//! The sum shared out, found again from the masses of an answer alone, after ticket 2 of 02: over all inner nodes, the size of the node's
//! mass minus the sum of its children's clipped targets. No split is made for it.

use crate::tree::Field;

/// A node's sums over its cells: the mass, the target and the bounds in force.
#[derive(Clone, Copy, Default)]
struct Node {
    mass: i64,
    target: i64,
    low: i64,
    high: i64,
}

/// For a field whose tree is sound, and the outcome and masses that were told of it.
pub fn shared_by_masses(field: &Field, outcome: u64, masses: &[u32]) -> u64 {
    let (lows, highs) = match outcome {
        0 => (&field.lows, &field.highs),
        1 => (&field.safe_lows, &field.lows),
        _ => (&field.highs, &field.safe_highs),
    };
    let (cells, root) = (field.targets.len(), field.parents.len() - 1);
    let mut nodes = vec![Node::default(); root + 1];
    let mut clipped = vec![0; root + 1];
    for cell in 0..cells {
        let (low, high) = (i64::from(lows[cell]), i64::from(highs[cell]));
        nodes[cell] = Node { mass: i64::from(masses[cell]), target: i64::from(field.targets[cell]), low, high };
    }
    // Children have smaller numbers, so a node's sums are whole when it is reached.
    for child in 0..root {
        let (node, parent) = (nodes[child], field.parents[child] as usize);
        nodes[parent].mass += node.mass;
        nodes[parent].target += node.target;
        nodes[parent].low += node.low;
        nodes[parent].high += node.high;
        clipped[parent] += node.target.clamp(node.low, node.high);
    }
    (cells..=root).map(|node| nodes[node].mass.abs_diff(clipped[node])).sum()
}
