//! The tree of a field and the masses of its cells, after the sections "The field" and "The whole tree" of 01 and tickets 2 and 6 of 02.
//! Written from the papers alone; shares no code with the library.

use crate::split::{share_out, Item};

/// The seven lists of a field, lent.
#[derive(Clone, Copy, PartialEq)]
pub struct Lists<'a> {
    pub targets: &'a [i32],
    pub lows: &'a [u32],
    pub highs: &'a [u32],
    pub safe_lows: &'a [u32],
    pub safe_highs: &'a [u32],
    pub weights: &'a [u32],
    pub parents: &'a [u32],
}

impl<'a> Lists<'a> {
    /// The lists of the first cells and nodes.
    pub fn first(&self, cells: usize, nodes: usize) -> Lists<'a> {
        Lists {
            targets: &self.targets[..cells],
            lows: &self.lows[..cells],
            highs: &self.highs[..cells],
            safe_lows: &self.safe_lows[..cells],
            safe_highs: &self.safe_highs[..cells],
            weights: &self.weights[..cells],
            parents: &self.parents[..nodes],
        }
    }
}

/// A field with its own lists.
#[derive(Clone, Default, Debug, PartialEq)]
pub struct Field {
    pub targets: Vec<i32>,
    pub lows: Vec<u32>,
    pub highs: Vec<u32>,
    pub safe_lows: Vec<u32>,
    pub safe_highs: Vec<u32>,
    pub weights: Vec<u32>,
    pub parents: Vec<u32>,
}

impl Field {
    /// Lists of one value, to be written to.
    pub fn filled(cells: usize, nodes: usize, value: u32) -> Field {
        let list = || vec![value; cells];
        Field {
            targets: vec![value as i32; cells],
            lows: list(),
            highs: list(),
            safe_lows: list(),
            safe_highs: list(),
            weights: list(),
            parents: vec![value; nodes],
        }
    }

    pub fn lists(&self) -> Lists<'_> {
        Lists {
            targets: &self.targets,
            lows: &self.lows,
            highs: &self.highs,
            safe_lows: &self.safe_lows,
            safe_highs: &self.safe_highs,
            weights: &self.weights,
            parents: &self.parents,
        }
    }
}

/// What a repair gives beside the masses.
#[derive(Clone, Copy, Debug, PartialEq)]
pub struct Repair {
    pub outcome: u32,
    pub total: u32,
    pub change: u64,
    /// The sum of the sizes of d over all inner nodes.
    pub shared: u64,
}

/// Working space that is used again from call to call.
#[derive(Default)]
pub struct Workspace {
    named: Vec<bool>,
    nodes: Vec<Item>,
    first_child: Vec<u32>,
    next_sibling: Vec<u32>,
    children: Vec<Item>,
}

const NONE: u32 = u32::MAX;

pub fn sum(list: &[u32]) -> u64 {
    list.iter().map(|&value| u64::from(value)).sum()
}

/// The smallest node that breaks a rule of the tree.
pub fn broken_node(workspace: &mut Workspace, cells: usize, parents: &[u32]) -> Option<usize> {
    let nodes = parents.len();
    workspace.named.clear();
    workspace.named.resize(nodes, false);
    for (node, &parent) in parents.iter().enumerate() {
        let parent = parent as usize;
        if parent < nodes && parent != node {
            workspace.named[parent] = true;
        }
    }
    (0..nodes).find(|&node| {
        let parent = parents[node] as usize;
        let parent_fits = if node == nodes - 1 { parent == node } else { parent > node && parent >= cells && parent < nodes };
        let has_child = node < cells || workspace.named[node];
        !(parent_fits && has_child)
    })
}

/// The outcome for the total, which the safe bounds' sums allow.
fn outcome(lists: &Lists, total: u32) -> u32 {
    if u64::from(total) < sum(lists.lows) {
        1
    } else if u64::from(total) > sum(lists.highs) {
        2
    } else {
        0
    }
}

/// Bounds in force, one list of lows and one of highs.
fn in_force<'a>(lists: &Lists<'a>, outcome: u32) -> (&'a [u32], &'a [u32]) {
    match outcome {
        0 => (lists.lows, lists.highs),
        1 => (lists.safe_lows, lists.lows),
        _ => (lists.highs, lists.safe_highs),
    }
}

/// Fills `workspace.nodes` with the sums over each node's cells. Parents have larger numbers, so one pass in rising order is enough.
fn add_up_nodes(workspace: &mut Workspace, lists: &Lists, outcome: u32) {
    let (lows, highs) = in_force(lists, outcome);
    let (cells, nodes) = (lists.targets.len(), lists.parents.len());
    workspace.nodes.clear();
    workspace.nodes.extend((0..cells).map(|cell| Item {
        target: i64::from(lists.targets[cell]),
        low: i64::from(lows[cell]),
        high: i64::from(highs[cell]),
        weight: i64::from(lists.weights[cell]),
        mass: 0,
    }));
    workspace.nodes.resize(nodes, Item::default());
    for node in 0..nodes - 1 {
        let item = workspace.nodes[node];
        let parent = &mut workspace.nodes[lists.parents[node] as usize];
        parent.target += item.target;
        parent.low += item.low;
        parent.high += item.high;
        parent.weight += item.weight;
    }
}

/// Links each node's children in rising order: going down through the numbers, each one is put in front of its siblings with larger
/// numbers.
fn link_children(workspace: &mut Workspace, parents: &[u32]) {
    let nodes = parents.len();
    workspace.first_child.clear();
    workspace.first_child.resize(nodes, NONE);
    workspace.next_sibling.clear();
    workspace.next_sibling.resize(nodes, NONE);
    for node in (0..nodes - 1).rev() {
        let parent = parents[node] as usize;
        workspace.next_sibling[node] = workspace.first_child[parent];
        workspace.first_child[parent] = node as u32;
    }
}

/// Splits a node's mass among its children, shown to `watch` as in `share_out`. Returns the split's d.
fn split_node(workspace: &mut Workspace, node: usize, watch: impl FnMut(&[Item])) -> i64 {
    workspace.children.clear();
    let mut child = workspace.first_child[node];
    while child != NONE {
        workspace.children.push(workspace.nodes[child as usize]);
        child = workspace.next_sibling[child as usize];
    }
    let difference = share_out(&mut workspace.children, workspace.nodes[node].mass, watch);
    let mut child = workspace.first_child[node];
    for item in &workspace.children {
        workspace.nodes[child as usize].mass = item.mass;
        child = workspace.next_sibling[child as usize];
    }
    difference
}

/// The whole tree, for lists and a total that have passed every check. Writes the masses of the cells.
pub fn repair(workspace: &mut Workspace, lists: &Lists, total: u32, masses: &mut [u32]) -> Repair {
    let (cells, nodes) = (lists.targets.len(), lists.parents.len());
    let outcome = outcome(lists, total);
    add_up_nodes(workspace, lists, outcome);
    link_children(workspace, lists.parents);
    workspace.nodes[nodes - 1].mass = i64::from(total);
    let mut shared = 0;
    for node in (cells..nodes).rev() {
        shared += split_node(workspace, node, |_| ()).unsigned_abs();
    }
    let mut change = 0;
    for (mass, item) in masses.iter_mut().zip(&workspace.nodes[..cells]) {
        *mass = item.mass as u32;
        change += (item.mass - item.target).unsigned_abs();
    }
    Repair { outcome, total, change, shared }
}

/// The masses that a cell has on the way through the split at its parent: clipped, with its first share, and with both. The split is made
/// once more, on what `repair` left in the workspace. The cell is not the root.
pub fn masses_by_step(workspace: &mut Workspace, parents: &[u32], cell: usize) -> [i64; 3] {
    let parent = parents[cell];
    let place = parents[..cell].iter().filter(|&&other| other == parent).count();
    let mut masses = Vec::new();
    split_node(workspace, parent as usize, |children| masses.push(children[place].mass));
    masses.try_into().expect("three masses")
}
