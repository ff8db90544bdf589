//! Edits in a region, after ticket 13 of 02, through the calls from C and compared with the second implementation: pairs of fields that
//! differ only below one node, with the six sums there kept, as field files, in steps, and in runs of two kept fields side by side. What
//! the library gives for one of a pair is held against what it gives for the other. And pairs with one sum changed, in which it must differ
//! now and then.

use crate::check_books::Volume;
use crate::check_calls::{break_scale, compare_step, make_step, scratch_length, sound_scale, StepCall, StepExit};
use crate::check_files::compare_file;
use crate::check_run::{good_call, miss_total, open, OPENING};
use crate::files::{answer_file_length, field_file, read_answer, FileWorkspace};
use crate::operations::Balance;
use crate::random::{self, Random};
use crate::random_books::break_book;
use crate::region::{edited, node_sums, with_changed_sum, Region, VALUES};
use crate::tally::{Occurrences, Tally};
use crate::tree::{sum, Field, Repair, Workspace};

/// Two fields with the same tree that are the same outside the region.
struct Pair {
    field: Field,
    edited: Field,
    region: Region,
}

/// A node with so many cells below it, or more, and a cell that is not; nothing if the tree has none.
fn parting_node(random: &mut Random, parents: &[u32], cells: usize, least: u64) -> Option<usize> {
    let counts = node_sums(parents, &vec![1; cells]);
    let nodes: Vec<usize> = (0..parents.len()).filter(|&node| (least..cells as u64).contains(&counts[node])).collect();
    (!nodes.is_empty()).then(|| random.pick(&nodes))
}

/// A node: a cell, the root, any one, or mostly one with cells on both sides.
fn some_node(random: &mut Random, parents: &[u32], cells: usize) -> usize {
    let root = parents.len() - 1;
    match random.below(10) {
        0 => random.index(cells),
        1 => root,
        2 => random.index(parents.len()),
        _ => parting_node(random, parents, cells, 2).unwrap_or(root),
    }
}

/// A sound field, and the same edited with the six sums kept.
fn make_pair(random: &mut Random) -> Pair {
    let cells = random::cell_count(random);
    let field = random::field(random, cells);
    let top = some_node(random, &field.parents, cells);
    let region = Region::new(&field.parents, top);
    Pair { edited: edited(random, &field, &region), field, region }
}

impl Pair {
    /// Notes the node, and how the total stands to the sums of the bounds.
    fn note(&self, occurred: &mut Occurrences, total: u32) {
        let (field, total) = (&self.field, u64::from(total));
        occurred.note("with a cell as node", self.region.top < field.targets.len());
        occurred.note("with the root as node", self.region.top == field.parents.len() - 1);
        let sums = [&field.safe_lows, &field.lows, &field.highs, &field.safe_highs].map(|list| sum(list));
        occurred.note("with a total below the safe lows' sum", total < sums[0]);
        occurred.note("with a total of the safe lows' sum", total == sums[0]);
        occurred.note("with a total of the lows' sum", total == sums[1]);
        occurred.note("with a total of the highs' sum", total == sums[2]);
        occurred.note("with a total of the safe highs' sum", total == sums[3]);
        occurred.note("with a total above the safe highs' sum", total > sums[3]);
    }

    /// Notes accepted calls that gave other masses below the node, where there are cells outside, by their outcome.
    fn note_masses(&self, occurred: &mut Occurrences, outcome: u32, masses: [&[u32]; 2]) {
        let cells = self.field.targets.len();
        let differ = masses[0] != masses[1] && self.region.cells(cells).len() < cells;
        occurred.note("with outcome 0 and other masses below", differ && outcome == 0);
        occurred.note("with outcome 1 and other masses below", differ && outcome == 1);
        occurred.note("with outcome 2 and other masses below", differ && outcome == 2);
    }
}

// ---- field files ----

/// What the answer file of a field's file tells, and the masses; or a refusal's number.
type Answer = Result<(Repair, Vec<u32>), u32>;

/// Runs both sides on the file of a field; returns the library's answer.
fn answer(tally: &mut Tally, workspace: &mut FileWorkspace, random: &mut Random, field: &Field, total: u32) -> Answer {
    let (cells, longer) = (field.targets.len(), random.pick(&[0, 0, 1, 700]));
    let exact = answer_file_length(cells);
    let (number, buffer) = compare_file(tally, workspace, random, &field_file(field, total), exact + longer);
    if number != 0 {
        return Err(number);
    }
    let mut masses = vec![0; cells];
    let header = read_answer(&buffer[..exact], &mut masses).map_err(|refusal| refusal.number)?;
    Ok((header.repair, masses))
}

/// The answers to both fields of a pair.
fn answers(tally: &mut Tally, workspace: &mut FileWorkspace, random: &mut Random, pair: &Pair, total: u32) -> [Answer; 2] {
    [&pair.field, &pair.edited].map(|field| answer(tally, workspace, random, field, total))
}

/// Pairs of files: both are refused with 8, or outcome and M are the same, and so are all masses outside.
pub fn files(tally: &mut Tally, random: &mut Random, count: u64) {
    let (mut workspace, mut occurred) = (FileWorkspace::default(), Occurrences::default());
    for _ in 0..count {
        let pair = make_pair(random);
        let total = random::total(random, &pair.field);
        let [one, other] = answers(tally, &mut workspace, random, &pair, total);
        let Pair { field, edited, region } = &pair;
        let same = match (&one, &other) {
            (Ok((first, masses)), Ok((second, others))) => {
                pair.note_masses(&mut occurred, first.outcome, [masses, others]);
                let told = |repair: &Repair| (repair.outcome, repair.total);
                told(first) == told(second) && region.is_same_outside(&field.parents, masses, others)
            }
            _ => one == Err(8) && other == Err(8),
        };
        if !same {
            tally.difference(format!("files of {field:?}, M {total}: {one:?}; edited below {} to {edited:?}: {other:?}", region.top));
        }
        pair.note(&mut occurred, total);
    }
    occurred.look_for(tally, "pairs of files");
}

// ---- steps ----

/// Whether both steps of a pair return the same and leave the same book and, if accepted, outcome, total, length and masses outside.
fn steps_alike(region: &Region, parents: &[u32], one: &StepExit, other: &StepExit) -> bool {
    let told = |exit: &StepExit| [0, 1, 4].map(|entry| exit.answer[entry]);
    let same = (one.returned, &one.book) == (other.returned, &other.book);
    same && (one.returned != 0 || (told(one) == told(other) && region.is_same_outside(parents, &one.kept, &other.kept)))
}

/// Runs both sides on both steps of a pair, by fields that are the same outside the region; returns the library's exits.
fn compare_steps(tally: &mut Tally, workspace: &mut Workspace, region: &Region, calls: &[StepCall; 2]) -> [StepExit; 2] {
    let exits = calls.each_ref().map(|call| compare_step(tally, workspace, call).1);
    let [one, other] = &exits;
    if !steps_alike(region, &calls[0].field.parents, one, other) {
        let [call, edited] = calls;
        tally.difference(format!("step {call:?}: {one:?}; edited below {}, {edited:?}: {other:?}", region.top));
    }
    exits
}

/// Breaks a step in a way that the field has no part in: its total, source, scale or book.
fn break_around_field(random: &mut Random, call: &mut StepCall) {
    match random.below(6) {
        0 => call.balance.total = call.balance.total.wrapping_add(random.pick(&[1, u32::MAX, 1 << 31])),
        1 => call.source = random.pick(&[i32::MIN, i32::MAX]),
        2 => break_scale(random, call),
        _ => break_book(random, &mut call.book),
    }
}

/// Steps by both fields to the same total, from the same balance and book. The kept masses have the same sum and are mostly others.
fn make_steps(random: &mut Random, pair: &Pair, wanted: u32) -> [StepCall; 2] {
    let mut call = make_step(random, pair.field.clone(), wanted);
    let others = random::partition(random, call.balance.total, call.kept.len());
    let kept = if random.chance(70) { others } else { call.kept.clone() };
    if random.chance(20) {
        break_around_field(random, &mut call);
    }
    let edited = StepCall { field: pair.edited.clone(), kept, ..call.clone() };
    [call, edited]
}

/// Pairs of steps.
pub fn steps(tally: &mut Tally, random: &mut Random, count: u64) {
    let (mut workspace, mut occurred) = (Workspace::default(), Occurrences::default());
    for _ in 0..count {
        let pair = make_pair(random);
        let wanted = random::total(random, &pair.field);
        let calls = make_steps(random, &pair, wanted);
        let [one, other] = compare_steps(tally, &mut workspace, &pair.region, &calls);
        let accepted = one.returned == 0 && other.returned == 0;
        if accepted {
            pair.note_masses(&mut occurred, one.answer[0] as u32, [&one.kept, &other.kept]);
        }
        occurred.note("accepted from other kept masses", accepted && calls[0].kept != calls[1].kept);
        occurred.note("refused with 12 at a block", one.returned as u32 == 12 && one.returned >> 32 > 0);
        occurred.note("refused with 12 at no block", one.returned == 12);
        pair.note(&mut occurred, wanted);
    }
    occurred.look_for(tally, "pairs of steps");
}

// ---- runs ----

/// A kept field with its book.
#[derive(Clone)]
struct Side {
    kept: Vec<u32>,
    balance: Balance,
    volume: Volume,
}

impl Side {
    /// Takes over what an accepted step has left.
    fn take_over(&mut self, tally: &mut Tally, call: &StepCall, exit: StepExit) {
        self.volume.take_over(tally, call, &exit.kept, &exit.answer, exit.book);
        (self.kept, self.balance.total) = (exit.kept, exit.answer[1] as u32);
    }
}

/// The tree of a run, and the region in which the second field is edited.
fn make_region(random: &mut Random, cells: usize) -> (Vec<u32>, Region) {
    loop {
        let parents = random::tree(random, cells);
        if let Some(top) = parting_node(random, &parents, cells, 2) {
            let region = Region::new(&parents, top);
            return (parents, region);
        }
    }
}

/// Opens both sides: the second with the same masses outside the region, and with others of the same sum below its top.
fn open_sides(tally: &mut Tally, random: &mut Random, cells: usize, region: &Region) -> [Side; 2] {
    let (kept, scale) = (random::partition(random, OPENING, cells), sound_scale(random));
    let balance = open(tally, &kept, scale);
    let first = Side { kept, balance, volume: Volume::start(tally, random, balance.total) };
    let (mut second, inside) = (first.clone(), region.cells(cells));
    let below: u64 = inside.iter().map(|&cell| u64::from(first.kept[cell])).sum();
    for (&cell, mass) in inside.iter().zip(random::partition(random, below as u32, inside.len())) {
        second.kept[cell] = mass;
    }
    second.balance = open(tally, &second.kept, scale);
    [first, second]
}

/// A step of each side by a field and the same edited, from the same source; now and then one that goes too far.
fn next_steps(random: &mut Random, parents: &[u32], region: &Region, [first, second]: &[Side; 2]) -> [StepCall; 2] {
    let mut call = good_call(random, &first.kept, first.balance, first.volume.lent.clone());
    call.field.parents = parents.to_vec();
    call.scratch = vec![-1; scratch_length(random, parents.len())];
    match random.below(20) {
        0 | 1 => miss_total(random, &mut call),
        2 => call.source = random.pick(&[i32::MIN, i32::MAX]),
        _ => {}
    }
    let field = edited(random, &call.field, region);
    let book = second.volume.lent.clone();
    let edited = StepCall { field, kept: second.kept.clone(), balance: second.balance, book, ..call.clone() };
    [call, edited]
}

/// Gives both sides the same other book: one that opens with its closing total for a full one, else any that closes with the total.
fn replace_books(tally: &mut Tally, random: &mut Random, [first, second]: &mut [Side; 2]) {
    second.volume.check(tally);
    let full = first.volume.is_full();
    let total = first.balance.total;
    first.volume = if full { first.volume.replacement(tally, random) } else { Volume::other(tally, random, total) };
    second.volume = first.volume.clone();
}

/// Two kept fields side by side for so many steps, on one tree, the second one edited in one region.
fn run(tally: &mut Tally, random: &mut Random, occurred: &mut Occurrences, cells: usize, steps: u64) {
    let mut workspace = Workspace::default();
    let (parents, region) = make_region(random, cells);
    let mut sides = open_sides(tally, random, cells, &region);
    for _ in 0..steps {
        let calls = next_steps(random, &parents, &region, &sides);
        let exits = compare_steps(tally, &mut workspace, &region, &calls);
        let returned = exits.each_ref().map(|exit| exit.returned);
        if returned == [0, 0] {
            for ((side, call), exit) in sides.iter_mut().zip(&calls).zip(exits) {
                side.take_over(tally, call, exit);
            }
        }
        let [first, second] = &sides;
        let books = [first, second].map(|side| side.volume.lent.told());
        let same = first.balance == second.balance && books[0] == books[1];
        if !same || !region.is_same_outside(&parents, &first.kept, &second.kept) {
            let fields = [first, second].map(|side| (&side.kept, side.balance, &side.volume.lent));
            tally.difference(format!("run on {parents:?}, edited below {}, after {calls:?}: {fields:?}", region.top));
        }
        occurred.note("accepted that leave other masses below the node", returned == [0, 0] && first.kept != second.kept);
        if returned == [21, 21] || random.chance(2) {
            replace_books(tally, random, &mut sides);
        }
    }
}

/// So many runs.
pub fn runs(tally: &mut Tally, random: &mut Random, cells: usize, count: u64, steps: u64) {
    let mut occurred = Occurrences::default();
    for _ in 0..count {
        run(tally, random, &mut occurred, cells, steps);
    }
    occurred.look_for(tally, &format!("steps of pairs of {cells} cells"));
}

// ---- a changed sum ----

/// A sound field, and the same with another sum of a value below a node that is not above all cells; nothing if none was found.
fn make_changed(random: &mut Random, value: usize) -> Option<Pair> {
    let cells = random::cell_count(random).max(2);
    let field = random::field(random, cells);
    let least = 1 + random.below(2);
    let top = parting_node(random, &field.parents, cells, least)?;
    let region = Region::new(&field.parents, top);
    Some(Pair { edited: with_changed_sum(random, &field, &region, value)?, field, region })
}

/// Pairs of files in which one sum below the node is changed, so that what is held above could fail: with the same outcome masses outside
/// must be moved by each of the six, and now and then the outcome is another, or only one of both is refused.
pub fn changed_sums(tally: &mut Tally, random: &mut Random, count: u64) {
    let (mut workspace, mut moved, mut occurred) = (FileWorkspace::default(), Occurrences::default(), Occurrences::default());
    // Each of the six is looked for, whatever is drawn.
    VALUES.into_iter().for_each(|value| moved.note(value, false));
    let mut made = 0;
    while made < count {
        let value = random.index(VALUES.len());
        let Some(pair) = make_changed(random, value) else {
            continue;
        };
        made += 1;
        let total = random::total(random, &pair.field);
        let [one, other] = answers(tally, &mut workspace, random, &pair, total);
        if let (Ok((first, masses)), Ok((second, others))) = (&one, &other) {
            let same = pair.region.is_same_outside(&pair.field.parents, masses, others);
            moved.note(VALUES[value], first.outcome == second.outcome && !same);
            occurred.note("give another outcome", first.outcome != second.outcome);
        }
        occurred.note("are refused in one of both", one.is_ok() != other.is_ok());
    }
    moved.look_for(tally, "masses outside moved by the sum of the value");
    occurred.look_for(tally, "changed sums that");
}
