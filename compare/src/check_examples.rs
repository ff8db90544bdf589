//! The examples E1 to E10 of 01 and its places where programs stray, with the rounding of ticket 3 of 02, what is shared out in them after
//! ticket 2, and more of both, run through the second implementation and the library both.

use crate::check_calls::{compare_import, compare_split, SplitCall};
use crate::check_files::repaired_by_files;
use crate::files::{field_file, read_answer, reconstruct_file, AnswerHeader, FileWorkspace};
use crate::from_c::returned;
use crate::listing::listing;
use crate::operations::{reconstruct, refuse_at, LIMIT, MAX_NODES, SCRATCH_PER_NODE};
use crate::random;
use crate::split::rounded;
use crate::tally::Tally;
use crate::tree::{Field, Repair, Workspace};

fn expect<T: PartialEq + std::fmt::Debug>(tally: &mut Tally, name: &str, got: T, expected: T) {
    tally.input(got == expected, || format!("{name}: {got:?}, and the papers say {expected:?}"));
}

/// A field whose cells have the same safe bounds and weights 0.
fn field(parents: &[u32], targets: &[i32], lows: &[u32], highs: &[u32], safe: (u32, u32)) -> Field {
    let cells = targets.len();
    Field {
        targets: targets.to_vec(),
        lows: lows.to_vec(),
        highs: highs.to_vec(),
        safe_lows: vec![safe.0; cells],
        safe_highs: vec![safe.1; cells],
        weights: vec![0; cells],
        parents: parents.to_vec(),
    }
}

type Answer = Result<(u32, Vec<u32>, u64, u64), (u32, u32)>;

/// Outcome, masses, change and the sum shared out, or the refusal, of both sides; the library's by its files. The call on a file has no
/// place: it is looked at as far as it goes.
fn check_field(tally: &mut Tally, name: &str, field: &Field, total: u32, expected: Answer) {
    let (mut masses, mut scratch) = (vec![7; field.targets.len()], vec![7; SCRATCH_PER_NODE * field.parents.len()]);
    let result = reconstruct(&mut Workspace::default(), &field.lists(), total, &mut masses, &mut scratch);
    tally.outcome(&result.map(|repair| repair.outcome));
    let mine = result.map(|repair| (repair.outcome, masses, repair.change, repair.shared));
    let mine = mine.map_err(|refusal| (refusal.number, refusal.place));
    expect(tally, name, mine, expected.clone());
    let theirs = repaired_by_files(field, total);
    let theirs = theirs.map(|([_, outcome, _, change, shared], masses)| (outcome as u32, masses, change, shared));
    expect(tally, name, theirs, expected.map_err(|refusal| refusal.0));
}

/// The value returned, the masses and d.
fn check_split(tally: &mut Tally, name: &str, lists: [&[i64]; 4], total: i64, expected: (u64, &[i64], i64)) {
    let [targets, lows, highs, weights] = lists.map(<[i64]>::to_vec);
    let (masses, deficit) = (vec![-9; targets.len()], vec![-9]);
    let exit = compare_split(tally, &SplitCall { targets, lows, highs, weights, total, masses, deficit });
    expect(tally, name, (exit.returned, exit.masses.as_slice(), exit.deficit[0]), expected);
}

fn check_import(tally: &mut Tally, name: &str, doubles: [f64; 5], expected: (u64, [i64; 5])) {
    let (result, units) = compare_import(tally, doubles, 0, &[-9; 5]);
    tally.answer(&result);
    expect(tally, name, (returned(result), units.as_slice()), (expected.0, &expected.1[..]));
}

const E1: &str = "outcome 0 cells 4 total 16 change 4\n0 0 2\n1 7 -2\n2 4 0\n3 5 0\n";

fn fields(tally: &mut Tally) {
    let one = field(&[4, 4, 5, 5, 6, 6, 6], &[-2, 9, 4, 5], &[0; 4], &[8; 4], (0, 10));
    check_field(tally, "E1", &one, 16, Ok((0, vec![0, 7, 4, 5], 4, 1)));
    expect(tally, "E1 listing", listing(&mut FileWorkspace::default(), &field_file(&one, 16)), E1.to_string());
    // Sharing over all cells is what the flat tree does.
    let no_tree = field(&random::flat(4), &[-2, 9, 4, 5], &[0; 4], &[8; 4], (0, 10));
    check_field(tally, "stray: no tree", &no_tree, 16, Ok((0, vec![0, 8, 3, 5], 4, 1)));
    let four = field(&[2, 2, 2], &[3, 5], &[3, 5], &[4, 6], (0, 10));
    check_field(tally, "E4", &four, 4, Ok((1, vec![1, 3], 4, 4)));
    check_field(tally, "E5", &four, 14, Ok((2, vec![6, 8], 6, 4)));
    check_field(tally, "E5 at 20", &four, 20, Ok((2, vec![10, 10], 12, 10)));
    check_field(tally, "E6", &four, 21, Err((8, 0)));
    check_field(tally, "stray: M is the sum of the lows", &four, 8, Ok((0, vec![3, 5], 0, 0)));
    check_field(tally, "stray: M is the sum of the highs", &four, 10, Ok((0, vec![4, 6], 2, 2)));
    check_field(tally, "E7", &field(&[2, 2], &[3, 5], &[3, 5], &[4, 6], (0, 10)), 9, Err((4, 0)));
    check_field(tally, "E8", &field(&[0], &[3], &[0], &[5], (0, 10)), 7, Ok((2, vec![7], 4, 0)));
    // Targets -4 and 6 add up to 2 for the node above them; clipped first they would give 6, and masses 4 and 4 for the node and cell 2.
    let sums = field(&[3, 3, 4, 4, 4], &[-4, 6, 6], &[0; 3], &[8; 3], (0, 10));
    check_field(tally, "stray: clipping before adding", &sums, 8, Ok((0, vec![0, 2, 6], 8, 4)));
}

/// Ticket 2: d of either sign, the most that can be shared out, and a field of one node, which shares out 0.
fn shared(tally: &mut Tally) {
    // d is 1 at the root, 4 at node 5 and -3 at node 4.
    let signs = field(&[4, 4, 5, 5, 6, 6, 6], &[-6, 4, 12, 2], &[0; 4], &[8; 4], (0, 10));
    check_field(tally, "shared out at every node", &signs, 15, Ok((0, vec![0, 1, 8, 6], 17, 8)));
    let most = LIMIT as u32;
    let tall = random::tall(1, MAX_NODES);
    let all = LIMIT * (MAX_NODES as u64 - 1);
    check_field(tally, "the most given", &field(&tall, &[-5], &[0], &[0], (0, most)), most, Ok((2, vec![most], LIMIT + 5, all)));
    check_field(tally, "the most taken", &field(&tall, &[i32::MAX], &[most], &[most], (0, most)), 0, Ok((1, vec![0], LIMIT, all)));
    let one_node = field(&[0], &[4], &[3], &[5], (1, 8));
    for total in 1..=8 {
        let outcome = if total < 3 { 1 } else { u32::from(total > 5) * 2 };
        check_field(tally, "one node", &one_node, total, Ok((outcome, vec![total], u64::from(total.abs_diff(4)), 0)));
    }
    // A node with one child is an inner node: its d counts.
    let one_child = field(&[1, 1], &[4], &[3], &[5], (1, 8));
    check_field(tally, "one child", &one_child, 7, Ok((2, vec![7], 3, 2)));
}

fn splits(tally: &mut Tally) {
    let ones: [&[i64]; 4] = [&[0; 3], &[0; 3], &[1; 3], &[0; 3]];
    check_split(tally, "E2", ones, 2, (0, &[1, 0, 1], 2));
    check_split(tally, "E2 at 3", ones, 3, (0, &[1, 1, 1], 3));
    check_split(tally, "E2 at 4", ones, 4, (8, &[-9; 3], -9));
    check_split(tally, "E3", [&[0, 0], &[0, 0], &[10, 3], &[1, 3]], 8, (0, &[5, 3], 8));
    check_split(tally, "d below 0", [&[9, 9], &[0, 0], &[8, 8], &[0, 0]], 4, (0, &[2, 2], -12));
    check_split(tally, "d is 0", [&[1, 9], &[0, 0], &[8, 8], &[0, 0]], 9, (0, &[1, 8], 0));
}

/// Ticket 3: E2 with each share rounded alone; halves, of either sign and in either pass; and the largest numbers that are rounded.
fn roundings(tally: &mut Tally) {
    // A unit more than there is to share out.
    expect(tally, "stray: E2 rounded alone", [1; 3].map(|capacity| rounded(2 * capacity, 3)), [1; 3]);
    check_split(tally, "a half given", [&[0, 0], &[0, 0], &[5, 5], &[0, 0]], 3, (0, &[2, 1], 3));
    check_split(tally, "a half taken", [&[5, 5], &[0, 0], &[5, 5], &[0, 0]], 7, (0, &[3, 4], -3));
    check_split(tally, "a half by weights", [&[0, 0], &[0, 0], &[5, 5], &[4, 4]], 3, (0, &[2, 1], 3));
    check_split(tally, "one unit among three", [&[0; 3], &[0; 3], &[5; 3], &[0; 3]], 1, (0, &[0, 1, 0], 1));
    let most = LIMIT as i64;
    check_split(tally, "the largest product", [&[0], &[0], &[most], &[most]], most, (0, &[most], most));
    let (less, more) = (most / 2, most / 2 + 1);
    check_split(tally, "the largest products", [&[0, 0], &[0, 0], &[more, less], &[less, more]], most, (0, &[more, less], most));
}

fn imports(tally: &mut Tally) {
    for (target, unit) in [(2.5, 2), (3.5, 4), (-2.5, -2), (-0.0, 0)] {
        check_import(tally, "E9", [target, 0.0, 0.0, 0.0, 0.0], (0, [unit, 0, 0, 0, 0]));
    }
    check_import(tally, "E10 low", [0.0, -0.25, 0.0, 0.0, 0.0], (0, [0; 5]));
    check_import(tally, "E10 high", [0.0, 0.0, -0.25, 0.0, 0.0], (11 | 2 << 32, [-9; 5]));
}

/// The answer file of E1, written and read again by the second implementation.
fn answer_file(tally: &mut Tally) {
    let one = field(&[4, 4, 5, 5, 6, 6, 6], &[-2, 9, 4, 5], &[0; 4], &[8; 4], (0, 10));
    let (mut buffer, mut masses) = ([1; 1024], [7; 5]);
    let length = reconstruct_file(&mut FileWorkspace::default(), &field_file(&one, 16), &mut buffer);
    expect(tally, "E1 answer file", length.map(|(_, length)| length), Ok(1024));
    let header = AnswerHeader { cells: 4, repair: Repair { outcome: 0, total: 16, change: 4, shared: 1 } };
    expect(tally, "E1 answer read", read_answer(&buffer, &mut masses), Ok(header));
    expect(tally, "E1 masses read", masses, [0, 7, 4, 5, 7]);
    expect(tally, "a returned value", returned(refuse_at(4, 3)), 4 | 3 << 32);
}

pub fn examples(tally: &mut Tally) {
    fields(tally);
    shared(tally);
    splits(tally);
    roundings(tally);
    imports(tally);
    answer_file(tally);
}
