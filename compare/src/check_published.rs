//! What the publication (Bradley, Bosler, Guba, Taylor, Barnett, SIAM J. Sci. Comput. 2019) says of its methods, in whole numbers with the
//! rounding of ticket 3 of 02: the proportions of Algorithm 3.1, the redistribution of Figure 5.2(b), the norm of Proposition 3.3 and the
//! deviation of Proposition 3.10(ii). The masses of the second implementation and of the library are both compared with it, and with each
//! other.

use crate::check_calls::{compare_split, compare_step, make_step, sound_split};
use crate::random::{self, Random};
use crate::tally::Tally;
use crate::tree::{sum, Field, Workspace};

/// Masses of a step that both sides take alike, its outcome and its change; nothing if it is refused. A difference between the sides is
/// counted on the way, so what holds of these masses holds of both sides.
fn repaired(tally: &mut Tally, random: &mut Random, workspace: &mut Workspace, field: &Field, total: u32) -> Option<(Vec<u32>, u64, u64)> {
    let call = make_step(random, field.clone(), total);
    let (exit, _) = compare_step(tally, workspace, &call);
    (exit.returned == 0 && exit.answer[1] == u64::from(total)).then(|| (exit.kept, exit.answer[0], exit.answer[2]))
}

const RING: usize = 64;
const PEAK: usize = 32;

/// The balanced binary tree over 64 cells, translated: the leaf at position p is cell (p + shift) modulo 64.
fn translated(shift: usize) -> Vec<u32> {
    let tree = random::binary(RING);
    let mut parents = tree.clone();
    for position in 0..RING {
        parents[(position + shift) % RING] = tree[position];
    }
    parents
}

/// Figure 5.2(b): m units of mass in cell 32, bounds 0 to 1 everywhere, the total m. Mass stays within the spanned cells, those of the
/// smallest subtree with m leaves or more that contains cell 32. For m a power of two each spanned cell holds one unit. Summed over the
/// 64 translations the profile is then a triangle.
fn redistribution(tally: &mut Tally, random: &mut Random, mass: u32, weight: u32) {
    let mut workspace = Workspace::default();
    let span = mass.next_power_of_two() as usize;
    let mut profile = [0; RING];
    for shift in 0..RING {
        let mut targets = vec![0; RING];
        targets[PEAK] = mass as i32;
        let field = Field {
            targets,
            lows: vec![0; RING],
            highs: vec![1; RING],
            safe_lows: vec![0; RING],
            safe_highs: vec![1; RING],
            weights: vec![weight; RING],
            parents: translated(shift),
        };
        let Some((masses, outcome, _)) = repaired(tally, random, &mut workspace, &field, mass) else {
            tally.difference(format!("Figure 5.2(b), m {mass} shift {shift}: refused"));
            continue;
        };
        let place = |cell: usize| (cell + RING - shift) % RING;
        let spanned = |cell: usize| place(cell) / span == place(PEAK) / span;
        let full = span == mass as usize;
        let fits = |cell: usize| masses[cell] == u32::from(spanned(cell)) || (!full && spanned(cell) && masses[cell] == 0);
        if outcome != 0 || sum(&masses) != u64::from(mass) || !(0..RING).all(fits) {
            tally.difference(format!("Figure 5.2(b), m {mass} weight {weight} shift {shift}: outcome {outcome}, masses {masses:?}"));
        }
        for (height, mass) in profile.iter_mut().zip(&masses) {
            *height += mass;
        }
    }
    if span == mass as usize && span <= PEAK {
        let triangle = |cell: usize| (RING / span * span.saturating_sub(cell.abs_diff(PEAK))) as u32;
        if !(0..RING).all(|cell| profile[cell] == triangle(cell)) {
            tally.difference(format!("Figure 5.2(b), m {mass} weight {weight}: no triangle, {profile:?}"));
        }
    }
}

/// The symbols of Proposition 3.3 for masses within low and high: b, B_l, B_u and |d(l, u)|, where the publication's l and u are the
/// bounds minus the targets.
struct Symbols {
    b: i64,
    below: i64,
    above: i64,
    d: i64,
    clipped: i64,
}

fn symbols(field: &Field, total: u32) -> Symbols {
    let mut found = Symbols { b: i64::from(total), below: 0, above: 0, d: 0, clipped: 0 };
    let (mut lower, mut upper) = (0, 0);
    for cell in 0..field.targets.len() {
        let target = i64::from(field.targets[cell]);
        let (low, high) = (i64::from(field.lows[cell]), i64::from(field.highs[cell]));
        found.b -= target;
        found.below += (low - target).max(0);
        found.above += (target - high).max(0);
        found.clipped += target.clamp(low, high);
        lower += low - target;
        upper += high - target;
    }
    found.d = lower.max(0) + (-upper).max(0);
    found
}

/// The least sum of absolute differences from the targets over all assignments within the bounds with that sum, by trying all of them.
fn least_by_trial(field: &Field, cell: usize, left: i64) -> Option<i64> {
    if cell == field.targets.len() {
        return (left == 0).then_some(0);
    }
    let target = i64::from(field.targets[cell]);
    (field.lows[cell]..=field.highs[cell])
        .filter_map(|mass| {
            let mass = i64::from(mass);
            least_by_trial(field, cell + 1, left - mass).map(|rest| rest + (mass - target).abs())
        })
        .min()
}

/// Proposition 3.3, for a step with outcome 0. On a flat tree the change is the least possible, which is that of clipping and the size of
/// d, and is given by (3.2); on any tree the bound (3.3) holds, by Proposition 5.3.
fn norm(tally: &mut Tally, field: &Field, total: u32, is_flat: bool, change: u64) {
    let found = symbols(field, total);
    let change = change as i64;
    let discrepancy = i64::from(total) - found.clipped;
    let stated = if discrepancy >= 0 { found.b + 2 * found.above } else { -found.b + 2 * found.below };
    let least = found.below + found.above + discrepancy.abs();
    if is_flat && (change != stated || change != least) {
        tally.difference(format!("Proposition 3.3 on {field:?}, M {total}: change {change}, least {least}, (3.2) {stated}"));
    }
    if change > found.b.abs() + 2 * (found.below + found.above - found.d) {
        tally.difference(format!("bound (3.3) on {field:?}, M {total}: change {change}"));
    }
    let few = field.targets.len() <= 4 && (0..field.targets.len()).all(|cell| field.highs[cell] - field.lows[cell] <= 4);
    if is_flat && few && least_by_trial(field, 0, i64::from(total)) != Some(change) {
        tally.difference(format!("Proposition 3.2 on {field:?}, M {total}: {change} is not the least"));
    }
}

/// Proposition 3.10(ii), for outcomes 1 and 2: all masses lie on one side of the bound that is missed, within the safe bounds, and miss
/// it in sum by the size of M minus the bounds' sum, the least possible.
fn deviation(tally: &mut Tally, field: &Field, total: u32, outcome: u64, masses: &[u32]) {
    let (lows, highs, bound) = match outcome {
        1 => (&field.safe_lows, &field.lows, &field.lows),
        _ => (&field.highs, &field.safe_highs, &field.highs),
    };
    let within = (0..masses.len()).all(|cell| lows[cell] <= masses[cell] && masses[cell] <= highs[cell]);
    let missed: u64 = masses.iter().zip(bound).map(|(&mass, &bound)| u64::from(mass.abs_diff(bound))).sum();
    if !within || missed != u64::from(total).abs_diff(sum(bound)) {
        tally.difference(format!("Proposition 3.10(ii) on {field:?}, M {total}: outcome {outcome}, masses {masses:?}"));
    }
}

fn propositions(tally: &mut Tally, random: &mut Random, workspace: &mut Workspace) {
    let cells = if random.chance(50) { random.between(1, 4) as usize } else { random::cell_count(random) };
    let mut field = random::field(random, cells);
    let is_flat = random.chance(60);
    if is_flat {
        field.parents = random::flat(cells);
    }
    let total = random::total(random, &field);
    match repaired(tally, random, workspace, &field, total) {
        Some((_, 0, change)) => norm(tally, &field, total, is_flat, change),
        Some((masses, outcome, _)) => deviation(tally, &field, total, outcome, &masses),
        None => {}
    }
}

/// Algorithm 3.1, ClipAndAssuredSum: each item gets its clipped target and a share of d in proportion to its capacity. In whole numbers the
/// shares up to each item, without their sign, add up to what the published ones add up to, rounded to nearest with halves up. So each share
/// is less than one unit from the published one.
fn proportions(tally: &mut Tally, random: &mut Random) {
    let mut call = sound_split(random);
    call.weights.fill(0);
    let exit = compare_split(tally, &call);
    if exit.returned != 0 {
        return;
    }
    let d = exit.deficit[0];
    let items = 0..call.targets.len();
    let clipped = |item: usize| call.targets[item].clamp(call.lows[item], call.highs[item]);
    let capacity = |item: usize| if d > 0 { call.highs[item] - clipped(item) } else { clipped(item) - call.lows[item] };
    let all: i64 = items.clone().map(capacity).sum();
    // The published sum is held times `all`.
    let (mut published, mut given) = (0, 0);
    for item in items {
        let share = exit.masses[item] - clipped(item);
        published += d.abs() * capacity(item);
        given += share * d.signum();
        let fits = if d == 0 { share == 0 } else { (-all..all).contains(&(2 * (published - given * all))) };
        if !fits {
            tally.difference(format!("Algorithm 3.1 on {call:?}: item {item} of {exit:?}"));
            return;
        }
    }
}

pub fn published(tally: &mut Tally, random: &mut Random, count: u64) {
    for weight in [0, 1] {
        for mass in (1..=32).chain([64]) {
            redistribution(tally, random, mass, weight);
        }
    }
    let mut workspace = Workspace::default();
    for _ in 0..count {
        propositions(tally, random, &mut workspace);
        proportions(tally, random);
    }
}
