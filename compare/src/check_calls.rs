//! Split, Open, Step, Import and both exports through the calls from C, compared with the second implementation: the value returned and
//! every lent list at exit, entry by entry. Step is also held to its version before ticket 9 of 02, and its book to the one before with one
//! record more.

use crate::calls;
use crate::check_books::{check_added, note_book};
use crate::doubles;
use crate::from_c::{self, returned, STEP_ENTRIES};
use crate::operations::{Balance, Refusal, FORMER_SCRATCH_PER_NODE, LIMIT, MAX_SCALE, SCRATCH_PER_NODE};
use crate::random::{self, Random};
use crate::random_books::{book_to, break_book, record_count, BookBuffer};
use crate::shared::shared_by_masses;
use crate::tally::{Occurrences, Tally};
use crate::tree::{Field, Workspace};
use std::fmt::Debug;
use std::num::FpCategory;

/// How often inputs are broken: mostly not, and rarely in several ways at once, so that the order of the checks shows.
pub fn breaks(random: &mut Random) -> u64 {
    match random.below(10) {
        0..=5 => 0,
        6..=8 => 1,
        _ => random.between(2, 3) as u64,
    }
}

/// A number of cells that is out of range or next to it; rarely one that only looks right in 16 bits.
pub fn wrong_count(random: &mut Random) -> usize {
    if random.chance(2) {
        65536 + 8
    } else {
        random.pick(&[0, 0, 1, 511, 512, 513, 514, 700])
    }
}

/// Makes a list shorter or longer by some entries.
pub fn stretch<T: Copy>(random: &mut Random, list: &mut Vec<T>, filler: T) {
    let length = match random.below(4) {
        0 => 0,
        1 => list.len().saturating_sub(1),
        2 => list.len() + 1,
        _ => random.index(2 * list.len() + 2),
    };
    list.resize(length, filler);
}

/// A scale in range.
pub fn sound_scale(random: &mut Random) -> u32 {
    random.below(u64::from(MAX_SCALE) + 1) as u32
}

/// A scale that is out of range; now and then one that only looks right in 8 or 16 bits.
pub fn wrong_scale(random: &mut Random) -> u32 {
    let any = random.between(i64::from(MAX_SCALE) + 1, i64::from(u32::MAX)) as u32;
    random.pick(&[31, 31, 32, 33, 40, 63, 64, 256 + 8, 65536 + 8, 1 << 31, u32::MAX, any])
}

pub fn make_scale(random: &mut Random) -> u32 {
    match random.below(10) {
        0 => wrong_scale(random),
        1 | 2 => random.pick(&[0, MAX_SCALE]),
        _ => sound_scale(random),
    }
}

/// Any bits: what a lent list holds before the call.
pub fn any_bits<T>(random: &mut Random, length: usize, make: impl Fn(u64) -> T) -> Vec<T> {
    (0..length).map(|_| make(random.bits())).collect()
}

// ---- split ----

#[derive(Clone, Debug)]
pub struct SplitCall {
    pub targets: Vec<i64>,
    pub lows: Vec<i64>,
    pub highs: Vec<i64>,
    pub weights: Vec<i64>,
    pub total: i64,
    pub masses: Vec<i64>,
    pub deficit: Vec<i64>,
}

/// The value returned and the lists that a split may write, at exit.
#[derive(Debug, PartialEq)]
pub struct SplitExit {
    pub returned: u64,
    pub masses: Vec<i64>,
    pub deficit: Vec<i64>,
}

impl SplitExit {
    fn entry(call: &SplitCall) -> SplitExit {
        SplitExit { returned: 0, masses: call.masses.clone(), deficit: call.deficit.clone() }
    }
}

/// Runs both sides; returns the exit of the second implementation.
pub fn compare_split(tally: &mut Tally, call: &SplitCall) -> SplitExit {
    let (mut mine, mut theirs) = (SplitExit::entry(call), SplitExit::entry(call));
    let SplitCall { targets, lows, highs, weights, total, .. } = call;
    let result = from_c::split(targets, lows, highs, weights, *total, &mut mine.masses, &mut mine.deficit);
    mine.returned = returned(result);
    theirs.returned = calls::split(targets, lows, highs, weights, *total, &mut theirs.masses, &mut theirs.deficit);
    tally.answer(&result);
    tally.input(mine == theirs, || format!("split {call:?}: second implementation {mine:?}, library {theirs:?}"));
    mine
}

fn any_number(random: &mut Random) -> i64 {
    let limit = LIMIT as i64;
    match random.below(3) {
        0 => random.pick(&[i64::MIN, i64::MAX, -1, 0, 1, limit, limit + 1, -limit, 1 << 32, 1 << 62]),
        1 => random.between(-4, 4),
        _ => random.bits() as i64,
    }
}

fn some_list<'a>(random: &mut Random, call: &'a mut SplitCall) -> &'a mut Vec<i64> {
    match random.below(4) {
        0 => &mut call.lows,
        1 => &mut call.highs,
        2 => &mut call.weights,
        _ => &mut call.masses,
    }
}

fn break_split(random: &mut Random, call: &mut SplitCall) {
    let value = any_number(random);
    match random.below(11) {
        0 | 1 => call.total = value,
        2 => stretch(random, &mut call.targets, value),
        3 => {
            let length = wrong_count(random);
            let SplitCall { targets, lows, highs, weights, masses, .. } = call;
            for list in [targets, lows, highs, weights, masses] {
                list.resize(length, 0);
            }
        }
        4 | 5 => {
            let list = some_list(random, call);
            stretch(random, list, value);
        }
        6 => call.deficit.clear(),
        _ => {
            // One entry, or most of them.
            let list = some_list(random, call);
            let count = if random.chance(50) { 1 } else { list.len() };
            for _ in 0..count.min(list.len()) {
                let index = random.index(list.len());
                list[index] = value;
            }
        }
    }
}

/// A split in which nothing is broken; its total may be out of reach.
pub fn sound_split(random: &mut Random) -> SplitCall {
    let cells = random::cell_count(random);
    let field = random::field(random, cells);
    let wide = |list: &[u32]| list.iter().map(|&value| i64::from(value)).collect::<Vec<i64>>();
    let entries = random.pick(&[1, 1, 1, 2, 5]);
    let mut call = SplitCall {
        targets: field.targets.iter().map(|&target| i64::from(target)).collect(),
        lows: wide(&field.lows),
        highs: wide(&field.highs),
        weights: wide(&field.weights),
        total: i64::from(random::total(random, &field)),
        masses: any_bits(random, cells, |bits| bits as i64),
        deficit: any_bits(random, entries, |bits| bits as i64),
    };
    if random.chance(20) {
        call.targets.iter_mut().for_each(|target| *target = any_number(random));
    }
    if random.chance(70) {
        call.total = call.total.clamp(call.lows.iter().sum(), call.highs.iter().sum());
    }
    call
}

fn make_split(random: &mut Random) -> SplitCall {
    let mut call = sound_split(random);
    for _ in 0..breaks(random) {
        break_split(random, &mut call);
    }
    call
}

pub fn splits(tally: &mut Tally, random: &mut Random, count: u64) {
    for _ in 0..count {
        compare_split(tally, &make_split(random));
    }
}

// ---- open ----

pub fn make_kept(random: &mut Random) -> Vec<u32> {
    let cells = if random.chance(10) { random.pick(&[0, 511, 512, 513, 600, 1024]) } else { random::cell_count(random) };
    if cells == 0 {
        return Vec::new();
    }
    let total = random.pick(&[LIMIT as u32, LIMIT as u32 + 1, u32::MAX, 0, 1000]);
    let mut kept = random::partition(random, total, cells);
    if random.chance(20) {
        let value = random.pick(&[u32::MAX, LIMIT as u32, LIMIT as u32 + 1, 0]);
        let index = random.index(cells);
        kept[index] = value;
    }
    kept
}

pub fn opens(tally: &mut Tally, random: &mut Random, count: u64) {
    for _ in 0..count {
        let (kept, scale) = (make_kept(random), make_scale(random));
        let length = random.pick(&[0, 1, 2, 2, 2, 2, 3, 4, 5]);
        let mut mine = any_bits(random, length, |bits| bits);
        let mut theirs = mine.clone();
        let result = from_c::open(&kept, scale, &mut mine);
        let got = calls::open(&kept, scale, &mut theirs);
        tally.answer(&result);
        let expected = returned(result);
        tally.input((expected, &mine) == (got, &theirs), || {
            format!("open {kept:?} scale {scale}: second implementation {expected:#x} {mine:?}, library {got:#x} {theirs:?}")
        });
    }
}

// ---- step ----

#[derive(Clone, Debug)]
pub struct StepCall {
    pub balance: Balance,
    pub kept: Vec<u32>,
    pub source: i32,
    pub scale: u32,
    pub field: Field,
    pub scratch: Vec<i64>,
    pub book: BookBuffer,
    pub answer: Vec<u64>,
}

/// The value returned and the lists that a step may write, at exit; the book with the length that was told.
#[derive(Debug, PartialEq)]
pub struct StepExit {
    pub returned: u64,
    pub kept: Vec<u32>,
    pub scratch: Vec<i64>,
    pub book: BookBuffer,
    pub answer: Vec<u64>,
}

/// Runs the second implementation, with so many scratch numbers for each node.
fn second_step<const PER_NODE: usize>(workspace: &mut Workspace, call: &StepCall) -> (Result<(), Refusal>, StepExit) {
    let &StepCall { balance, source, scale, .. } = call;
    let (mut kept, mut scratch, mut book, mut answer) = (call.kept.clone(), call.scratch.clone(), call.book.clone(), call.answer.clone());
    let lists = call.field.lists();
    let result = from_c::step_by::<PER_NODE>(workspace, balance, &mut kept, source, scale, &lists, &mut scratch, book.lend(), &mut answer);
    (result, StepExit { returned: returned(result), kept, scratch, book, answer })
}

/// Runs the library, with the scratch given.
fn library_step(call: &StepCall, scratch: &[i64]) -> StepExit {
    let &StepCall { balance, source, scale, .. } = call;
    let (mut kept, mut scratch, mut book, mut answer) = (call.kept.clone(), scratch.to_vec(), call.book.clone(), call.answer.clone());
    let returned = calls::step(balance, &mut kept, source, scale, &call.field.lists(), &mut scratch, book.lend(), &mut answer);
    StepExit { returned, kept, scratch, book, answer }
}

/// Runs both sides; returns the exits of the second implementation and of the library.
pub fn compare_step(tally: &mut Tally, workspace: &mut Workspace, call: &StepCall) -> (StepExit, StepExit) {
    let (result, mine) = second_step::<SCRATCH_PER_NODE>(workspace, call);
    let theirs = library_step(call, &call.scratch);
    tally.outcome(&result.map(|()| mine.answer[0] as u32));
    tally.input(mine == theirs, || format!("step {call:?}: second implementation {mine:?}, library {theirs:?}"));
    compare_former(tally, workspace, call, &theirs);
    if (mine.returned, theirs.returned) == (0, 0) {
        let shared = shared_by_masses(&call.field, theirs.answer[0], &theirs.kept);
        if theirs.answer[3] != shared {
            tally.difference(format!("step {call:?}: by its masses {shared} is shared out, library {theirs:?}"));
        }
        check_added(tally, call, &theirs.answer, &theirs.book);
    }
    (mine, theirs)
}

/// How many scratch numbers so many nodes need, and how many they needed before ticket 9.
fn needed(nodes: usize) -> (usize, usize) {
    (SCRATCH_PER_NODE * nodes, FORMER_SCRATCH_PER_NODE * nodes)
}

/// If the scratch is long enough for the version before ticket 9, the library gives what that version gives, but for the numbers that only
/// that version clears; and with the scratch cut to what is needed now the library gives the same again.
fn compare_former(tally: &mut Tally, workspace: &mut Workspace, call: &StepCall, exit: &StepExit) {
    let (now, formerly) = needed(call.field.parents.len());
    if call.scratch.len() < formerly {
        return;
    }
    let (_, mut former) = second_step::<FORMER_SCRATCH_PER_NODE>(workspace, call);
    former.scratch[now..formerly].copy_from_slice(&call.scratch[now..formerly]);
    if *exit != former {
        tally.difference(format!("step {call:?}: former version {former:?}, library {exit:?}"));
    }
    former.scratch.truncate(now);
    let cut = library_step(call, &call.scratch[..now]);
    if cut != former {
        tally.difference(format!("step {call:?} with {now} numbers of its scratch: former version {former:?}, library {cut:?}"));
    }
}

/// A length of scratch that is enough for so many nodes: what is needed or a few more, what was needed before ticket 9 or a few more, or one
/// between both.
pub fn scratch_length(random: &mut Random, nodes: usize) -> usize {
    let (now, formerly) = needed(nodes);
    let few = random.pick(&[1, 2, 7]);
    let between = random.between(now as i64 + 1, formerly as i64 - 1) as usize;
    random.pick(&[now, now, now + few, between, between, formerly, formerly + few, formerly + few])
}

/// A step of the field to the total wanted, from any kept masses and source that lead to it, at any scale in range, with a book in order that
/// is not full.
pub fn make_step(random: &mut Random, field: Field, wanted: u32) -> StepCall {
    let source = match random.below(4) {
        0 => 0,
        1 => random.pick(&[i32::MIN, i32::MAX, -1, 1]),
        2 => random.between(-1000, 1000) as i32,
        _ => random.bits() as i32,
    };
    let total = (i64::from(wanted) - i64::from(source)).clamp(0, i64::from(u32::MAX)) as u32;
    let scale = sound_scale(random);
    let length = scratch_length(random, field.parents.len());
    let records = record_count(random);
    let book = book_to(random, total, records);
    let longer = random.pick(&[0, 0, 1, 4]);
    StepCall {
        balance: Balance { total, scale },
        kept: random::partition(random, total, field.targets.len()),
        source: (i64::from(wanted) - i64::from(total)) as i32,
        scale,
        scratch: any_bits(random, length, |bits| bits as i64),
        book: BookBuffer::of(random, &book),
        answer: any_bits(random, STEP_ENTRIES + longer, |bits| bits),
        field,
    }
}

/// Resizes every list that has an entry for each cell.
fn resize_cells(call: &mut StepCall, length: usize) {
    call.field.targets.resize(length, 0);
    let Field { lows, highs, safe_lows, safe_highs, weights, .. } = &mut call.field;
    for list in [lows, highs, safe_lows, safe_highs, weights, &mut call.kept] {
        list.resize(length, 0);
    }
}

fn break_kept(random: &mut Random, kept: &mut [u32]) {
    if kept.is_empty() {
        return;
    }
    let (from, to) = (random.index(kept.len()), random.index(kept.len()));
    match random.below(3) {
        // The sum stays the same modulo 2^32, and may pass it.
        0 => {
            kept[from] = kept[from].wrapping_sub(5);
            kept[to] = kept[to].wrapping_add(5);
        }
        1 => kept[to] = kept[to].wrapping_add(1),
        _ => kept[to] = random.bits() as u32,
    }
}

/// Gives the step another scale to name, the record another scale, or both the same one. With both the same and in range Step is right to
/// accept.
pub fn break_scale(random: &mut Random, call: &mut StepCall) {
    let wrong = wrong_scale(random);
    let other = (call.scale % (MAX_SCALE + 1) + random.between(1, i64::from(MAX_SCALE)) as u32) % (MAX_SCALE + 1);
    // Out of range, and alike in the lower bits.
    let longer = call.balance.scale | 1 << random.between(5, 31);
    match random.below(5) {
        0 => call.scale = random.pick(&[wrong, longer]),
        1 => call.scale = other,
        2 => call.balance.scale = random.pick(&[wrong, longer, other, other]),
        3 => (call.balance.scale, call.scale) = (wrong, wrong),
        _ => (call.balance.scale, call.scale) = (other, other),
    }
}

pub fn break_step(random: &mut Random, call: &mut StepCall) {
    let value = random::odd_number(random, call.field.targets.len(), call.field.parents.len());
    match random.below(26) {
        0..=4 => random::break_field(random, &mut call.field),
        5 => stretch(random, &mut call.field.targets, -1),
        6 => stretch(random, &mut call.field.lows, value),
        7 => stretch(random, &mut call.field.highs, value),
        8 => stretch(random, &mut call.field.safe_lows, value),
        9 => stretch(random, &mut call.field.safe_highs, value),
        10 => stretch(random, &mut call.field.weights, value),
        11 => match random.below(2) {
            0 => stretch(random, &mut call.field.parents, value),
            _ => call.field.parents.resize(random.pick(&[0, 1, 1023, 1024, 1025, 1100]), value),
        },
        12 => stretch(random, &mut call.kept, value),
        13 => {
            let (needed, _) = needed(call.field.parents.len());
            match random.below(3) {
                0 => call.scratch.truncate(needed.saturating_sub(1)),
                1 => call.scratch.truncate(random.index(needed.max(1))),
                _ => call.answer.truncate(random.index(STEP_ENTRIES)),
            }
        }
        14 => break_kept(random, &mut call.kept),
        15 => call.balance.total = call.balance.total.wrapping_add(random.pick(&[1, 2, u32::MAX, 1 << 31])),
        16 => call.source = random.pick(&[i32::MIN, i32::MAX, value as i32]),
        17 | 18 => break_scale(random, call),
        19 => resize_cells(call, wrong_count(random)),
        _ => break_book(random, &mut call.book),
    }
}

/// How often steps have met each kind of scratch. A pair counts the accepted ones and those refused after check 3.
#[derive(Default)]
struct Scratches {
    /// A number fewer than needed, and refused with 3.
    short: u64,
    /// As many as needed. These and the next were refused with 3 before ticket 9.
    exact: [u64; 2],
    /// More, but fewer than were needed before ticket 9.
    between: [u64; 2],
    /// As many as were needed before ticket 9, or more: those that are compared with that version.
    former: [u64; 2],
}

impl Scratches {
    fn count(&mut self, call: &StepCall, exit: &StepExit) {
        let (length, number) = (call.scratch.len(), exit.returned as u32);
        let (now, formerly) = needed(call.field.parents.len());
        if (1..=3).contains(&number) {
            self.short += u64::from(number == 3 && length + 1 == now);
            return;
        }
        let pair = if length == now {
            &mut self.exact
        } else if length < formerly {
            &mut self.between
        } else {
            &mut self.former
        };
        pair[usize::from(number != 0)] += 1;
    }

    fn look_for(&self, tally: &mut Tally) {
        let (now, formerly) = needed(1);
        let kinds = [
            (format!("just {now}"), self.exact),
            (format!("between {now} and {formerly}"), self.between),
            (format!("{formerly} or more"), self.former),
        ];
        for (numbers, pair) in kinds {
            for (answer, count) in ["accepted", "refused after check 3"].iter().zip(pair) {
                let kind = format!("step: scratch of {numbers} for each node, {answer}");
                println!("{kind}: {count}");
                tally.must_occur(&kind, count);
            }
        }
        tally.must_occur("step: scratch that is a number short", self.short);
    }
}

pub fn steps(tally: &mut Tally, random: &mut Random, count: u64) {
    let (mut workspace, mut scratches, mut occurred) = (Workspace::default(), Scratches::default(), Occurrences::default());
    for _ in 0..count {
        let cells = random::cell_count(random);
        let field = random::field(random, cells);
        let wanted = random::total(random, &field);
        let mut call = make_step(random, field, wanted);
        for _ in 0..breaks(random) {
            break_step(random, &mut call);
        }
        let (exit, _) = compare_step(tally, &mut workspace, &call);
        scratches.count(&call, &exit);
        note_book(&mut occurred, &call, &exit);
    }
    scratches.look_for(tally);
    occurred.look_for(tally, "steps");
}

// ---- doubles ----

/// A double near a place where rounding or range matters, for a scale.
fn make_double(random: &mut Random, scale: u32) -> f64 {
    let limit = LIMIT as i64;
    let down = f64::from_bits(u64::from(1023 - scale.min(40)) << 52);
    let whole = match random.below(5) {
        0 => random.between(-3, 3),
        1 => random.pick(&[limit, limit + 1, limit - 1, -limit, -limit - 1, -limit - 2, 0]),
        2 => random.between(-limit - 1, limit),
        _ => random.between(0, limit),
    };
    let part = random.pick(&[0.0, 0.0, 0.5, -0.5, 0.25, 0.75, -0.25, 1e-6]);
    let near = (whole as f64 + part) * down;
    match random.below(16) {
        0..=8 => near,
        // A neighbour or two in the last place.
        9 | 10 => f64::from_bits(near.to_bits().wrapping_add(random.between(-2, 2) as u64)),
        11 => random.pick(&[0.0, -0.0, 5e-324, -5e-324, f64::MIN_POSITIVE, -f64::MIN_POSITIVE, f64::MAX, f64::MIN]),
        12 => f64::from_bits(random.bits() & ((1 << 52) - 1) | random.below(2) << 63),
        13 => random.pick(&[f64::INFINITY, f64::NEG_INFINITY, f64::NAN, f64::from_bits(0xfff0_0000_0000_0001)]),
        14 => f64::from_bits(random.bits()),
        // Any mantissa with a size around the range.
        _ => f64::from_bits(random.bits() & 0x800f_ffff_ffff_ffff | (random.between(985, 1060) as u64) << 52) * down,
    }
}

/// Runs both sides; returns what the second implementation gives, and its units.
pub fn compare_import(tally: &mut Tally, doubles: [f64; 5], scale: u32, units: &[i64]) -> (Result<(), Refusal>, Vec<i64>) {
    let (mut mine, mut theirs) = (units.to_vec(), units.to_vec());
    let result = from_c::import(doubles, scale, &mut mine);
    let expected = returned(result);
    let got = calls::import(doubles, scale, &mut theirs);
    tally.input((expected, &mine) == (got, &theirs), || {
        let bits = doubles.map(f64::to_bits);
        format!("import {doubles:?} {bits:#x?} scale {scale}: second implementation {expected:#x} {mine:?}, library {got:#x} {theirs:?}")
    });
    (result, mine)
}

pub fn imports(tally: &mut Tally, random: &mut Random, count: u64) {
    for _ in 0..count {
        let scale = make_scale(random);
        let mut doubles = [0; 5].map(|_| make_double(random, scale));
        // Mostly the first fields are sound, so that later ones are reached.
        for double in doubles.iter_mut().take(random.index(6)) {
            let sound = double.is_finite() && double.abs() * f64::from(1u32 << scale.min(30)) < 2147483647.0;
            *double = if sound { double.abs() } else { 1.5 };
        }
        let length = random.pick(&[5, 5, 5, 5, 5, 5, 5, 5, 6, 6, 9, 4, 0]);
        let units = any_bits(random, length, |bits| bits as i64);
        let (result, _) = compare_import(tally, doubles, scale, &units);
        tally.answer(&result);
    }
}

/// What ticket 4 of 02 says that a field gives by the class of its double alone, whatever the scale: units, or a refusal's number. Of a
/// normal double it says nothing.
fn by_class(double: f64, field: usize) -> Option<Result<i64, u32>> {
    let (low, high) = (field == 1 || field == 3, field == 2 || field == 4);
    match double.classify() {
        FpCategory::Zero => Some(Ok(0)),
        FpCategory::Subnormal if low && double > 0.0 => Some(Ok(1)),
        FpCategory::Subnormal if high && double < 0.0 => Some(Err(11)),
        FpCategory::Subnormal => Some(Ok(0)),
        FpCategory::Normal => None,
        FpCategory::Infinite | FpCategory::Nan => Some(Err(10)),
    }
}

/// Imports a cell that holds a double in a field and zeros beside it.
fn import_class(tally: &mut Tally, double: f64, field: usize, scale: u32) {
    let mut doubles = [0.0; 5];
    doubles[field] = double;
    let (result, units) = compare_import(tally, doubles, scale, &[-9; 5]);
    tally.answer(&result);
    let given = match result {
        Ok(()) => Ok(units[field]),
        Err(refusal) => Err(refusal.number),
    };
    let wanted = by_class(double, field).unwrap_or(given);
    if given != wanted {
        tally.difference(format!("import {double:e} in field {field} scale {scale}: {given:?}, by its class {wanted:?}"));
    }
}

/// The five classes: doubles at both ends of each in every field at every scale, then any of each.
pub fn classes(tally: &mut Tally, random: &mut Random, count: u64) {
    let (normal, infinity) = (1 << 52, 0x7ff << 52);
    let ends = [0, 1, normal - 1, normal, infinity - 1, infinity, infinity + 1, (1 << 63) - 1];
    for scale in 0..=MAX_SCALE {
        for field in 0..5 {
            for end in ends.iter().flat_map(|&end| [end, end | 1 << 63]) {
                import_class(tally, f64::from_bits(end), field, scale);
            }
        }
    }
    for _ in 0..count {
        let fraction = random.bits() & (normal - 1);
        let any = random.below(0x800);
        let exponent = random.pick(&[0, 0, 0, 1, 2, 0x7fe, 0x7ff, any]);
        let double = f64::from_bits(random.below(2) << 63 | exponent << 52 | fraction >> random.below(53));
        import_class(tally, double, random.index(5), sound_scale(random));
    }
}

/// An export to doubles or to binary32 values: the second implementation's, the library's, and the bits of a value.
struct Export<T> {
    name: &'static str,
    mine: fn(u32, u32, &mut [T]) -> Result<(), Refusal>,
    library: fn(u32, u32, &mut [T]) -> u64,
    bits: fn(T) -> u64,
}

/// Runs both sides; returns the value of the second implementation.
fn compare_export<T: Copy + Debug>(tally: &mut Tally, export: &Export<T>, mass: u32, scale: u32, value: &[T]) -> Option<T> {
    let (mut mine, mut theirs) = (value.to_vec(), value.to_vec());
    let result = (export.mine)(mass, scale, &mut mine);
    let expected = returned(result);
    let got = (export.library)(mass, scale, &mut theirs);
    let bits = |list: &[T]| list.iter().map(|&value| (export.bits)(value)).collect::<Vec<u64>>();
    tally.answer(&result);
    tally.input((expected, bits(&mine)) == (got, bits(&theirs)), || {
        let name = export.name;
        format!("{name} {mass} scale {scale}: second implementation {expected:#x} {mine:?}, library {got:#x} {theirs:?}")
    });
    result.is_ok().then(|| mine[0])
}

fn make_mass(random: &mut Random) -> u32 {
    let limit = LIMIT as u32;
    match random.below(4) {
        0 => random.pick(&[0, 1, 2, 3, limit, limit - 1, limit + 1, u32::MAX, 1 << 30]),
        1 => 1 << random.below(32),
        2 => random.bits() as u32,
        _ => random.below(LIMIT + 1) as u32,
    }
}

/// Exports, and imports what was exported in every field: it gives the mass again.
pub fn exports(tally: &mut Tally, random: &mut Random, count: u64) {
    let export = Export { name: "export", mine: from_c::export, library: calls::export, bits: f64::to_bits };
    for _ in 0..count {
        let mass = make_mass(random);
        let scale = make_scale(random);
        let length = random.pick(&[0, 1, 1, 1, 2, 3]);
        let value = any_bits(random, length, f64::from_bits);
        if let Some(double) = compare_export(tally, &export, mass, scale, &value) {
            let (again, units) = compare_import(tally, [double; 5], scale, &[0; 5]);
            if again.is_err() || units != [i64::from(mass); 5] {
                tally.difference(format!("export {mass} scale {scale}: imported again it is {again:?} {units:?}"));
            }
        }
    }
}

/// A mass of more than 24 bits whose lower bits are a half, or one more or less; or one about 16777216. Of the largest upper part rounding
/// up carries into the next exponent.
fn make_long_mass(random: &mut Random) -> u32 {
    if random.chance(25) {
        return random.between((1 << 24) - 4, (1 << 24) + 4) as u32;
    }
    let lower = random.between(1, 7);
    let upper = if random.chance(25) { (1 << 24) - 1 } else { random.between(1 << 23, (1 << 24) - 1) };
    (upper << lower | 1 << (lower - 1)) as u32 - 1 + random.below(3) as u32
}

/// Exports in binary32. Rust's own conversion of the double gives the same, and below 16777216 the value is the double's.
pub fn singles(tally: &mut Tally, random: &mut Random, count: u64) {
    let bits = |value: f32| u64::from(value.to_bits());
    let export = Export { name: "export single", mine: from_c::export_single, library: calls::export_single, bits };
    for _ in 0..count {
        let mass = if random.chance(50) { make_long_mass(random) } else { make_mass(random) };
        let scale = make_scale(random);
        let length = random.pick(&[0, 1, 1, 1, 2, 3]);
        let value = any_bits(random, length, |bits| f32::from_bits(bits as u32));
        if let Some(single) = compare_export(tally, &export, mass, scale, &value) {
            let double = doubles::export(mass, scale).expect("the checks are the same");
            let exact = f64::from(single) == double;
            if (double as f32).to_bits() != single.to_bits() || (mass < 1 << 24 && !exact) {
                tally.difference(format!("export single {mass} scale {scale}: {single:e}, and the double is {double:e}"));
            }
        }
    }
}
