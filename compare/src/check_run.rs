//! Years of half-hour steps of one kept field, refused calls among them. After every accepted step the account is checked: the kept masses
//! add up to the opening total and the sources of the accepted steps, that is the total returned, and the step was at the opening's scale. The
//! book goes along, and is replaced when it is full.

use crate::calls;
use crate::check_books::Volume;
use crate::check_calls::{break_step, compare_step, scratch_length, sound_scale, StepCall};
use crate::from_c::STEP_ENTRIES;
use crate::operations::{Balance, LIMIT};
use crate::random::{self, Random};
use crate::random_books::BookBuffer;
use crate::tally::Tally;
use crate::tree::{sum, Field, Workspace};

/// Four years, one of them a leap year.
pub const FOUR_YEARS: u64 = (4 * 365 + 1) * 48;

/// The total that a run opens with.
pub const OPENING: u32 = 1_000_000;

/// A field of the next step: targets near the kept masses, and bounds for which the total wanted has the outcome wanted or nearly so.
/// They stand around masses that add up to the total, so that the step can be accepted.
fn next_field(random: &mut Random, kept: &[u32], wanted: u32, outcome: u64) -> Field {
    let cells = kept.len();
    let room = ((LIMIT - u64::from(wanted)) / (3 * cells as u64)).min(2000) as u32;
    let mut field = Field { parents: random::tree(random, cells), ..Field::default() };
    for (cell, middle) in random::partition(random, wanted, cells).into_iter().enumerate() {
        let above = |random: &mut Random, from: u32| from + random.below(u64::from(room) + 1) as u32;
        let below = |random: &mut Random, from: u32| from - random.below(u64::from(from.min(2000)) + 1) as u32;
        let (low, high) = match outcome {
            0 => (below(random, middle), above(random, middle)),
            1 => {
                let low = above(random, middle);
                (low, above(random, low))
            }
            _ => {
                let high = below(random, middle);
                (below(random, high), high)
            }
        };
        field.safe_lows.push(below(random, low.min(middle)));
        field.safe_highs.push(above(random, high.max(middle)));
        field.lows.push(low);
        field.highs.push(high);
        field.targets.push((i64::from(kept[cell]) + random.between(-3000, 3000)).min(i64::from(i32::MAX)) as i32);
        field.weights.push(if random.chance(50) { 0 } else { random.below(1000) as u32 });
    }
    field
}

/// The next total: mostly a small source away, now and then anywhere, at 0 or at the limit.
pub fn next_total(random: &mut Random, total: u32) -> u32 {
    let limit = LIMIT as i64;
    let wanted = match random.below(100) {
        0 => random.between(0, limit),
        1 => random.pick(&[0, limit]),
        2..=4 => random.between(0, 1_000_000),
        _ => i64::from(total) + random.between(-5000, 5000),
    };
    wanted.clamp(0, limit) as u32
}

/// A call on the kept field that all checks let pass, those of the book as far as it is in order, not full and of the same total.
pub fn good_call(random: &mut Random, kept: &[u32], balance: Balance, book: BookBuffer) -> StepCall {
    let wanted = next_total(random, balance.total);
    call_to(random, kept, balance, book, wanted)
}

/// The same to the total wanted.
pub fn call_to(random: &mut Random, kept: &[u32], balance: Balance, book: BookBuffer, wanted: u32) -> StepCall {
    let outcome = random.below(3);
    let field = next_field(random, kept, wanted, outcome);
    StepCall {
        balance,
        kept: kept.to_vec(),
        source: (i64::from(wanted) - i64::from(balance.total)) as i32,
        scale: balance.scale,
        scratch: vec![-1; scratch_length(random, field.parents.len())],
        book,
        answer: vec![u64::MAX; STEP_ENTRIES],
        field,
    }
}

/// Gives the call a source that takes the total just out of reach of the field.
pub fn miss_total(random: &mut Random, call: &mut StepCall) {
    let beyond = [sum(&call.field.safe_lows) as i64 - 1, sum(&call.field.safe_highs) as i64 + 1];
    call.source = (random.pick(&beyond) - i64::from(call.balance.total)).clamp(i64::from(i32::MIN), i64::from(i32::MAX)) as i32;
}

/// Opens a kept field by the library.
pub fn open(tally: &mut Tally, kept: &[u32], scale: u32) -> Balance {
    let mut answer = [0; 2];
    let returned = calls::open(kept, scale, &mut answer);
    if returned != 0 || answer != [sum(kept), u64::from(scale)] {
        tally.difference(format!("open {kept:?} scale {scale}: {returned:#x} {answer:?}"));
    }
    Balance { total: answer[0] as u32, scale: answer[1] as u32 }
}

/// Makes steps until `steps` have been accepted. Before so many calls in a hundred the book is exchanged for another.
pub fn run(tally: &mut Tally, random: &mut Random, cells: usize, steps: u64, exchanges: u64) {
    let (mut kept, scale) = (random::partition(random, OPENING, cells), sound_scale(random));
    let opened = open(tally, &kept, scale);
    let (mut workspace, mut volume) = (Workspace::default(), Volume::start(tally, random, opened.total));
    let (mut balance, mut sources, mut accepted, mut full_books) = (opened, 0, 0, 0);
    while accepted < steps {
        if random.chance(exchanges) {
            volume = Volume::other(tally, random, balance.total);
        }
        let mut call = good_call(random, &kept, balance, volume.lent.clone());
        let broken = random.chance(25);
        if broken && random.chance(10) {
            miss_total(random, &mut call);
        } else if broken {
            break_step(random, &mut call);
        }
        // A call that was broken in its record, its kept masses or its book and is accepted nevertheless is none of this run.
        let belongs = call.balance == balance && call.kept == kept && call.book == volume.lent;
        let (mine, theirs) = compare_step(tally, &mut workspace, &call);
        let full = belongs && volume.is_full();
        if theirs.returned != 0 {
            let wanted = broken || (full && theirs.returned == 21);
            if !wanted || theirs.kept != call.kept || theirs.book != call.book {
                tally.difference(format!("refused step {call:?}: {theirs:?}"));
            }
            if full && theirs.returned == 21 {
                full_books += 1;
                volume = volume.replacement(tally, random);
            }
        } else if full {
            tally.difference(format!("accepted {call:?}: its book is full"));
        } else if belongs && mine == theirs {
            accepted += 1;
            sources += i64::from(call.source);
            let account = i64::from(opened.total) + sources;
            let kept_sum = sum(&theirs.kept) as i64;
            if kept_sum != account || theirs.answer[1] as i64 != account {
                tally.difference(format!("account after {call:?}: {account}, library {theirs:?}"));
            }
            if (call.balance.scale, call.scale) != (opened.scale, opened.scale) {
                tally.difference(format!("accepted {call:?}: opened at scale {}", opened.scale));
            }
            volume.take_over(tally, &call, &theirs.kept, &theirs.answer, theirs.book);
            (kept, balance.total) = (theirs.kept, theirs.answer[1] as u32);
        }
    }
    volume.check(tally);
    println!("run of {cells} cells, full books: {full_books}");
    tally.must_occur(&format!("run of {cells} cells: a full book"), full_books);
}
