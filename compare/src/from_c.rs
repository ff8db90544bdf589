//! The operations as `legzhuro.h` tells of its calls: what an operation gives goes to a lent list, a list too short for it counts under 3,
//! and number and place come back in one value. Shares no code with the library.

use crate::book::{self, Book, Budget, LentBook};
use crate::families::{self, check_family_cells, check_member, Family, Member, Turned, MEMBERS};
use crate::files::{check_answer_header, AnswerHeader};
use crate::operations::{check_cells, check_counts, refuse, Balance, Refusal, Stepped};
use crate::tree::{Lists, Workspace};
use crate::{doubles, files, operations};

/// The value returned: the number in the low 32 bits, the place in the high 32.
pub fn returned(result: Result<(), Refusal>) -> u64 {
    match result {
        Ok(()) => 0,
        Err(refusal) => u64::from(refusal.number) | u64::from(refusal.place) << 32,
    }
}

/// The 3 of a list that needs `least` entries.
fn check_length<T>(list: &[T], least: usize) -> Result<(), Refusal> {
    if list.len() < least {
        return refuse(3);
    }
    Ok(())
}

/// The deficit's length is checked with the other lengths, after 1.
pub fn split(
    targets: &[i64],
    lows: &[i64],
    highs: &[i64],
    weights: &[i64],
    total: i64,
    masses: &mut [i64],
    deficit: &mut [i64],
) -> Result<(), Refusal> {
    check_cells(targets.len())?;
    check_length(deficit, 1)?;
    deficit[0] = operations::split(targets, lows, highs, weights, total, masses)?;
    Ok(())
}

/// What is told of an opening: total and scale.
fn opening_values(balance: Balance) -> [u64; 2] {
    [u64::from(balance.total), u64::from(balance.scale)]
}

pub fn open(kept: &[u32], scale: u32, answer: &mut [u64]) -> Result<(), Refusal> {
    check_length(answer, 2)?;
    let balance = operations::open(kept, scale)?;
    answer[..2].copy_from_slice(&opening_values(balance));
    Ok(())
}

/// The entries of a step's answer.
pub const STEP_ENTRIES: usize = 5;

/// What is told of a step: outcome, new total, change, the sum shared out and the book's new length.
fn step_values(Stepped { repair, length, .. }: Stepped) -> [u64; STEP_ENTRIES] {
    [u64::from(repair.outcome), u64::from(repair.total), repair.change, repair.shared, length as u64]
}

/// Step with `PER_NODE` scratch numbers for each node. The answer's length is checked with the other lengths, after 1 and 2. Of the new
/// record it has the total alone: the scale is the one given.
#[allow(clippy::too_many_arguments)] // those of the call, and the workspace
pub fn step_by<const PER_NODE: usize>(
    workspace: &mut Workspace,
    balance: Balance,
    kept: &mut [u32],
    source: i32,
    scale: u32,
    lists: &Lists,
    scratch: &mut [i64],
    book: LentBook,
    answer: &mut [u64],
) -> Result<(), Refusal> {
    check_counts(lists.targets.len(), lists.parents.len())?;
    check_length(answer, STEP_ENTRIES)?;
    let stepped = operations::step_by::<PER_NODE>(workspace, balance, kept, source, scale, lists, scratch, book)?;
    answer[..STEP_ENTRIES].copy_from_slice(&step_values(stepped));
    Ok(())
}

/// The entries of a family's list: cap, scale and cells, then for each member whether it is open, and its total, then the waiting byte and
/// where the search for the next in turn begins.
pub const FAMILY_ENTRIES: usize = 5 + 2 * MEMBERS;
pub const WAITING_ENTRY: usize = FAMILY_ENTRIES - 2;
pub const FROM_ENTRY: usize = FAMILY_ENTRIES - 1;

/// Told for a member where there is none: nobody is next, or a turn was idle.
pub const NOBODY: u64 = MEMBERS as u64;

/// The place of a member's first entry.
pub fn member_entry(member: usize) -> usize {
    3 + 2 * member
}

/// The family in a list that is long enough. Of an entry that is too wide the lower bits count.
pub fn read_family(list: &[u64]) -> Family {
    let members = std::array::from_fn(|member| {
        let entry = member_entry(member);
        Member { opened: list[entry] % 2 == 1, total: list[entry + 1] as u32 }
    });
    let (waiting, from) = (list[WAITING_ENTRY] as u8, list[FROM_ENTRY] as u32);
    Family { cap: list[0], scale: list[1] as u32, cells: list[2] as u32, members, waiting, from }
}

/// Writes a family to the front of a list that is long enough.
pub fn write_family(family: &Family, list: &mut [u64]) {
    list[..3].copy_from_slice(&[family.cap, u64::from(family.scale), u64::from(family.cells)]);
    for (member, state) in family.members.iter().enumerate() {
        let entry = member_entry(member);
        list[entry] = u64::from(state.opened);
        list[entry + 1] = u64::from(state.total);
    }
    list[WAITING_ENTRY] = u64::from(family.waiting);
    list[FROM_ENTRY] = u64::from(family.from);
}

pub fn family_start(cap: u64, scale: u32, cells: u32, list: &mut [u64]) -> Result<(), Refusal> {
    check_length(list, FAMILY_ENTRIES)?;
    let family = families::start_family(cap, scale, cells)?;
    write_family(&family, list);
    Ok(())
}

/// Both lengths are checked before all else.
pub fn family_open(list: &mut [u64], member: u32, kept: &[u32], scale: u32, answer: &mut [u64]) -> Result<(), Refusal> {
    check_length(list, FAMILY_ENTRIES)?;
    check_length(answer, 2)?;
    let mut family = read_family(list);
    let balance = families::open_member(&mut family, member, kept, scale)?;
    write_family(&family, list);
    answer[..2].copy_from_slice(&opening_values(balance));
    Ok(())
}

/// The family's length is checked before all else, the answer's with the other lengths, after 19, 1 and 2.
#[allow(clippy::too_many_arguments)] // those of the call, and the workspace
pub fn family_step(
    workspace: &mut Workspace,
    list: &mut [u64],
    member: u32,
    kept: &mut [u32],
    source: i32,
    scale: u32,
    lists: &Lists,
    scratch: &mut [i64],
    book: LentBook,
    answer: &mut [u64],
) -> Result<(), Refusal> {
    check_length(list, FAMILY_ENTRIES)?;
    let mut family = read_family(list);
    check_member(&family, member, true)?;
    check_family_cells(&family, lists.targets.len())?;
    check_counts(lists.targets.len(), lists.parents.len())?;
    check_length(answer, STEP_ENTRIES)?;
    let stepped = families::step_member(workspace, &mut family, member, kept, source, scale, lists, scratch, book)?;
    write_family(&family, list);
    answer[..STEP_ENTRIES].copy_from_slice(&step_values(stepped));
    Ok(())
}

pub fn family_register(list: &mut [u64], member: u32) -> Result<(), Refusal> {
    check_length(list, FAMILY_ENTRIES)?;
    let mut family = read_family(list);
    families::register(&mut family, member)?;
    write_family(&family, list);
    Ok(())
}

pub fn family_next(list: &[u64], answer: &mut [u64]) -> Result<(), Refusal> {
    check_length(list, FAMILY_ENTRIES)?;
    check_length(answer, 1)?;
    answer[0] = families::next_member(&read_family(list)).map_or(NOBODY, |member| member as u64);
    Ok(())
}

pub fn family_waiting(list: &[u64], answer: &mut [u64]) -> Result<(), Refusal> {
    check_length(list, FAMILY_ENTRIES)?;
    check_length(answer, 1)?;
    answer[0] = u64::from(families::waiting_count(&read_family(list)));
    Ok(())
}

/// The entries of a turn's answer.
pub const TURN_ENTRIES: usize = 2 + STEP_ENTRIES;

/// What is told of a turn: the member, what its step returned, and what is told of the step if it was accepted.
fn turn_values(turned: Turned) -> [u64; TURN_ENTRIES] {
    let mut values = [0; TURN_ENTRIES];
    match turned {
        Turned::Idle => values[0] = NOBODY,
        Turned::Served { member, stepped } => {
            (values[0], values[1]) = (member as u64, returned(stepped.map(|_| ())));
            values[2..].copy_from_slice(&stepped.map_or([0; STEP_ENTRIES], step_values));
        }
    }
    values
}

/// Both lengths are checked before all else. An idle turn writes to no list but the answer.
#[allow(clippy::too_many_arguments)] // those of the call, and the workspace
pub fn family_turn(
    workspace: &mut Workspace,
    list: &mut [u64],
    kept: &mut [u32],
    source: i32,
    scale: u32,
    lists: &Lists,
    scratch: &mut [i64],
    book: LentBook,
    answer: &mut [u64],
) -> Result<(), Refusal> {
    check_length(list, FAMILY_ENTRIES)?;
    check_length(answer, TURN_ENTRIES)?;
    let mut family = read_family(list);
    let turned = families::turn(workspace, &mut family, kept, source, scale, lists, scratch, book);
    if turned != Turned::Idle {
        write_family(&family, list);
    }
    answer[..TURN_ENTRIES].copy_from_slice(&turn_values(turned));
    Ok(())
}

/// Both lengths are checked before all else.
pub fn book_start(total: u32, buffer: &mut [u8], answer: &mut [u64]) -> Result<(), Refusal> {
    check_length(answer, 1)?;
    answer[0] = book::start_book(total, buffer)? as u64;
    Ok(())
}

/// What is told of a book: opening, in, out and closing.
pub fn budget_values(budget: Budget) -> [u64; 4] {
    [u64::from(budget.opening), budget.inflow, budget.outflow, u64::from(budget.closing)]
}

/// The answer's length is checked before all else.
pub fn book_report(file: &[u8], answer: &mut [u64]) -> Result<(), Refusal> {
    check_length(answer, 4)?;
    let budget = Book::read(file)?.budget();
    answer[..4].copy_from_slice(&budget_values(budget));
    Ok(())
}

pub fn import(doubles: [f64; 5], scale: u32, units: &mut [i64]) -> Result<(), Refusal> {
    check_length(units, 5)?;
    let imported = doubles::import(doubles, scale).map_err(|refused| refused.refusal)?;
    units[..5].copy_from_slice(&imported);
    Ok(())
}

pub fn export(mass: u32, scale: u32, value: &mut [f64]) -> Result<(), Refusal> {
    check_length(value, 1)?;
    value[0] = doubles::export(mass, scale)?;
    Ok(())
}

pub fn export_single(mass: u32, scale: u32, value: &mut [f32]) -> Result<(), Refusal> {
    check_length(value, 1)?;
    value[0] = doubles::export_single(mass, scale)?;
    Ok(())
}

pub fn write_field(cells: usize, nodes: usize, total: u32, lists: &Lists, buffer: &mut [u8]) -> Result<(), Refusal> {
    files::write_field(cells, nodes, total, lists, buffer)?;
    Ok(())
}

/// What is told of an answer: cells, outcome, total, change and the sum shared out.
pub fn answer_values(header: AnswerHeader) -> [u64; 5] {
    let repair = header.repair;
    [header.cells as u64, u64::from(repair.outcome), u64::from(repair.total), repair.change, repair.shared]
}

/// The answer's length is checked with that of the masses, after block 1.
pub fn read_answer(file: &[u8], masses: &mut [u32], answer: &mut [u64]) -> Result<(), Refusal> {
    check_answer_header(file)?;
    check_length(answer, 5)?;
    let header = files::read_answer(file, masses)?;
    answer[..5].copy_from_slice(&answer_values(header));
    Ok(())
}
