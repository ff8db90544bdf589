//! Families of kept fields with a cap on the sum of their totals, and their turns, with all that their operations turn down, after tickets
//! 10, 11 and 12 of 02. Checks stand in the tickets' order. Written from the papers alone; shares no code with the library.

use crate::book::LentBook;
use crate::operations::SCRATCH_PER_NODE;
use crate::operations::{check_cells, check_scale, check_step, finish_step, opening_total, refuse, Balance, Refusal, Stepped};
use crate::tree::{Lists, Workspace};

pub const MEMBERS: usize = 8;

#[derive(Clone, Copy, Debug, Default, PartialEq)]
pub struct Member {
    pub opened: bool,
    /// 0 for a member that is not open, if the family is one that calls have made.
    pub total: u32,
}

/// What stands for a family between its calls. A refused start stands for the default: cap, scale and cells 0, nobody open or waiting.
#[derive(Clone, Copy, Debug, Default, PartialEq)]
pub struct Family {
    pub cap: u64,
    pub scale: u32,
    pub cells: u32,
    pub members: [Member; MEMBERS],
    /// Bit i is set if member i waits.
    pub waiting: u8,
    /// Where the search for the next in turn begins, modulo 8: after the last one served, and at the start at member 0.
    pub from: u32,
}

impl Family {
    /// The sum of the totals of all members but one, open or not.
    pub fn others(&self, member: usize) -> u64 {
        let others = self.members.iter().enumerate().filter(|&(other, _)| other != member);
        others.map(|(_, state)| u64::from(state.total)).sum()
    }

    fn waits(&self, member: usize) -> bool {
        self.waiting >> member & 1 == 1
    }
}

pub fn start_family(cap: u64, scale: u32, cells: u32) -> Result<Family, Refusal> {
    check_cells(cells as usize)?;
    check_scale(scale)?;
    Ok(Family { cap, scale, cells, ..Family::default() })
}

/// Check 19 of a call that needs the member open, or not open. Returns its index.
pub fn check_member(family: &Family, member: u32, opened: bool) -> Result<usize, Refusal> {
    let index = member as usize;
    if index >= MEMBERS || family.members[index].opened != opened {
        return refuse(19);
    }
    Ok(index)
}

/// Check 1 of a call with so many cells.
pub fn check_family_cells(family: &Family, cells: usize) -> Result<(), Refusal> {
    check_cells(cells)?;
    if cells != family.cells as usize {
        return refuse(1);
    }
    Ok(())
}

/// Check 20 of a call after which the member would have the total.
fn check_cap(family: &Family, member: usize, total: u32) -> Result<(), Refusal> {
    if family.others(member) + u64::from(total) > family.cap {
        return refuse(20);
    }
    Ok(())
}

/// A refused call leaves the family as it was.
pub fn open_member(family: &mut Family, member: u32, kept: &[u32], scale: u32) -> Result<Balance, Refusal> {
    let index = check_member(family, member, false)?;
    check_family_cells(family, kept.len())?;
    check_scale(scale)?;
    if scale != family.scale {
        return refuse(17);
    }
    let total = opening_total(kept)?;
    check_cap(family, index, total)?;
    family.members[index] = Member { opened: true, total };
    Ok(Balance { total, scale })
}

/// A refused call leaves the family as it was. The new total is that of the balance.
#[allow(clippy::too_many_arguments)] // Step's, with the family and the member for the balance
pub fn step_member(
    workspace: &mut Workspace,
    family: &mut Family,
    member: u32,
    kept: &mut [u32],
    source: i32,
    scale: u32,
    lists: &Lists,
    scratch: &mut [i64],
    book: LentBook,
) -> Result<Stepped, Refusal> {
    let index = check_member(family, member, true)?;
    check_family_cells(family, lists.targets.len())?;
    let balance = Balance { total: family.members[index].total, scale: family.scale };
    let total = check_step::<SCRATCH_PER_NODE>(workspace, balance, kept, source, scale, lists, scratch, &book)?;
    if source > 0 {
        check_cap(family, index, total)?;
    }
    let stepped = finish_step::<SCRATCH_PER_NODE>(workspace, balance, kept, source, total, lists, scratch, book)?;
    family.members[index].total = total;
    Ok(stepped)
}

/// Registering a member twice counts once.
pub fn register(family: &mut Family, member: u32) -> Result<(), Refusal> {
    let index = check_member(family, member, true)?;
    family.waiting |= 1 << index;
    Ok(())
}

/// The next in turn: the first member waiting, going round once. None if nobody waits.
pub fn next_member(family: &Family) -> Option<usize> {
    let from = family.from as usize % MEMBERS;
    (from..from + MEMBERS).map(|number| number % MEMBERS).find(|&member| family.waits(member))
}

pub fn waiting_count(family: &Family) -> u32 {
    family.waiting.count_ones()
}

/// What a turn has done: nothing, or the step of the member that it served, accepted or not.
#[derive(Clone, Copy, Debug, PartialEq)]
pub enum Turned {
    Idle,
    Served { member: usize, stepped: Result<Stepped, Refusal> },
}

/// An idle turn changes nothing. A refused step changes who waits and who is next, and nothing else.
#[allow(clippy::too_many_arguments)] // Step's, with the family for the balance
pub fn turn(
    workspace: &mut Workspace,
    family: &mut Family,
    kept: &mut [u32],
    source: i32,
    scale: u32,
    lists: &Lists,
    scratch: &mut [i64],
    book: LentBook,
) -> Turned {
    let Some(member) = next_member(family) else {
        return Turned::Idle;
    };
    let stepped = step_member(workspace, family, member as u32, kept, source, scale, lists, scratch, book);
    family.waiting &= !(1 << member);
    family.from = ((member + 1) % MEMBERS) as u32;
    Turned::Served { member, stepped }
}
