//! Families of kept fields, after tickets 10 to 12 of 02, through the calls from C and compared with the second implementation: what
//! every call of a family is made of, and single starts, openings and steps on any family. `check_turns` has the other single calls, and
//! `check_histories` the histories of families.

use crate::calls;
use crate::check_books::check_added;
use crate::check_calls::{any_bits, break_step, breaks, make_kept, make_scale, make_step, wrong_count, StepCall};
use crate::families::{Family, Member, MEMBERS};
use crate::from_c::{self, member_entry, read_family, returned, write_family, FAMILY_ENTRIES, FROM_ENTRY, NOBODY, WAITING_ENTRY};
use crate::from_c::{STEP_ENTRIES, TURN_ENTRIES};
use crate::operations::{Balance, Refusal, LIMIT};
use crate::random::{self, Random};
use crate::random_books::BookBuffer;
use crate::tally::{Occurrences, Tally};
use crate::tree::{sum, Workspace};

// ---- calls ----

#[derive(Clone, Debug)]
pub struct OpenCall {
    pub kept: Vec<u32>,
    pub scale: u32,
    pub answer: Vec<u64>,
}

#[derive(Clone, Debug)]
pub enum Kind {
    Open(OpenCall),
    /// Its balance is not handed over.
    Step(StepCall),
    Register,
    /// The step of the next in turn. Neither its balance nor the member is handed over.
    Turn(StepCall),
    /// The reading of the next in turn, with its answer.
    Next(Vec<u64>),
    /// The reading of the number waiting, with its answer.
    Waiting(Vec<u64>),
}

impl Kind {
    fn answer(&mut self) -> Option<&mut Vec<u64>> {
        match self {
            Kind::Open(open) => Some(&mut open.answer),
            Kind::Register => None,
            Kind::Step(step) | Kind::Turn(step) => Some(&mut step.answer),
            Kind::Next(answer) | Kind::Waiting(answer) => Some(answer),
        }
    }

    /// How many entries the answer needs.
    fn needed(&self) -> usize {
        match self {
            Kind::Open(_) => 2,
            Kind::Step(_) => STEP_ENTRIES,
            Kind::Register => 0,
            Kind::Turn(_) => TURN_ENTRIES,
            Kind::Next(_) | Kind::Waiting(_) => 1,
        }
    }

    /// Whether the member is handed over.
    fn names_member(&self) -> bool {
        matches!(self, Kind::Open(_) | Kind::Step(_) | Kind::Register)
    }

    /// The scale that is named, and the number of cells.
    pub fn scale_and_cells(&self) -> Option<(u32, usize)> {
        match self {
            Kind::Open(open) => Some((open.scale, open.kept.len())),
            Kind::Step(step) | Kind::Turn(step) => Some((step.scale, step.field.targets.len())),
            _ => None,
        }
    }
}

/// A call on a family.
#[derive(Clone, Debug)]
pub struct Call {
    pub family: Vec<u64>,
    /// Not handed over by turns and readings.
    pub member: u32,
    pub kind: Kind,
}

/// The value returned and the lists of a call, at exit. A call that is not lent a list has it empty.
#[derive(Clone, Debug, Default, PartialEq)]
pub struct Exit {
    pub returned: u64,
    pub family: Vec<u64>,
    pub kept: Vec<u32>,
    pub scratch: Vec<i64>,
    /// With the length that was told.
    pub book: BookBuffer,
    pub answer: Vec<u64>,
}

/// What a member is told by a call of its own: the value returned and, if that is 0, what stands in the answer.
#[derive(Clone, Copy, Debug, PartialEq)]
pub struct Told<'a> {
    pub member: u32,
    pub returned: u64,
    pub values: &'a [u64],
}

impl Exit {
    /// All lists as they are lent.
    pub fn entry(call: &Call) -> Exit {
        let entry = Exit { family: call.family.clone(), ..Exit::default() };
        match &call.kind {
            Kind::Open(open) => Exit { kept: open.kept.clone(), answer: open.answer.clone(), ..entry },
            Kind::Step(step) | Kind::Turn(step) => Exit {
                kept: step.kept.clone(),
                scratch: step.scratch.clone(),
                book: step.book.clone(),
                answer: step.answer.clone(),
                ..entry
            },
            Kind::Register => entry,
            Kind::Next(answer) | Kind::Waiting(answer) => Exit { answer: answer.clone(), ..entry },
        }
    }

    /// A turn is a call of the member that it serves. One that serves nobody, and a reading, is no member's call.
    pub fn told(&self, call: &Call) -> Option<Told<'_>> {
        let (member, returned, values) = match &call.kind {
            Kind::Next(_) | Kind::Waiting(_) => return None,
            Kind::Turn(_) if self.returned != 0 || self.answer[0] == NOBODY => return None,
            Kind::Turn(_) => (self.answer[0] as u32, self.answer[1], &self.answer[2..TURN_ENTRIES]),
            kind => (call.member, self.returned, self.answer.get(..kind.needed()).unwrap_or_default()),
        };
        Some(Told { member, returned, values: if returned == 0 { values } else { &[] } })
    }
}

/// Runs the second implementation.
fn second_call(workspace: &mut Workspace, call: &Call) -> Exit {
    let mut exit = Exit::entry(call);
    let Exit { family, kept, scratch, book, answer, .. } = &mut exit;
    exit.returned = returned(match &call.kind {
        Kind::Open(open) => from_c::family_open(family, call.member, kept, open.scale, answer),
        Kind::Step(step) => {
            let lists = step.field.lists();
            from_c::family_step(workspace, family, call.member, kept, step.source, step.scale, &lists, scratch, book.lend(), answer)
        }
        Kind::Register => from_c::family_register(family, call.member),
        Kind::Turn(step) => {
            let lists = step.field.lists();
            from_c::family_turn(workspace, family, kept, step.source, step.scale, &lists, scratch, book.lend(), answer)
        }
        Kind::Next(_) => from_c::family_next(family, answer),
        Kind::Waiting(_) => from_c::family_waiting(family, answer),
    });
    exit
}

/// Runs the library.
pub fn library_call(call: &Call) -> Exit {
    let mut exit = Exit::entry(call);
    let Exit { family, kept, scratch, book, answer, .. } = &mut exit;
    exit.returned = match &call.kind {
        Kind::Open(open) => calls::family_open(family, call.member, kept, open.scale, answer),
        Kind::Step(step) => {
            let lists = step.field.lists();
            calls::family_step(family, call.member, kept, step.source, step.scale, &lists, scratch, book.lend(), answer)
        }
        Kind::Register => calls::family_register(family, call.member),
        Kind::Turn(step) => calls::family_turn(family, kept, step.source, step.scale, &step.field.lists(), scratch, book.lend(), answer),
        Kind::Next(_) => calls::family_next(family, answer),
        Kind::Waiting(_) => calls::family_waiting(family, answer),
    };
    exit
}

/// What a value returned says.
fn result(returned: u64) -> Result<(), Refusal> {
    match returned {
        0 => Ok(()),
        _ => Err(Refusal { number: returned as u32, place: (returned >> 32) as u32 }),
    }
}

/// Counts what a call gives, and of a turn that serves what the step gives.
fn count_answer(tally: &mut Tally, call: &Call, exit: &Exit) {
    match (&call.kind, exit.told(call)) {
        (Kind::Step(_) | Kind::Turn(_), Some(told)) => tally.outcome(&result(told.returned).map(|()| told.values[0] as u32)),
        _ => tally.answer(&result(exit.returned)),
    }
}

/// Whether a call outside a turn has served nobody: the search begins where it did, and the same members wait, a registered one besides.
fn serves_nobody(call: &Call, exit: &Exit) -> bool {
    if call.family.len() < FAMILY_ENTRIES {
        return true;
    }
    let (before, after) = (read_family(&call.family), read_family(&exit.family));
    let registered = if matches!(call.kind, Kind::Register) && exit.returned == 0 { 1 << call.member } else { 0 };
    (after.waiting, after.from) == (before.waiting | registered, before.from)
}

/// Runs both sides; returns the exit of the second implementation.
pub fn compare_call(tally: &mut Tally, workspace: &mut Workspace, call: &Call) -> Exit {
    let (mine, theirs) = (second_call(workspace, call), library_call(call));
    count_answer(tally, call, &mine);
    tally.input(mine == theirs, || format!("family {call:?}: second implementation {mine:?}, library {theirs:?}"));
    if !matches!(call.kind, Kind::Turn(_)) && !serves_nobody(call, &mine) {
        tally.difference(format!("family {call:?} serves a member: {mine:?}"));
    }
    if let (Kind::Step(step) | Kind::Turn(step), Some(Told { returned: 0, values, .. })) = (&call.kind, mine.told(call)) {
        check_added(tally, step, values, &mine.book);
    }
    mine
}

/// The same for a start; returns the list of the second implementation.
pub fn compare_start(tally: &mut Tally, cap: u64, scale: u32, cells: u32, list: &[u64]) -> Vec<u64> {
    let (mut mine, mut theirs) = (list.to_vec(), list.to_vec());
    let result = from_c::family_start(cap, scale, cells, &mut mine);
    let expected = returned(result);
    let got = calls::family_start(cap, scale, cells, &mut theirs);
    tally.answer(&result);
    tally.input((expected, &mine) == (got, &theirs), || {
        let call = format!("family start cap {cap} scale {scale} cells {cells} list {list:?}");
        format!("{call}: second implementation {expected:#x} {mine:?}, library {got:#x} {theirs:?}")
    });
    mine
}

// ---- single calls ----

pub fn any_list(random: &mut Random, length: usize) -> Vec<u64> {
    any_bits(random, length, |bits| bits)
}

/// Numbers of cells: mostly in range; some that are so in 16 bits alone.
fn make_cells(random: &mut Random) -> u32 {
    match random.below(4) {
        0 => wrong_count(random) as u32,
        1 => random.pick(&[0, 1, 512, 513, 512 + 65536, 8 + (1 << 31), u32::MAX]),
        _ => random::cell_count(random) as u32,
    }
}

pub fn starts(tally: &mut Tally, random: &mut Random, count: u64) {
    for _ in 0..count {
        let cap = random.bits() >> random.below(64);
        let (scale, cells) = (make_scale(random), make_cells(random));
        let length = random.pick(&[19, 20, 21, 21, 21, 21, 22, 23]);
        let list = any_list(random, length);
        compare_start(tally, cap, scale, cells, &list);
    }
}

/// Any members, open or not: with totals of 0, small ones, or any.
pub fn any_members(random: &mut Random) -> [Member; MEMBERS] {
    let totals = random.pick(&[1, 1, 1000, 1_000_000, LIMIT + 1, 1 << 32]);
    [(); MEMBERS].map(|()| Member { opened: random.chance(50), total: random.below(totals) as u32 })
}

/// Where a search for the next in turn begins: mostly at a member's number, else anywhere.
pub fn any_from(random: &mut Random) -> u32 {
    let (member, any) = (random.below(MEMBERS as u64) as u32, random.bits() as u32);
    random.pick(&[member, member, member, member, member, member, MEMBERS as u32, any, u32::MAX])
}

/// A cap for a call after which the member would have the total: at what is needed for it or next to that, or far away.
fn make_cap(random: &mut Random, family: &Family, member: usize, total: u64) -> u64 {
    let (others, own) = (family.others(member), u64::from(family.members[member].total));
    let (away, any) = (random.between(-2, 2), random.bits());
    match random.below(10) {
        0..=3 => (others + total).saturating_add_signed(away),
        // What is needed if the member is taken for one of the others.
        4 => (others + own + total).saturating_add_signed(away),
        // What is needed in 32 bits.
        5 => (others + total) % (1 << 32),
        6..=8 => u64::MAX,
        _ => random.pick(&[0, own, others, any]),
    }
}

/// How many bits of an entry of a family's list count; the cap has all 64.
fn width(index: usize) -> u32 {
    let opened = index >= member_entry(0) && index % 2 == member_entry(0) % 2;
    match index {
        WAITING_ENTRY => MEMBERS as u32,
        _ if opened => 1,
        _ => 32,
    }
}

/// Adds to entries what reading takes away again.
fn widen(random: &mut Random, list: &mut [u64]) {
    for (index, entry) in list[..FAMILY_ENTRIES].iter_mut().enumerate().skip(1) {
        if random.chance(50) {
            *entry |= random.bits() << width(index);
        }
    }
}

/// Whether the list is long enough and has entries that reading and writing would reduce.
pub fn too_wide(list: &[u64]) -> bool {
    if list.len() < FAMILY_ENTRIES {
        return false;
    }
    let mut reduced = list.to_vec();
    write_family(&read_family(list), &mut reduced);
    reduced != list
}

/// The list of any family that has this scale, these cells and this member, with a cap for a call after which its total is the one given.
pub fn make_family(random: &mut Random, scale: u32, cells: usize, (member, state): (usize, Member), total: u64) -> Vec<u64> {
    let (members, waiting, from) = (any_members(random), random.bits() as u8, any_from(random));
    let mut family = Family { cap: 0, scale, cells: cells as u32, members, waiting, from };
    family.members[member] = state;
    family.cap = make_cap(random, &family, member, total);
    let length = FAMILY_ENTRIES + random.pick(&[0, 0, 0, 1, 2]);
    let mut list = any_list(random, length);
    write_family(&family, &mut list);
    if random.chance(25) {
        widen(random, &mut list);
    }
    list
}

/// An answer that is long enough for an opening.
pub fn opening_answer(random: &mut Random) -> Vec<u64> {
    let length = random.pick(&[2, 2, 2, 3, 4, 5]);
    any_list(random, length)
}

fn make_opening(random: &mut Random) -> Call {
    let (kept, scale) = (make_kept(random), make_scale(random));
    let member = random.index(MEMBERS);
    let total = random.pick(&[0, 0, 0, 1, 1000, u32::MAX]);
    let family = make_family(random, scale, kept.len(), (member, Member { opened: false, total }), sum(&kept));
    let answer = opening_answer(random);
    Call { family, member: member as u32, kind: Kind::Open(OpenCall { kept, scale, answer }) }
}

/// A step that may be broken in Step's own ways, its member, and the list of a family with the step's balance.
pub fn any_step(random: &mut Random) -> (Vec<u64>, usize, StepCall) {
    let cells = random::cell_count(random);
    let field = random::field(random, cells);
    let wanted = random::total(random, &field);
    let mut step = make_step(random, field, wanted);
    for _ in 0..breaks(random) {
        break_step(random, &mut step);
    }
    let Balance { total, scale } = step.balance;
    let new_total = (i64::from(total) + i64::from(step.source)).max(0) as u64;
    let member = random.index(MEMBERS);
    let family = make_family(random, scale, step.field.targets.len(), (member, Member { opened: true, total }), new_total);
    (family, member, step)
}

fn make_member_step(random: &mut Random) -> Call {
    let (family, member, step) = any_step(random);
    Call { family, member: member as u32, kind: Kind::Step(step) }
}

/// A number that no member has; often one that only looks right in fewer bits.
fn wrong_member(random: &mut Random, member: u32) -> u32 {
    let any = random.between(MEMBERS as i64, i64::from(u32::MAX)) as u32;
    random.pick(&[8, 9, 8 + member, 256 + member, 65536 + member, (1 << 31) + member, u32::MAX, any])
}

/// Makes the list of the family or the answer too short, or names another member.
pub fn break_lent(random: &mut Random, call: &mut Call) {
    let (names_member, needed) = (call.kind.names_member(), call.kind.needed());
    match (random.below(3), call.kind.answer()) {
        (0, _) if names_member => call.member = wrong_member(random, call.member % MEMBERS as u32),
        (1, Some(answer)) => answer.truncate(random.index(needed)),
        _ => call.family.truncate(random.pick(&[0, 18, 19, 20, 20])),
    }
}

/// Changes the family: its cells, its scale, whether the member is open, who waits, where the search begins, or any entry.
fn break_family(random: &mut Random, call: &mut Call) {
    let (cells, any) = (call.family.get(2).copied().unwrap_or(0), random.bits() >> random.below(64));
    let (index, value) = match random.below(5) {
        0 => (2, random.pick(&[cells.wrapping_add(1), cells.wrapping_sub(1), cells ^ 1 << 16, cells ^ 1 << 32, 0, 513, any])),
        1 => (1, u64::from(make_scale(random))),
        2 => (member_entry(call.member as usize % MEMBERS), any),
        3 => (random.pick(&[WAITING_ENTRY, FROM_ENTRY]), any),
        _ => (random.index(FAMILY_ENTRIES), any),
    };
    if let Some(entry) = call.family.get_mut(index) {
        *entry = value;
    }
}

/// Notes how an opening or a step that came as far as the cap has met it.
pub fn note_cap(occurred: &mut Occurrences, call: &Call, exit: &Exit) {
    let Some(told) = exit.told(call).filter(|told| told.returned == 0 || told.returned == 20) else {
        return;
    };
    let (family, member, accepted) = (read_family(&call.family), told.member as usize, told.returned == 0);
    let (total, source, reach) = match &call.kind {
        Kind::Open(open) => (sum(&open.kept), None, 0..=LIMIT),
        Kind::Step(step) | Kind::Turn(step) => {
            let total = (i64::from(family.members[member].total) + i64::from(step.source)) as u64;
            (total, Some(step.source), sum(&step.field.safe_lows)..=sum(&step.field.safe_highs))
        }
        _ => return,
    };
    let (totals, grows) = (family.others(member) + total, source.is_none_or(|source| source > 0));
    occurred.note("that leave nothing of the cap", accepted && grows && totals == family.cap);
    occurred.note("that would pass the cap by one", !accepted && totals - 1 == family.cap);
    if source.is_some() {
        occurred.note("that are accepted above the cap", accepted && totals > family.cap);
        occurred.note("that are refused with 20 and out of reach", !accepted && !reach.contains(&total));
    }
}

/// Makes so many calls, some of them broken, and notes what occurred.
pub fn single_calls(
    tally: &mut Tally,
    random: &mut Random,
    count: u64,
    make: fn(&mut Random) -> Call,
    note: fn(&mut Occurrences, &Call, &Exit),
) -> Occurrences {
    let (mut workspace, mut occurred) = (Workspace::default(), Occurrences::default());
    for _ in 0..count {
        let mut call = make(random);
        for _ in 0..breaks(random) {
            let break_call = random.pick(&[break_lent, break_family]);
            break_call(random, &mut call);
        }
        let exit = compare_call(tally, &mut workspace, &call);
        note(&mut occurred, &call, &exit);
    }
    occurred
}

pub fn opens(tally: &mut Tally, random: &mut Random, count: u64) {
    single_calls(tally, random, count, make_opening, note_cap).look_for(tally, "family openings");
}

pub fn steps(tally: &mut Tally, random: &mut Random, count: u64) {
    single_calls(tally, random, count, make_member_step, note_cap).look_for(tally, "family steps");
}
