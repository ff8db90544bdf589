//! The test program of families: four starts, a line for each; on the last family, of 8 cells, 16,000 openings, registerings, turns and
//! steps of its members, drawn by a generator, most openings and some of the others with a fault, the family and the kept masses as at the
//! start again after every 2,000; a line after every 500, and at the end one for each refusal's number.

use crate::draws::{draw_field, Draws, CELLS};
use crate::output;
use compare::book::{fresh_book, LentBook};
use compare::families::{next_member, open_member, register, start_family, step_member, turn, waiting_count, Family, Turned, MEMBERS};
use compare::operations::{Refusal, Stepped, LIMIT, SCRATCH_PER_NODE};
use compare::program::Program;
use compare::tree::{sum, Field, Workspace};

const CAP: u64 = 66_000;
const SCALE: u32 = 20;
/// After so many calls the family is started afresh.
const AFRESH: u32 = 2000;
/// Refusal numbers go from 1 to this.
const LAST_NUMBER: usize = 20;
/// Taken in for a member where there is none.
const NOBODY: u64 = MEMBERS as u64;

/// Turns and how long members have waited for theirs.
#[derive(Default)]
struct Waits {
    served: u32,
    idle: u32,
    /// For each member the turns since it registered.
    turns: [u32; MEMBERS],
    /// The most turns that a member had waited when it was served, its own among them.
    longest: u32,
}

impl Waits {
    /// Counts a turn that was idle or served the member; `waiting` is the waiting byte before it.
    fn count(&mut self, waiting: u8, served: Option<usize>) {
        let Some(member) = served else {
            self.idle += 1;
            return;
        };
        self.served += 1;
        for (other, turns) in self.turns.iter_mut().enumerate() {
            *turns += u32::from(waiting >> other & 1);
        }
        self.longest = self.longest.max(self.turns[member]);
        self.turns[member] = 0;
    }
}

struct Run {
    family: Family,
    kept: [[u32; CELLS]; MEMBERS],
    waits: Waits,
    accepted: u32,
    refused: u32,
    /// The refused calls by number; entry 0 is not used.
    by_number: [u32; LAST_NUMBER + 1],
    /// The check number of all that was told, and of the family after each call.
    told: u64,
    /// What the accepted steps have shared out.
    shared: u64,
}

impl Run {
    fn new(family: Family) -> Run {
        let (kept, by_number) = ([[0; CELLS]; MEMBERS], [0; LAST_NUMBER + 1]);
        Run { family, kept, waits: Waits::default(), accepted: 0, refused: 0, by_number, told: 0, shared: 0 }
    }

    fn start_afresh(&mut self, family: Family) {
        (self.family, self.kept, self.waits.turns) = (family, [[0; CELLS]; MEMBERS], [0; MEMBERS]);
    }

    fn take_in(&mut self, values: &[u64]) {
        self.told = values.iter().fold(self.told, |told, value| (told * 31 + value) % 1_000_000_007);
    }

    /// Takes in the family, the next in turn and the number waiting.
    fn take_in_family(&mut self) {
        let family = self.family;
        for member in family.members {
            self.take_in(&[u64::from(member.opened), u64::from(member.total)]);
        }
        let next = next_member(&family).map_or(NOBODY, |member| member as u64);
        self.take_in(&[u64::from(family.waiting), u64::from(family.from), next, u64::from(waiting_count(&family))]);
    }

    /// Counts a call and takes in the values that it told, or its refusal, and then the family.
    fn count(&mut self, result: Result<Vec<u64>, Refusal>) {
        match result {
            Ok(values) => {
                self.accepted += 1;
                self.take_in(&values);
            }
            Err(refusal) => {
                self.refused += 1;
                self.by_number[refusal.number as usize] += 1;
                self.take_in(&[u64::from(refusal.number), u64::from(refusal.place)]);
            }
        }
        self.take_in_family();
    }
}

/// Draws masses, and a fault or none: a number that no member has, a mass too few, a scale out of range or another one, masses whose sum
/// goes too far or past the cap. Then opens the member; what is told are total and scale.
fn opening(draws: &mut Draws, run: &mut Run, member: usize) {
    let mut masses = [0; CELLS].map(|_| 500 + draws.below(1000));
    let (mut number, mut count, mut scale) = (member, CELLS, SCALE);
    let fault = draws.below(60);
    match fault % 6 {
        _ if fault >= 54 => {}
        0 => number += MEMBERS,
        1 => count -= 1,
        2 => scale = 31,
        3 => scale += 1,
        4 => masses = [300_000_000; CELLS],
        _ => masses = [30_000; CELLS],
    }
    let opened = open_member(&mut run.family, number as u32, &masses[..count], scale);
    if opened.is_ok() {
        run.kept[member] = masses;
    }
    run.count(opened.map(|balance| vec![u64::from(balance.total), u64::from(balance.scale)]));
}

/// Registers the member, or a number that no member has; what is told is the number.
fn registering(draws: &mut Draws, run: &mut Run, member: usize) {
    let number = if draws.below(8) == 0 { member + MEMBERS } else { member };
    let registered = register(&mut run.family, number as u32);
    run.count(registered.map(|()| vec![number as u64]));
}

/// What is handed over for a step.
struct Lent {
    /// The number of the member; not handed over in a turn.
    number: usize,
    kept: [u32; CELLS],
    source: i32,
    scale: u32,
    field: Field,
    scratch: Vec<i64>,
    /// A book in order, and its length.
    book: (Vec<u8>, usize),
}

/// Draws a field and a source for the member's kept masses, and a fault or none.
fn draw_step(draws: &mut Draws, run: &Run, member: usize) -> Lent {
    let mut field = draw_field(draws, &run.kept[member]);
    let mut source = draws.below(3001) as i32 - 1500;
    let (mut number, mut kept, mut scale) = (member, run.kept[member], SCALE);
    let mut scratch = vec![0; SCRATCH_PER_NODE * field.parents.len()];
    match draws.below(32) {
        1 => number += MEMBERS,
        2 => field.targets.truncate(CELLS - 1),
        3 => field.parents.truncate(4),
        4 => scratch.truncate(scratch.len() - 1),
        5 => scale = 31,
        6 => scale += 1,
        7 => field.parents[0] = 0,
        8 => (field.lows[3], field.highs[3]) = (field.highs[3], field.lows[3]),
        9 => field.safe_highs[7] = LIMIT as u32,
        10 => (field.weights[6], field.weights[7]) = (1, LIMIT as u32),
        11 => kept[0] += 1,
        12 => source = i32::MIN,
        13 => source = i32::MAX,
        14 => source = 1_000_000,
        15 => source = 60_000,
        16 => source = -4000,
        17 => source = 4000,
        _ => {}
    }
    let book = fresh_book(run.family.members[member].total);
    Lent { number, kept, source, scale, field, scratch, book }
}

/// Counts a step of the member by the number given, or served by a turn, which was lent the masses of `member` and has left `kept`. What is
/// told are the number, and outcome, new total, change and the sum shared out.
fn count_step(run: &mut Run, member: usize, number: usize, kept: [u32; CELLS], stepped: Result<Stepped, Refusal>) {
    let repaired = stepped.map(|stepped| stepped.repair);
    if let Ok(repair) = repaired {
        run.kept[member] = kept;
        run.shared += repair.shared;
    }
    run.take_in(&[number as u64]);
    run.count(repaired.map(|repair| vec![u64::from(repair.outcome), u64::from(repair.total), repair.change, repair.shared]));
}

/// Draws a step of the member and makes it.
fn step(workspace: &mut Workspace, draws: &mut Draws, run: &mut Run, member: usize) {
    let Lent { number, mut kept, source, scale, field, mut scratch, book: (mut buffer, length) } = draw_step(draws, run, member);
    let book = LentBook { buffer: &mut buffer, length };
    let stepped = step_member(workspace, &mut run.family, number as u32, &mut kept, source, scale, &field.lists(), &mut scratch, book);
    count_step(run, member, number, kept, stepped);
}

/// Draws a step of the next in turn, or of the member if nobody waits, and takes a turn.
fn one_turn(workspace: &mut Workspace, draws: &mut Draws, run: &mut Run, member: usize) {
    let member = next_member(&run.family).unwrap_or(member);
    let Lent { mut kept, source, scale, field, mut scratch, book: (mut buffer, length), .. } = draw_step(draws, run, member);
    let (waiting, book) = (run.family.waiting, LentBook { buffer: &mut buffer, length });
    match turn(workspace, &mut run.family, &mut kept, source, scale, &field.lists(), &mut scratch, book) {
        Turned::Idle => {
            run.waits.count(waiting, None);
            run.take_in(&[NOBODY]);
            run.take_in_family();
        }
        Turned::Served { member: served, stepped } => {
            run.waits.count(waiting, Some(served));
            count_step(run, member, served, kept, stepped);
        }
    }
}

fn one_call(workspace: &mut Workspace, draws: &mut Draws, run: &mut Run) {
    let member = draws.below(MEMBERS as u32) as usize;
    match draws.below(16) {
        0 | 1 => opening(draws, run, member),
        2..=5 => registering(draws, run, member),
        6..=9 => one_turn(workspace, draws, run, member),
        _ => step(workspace, draws, run, member),
    }
}

fn line(calls: u32, run: &Run) -> String {
    let Run { family, kept, waits, accepted, refused, told, shared, .. } = run;
    let open = family.members.iter().filter(|member| member.opened).count();
    let Waits { served, idle, longest, .. } = waits;
    let turns = format!("waiting {} served {served} idle {idle} longest {longest}", waiting_count(family));
    let totals = sum(&family.members.map(|member| member.total));
    let masses = kept.concat();
    let check = output::check(sum(&masses), &masses.iter().map(|&mass| i64::from(mass)).collect::<Vec<i64>>());
    format!("calls {calls} open {open} {turns} accepted {accepted} refused {refused} totals {totals}{check} told {told} shared {shared}\n")
}

fn start_line(started: Result<Family, Refusal>) -> String {
    match started {
        Ok(_) => "start done\n".to_string(),
        Err(refusal) => format!("start refused {}\n", refusal.number),
    }
}

pub fn expected(_: &Program) -> String {
    let starts = [(31, 0), (31, 513), (31, CELLS as u32), (SCALE, CELLS as u32)].map(|(scale, cells)| start_family(CAP, scale, cells));
    let mut text = starts.map(start_line).concat();
    let Ok(family) = starts[3] else {
        return text;
    };
    let (mut workspace, mut draws, mut run) = (Workspace::default(), Draws::default(), Run::new(family));
    for calls in 1..=16_000 {
        if calls % AFRESH == 1 {
            run.start_afresh(family);
        }
        one_call(&mut workspace, &mut draws, &mut run);
        if calls % 500 == 0 {
            text += &line(calls, &run);
        }
    }
    let counts = run.by_number.iter().enumerate().skip(1);
    text + &counts.map(|(number, count)| format!("refused {number} {count}\n")).collect::<String>()
}
