//! Turns of families, after ticket 11 of 02, through the calls from C and compared with the second implementation: registerings, readings
//! and turns on any family. For histories, a record of who waits and who was served, kept by the calls alone.

use crate::check_calls::make_scale;
use crate::check_families::{any_from, any_list, any_step, make_family, note_cap, single_calls, too_wide, Call, Exit, Kind};
use crate::families::{Member, MEMBERS};
use crate::from_c::{read_family, FROM_ENTRY, NOBODY, TURN_ENTRIES, WAITING_ENTRY};
use crate::random::{self, Random};
use crate::tally::{Occurrences, Tally};

// ---- single calls ----

/// The list of any family, and a member that is mostly open.
fn any_family(random: &mut Random) -> (Vec<u64>, usize) {
    let (scale, cells) = (make_scale(random), random::cell_count(random));
    let member = random.index(MEMBERS);
    let state = Member { opened: random.chance(75), total: random.bits() as u32 };
    let mut family = make_family(random, scale, cells, (member, state), 0);
    if random.chance(10) {
        let (byte, from) = (random.pick(&[0, 0, u8::MAX]), any_from(random));
        set_turns(&mut family, (byte, from));
    }
    (family, member)
}

/// Sets who waits and where the search begins in a list that is long enough. Bits that do not count stay.
pub fn set_turns(family: &mut [u64], (waiting, from): (u8, u32)) {
    family[WAITING_ENTRY] = family[WAITING_ENTRY] >> 8 << 8 | u64::from(waiting);
    family[FROM_ENTRY] = family[FROM_ENTRY] >> 32 << 32 | u64::from(from);
}

/// Who waits and where the search begins, so that the member is the next in turn.
pub fn turns_before(random: &mut Random, member: usize) -> (u8, u32) {
    let ahead = random.index(MEMBERS);
    let from = (member + MEMBERS - ahead) % MEMBERS;
    let mut waiting = random.bits() as u8 | 1 << member;
    (0..ahead).for_each(|place| waiting &= !(1 << ((from + place) % MEMBERS)));
    // The search goes round, so that whole rounds more begin at the same member.
    let any = random.below(1 << 29) as u32;
    let rounds = random.pick(&[0, 0, 0, 0, 1, any, (1 << 29) - 1]);
    (waiting, from as u32 + MEMBERS as u32 * rounds)
}

fn make_registering(random: &mut Random) -> Call {
    let (family, member) = any_family(random);
    Call { family, member: member as u32, kind: Kind::Register }
}

/// An answer that is long enough for a reading.
pub fn reading_answer(random: &mut Random) -> Vec<u64> {
    let length = random.pick(&[1, 1, 1, 2, 5]);
    any_list(random, length)
}

fn make_next(random: &mut Random) -> Call {
    let (family, _) = any_family(random);
    Call { family, member: 0, kind: Kind::Next(reading_answer(random)) }
}

fn make_waiting(random: &mut Random) -> Call {
    let (family, _) = any_family(random);
    Call { family, member: 0, kind: Kind::Waiting(reading_answer(random)) }
}

/// A turn that is mostly lent what a step of the next in turn needs; sometimes anybody is next, or nobody.
fn make_turn(random: &mut Random) -> Call {
    let (mut family, member, mut step) = any_step(random);
    let length = TURN_ENTRIES + random.pick(&[0, 0, 0, 1, 4]);
    step.answer = any_list(random, length);
    match random.below(10) {
        0 => set_turns(&mut family, (0, any_from(random))),
        1 => {}
        _ => set_turns(&mut family, turns_before(random, member)),
    }
    Call { family, member: member as u32, kind: Kind::Turn(step) }
}

fn note_registering(occurred: &mut Occurrences, call: &Call, exit: &Exit) {
    let accepted = exit.returned == 0;
    let waits = accepted && read_family(&call.family).waiting >> call.member & 1 == 1;
    occurred.note("of a member that waits already", waits);
    occurred.note("accepted with entries too wide", accepted && too_wide(&call.family));
    occurred.note("refused with 19 for a number above 7", exit.returned == 19 && call.member as usize >= MEMBERS);
    occurred.note("refused with 19 for a member not open", exit.returned == 19 && (call.member as usize) < MEMBERS);
}

/// Notes how the next in turn, as it was told, was found.
fn note_search(occurred: &mut Occurrences, call: &Call, told: u64) {
    let family = read_family(&call.family);
    let found = told != NOBODY;
    occurred.note("that find nobody", !found);
    occurred.note("that find nobody, with entries too wide", !found && too_wide(&call.family));
    occurred.note("that find the member where they begin", found && told == u64::from(family.from));
    occurred.note("that go round past member 7", found && told < u64::from(family.from) % NOBODY);
    occurred.note("that find a member, beginning above 7", found && u64::from(family.from) >= NOBODY);
    occurred.note("that find a member, with entries too wide", found && too_wide(&call.family));
}

fn note_next(occurred: &mut Occurrences, call: &Call, exit: &Exit) {
    if exit.returned == 0 {
        note_search(occurred, call, exit.answer[0]);
    }
}

fn note_waiting(occurred: &mut Occurrences, call: &Call, exit: &Exit) {
    let told = if exit.returned == 0 { exit.answer[0] as usize } else { usize::MAX };
    for (number, name) in ["of 0", "of 1", "of 2", "of 3", "of 4", "of 5", "of 6", "of 7", "of 8"].into_iter().enumerate() {
        occurred.note(name, told == number);
    }
    occurred.note("with entries too wide", exit.returned == 0 && too_wide(&call.family));
}

fn note_turn(occurred: &mut Occurrences, call: &Call, exit: &Exit) {
    let told = exit.told(call);
    let refused = told.is_some_and(|told| told.returned != 0);
    occurred.note("that are refused with 3", exit.returned == 3);
    occurred.note("whose step is refused with 3", told.is_some_and(|told| told.returned == 3));
    occurred.note("whose step is accepted, with entries too wide", told.is_some() && !refused && too_wide(&call.family));
    occurred.note("whose step is refused, with entries too wide", refused && too_wide(&call.family));
    occurred.note("that serve another than the one whose list is lent", told.is_some_and(|told| told.member != call.member));
    if exit.returned == 0 {
        note_search(occurred, call, exit.answer[0]);
    }
    note_cap(occurred, call, exit);
}

pub fn registerings(tally: &mut Tally, random: &mut Random, count: u64) {
    single_calls(tally, random, count, make_registering, note_registering).look_for(tally, "registerings");
}

pub fn readings_of_next(tally: &mut Tally, random: &mut Random, count: u64) {
    single_calls(tally, random, count, make_next, note_next).look_for(tally, "readings of the next");
}

pub fn readings_of_waiting(tally: &mut Tally, random: &mut Random, count: u64) {
    single_calls(tally, random, count, make_waiting, note_waiting).look_for(tally, "readings of the number waiting");
}

pub fn turns(tally: &mut Tally, random: &mut Random, count: u64) {
    single_calls(tally, random, count, make_turn, note_turn).look_for(tally, "turns");
}

// ---- the record of a history ----

/// Who waits and who was served last, by the calls of a history alone.
#[derive(Debug, Default)]
pub struct Record {
    /// For a member that waits: those served since it registered.
    served: [Option<Vec<usize>>; MEMBERS],
    /// The last one served.
    last: Option<usize>,
}

impl Record {
    pub fn register(&mut self, member: usize) {
        self.served[member].get_or_insert_default();
    }

    pub fn serve(&mut self, member: usize) {
        self.served[member] = None;
        self.served.iter_mut().flatten().for_each(|served| served.push(member));
        self.last = Some(member);
    }

    pub fn last(&self) -> Option<usize> {
        self.last
    }

    /// Those served since the member registered, if it waits.
    pub fn waits(&self, member: usize) -> Option<&[usize]> {
        self.served.get(member)?.as_deref()
    }

    /// The number waiting.
    pub fn count(&self) -> usize {
        self.served.iter().flatten().count()
    }

    /// The first one waiting after the last one served, going round; at the start from member 0.
    pub fn next(&self) -> Option<usize> {
        let (upper, lower): (Vec<usize>, Vec<usize>) = (0..MEMBERS).partition(|&member| self.last.is_none_or(|last| member > last));
        upper.into_iter().chain(lower).find(|&member| self.waits(member).is_some())
    }

    /// While a member waits no other is served twice, so that it is served itself within 8 turns.
    pub fn is_fair(&self) -> bool {
        (0..MEMBERS).all(|member| {
            let served = self.waits(member).unwrap_or_default();
            let once = |&other: &usize| other != member && served.iter().filter(|&&another| another == other).count() == 1;
            served.len() < MEMBERS && served.iter().all(once)
        })
    }

    /// The last two entries of the family's list.
    pub fn entries(&self) -> [u64; 2] {
        let waiting = (0..MEMBERS).filter(|&member| self.waits(member).is_some()).map(|member| 1 << member).sum();
        [waiting, self.last.map_or(0, |last| (last as u64 + 1) % NOBODY)]
    }
}
