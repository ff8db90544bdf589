//! Histories of families, after tickets 10 to 12 of 02, through the calls from C and compared with the second implementation: after each
//! call the cap, the account of every member, its book, who waits and who is next are checked by what the calls so far have told, and one
//! member's calls are made again in another family.

use crate::check_books::Volume;
use crate::check_calls::{break_step, sound_scale, wrong_scale, StepCall};
use crate::check_families::{any_from, any_list, any_members, break_lent, compare_call, compare_start, library_call, opening_answer};
use crate::check_families::{Call, Exit, Kind, OpenCall, Told};
use crate::check_run::{call_to, miss_total, next_total};
use crate::check_turns::{reading_answer, set_turns, turns_before, Record};
use crate::families::{Family, MEMBERS};
use crate::from_c::{member_entry, read_family, write_family, FAMILY_ENTRIES, FROM_ENTRY, NOBODY, TURN_ENTRIES, WAITING_ENTRY};
use crate::operations::{Balance, LIMIT, MAX_SCALE};
use crate::random::{self, Random};
use crate::tally::{Occurrences, Tally};
use crate::tree::{sum, Workspace};

/// What a member has of its own, and what its calls so far have come to.
struct Account {
    kept: Vec<u32>,
    /// The total of the opening.
    opening: Option<i64>,
    /// The sum of the sources of the accepted steps.
    sources: i64,
    /// The book, which a member that is not open has with total 0.
    volume: Volume,
}

impl Account {
    fn total(&self) -> i64 {
        self.opening.map_or(0, |opening| opening + self.sources)
    }

    /// Takes over what an accepted call of the member has left. With the opening begins a new book.
    fn accept(&mut self, tally: &mut Tally, random: &mut Random, kind: &Kind, values: &[u64], exit: Exit) {
        match kind {
            Kind::Open(open) => {
                let total = sum(&open.kept);
                self.opening = Some(total as i64);
                self.volume = Volume::start(tally, random, total as u32);
            }
            Kind::Step(step) | Kind::Turn(step) => {
                self.sources += i64::from(step.source);
                self.volume.take_over(tally, step, &exit.kept, values, exit.book);
            }
            _ => return,
        }
        self.kept = exit.kept;
    }

    /// Gives the member another book: for a full one the one that opens with its closing total, else, now and then, any that closes with the
    /// member's total.
    fn replace_book(&mut self, tally: &mut Tally, random: &mut Random, occurred: &mut Occurrences) {
        let (full, total) = (self.volume.is_full(), self.total() as u32);
        let replaced = full && random.chance(15);
        let exchanged = !full && self.opening.is_some() && random.chance(2);
        occurred.note("full books replaced", replaced);
        occurred.note("books exchanged that are not full", exchanged);
        if replaced {
            self.volume = self.volume.replacement(tally, random);
        } else if exchanged {
            self.volume = Volume::other(tally, random, total);
        }
    }
}

/// A family and its members from an accepted start on.
struct History {
    /// The list as the start left it.
    started: Vec<u64>,
    /// The list as the last call left it.
    family: Vec<u64>,
    accounts: [Account; MEMBERS],
    turns: Record,
}

impl History {
    fn start(tally: &mut Tally, random: &mut Random, cap: u64, cells: usize) -> History {
        let length = FAMILY_ENTRIES + random.pick(&[0, 0, 1, 2]);
        let list = any_list(random, length);
        let started = compare_start(tally, cap, sound_scale(random), cells as u32, &list);
        let mut account = || Account { kept: vec![0; cells], opening: None, sources: 0, volume: Volume::start(tally, random, 0) };
        History { family: started.clone(), started, accounts: [(); MEMBERS].map(|()| account()), turns: Record::default() }
    }

    /// The family that was started.
    fn settings(&self) -> Family {
        read_family(&self.started)
    }

    /// The cap less the others' totals, which never pass it.
    fn room(&self, member: usize) -> u64 {
        let family = read_family(&self.family);
        family.cap.saturating_sub(family.others(member))
    }

    /// Whether a step of the member is lent the member's own kept list and book. An opening brings the list that becomes it.
    fn own_lists(&self, call: &Call, member: usize) -> bool {
        let lent = |step: &StepCall, account: &Account| account.kept == step.kept && account.volume.lent == step.book;
        match &call.kind {
            Kind::Step(step) | Kind::Turn(step) => self.accounts.get(member).is_some_and(|account| lent(step, account)),
            _ => true,
        }
    }

    /// What a call of the member must return to it in which nothing is broken, by the accounts.
    fn wanted(&self, call: &Call, member: usize) -> u64 {
        let account = &self.accounts[member];
        let (total, grows) = match &call.kind {
            Kind::Open(open) => (sum(&open.kept), true),
            Kind::Step(step) | Kind::Turn(step) => ((account.total() + i64::from(step.source)) as u64, step.source > 0),
            _ => (0, false),
        };
        if account.opening.is_some() == matches!(call.kind, Kind::Open(_)) {
            19
        } else if grows && total > self.room(member) {
            20
        } else if matches!(call.kind, Kind::Step(_) | Kind::Turn(_)) && account.volume.is_full() {
            21
        } else {
            0
        }
    }

    /// The front of the answer that a call must give which opens and steps nobody.
    fn wanted_answer(&self, call: &Call, exit: &Exit) -> Vec<u64> {
        match &call.kind {
            Kind::Turn(_) => {
                let (member, returned) = exit.told(call).map_or((NOBODY, 0), |told| (u64::from(told.member), told.returned));
                let mut answer = vec![0; TURN_ENTRIES];
                (answer[0], answer[1]) = (member, returned);
                answer
            }
            Kind::Next(_) => vec![self.turns.next().map_or(NOBODY, |member| member as u64)],
            Kind::Waiting(_) => vec![self.turns.count() as u64],
            _ => Vec::new(),
        }
    }

    /// What such a call must leave. The family's list after a registering and after a turn is checked with the accounts.
    fn wanted_exit(&self, call: &Call, exit: &Exit) -> Exit {
        let mut wanted = Exit { returned: exit.returned, ..Exit::entry(call) };
        if exit.returned == 0 {
            let answer = self.wanted_answer(call, exit);
            wanted.answer[..answer.len()].copy_from_slice(&answer);
            if exit.told(call).is_some() {
                wanted.family.clone_from(&exit.family);
            }
        }
        wanted
    }

    /// A call in which nothing is broken returns what the accounts say, an accepted opening or step is at the family's scale and has its
    /// cells, and any other call leaves its lists as they were.
    fn check_exit(&self, tally: &mut Tally, call: &Call, broken: bool, exit: &Exit) {
        let Family { scale, cells, .. } = self.settings();
        let told = exit.told(call);
        let accepted = told.filter(|told| told.returned == 0).and_then(|_| call.kind.scale_and_cells());
        let right = match accepted {
            Some(named) => named == (scale, cells as usize),
            None => *exit == self.wanted_exit(call, exit),
        };
        let wanted = || match told {
            Some(Told { member, returned, .. }) => returned == self.wanted(call, member as usize),
            None => exit.returned == 0,
        };
        if !right || !(broken || wanted()) {
            tally.difference(format!("family {call:?}: {exit:?}, and the history says otherwise"));
        }
    }

    /// A turn serves the next one by the record, and is idle exactly if nobody waits.
    fn check_turn(&self, tally: &mut Tally, call: &Call, exit: &Exit) {
        let served = exit.told(call).map(|told| told.member as usize);
        if matches!(call.kind, Kind::Turn(_)) && exit.returned == 0 && served != self.turns.next() {
            tally.difference(format!("family {call:?}: {exit:?}, and the record {:?}", self.turns));
        }
    }

    /// Whether a call is one of this history: not if it was lent another kept list or book and is accepted nevertheless.
    fn has(&self, call: &Call, exit: &Exit) -> bool {
        exit.told(call).is_none_or(|told| told.returned != 0 || self.own_lists(call, told.member as usize))
    }

    /// Takes over what a call has left, if it is accepted or a turn that serves.
    fn take_over(&mut self, tally: &mut Tally, random: &mut Random, call: &Call, exit: Exit) {
        let Some(Told { member, returned, values }) = exit.told(call).filter(|_| exit.returned == 0) else {
            return;
        };
        let (member, values) = (member as usize, values.to_vec());
        match &call.kind {
            Kind::Register => self.turns.register(member),
            Kind::Turn(_) => self.turns.serve(member),
            _ => {}
        }
        self.family.clone_from(&exit.family);
        if returned == 0 {
            self.accounts[member].accept(tally, random, &call.kind, &values, exit);
        }
    }

    /// The list of the family is what was started, the accounts and the record, entry by entry; the kept list of a member that is open adds
    /// up to its total; the totals do not pass the cap; and no member waits too long.
    fn check_accounts(&self, tally: &mut Tally, call: &Call) {
        let mut list = self.started.clone();
        for (member, account) in self.accounts.iter().enumerate() {
            let entry = member_entry(member);
            list[entry] = u64::from(account.opening.is_some());
            list[entry + 1] = account.total() as u64;
        }
        list[WAITING_ENTRY..FAMILY_ENTRIES].copy_from_slice(&self.turns.entries());
        let mut open = self.accounts.iter().filter(|account| account.opening.is_some());
        let totals: i64 = self.accounts.iter().map(Account::total).sum();
        let kept_sums = open.all(|account| sum(&account.kept) as i64 == account.total());
        if self.family != list || !kept_sums || totals as u64 > self.settings().cap || !self.turns.is_fair() {
            let sums = self.accounts.each_ref().map(|account| sum(&account.kept));
            let family = format!("family {:?}, sums of the kept lists {sums:?}, {:?}", self.family, self.turns);
            tally.difference(format!("accounts after {call:?}: {list:?}, {family}"));
        }
    }

    /// Notes what a call has met that this history has not taken over yet; `again` if it is made again in another family.
    fn note(&self, occurred: &mut Occurrences, call: &Call, exit: &Exit, again: bool) {
        let told = exit.told(call);
        let returned = told.map(|told| told.returned);
        let (accepted, refused) = (returned == Some(0), returned == Some(20));
        let (opening, outside, turn, source) = match &call.kind {
            Kind::Open(_) => (true, false, false, 0),
            Kind::Step(step) => (false, true, false, step.source),
            Kind::Turn(step) => (false, false, true, step.source),
            _ => (false, false, false, 0),
        };
        occurred.note("openings refused with 20", opening && refused);
        occurred.note("steps refused with 20", outside && refused);
        occurred.note("turns whose step was refused with 20", turn && refused);
        occurred.note("steps refused with 21", outside && returned == Some(21));
        occurred.note("turns whose step was refused with 21", turn && returned == Some(21));
        occurred.note("steps with a source above 0 refused with 8", source > 0 && returned == Some(8));
        occurred.note("openings while members wait", opening && self.turns.count() > 0);
        let next = told.is_some_and(|told| self.turns.next() == Some(told.member as usize));
        occurred.note("accepted steps of the next in turn outside a turn", outside && accepted && next);
        occurred.note("accepted calls made again in another family", accepted && again);
        occurred.note("calls refused with 20 made again", refused && again);
        occurred.note("turns made again, by a turn and by a step", turn && again);
        self.note_turn(occurred, call, exit);
    }

    /// The same for turns and who waits.
    fn note_turn(&self, occurred: &mut Occurrences, call: &Call, exit: &Exit) {
        let (told, turns) = (exit.told(call), &self.turns);
        let member = told.map_or(MEMBERS, |told| told.member as usize);
        let (accepted, waits) = (told.is_some_and(|told| told.returned == 0), turns.waits(member));
        let (turn, registering) = (matches!(call.kind, Kind::Turn(_)), matches!(call.kind, Kind::Register));
        let (idle, served) = (turn && told.is_none() && exit.returned == 0, turn && told.is_some());
        occurred.note("turns whose step was accepted", served && accepted);
        occurred.note("turns whose step was refused", served && !accepted);
        occurred.note("turns refused with 3", turn && exit.returned == 3);
        occurred.note("turns lent another member's list", served && !self.own_lists(call, member));
        occurred.note("turns that go round past member 7", served && turns.last().is_some_and(|last| last > member));
        occurred.note("turns that serve the same member again", served && turns.last() == Some(member));
        occurred.note("members served after 7 others", served && waits.is_some_and(|others| others.len() + 1 == MEMBERS));
        occurred.note("idle turns after others", idle && turns.last().is_some());
        occurred.note("members that wait registered again", registering && accepted && waits.is_some());
        let joins = registering && accepted && waits.is_none() && turns.count() > 0;
        occurred.note("members registered after their turn while others wait", joins && turns.last() == Some(member));
        occurred.note("registerings of members not open", registering && exit.returned == 19 && member < MEMBERS);
        let read = matches!(call.kind, Kind::Next(_) | Kind::Waiting(_)) && exit.returned == 0;
        occurred.note("readings while nobody waits", read && turns.count() == 0);
        occurred.note("readings while most members wait", read && turns.count() > MEMBERS / 2);
    }
}

/// A total that is just what there is room for, or next to it.
fn total_near(random: &mut Random, room: u64) -> u32 {
    let limit = LIMIT as i64;
    (room.min(LIMIT) as i64 + random.between(-2, 2)).clamp(0, limit) as u32
}

/// Gives an opening another number of masses, a scale out of range or another one, or a total out of range.
fn break_opening(random: &mut Random, open: &mut OpenCall) {
    let cells = open.kept.len();
    match random.below(4) {
        0 => open.kept.resize(random.pick(&[0, cells - 1, cells + 1, 512, 513]), 0),
        1 => open.scale = wrong_scale(random),
        2 => open.scale = (open.scale + random.between(1, i64::from(MAX_SCALE)) as u32) % (MAX_SCALE + 1),
        _ => random::break_list(random, &mut open.kept, LIMIT as u32 + 1),
    }
}

/// An opening, and whether it is broken.
fn next_opening(random: &mut Random, history: &History, member: usize) -> (Kind, bool) {
    let Family { scale, cells, .. } = history.settings();
    let total = if random.chance(20) { total_near(random, history.room(member)) } else { random.below(1_000_000) as u32 };
    let (kept, answer) = (random::partition(random, total, cells as usize), opening_answer(random));
    let mut open = OpenCall { kept, scale, answer };
    let broken = random.chance(85);
    if broken {
        break_opening(random, &mut open);
    }
    (Kind::Open(open), broken)
}

/// A step, and whether it is broken.
fn next_step(random: &mut Random, history: &History, member: usize) -> (StepCall, bool) {
    let account = &history.accounts[member];
    let balance = Balance { total: account.total() as u32, scale: history.settings().scale };
    let wanted = if random.chance(5) { total_near(random, history.room(member)) } else { next_total(random, balance.total) };
    let mut step = call_to(random, &account.kept, balance, account.volume.lent.clone(), wanted);
    let broken = random.chance(25);
    if broken && random.chance(20) {
        miss_total(random, &mut step);
    } else if broken {
        break_step(random, &mut step);
    }
    (step, broken)
}

/// An opening or a step of the member, and whether it is broken. Members that are not open are also stepped, and some that are open opened.
fn next_own(random: &mut Random, history: &History, member: usize) -> (Kind, bool) {
    if random.chance(if history.accounts[member].opening.is_some() { 5 } else { 60 }) {
        return next_opening(random, history, member);
    }
    let (step, broken) = next_step(random, history, member);
    (Kind::Step(step), broken)
}

/// A turn, and whether it is broken. It is lent what the next one's step needs; rarely, and if nobody waits, what that of the member needs.
fn next_turn(random: &mut Random, history: &History, member: usize) -> (Kind, bool) {
    let next = history.turns.next().unwrap_or(member);
    let lent = if random.chance(3) { member } else { next };
    let (mut step, broken) = next_step(random, history, lent);
    step.answer = vec![u64::MAX; TURN_ENTRIES];
    (Kind::Turn(step), broken || lent != next)
}

fn next_reading(random: &mut Random) -> Kind {
    let kind = random.pick(&[Kind::Next, Kind::Waiting]);
    kind(reading_answer(random))
}

/// How often members register and how often turns are taken, in percent of the calls.
type Pace = (u64, u64);

/// With the first all soon wait, with the last soon nobody does.
const PACES: [Pace; 3] = [(40, 10), (20, 20), (10, 20)];

/// How often it is read who is next or how many wait, in percent of the calls.
const READINGS: u64 = 8;

/// A call, and whether it is broken.
fn next_call(random: &mut Random, history: &History, (registerings, turns): Pace) -> (Call, bool) {
    let (member, drawn) = (random.index(MEMBERS), random.below(100));
    let (kind, broken) = if drawn < registerings {
        (Kind::Register, false)
    } else if drawn < registerings + turns {
        next_turn(random, history, member)
    } else if drawn < registerings + turns + READINGS {
        (next_reading(random), false)
    } else {
        next_own(random, history, member)
    };
    let mut call = Call { family: history.family.clone(), member: member as u32, kind };
    let broken_too = random.chance(4);
    if broken_too {
        break_lent(random, &mut call);
    }
    (call, broken || broken_too)
}

/// Another family with the same scale and cells, in which one member makes the same calls with the same room, while the others change at
/// will. It is told and holds the same.
struct Replay {
    member: usize,
    family: Vec<u64>,
    kept: Vec<u32>,
}

impl Replay {
    fn start(tally: &mut Tally, random: &mut Random, history: &History) -> Replay {
        let Family { scale, cells, .. } = history.settings();
        let family = compare_start(tally, random.bits(), scale, cells, &[0; FAMILY_ENTRIES]);
        Replay { member: random.index(MEMBERS), family, kept: vec![0; cells as usize] }
    }

    /// Changes the others, who waits and who is next, and sets the cap so that it leaves this room. If no cap is high enough, the others
    /// have nothing.
    fn set_room(&mut self, random: &mut Random, room: u64) {
        let mut family = read_family(&self.family);
        let own = family.members[self.member];
        family.members = any_members(random);
        family.cap = match room.checked_add(family.others(self.member)) {
            Some(cap) => cap,
            None => {
                family.members = Default::default();
                room
            }
        };
        family.members[self.member] = own;
        (family.waiting, family.from) = (random.bits() as u8, any_from(random));
        write_family(&family, &mut self.family);
    }

    /// The member's call for this family: with its own list, if the history lent it, and the same book, and if it is a turn with the member
    /// next.
    fn call_again(&mut self, random: &mut Random, history: &History, call: &Call, mut kind: Kind) -> Call {
        self.set_room(random, history.room(self.member));
        if let Kind::Turn(_) = kind {
            set_turns(&mut self.family, turns_before(random, self.member));
        }
        if let Kind::Step(step) | Kind::Turn(step) = &mut kind {
            if history.own_lists(call, self.member) {
                step.kept.clone_from(&self.kept);
            }
        }
        let family = self.family[..call.family.len().min(FAMILY_ENTRIES)].to_vec();
        Call { family, member: self.member as u32, kind }
    }

    /// What the call must leave of this family's list: of the member what it left there, of the others and the settings what was lent.
    fn wanted_family(&self, again: &Call, exit: &Exit) -> Vec<u64> {
        let mut wanted = again.family.clone();
        let entries = wanted.iter_mut().zip(&exit.family);
        entries.skip(member_entry(self.member)).take(2).for_each(|(entry, &given)| *entry = given);
        let bit = 1 << self.member;
        match again.kind {
            Kind::Register if exit.returned == 0 => wanted[WAITING_ENTRY] |= bit,
            Kind::Turn(_) => {
                wanted[WAITING_ENTRY] &= !bit;
                wanted[FROM_ENTRY] = (self.member as u64 + 1) % NOBODY;
            }
            _ => {}
        }
        wanted
    }

    /// Makes a call of the member once more, which `history` has not taken over yet; `exit` is what it gave there. A turn is made again by
    /// a step and by a turn.
    fn call(&mut self, tally: &mut Tally, random: &mut Random, history: &History, call: &Call, exit: &Exit) {
        let kinds = match &call.kind {
            Kind::Turn(step) => vec![Kind::Step(step.clone()), call.kind.clone()],
            kind => vec![kind.clone()],
        };
        for kind in kinds {
            let again = self.call_again(random, history, call, kind);
            let got = library_call(&again);
            let told = got.told(&again) == exit.told(call);
            let left = (&got.kept, &got.scratch, &got.book) == (&exit.kept, &exit.scratch, &exit.book);
            if !told || !left || got.family != self.wanted_family(&again, exit) {
                tally.difference(format!("family {call:?}: {exit:?}, in another family {again:?}: {got:?}"));
            }
        }
        self.take_over(history, call, exit);
    }

    /// Takes over what an accepted opening or step of the history has left.
    fn take_over(&mut self, history: &History, call: &Call, exit: &Exit) {
        let accepted = exit.told(call).is_some_and(|told| told.returned == 0);
        if accepted && !matches!(call.kind, Kind::Register) && history.own_lists(call, self.member) {
            let entry = member_entry(self.member);
            self.family[entry..entry + 2].copy_from_slice(&exit.family[entry..entry + 2]);
            self.kept.clone_from(&exit.kept);
        }
    }
}

/// Makes so many calls on a family from its start on.
fn history(tally: &mut Tally, random: &mut Random, occurred: &mut Occurrences, cap: u64, cells: usize, calls: u64) {
    let mut workspace = Workspace::default();
    let mut history = History::start(tally, random, cap, cells);
    let mut replay = Replay::start(tally, random, &history);
    let mut pace = random.pick(&PACES);
    for _ in 0..calls {
        if random.chance(1) {
            pace = random.pick(&PACES);
        }
        let member = random.index(MEMBERS);
        history.accounts[member].replace_book(tally, random, occurred);
        let (call, broken) = next_call(random, &history, pace);
        let exit = compare_call(tally, &mut workspace, &call);
        let again = exit.told(&call).is_some_and(|told| told.member as usize == replay.member);
        if again {
            replay.call(tally, random, &history, &call, &exit);
        }
        history.note(occurred, &call, &exit, again);
        history.check_exit(tally, &call, broken, &exit);
        history.check_turn(tally, &call, &exit);
        if history.has(&call, &exit) {
            history.take_over(tally, random, &call, exit);
        }
        history.check_accounts(tally, &call);
    }
}

/// So many histories. Of four, two have a cap that their members often meet, one has a cap that they meet now and then, and one has a cap
/// that they cannot meet.
pub fn histories(tally: &mut Tally, random: &mut Random, cells: usize, count: u64, calls: u64) {
    let mut occurred = Occurrences::default();
    for number in 0..count {
        let cap = match number % 4 {
            0 | 1 => random.between(1_500_000, 4_000_000) as u64,
            2 => random.between(5_000_000, 1 << 32) as u64,
            _ => random.pick(&[MEMBERS as u64 * LIMIT, u64::MAX]),
        };
        history(tally, random, &mut occurred, cap, cells, calls);
    }
    occurred.look_for(tally, &format!("families of {cells} cells,"));
}
