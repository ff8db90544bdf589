//! The test program of ticket 13: two kept fields of 8 cells side by side, 100 rounds. A generator draws a field, a source and a node; the
//! second kept field is stepped by the field edited below that node, with the six sums below it kept. Two lines for each round: Reconstruct
//! of the field, of the edited one and of one with a changed sum, then both steps. At the end counts of masses and answers that are
//! otherwise.

use crate::draws::{draw_cells, tree, Draws, CELLS, TREES};
use crate::output;
use compare::book::{fresh_book, LentBook};
use compare::operations::{open, reconstruct, step, Balance, Refusal, SCRATCH_PER_NODE};
use compare::program::Program;
use compare::region::{add, shift, Region, VALUES};
use compare::tree::{Field, Repair, Workspace};

const ROUNDS: u32 = 100;
/// The moves of an edit.
const MOVES: usize = 24;
/// What the field with a changed sum has more in a target.
const CHANGE: i64 = 50;

type Masses = [u32; CELLS];
type Answer = Result<Repair, Refusal>;

/// A kept field with its book.
struct Kept {
    masses: Masses,
    balance: Balance,
    buffer: Vec<u8>,
    length: usize,
}

impl Kept {
    fn opened() -> Result<Kept, Refusal> {
        let masses = [1000; CELLS];
        let balance = open(&masses, 0)?;
        let (buffer, length) = fresh_book(balance.total);
        Ok(Kept { masses, balance, buffer, length })
    }

    fn step(&mut self, workspace: &mut Workspace, source: i32, field: &Field) -> Answer {
        let mut scratch = vec![0; SCRATCH_PER_NODE * field.parents.len()];
        let book = LentBook { buffer: &mut self.buffer, length: self.length };
        let stepped = step(workspace, self.balance, &mut self.masses, source, 0, &field.lists(), &mut scratch, book)?;
        (self.balance, self.length) = (stepped.balance, stepped.length);
        Ok(stepped.repair)
    }
}

/// Cells that two accepted calls were compared in, and those of them whose masses differ.
#[derive(Default)]
struct Compared {
    cells: u32,
    otherwise: u32,
}

impl Compared {
    /// Compares the masses of the cells that lie below the node, or of those that do not. Returns how many differ.
    fn compare(&mut self, region: &Region, inside: bool, one: &Masses, other: &Masses) -> u32 {
        let cells = || (0..CELLS).filter(|&cell| region.below[cell] == inside);
        let otherwise = cells().filter(|&cell| one[cell] != other[cell]).count() as u32;
        self.cells += cells().count() as u32;
        self.otherwise += otherwise;
        otherwise
    }
}

/// A pair of calls, by the field and by the edited one, over all rounds.
#[derive(Default)]
struct Pairs {
    accepted: u32,
    refused: u32,
    outside: Compared,
    below: Compared,
    /// Rounds in which the calls answered otherwise.
    otherwise: u32,
}

impl Pairs {
    fn count(&mut self, region: &Region, one: (Answer, &Masses), other: (Answer, &Masses)) {
        let told = |answer: Answer| answer.map(|repair| (repair.outcome, repair.total));
        self.accepted += u32::from(one.0.is_ok());
        self.refused += u32::from(one.0.is_err());
        self.otherwise += u32::from(told(one.0) != told(other.0));
        if one.0.is_ok() && other.0.is_ok() {
            self.outside.compare(region, false, one.1, other.1);
            self.below.compare(region, true, one.1, other.1);
        }
    }
}

#[derive(Default)]
struct Counts {
    reconstructed: Pairs,
    stepped: Pairs,
    /// Outside the node, of the field and of the one with a changed sum.
    changed: Compared,
    /// Rounds in which some mass differed so.
    changed_rounds: u32,
}

/// What a round draws.
struct Round {
    kind: u32,
    source: i32,
    region: Region,
    field: Field,
    edited: Field,
    changed: Field,
}

/// Draws the moves of an edit. One between two cells below the node moves an amount of a value from one to the other.
fn draw_edit(draws: &mut Draws, field: &Field, region: &Region) -> Field {
    let mut edited = field.clone();
    for _ in 0..MOVES {
        let (from, to) = (draws.below(CELLS as u32) as usize, draws.below(CELLS as u32) as usize);
        let (value, most) = (draws.below(VALUES.len() as u32) as usize, draws.below(100));
        if from != to && region.below[from] && region.below[to] {
            shift(&mut edited, value, from, to, i64::from(most));
        }
    }
    edited
}

fn draw_round(draws: &mut Draws, kept: &Masses) -> Round {
    let kind = draws.below(TREES);
    let field = Field { parents: tree(kind), ..draw_cells(draws, kept) };
    let drawn = draws.below(3001) as i32 - 1500;
    let source = match draws.below(10) {
        0 => i32::MIN,
        1 => 2_000_000,
        _ => drawn,
    };
    // In three of four rounds an inner node, where there is one below the root.
    let any = draws.below(4) == 0;
    let first = if kind == 0 || any { 0 } else { CELLS };
    let top = first + draws.below((field.parents.len() - first) as u32) as usize;
    let region = Region::new(&field.parents, top);
    let edited = draw_edit(draws, &field, &region);
    let mut changed = field.clone();
    add(&mut changed, 0, region.cells(CELLS)[0], CHANGE);
    Round { kind, source, region, field, edited, changed }
}

fn reconstructed(workspace: &mut Workspace, field: &Field, total: u32) -> (Answer, Masses) {
    let (mut masses, mut scratch) = ([0; CELLS], vec![0; SCRATCH_PER_NODE * field.parents.len()]);
    (reconstruct(workspace, &field.lists(), total, &mut masses, &mut scratch), masses)
}

fn reconstructed_text((answer, masses): &(Answer, Masses)) -> String {
    output::repaired(*answer) + &answer.map_or(String::new(), |_| output::spaced(masses))
}

/// Plays a round; returns its lines.
fn play(workspace: &mut Workspace, round: &Round, kept: &mut [Kept; 2], counts: &mut Counts) -> String {
    let Round { kind, source, region, field, edited, changed } = round;
    let total = (i64::from(kept[0].balance.total) + i64::from(*source)).max(0) as u32;
    let given = [field, edited, changed].map(|field| reconstructed(workspace, field, total));
    let texts = given.each_ref().map(reconstructed_text);
    let [one, other, third] = given;
    counts.reconstructed.count(region, (one.0, &one.1), (other.0, &other.1));
    if one.0.is_ok() && third.0.is_ok() {
        counts.changed_rounds += u32::from(counts.changed.compare(region, false, &one.1, &third.1) > 0);
    }
    let [first, second] = kept;
    let steps = [first.step(workspace, *source, field), second.step(workspace, *source, edited)];
    counts.stepped.count(region, (steps[0], &first.masses), (steps[1], &second.masses));
    let [step, edited_step] = steps.map(|answer| output::repaired_as("accepted", answer));
    let masses = [first, second].map(|kept| output::spaced(kept.masses));
    let [text, edited_text, changed_text] = texts;
    format!("tree {kind} node {} source {source} reconstruct {text} edited {edited_text} changed {changed_text}\n", region.top)
        + &format!("step {step} edited {edited_step} kept{} edited{}\n", masses[0], masses[1])
}

fn compared_line(name: &str, reconstructed: &Compared, stepped: &Compared) -> String {
    let part = |compared: &Compared, how: &str| format!("cells {} {how} otherwise {}", compared.cells, compared.otherwise);
    format!("{name} {} {}\n", part(reconstructed, "reconstructed"), part(stepped, "stepped"))
}

fn last_lines(counts: &Counts) -> String {
    let Counts { reconstructed, stepped, changed, changed_rounds } = counts;
    let calls = |pairs: &Pairs, how: &str| format!("{how} {} refused {}", pairs.accepted, pairs.refused);
    let rounds = format!("rounds {ROUNDS} {} {}\n", calls(reconstructed, "reconstructed"), calls(stepped, "stepped"));
    let outside = compared_line("outside", &reconstructed.outside, &stepped.outside);
    let below = compared_line("below", &reconstructed.below, &stepped.below);
    let answers = format!("answers otherwise {} {}\n", reconstructed.otherwise, stepped.otherwise);
    let changed = format!("changed cells {} reconstructed otherwise {} rounds {changed_rounds}\n", changed.cells, changed.otherwise);
    rounds + &outside + &below + &answers + &changed
}

pub fn expected(_: &Program) -> String {
    let (Ok(first), Ok(second)) = (Kept::opened(), Kept::opened()) else {
        return String::new();
    };
    let (mut workspace, mut draws) = (Workspace::default(), Draws::default());
    let (mut kept, mut counts, mut text) = ([first, second], Counts::default(), String::new());
    for _ in 0..ROUNDS {
        let round = draw_round(&mut draws, &kept[0].masses);
        text += &play(&mut workspace, &round, &mut kept, &mut counts);
    }
    text + &last_lines(&counts)
}
