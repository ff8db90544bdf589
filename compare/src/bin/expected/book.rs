//! The test program of the source book: three starts, a line for each; 15,000 steps of 8 kept cells with a book, some with a fault, drawn by
//! a generator, and two lines after every 500; a full book's line, after which a new one is started. Whenever the book has grown by a block,
//! and once before, reports of damaged copies of it. At the end a line for each refusal's number that steps met, and one for each of damaged
//! books. And the program, which prints the report's line for its standard input.

use crate::draws::{draw_field, Draws, CELLS};
use compare::book::{self, record_word, start_book, Book, LentBook, COUNT_WORD, OPENING_WORD, RECORDS, ROOM};
use compare::files::{block_mut, set_check_words, set_word, word, BLOCK};
use compare::operations::{open, step, Balance, Refusal, SCRATCH_PER_NODE};
use compare::program::Program;
use compare::tree::{sum, Workspace};

const SCALE: u32 = 20;
/// Refusal numbers go from 1 to this.
const LAST_NUMBER: usize = 21;

struct Run {
    kept: [u32; CELLS],
    balance: Balance,
    buffer: Vec<u8>,
    length: usize,
    accepted: u32,
    refused: u32,
    /// The refused steps by number; entry 0 is not used.
    by_number: [u32; LAST_NUMBER + 1],
    /// The reports of damaged books by number; entry 0 counts those of books in order.
    damaged: [u32; LAST_NUMBER + 1],
    /// The check number of all that was told.
    told: u64,
}

impl Run {
    fn take_in(&mut self, values: impl IntoIterator<Item = u64>) {
        self.told = values.into_iter().fold(self.told, |told, value| (told * 31 + value % 1_000_000_000_000) % 1_000_000_007);
    }

    /// The line of the report of the book.
    fn report(&self) -> String {
        book::line(&self.buffer[..self.length])
    }
}

/// The check number of the buffer's bytes.
fn check(buffer: &[u8]) -> u64 {
    buffer.iter().fold(0, |check, &byte| (check * 31 + u64::from(byte)) % 1_000_000_007)
}

/// Draws a block and a record, and where it needs it a position, and does one kind of damage to the copy of a book of so many bytes. Returns
/// how many bytes of the copy are reported.
fn damage(draws: &mut Draws, kind: u32, copy: &mut [u8], length: usize) -> usize {
    let last = length / BLOCK;
    let (number, record) = (1 + draws.below(last as u32) as usize, draws.below(RECORDS as u32) as usize);
    match kind {
        0 => return length - 1,
        1 => return 0,
        2 => {
            let position = draws.below(length as u32) as usize;
            copy[position] = copy[position].wrapping_add(1);
            return length;
        }
        _ => {}
    }
    let block = block_mut(copy, if kind == 6 || kind == 8 { last } else { number });
    let mut add_one = |index: usize| set_word(block, index, word(block, index).wrapping_add(1));
    match kind {
        3 => add_one(0),
        4 => set_word(block, COUNT_WORD, 42),
        5 => set_word(block, COUNT_WORD, 40),
        6 => (OPENING_WORD + 1..=COUNT_WORD).for_each(|index| set_word(block, index, 0)),
        7 => set_word(block, record_word(record) + 1, 3),
        8 => set_word(block, COUNT_WORD - 1, 1),
        9 => add_one(OPENING_WORD),
        10 => add_one(record_word(record) + 2),
        11 => add_one(record_word(record)),
        _ => return length,
    }
    set_check_words(block);
    length
}

/// Reports of copies of the book, each with another kind of damage, the last with none. What is told is the length of the text and its bytes.
fn damaged_reports(draws: &mut Draws, run: &mut Run) {
    for kind in 0..=12 {
        let mut copy = run.buffer.clone();
        let length = damage(draws, kind, &mut copy, run.length);
        let (file, mut buffer) = (&copy[..length], [0; book::MAX_LINE]);
        let written = book::report_book(file, &mut buffer).expect("a buffer that is long enough");
        run.take_in([written as u64]);
        run.take_in(buffer[..written].iter().map(|&byte| u64::from(byte)));
        run.damaged[Book::read(file).map_or_else(|refusal| refusal.number as usize, |_| 0)] += 1;
    }
}

fn start_line(started: Result<usize, Refusal>) -> String {
    match started {
        Ok(length) => format!("start {length}\n"),
        Err(refusal) => format!("start refused {}\n", refusal.number),
    }
}

/// Counts a refused step, which has left the buffer as `run` has it and was lent it with a fault or none; `saved` is the buffer before the
/// fault. A full book is replaced. Returns what is printed.
fn refuse(run: &mut Run, refusal: Refusal, saved: Vec<u8>) -> String {
    let left = check(&run.buffer);
    run.take_in([u64::from(refusal.number), u64::from(refusal.place), left]);
    run.buffer = saved;
    run.refused += 1;
    run.by_number[refusal.number as usize] += 1;
    if refusal.number != 21 {
        return String::new();
    }
    let text = format!("full length {} {}", run.length, run.report());
    match start_book(run.balance.total, &mut run.buffer) {
        Ok(length) => {
            run.length = length;
            text
        }
        refused => text + &start_line(refused),
    }
}

/// Draws a field and a source, and a fault or none: a buffer too short, another length told, another total, a byte or a payload word of the
/// book changed, or a source that goes too far up or down. Then steps. Returns what is printed.
fn one_step(workspace: &mut Workspace, draws: &mut Draws, run: &mut Run) -> String {
    let field = draw_field(draws, &run.kept);
    let mut source = draws.below(3001) as i32 - 1500;
    let (mut balance, mut length, mut room, saved) = (run.balance, run.length, ROOM, run.buffer.clone());
    match draws.below(24) {
        0 => room -= 1,
        1 => length += 1,
        2 => length = 0,
        3 => length = 33280,
        4 => length -= BLOCK,
        5 => balance.total += 1,
        6 => {
            let (position, plus) = (draws.below(run.length as u32) as usize, draws.below(255) as u8);
            run.buffer[position] = run.buffer[position].wrapping_add(1 + plus);
        }
        7 => {
            let number = 1 + draws.below((run.length / BLOCK) as u32) as usize;
            let (index, value) = (draws.below(125) as usize, draws.below(3));
            let block = block_mut(&mut run.buffer, number);
            set_word(block, 1 + index, value);
            set_check_words(block);
        }
        8 => source = 2_000_000,
        9 => source = i32::MIN,
        _ => {}
    }
    let mut scratch = vec![0; SCRATCH_PER_NODE * field.parents.len()];
    let book = LentBook { buffer: &mut run.buffer[..room], length };
    match step(workspace, balance, &mut run.kept, source, SCALE, &field.lists(), &mut scratch, book) {
        Ok(stepped) => {
            let (repair, grown) = (stepped.repair, stepped.length > run.length);
            (run.balance, run.length) = (stepped.balance, stepped.length);
            run.take_in([u64::from(repair.outcome), u64::from(repair.total), repair.change, repair.shared, stepped.length as u64]);
            run.accepted += 1;
            if grown {
                damaged_reports(draws, run);
            }
            String::new()
        }
        Err(refusal) => refuse(run, refusal, saved),
    }
}

fn line(calls: u32, run: &Run) -> String {
    let Run { kept, balance, buffer, length, accepted, refused, told, .. } = run;
    let counts = format!("calls {calls} accepted {accepted} refused {refused}");
    let totals = format!("total {} sum {} length {length}", balance.total, sum(kept));
    format!("{counts} {totals} check {} told {told}\n{}", check(buffer), run.report())
}

/// A line for each count above 0.
fn count_lines(name: &str, counts: &[u32]) -> String {
    let met = counts.iter().enumerate().filter(|(_, &count)| count > 0);
    met.map(|(number, count)| format!("{name} {number} times {count}\n")).collect()
}

pub fn expected(_: &Program) -> String {
    let (kept, mut buffer) = ([1000; CELLS], vec![170; ROOM]);
    let Ok(balance) = open(&kept, SCALE) else {
        return String::new();
    };
    let (short, heavy) = (start_book(balance.total, &mut buffer[..ROOM - 1]), start_book(1 << 31, &mut buffer));
    let started = start_book(balance.total, &mut buffer);
    let mut text = [short, heavy, started].map(start_line).concat();
    let Ok(length) = started else {
        return text;
    };
    let (by_number, damaged) = ([0; LAST_NUMBER + 1], [0; LAST_NUMBER + 1]);
    let mut run = Run { kept, balance, buffer, length, accepted: 0, refused: 0, by_number, damaged, told: 0 };
    let (mut workspace, mut draws) = (Workspace::default(), Draws::default());
    damaged_reports(&mut draws, &mut run);
    for calls in 1..=15_000 {
        text += &one_step(&mut workspace, &mut draws, &mut run);
        if calls % 500 == 0 {
            text += &line(calls, &run);
        }
    }
    text + &count_lines("refused", &run.by_number) + &count_lines("damaged", &run.damaged)
}

/// Of its input the program reads a byte more than the largest book has, at most.
pub fn expected_line(program: &Program) -> String {
    let mut file = program.read("stdin");
    file.truncate(ROOM + 1);
    book::line(&file)
}
