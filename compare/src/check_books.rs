//! Source books, after ticket 12 of 02, through the calls from C and by the program, compared with the second implementation: starts, steps
//! and reports on books of 1 to 64 blocks, in order and damaged in every way that has a number. Of a book that was damaged in one way alone
//! the answer is also known from what was done to it. For runs, a record of what their books must hold.

use crate::book::{line, Book, Budget, Record, COUNT_WORD, MAX_BLOCKS, RECORDS, ROOM};
use crate::calls;
use crate::check_calls::{any_bits, break_step, compare_step, sound_scale, StepCall, StepExit};
use crate::check_files::printed;
use crate::check_run::good_call;
use crate::files::{block, word, BLOCK};
use crate::from_c::{self, budget_values, returned};
use crate::operations::{refuse, refuse_at, Balance, Refusal, LIMIT};
use crate::random::{self, Random};
use crate::random_books::{book_to, damage_again, damage_book, nearly_full, record_count, BookBuffer, Damage, Reading, DAMAGES, FULL};
use crate::tally::{Occurrences, Tally};
use crate::tree::{sum, Workspace};
use std::path::Path;

// ---- what a step leaves ----

/// The buffer that a step must leave, given the book that it was lent in order: with one record more, and all other bytes as they were.
fn with_record(book: &Book, record: Record, lent: &BookBuffer) -> BookBuffer {
    let (mut book, mut left) = (book.clone(), lent.clone());
    book.records.push(record);
    let front = book.bytes();
    if let Some(part) = left.bytes.get_mut(..front.len()) {
        part.copy_from_slice(&front);
    }
    left
}

/// The book of an accepted step is the one before with its record, one block longer if the last one had 41.
pub fn check_added(tally: &mut Tally, call: &StepCall, answer: &[u64], left: &BookBuffer) {
    let Ok(book) = Book::read(call.book.told()) else {
        tally.difference(format!("accepted {call:?}: its book is not in order"));
        return;
    };
    let record = Record { source: call.source, outcome: answer[0] as u32, total: answer[1] as u32 };
    let length = (book.records.len() / RECORDS + 1) * BLOCK;
    if answer[4] != length as u64 || *left != with_record(&book, record, &call.book) {
        tally.difference(format!("accepted {call:?}: answer {answer:?}, its book is left as {left:?}"));
    }
}

/// Notes how a step has met its book.
pub fn note_book(occurred: &mut Occurrences, call: &StepCall, exit: &StepExit) {
    let (number, place) = (exit.returned as u32, (exit.returned >> 32) as usize);
    let BookBuffer { bytes, length } = &call.book;
    occurred.note("lent a buffer that is a byte short", number == 3 && bytes.len() + 1 == ROOM);
    occurred.note("refused with 12 at a block before the last", number == 12 && place > 0 && place * BLOCK < *length);
    occurred.note("refused with 12 at the last of several blocks", number == 12 && place > 1 && place * BLOCK == *length);
    let (accepted, grown) = (number == 0, number == 0 && exit.answer[4] > *length as u64);
    occurred.note("accepted whose record is in the last block", accepted && !grown);
    occurred.note("accepted whose record is in a new block", grown);
    let last = accepted && exit.answer[4] == ROOM as u64 && word(block(&exit.book.bytes, MAX_BLOCKS), COUNT_WORD) as usize == RECORDS;
    occurred.note("accepted that fill the book", last);
}

// ---- starts ----

/// Runs both sides; returns the answer and the buffer of the library.
fn compare_start(tally: &mut Tally, total: u32, buffer: Vec<u8>, answer: &[u64]) -> (Vec<u64>, Vec<u8>) {
    let (mut mine, mut theirs) = ((answer.to_vec(), buffer.clone()), (answer.to_vec(), buffer));
    let result = from_c::book_start(total, &mut mine.1, &mut mine.0);
    let expected = returned(result);
    let got = calls::book_start(total, &mut theirs.1, &mut theirs.0);
    tally.answer(&result);
    tally.input((expected, &mine) == (got, &theirs), || {
        let first = mine.1.iter().zip(&theirs.1).position(|(one, other)| one != other);
        let sides = format!("second implementation {expected:#x} {:?}, library {got:#x} {:?}", mine.0, theirs.0);
        format!("book start {total} in {} bytes: {sides}, first other byte {first:?}", mine.1.len())
    });
    theirs
}

pub fn starts(tally: &mut Tally, random: &mut Random, count: u64) {
    let limit = LIMIT as u32;
    for _ in 0..count {
        let any = random.bits() as u32;
        let total = random.pick(&[0, 1, limit - 1, limit, limit + 1, u32::MAX, any, any, any]);
        let room = random.pick(&[0, BLOCK, ROOM - BLOCK, ROOM - 1, ROOM, ROOM, ROOM, ROOM, ROOM, ROOM + 1, ROOM + BLOCK]);
        let (buffer, entries) = (random::bytes(random, room), random.pick(&[0, 1, 1, 1, 1, 2, 4]));
        let before = buffer.clone();
        let (answer, left) = compare_start(tally, total, buffer, &any_bits(random, entries, |bits| bits));
        let accepted = room >= ROOM && entries > 0 && total <= limit;
        let mut wanted = before;
        if accepted {
            wanted[..BLOCK].copy_from_slice(&Book { opening: total, records: Vec::new() }.bytes());
        }
        if left != wanted || (accepted && answer[0] != BLOCK as u64) {
            tally.difference(format!("book start {total} in {room} bytes: {answer:?}, and the buffer is another"));
        }
    }
}

// ---- books of a run ----

/// A book that the steps of a run are lent, and what it must hold by the run's own record.
#[derive(Clone)]
pub struct Volume {
    pub lent: BookBuffer,
    own: Book,
    inflow: i64,
    outflow: i64,
}

impl Volume {
    /// A book of so many records before the run, whatever these are.
    fn begun(lent: BookBuffer, own: Book) -> Volume {
        let mut volume = Volume { lent, own: Book { records: Vec::new(), ..own }, inflow: 0, outflow: 0 };
        own.records.into_iter().for_each(|record| volume.record(record));
        volume
    }

    /// A book without records, started in any buffer by both sides.
    pub fn start(tally: &mut Tally, random: &mut Random, total: u32) -> Volume {
        let bytes = random::bytes(random, ROOM);
        Volume::start_in(tally, total, bytes)
    }

    fn start_in(tally: &mut Tally, total: u32, bytes: Vec<u8>) -> Volume {
        let (answer, bytes) = compare_start(tally, total, bytes, &[u64::MAX]);
        Volume::begun(BookBuffer { bytes, length: answer[0] as usize }, Book { opening: total, records: Vec::new() })
    }

    /// Another book for a field with this total: a new one, or one that was begun before, nearly full or not.
    pub fn other(tally: &mut Tally, random: &mut Random, total: u32) -> Volume {
        let records = if random.chance(50) { nearly_full(random) } else { record_count(random) };
        if random.chance(40) {
            return Volume::start(tally, random, total);
        }
        let own = book_to(random, total, records);
        Volume::begun(BookBuffer::of(random, &own), own)
    }

    pub fn is_full(&self) -> bool {
        self.own.records.len() == FULL
    }

    fn record(&mut self, record: Record) {
        self.inflow += i64::from(record.source).max(0);
        self.outflow -= i64::from(record.source).min(0);
        self.own.records.push(record);
    }

    /// Opening and recorded sources.
    fn closing(&self) -> i64 {
        i64::from(self.own.opening) + self.inflow - self.outflow
    }

    /// Takes over what an accepted step has left; its closing total is that of the kept masses. Where a block begins or ends, looks at all.
    pub fn take_over(&mut self, tally: &mut Tally, call: &StepCall, kept: &[u32], answer: &[u64], left: BookBuffer) {
        self.record(Record { source: call.source, outcome: answer[0] as u32, total: answer[1] as u32 });
        self.lent = BookBuffer { length: answer[4] as usize, ..left };
        if self.closing() != answer[1] as i64 || self.closing() != sum(kept) as i64 {
            tally.difference(format!("book after {call:?}: {} by its record, answer {answer:?}", self.closing()));
        }
        if self.own.records.len() % RECORDS < 2 {
            self.check(tally);
        }
    }

    /// The bytes are those of the record, and the library's report tells its sums.
    pub fn check(&self, tally: &mut Tally) {
        let mut answer = [u64::MAX; 4];
        let returned = calls::book_report(self.lent.told(), &mut answer);
        let wanted = [i64::from(self.own.opening), self.inflow, self.outflow, self.closing()].map(|number| number as u64);
        if returned != 0 || answer != wanted || self.lent.told() != self.own.bytes() {
            tally.difference(format!("book of a run {:?}: report {returned:#x} {answer:?}, by its record {wanted:?}", self.lent));
        }
    }

    /// The book that replaces a full one, in any buffer or in the same: it opens with its closing total.
    pub fn replacement(&self, tally: &mut Tally, random: &mut Random) -> Volume {
        self.check(tally);
        let (closing, any) = (self.own.closing(), random::bytes(random, ROOM));
        let bytes = if random.chance(50) { any } else { self.lent.bytes.clone() };
        Volume::start_in(tally, closing, bytes)
    }
}

// ---- books in order and damaged ----

/// A book to be read, and what is known of it.
struct Sample {
    lent: BookBuffer,
    /// What was done to it, if it is one thing.
    damage: Option<Damage>,
    /// What a reader must say, unless several things were done.
    reading: Option<Reading>,
}

/// A book that closes with the total, full ones among them: in order, damaged in one way, or in several.
fn make_sample(random: &mut Random, total: u32) -> Sample {
    let records = match random.below(20) {
        0 => FULL,
        1 => random.index(FULL + 1),
        _ => record_count(random),
    };
    let book = book_to(random, total, records);
    let mut lent = BookBuffer::of(random, &book);
    if random.chance(20) {
        return Sample { lent, damage: None, reading: Some(Ok(book)) };
    }
    let damage = random.pick(&DAMAGES);
    let done = damage_book(random, damage, &book, &mut lent);
    let (mut damage, mut reading) = (done.is_some().then_some(damage), Some(done.unwrap_or(Ok(book))));
    if random.chance(25) {
        (0..1 + random.below(2)).for_each(|_| damage_again(random, &mut lent));
        (damage, reading) = (None, None);
    }
    Sample { lent, damage, reading }
}

/// How often each kind of damage was met alone.
#[derive(Default)]
struct Met {
    counts: [u64; DAMAGES.len()],
}

impl Met {
    fn count(&mut self, damage: Option<Damage>) {
        for (count, kind) in self.counts.iter_mut().zip(DAMAGES) {
            *count += u64::from(damage == Some(kind));
        }
    }

    fn look_for(&self, tally: &mut Tally, name: &str) {
        for (count, kind) in self.counts.iter().zip(DAMAGES) {
            tally.must_occur(&format!("{name}: damage {kind:?}"), *count);
        }
    }
}

/// What a step of a field with the total must say of its book, by what a reader says of it.
fn for_step(reading: Reading, total: u32, length: usize) -> Reading {
    let book = reading?;
    if book.closing() != total {
        return refuse_at(12, length / BLOCK);
    }
    if book.records.len() == FULL {
        return refuse(21);
    }
    Ok(book)
}

/// Steps that pass every check but those of the book, and some that do not.
pub fn steps(tally: &mut Tally, random: &mut Random, count: u64) {
    let (mut workspace, mut occurred, mut met) = (Workspace::default(), Occurrences::default(), Met::default());
    for _ in 0..count {
        let (cells, any) = (1 + random.index(8), random.below(LIMIT + 1) as u32);
        let total = random.pick(&[0, 1, 1000, 1_000_000, LIMIT as u32, any, any]);
        let (kept, scale) = (random::partition(random, total, cells), sound_scale(random));
        let Sample { lent, damage, reading } = make_sample(random, total);
        let mut call = good_call(random, &kept, Balance { total, scale }, lent);
        let broken = random.chance(15);
        if broken {
            break_step(random, &mut call);
        }
        let (mine, theirs) = compare_step(tally, &mut workspace, &call);
        note_book(&mut occurred, &call, &mine);
        if let (Some(reading), false) = (reading, broken) {
            met.count(damage);
            check_step(tally, &call, damage, for_step(reading, total, call.book.length), &theirs);
        }
    }
    occurred.look_for(tally, "book steps");
    met.look_for(tally, "book steps");
}

/// The library's answer is the one known from what was done to the book.
fn check_step(tally: &mut Tally, call: &StepCall, damage: Option<Damage>, wanted: Reading, exit: &StepExit) {
    let right = match &wanted {
        Ok(book) if exit.returned == 0 => {
            let record = Record { source: call.source, outcome: exit.answer[0] as u32, total: exit.answer[1] as u32 };
            exit.book == with_record(book, record, &call.book)
        }
        Ok(_) => false,
        Err(refusal) => exit.returned == returned(Err(*refusal)) && exit.book == call.book,
    };
    if !right {
        let wanted = wanted.map(|book| book.budget());
        tally.difference(format!("step {call:?} after {damage:?}: {wanted:?} is right, library {exit:?}"));
    }
}

// ---- reports ----

/// A total of any size.
fn any_total(random: &mut Random) -> u32 {
    let any = random.bits() as u32;
    random.pick(&[0, 1, LIMIT as u32, LIMIT as u32 + 1, u32::MAX, any, any, any])
}

/// The file of a sample: its bytes as far as they are told, and as many bytes more as are told besides.
fn sample_file(random: &mut Random, lent: &BookBuffer) -> Vec<u8> {
    let mut file = lent.bytes[..lent.length.min(lent.bytes.len())].to_vec();
    let missing = lent.length - file.len();
    file.extend(random::bytes(random, missing));
    file
}

/// Reports through the call from C.
pub fn reports(tally: &mut Tally, random: &mut Random, count: u64) {
    let mut met = Met::default();
    for _ in 0..count {
        let total = any_total(random);
        let Sample { lent, damage, reading } = make_sample(random, total);
        let (file, entries) = (sample_file(random, &lent), random.pick(&[4, 4, 4, 4, 4, 4, 4, 5, 6, 3, 0]));
        let mut mine = any_bits(random, entries, |bits| bits);
        let mut theirs = mine.clone();
        let result = from_c::book_report(&file, &mut mine);
        let expected = returned(result);
        let got = calls::book_report(&file, &mut theirs);
        tally.answer(&result);
        tally.input((expected, &mine) == (got, &theirs), || {
            format!("report of {lent:?}: second implementation {expected:#x} {mine:?}, library {got:#x} {theirs:?}")
        });
        if let (Some(reading), 4..) = (reading, entries) {
            met.count(damage);
            check_report(tally, &lent, damage, reading.map(|book| book.budget()), got, &theirs);
        }
    }
    met.look_for(tally, "book reports");
}

/// The library's answer is the one known from what was done to the book, and closing is opening plus in minus out.
fn check_report(tally: &mut Tally, lent: &BookBuffer, damage: Option<Damage>, wanted: Result<Budget, Refusal>, got: u64, answer: &[u64]) {
    let right = match wanted {
        Ok(budget) => got == 0 && answer[..4] == budget_values(budget) && answer[0] + answer[1] == answer[2] + answer[3],
        Err(refusal) => got == returned(Err(refusal)),
    };
    if !right {
        tally.difference(format!("report of {lent:?} after {damage:?}: {wanted:?} is right, library {got:#x} {answer:?}"));
    }
}

/// Reports by the program.
pub fn printed_reports(tally: &mut Tally, random: &mut Random, program: &Path, count: u64) {
    let mut met = Met::default();
    for _ in 0..count {
        let total = any_total(random);
        let Sample { lent, damage, .. } = make_sample(random, total);
        let file = sample_file(random, &lent);
        met.count(damage);
        tally.answer(&Book::read(&file));
        let (expected, got) = (line(&file), printed(program, &[], &file));
        tally.input(expected.as_bytes() == got, || {
            format!("program on {lent:?}: second implementation\n{expected}program\n{}", String::from_utf8_lossy(&got))
        });
    }
    met.look_for(tally, "book program");
}
