//! The source book of a kept field, with all that its readers turn down, after ticket 12 of 02. Checks stand in the ticket's order. Written
//! from the papers alone; shares no code with the library.

use crate::files::{block, block_mut, check_block, set_check_words, set_word, word, BLOCK};
use crate::listing::{refused, write_text};
use crate::operations::{refuse, refuse_at, Refusal, LIMIT};

/// The most blocks of a book, which is full with all records of all of them used.
pub const MAX_BLOCKS: usize = 64;
/// The bytes that a book's buffer needs, whatever the book's length.
pub const ROOM: usize = MAX_BLOCKS * BLOCK;
/// Records in a block.
pub const RECORDS: usize = 41;
/// The word of a block that has the total it opens with.
pub const OPENING_WORD: usize = 1;
/// The word of a block that has the number of records used.
pub const COUNT_WORD: usize = 125;
/// A buffer for the report's line has at least so many bytes. No paper has this number; it is the library's.
pub const MAX_LINE: usize = 128;

/// The word of a block that has the source of a record; its outcome and its total follow.
pub fn record_word(record: usize) -> usize {
    OPENING_WORD + 1 + 3 * record
}

/// What an accepted step records.
#[derive(Clone, Copy, Debug, PartialEq)]
pub struct Record {
    pub source: i32,
    pub outcome: u32,
    pub total: u32,
}

#[derive(Clone, Debug, PartialEq)]
pub struct Book {
    pub opening: u32,
    pub records: Vec<Record>,
}

/// What the report tells of a book.
#[derive(Clone, Copy, Debug, PartialEq)]
pub struct Budget {
    pub opening: u32,
    /// The sum of the sources above 0.
    pub inflow: u64,
    /// The size of the sum of those below.
    pub outflow: u64,
    pub closing: u32,
}

impl Book {
    pub fn closing(&self) -> u32 {
        self.records.last().map_or(self.opening, |record| record.total)
    }

    pub fn is_full(&self) -> bool {
        self.records.len() == MAX_BLOCKS * RECORDS
    }

    pub fn budget(&self) -> Budget {
        let sources = self.records.iter().map(|record| i64::from(record.source));
        let inflow = sources.clone().map(|source| source.max(0) as u64).sum();
        let outflow = sources.map(|source| source.min(0).unsigned_abs()).sum();
        Budget { opening: self.opening, inflow, outflow, closing: self.closing() }
    }

    /// Reads a book.
    pub fn read(file: &[u8]) -> Result<Book, Refusal> {
        if file.is_empty() || file.len() > ROOM || file.len() % BLOCK != 0 {
            return refuse(14);
        }
        let mut book = Book { opening: word(file, OPENING_WORD), records: Vec::new() };
        for number in 1..=file.len() / BLOCK {
            check_block(file, number)?;
            check_records(file, number)?;
            book.take_block(file, number)?;
        }
        Ok(book)
    }

    /// Check 12 of a block whose other checks have passed. Takes its records over.
    fn take_block(&mut self, file: &[u8], number: usize) -> Result<(), Refusal> {
        let block = block(file, number);
        if word(block, OPENING_WORD) != self.closing() {
            return refuse_at(12, number);
        }
        for index in 0..word(block, COUNT_WORD) as usize {
            let record = record(block, index);
            if i64::from(self.closing()) + i64::from(record.source) != i64::from(record.total) {
                return refuse_at(12, number);
            }
            self.records.push(record);
        }
        Ok(())
    }

    /// Adds a record to a book that is not full and stands at the front of the buffer: writes one block, the last or a new one. Returns the
    /// book's length.
    pub fn add(&mut self, record: Record, buffer: &mut [u8]) -> usize {
        let (number, index) = (1 + self.records.len() / RECORDS, self.records.len() % RECORDS);
        let block = block_mut(buffer, number);
        if index == 0 {
            start_block(block, number, self.closing());
        }
        put_record(block, index, record);
        set_word(block, COUNT_WORD, index as u32 + 1);
        set_check_words(block);
        self.records.push(record);
        number * BLOCK
    }

    /// The book's bytes, made from its records at once.
    pub fn bytes(&self) -> Vec<u8> {
        let blocks = self.records.len().div_ceil(RECORDS).max(1);
        let mut file = vec![0; blocks * BLOCK];
        let mut opening = self.opening;
        for (index, block) in file.chunks_exact_mut(BLOCK).enumerate() {
            let records = self.records.iter().skip(index * RECORDS).take(RECORDS);
            start_block(block, index + 1, opening);
            set_word(block, COUNT_WORD, records.len() as u32);
            for (place, &record) in records.enumerate() {
                put_record(block, place, record);
                opening = record.total;
            }
            set_check_words(block);
        }
        file
    }
}

/// A block without records, but for its check words.
fn start_block(block: &mut [u8], number: usize, opening: u32) {
    block.fill(0);
    set_word(block, 0, number as u32);
    set_word(block, OPENING_WORD, opening);
}

fn put_record(block: &mut [u8], index: usize, record: Record) {
    for (place, value) in [record.source as u32, record.outcome, record.total].into_iter().enumerate() {
        set_word(block, record_word(index) + place, value);
    }
}

fn record(block: &[u8], index: usize) -> Record {
    let first = record_word(index);
    Record { source: word(block, first) as i32, outcome: word(block, first + 1), total: word(block, first + 2) }
}

/// Check 16 of a block: the number of records used, their outcomes, and the words of those that are not used.
fn check_records(file: &[u8], number: usize) -> Result<(), Refusal> {
    let (block, last) = (block(file, number), file.len() / BLOCK);
    let count = word(block, COUNT_WORD) as usize;
    if count > RECORDS || (count < RECORDS && number < last) || (count == 0 && number > 1) {
        return refuse_at(16, number);
    }
    let outcome_too_large = (0..count).any(|index| word(block, record_word(index) + 1) > 2);
    let unused_word = (record_word(count)..COUNT_WORD).any(|index| word(block, index) != 0);
    if outcome_too_large || unused_word {
        return refuse_at(16, number);
    }
    Ok(())
}

/// Check 3, of a book's buffer.
pub fn check_room(buffer: &[u8]) -> Result<(), Refusal> {
    if buffer.len() < ROOM {
        return refuse(3);
    }
    Ok(())
}

/// Starts a book of one block without records at the front of the buffer; returns its length.
pub fn start_book(total: u32, buffer: &mut [u8]) -> Result<usize, Refusal> {
    check_room(buffer)?;
    if u64::from(total) > LIMIT {
        return refuse(13);
    }
    let block = &mut buffer[..BLOCK];
    start_block(block, 1, total);
    set_check_words(block);
    Ok(BLOCK)
}

/// A buffer with a book of the total and no records, and its length.
pub fn fresh_book(total: u32) -> (Vec<u8>, usize) {
    let file = Book { opening: total, records: Vec::new() }.bytes();
    let (length, mut buffer) = (file.len(), file);
    buffer.resize(ROOM, 0);
    (buffer, length)
}

/// A book as it is lent to a step: its buffer, and the length that is told of it.
pub struct LentBook<'a> {
    pub buffer: &'a mut [u8],
    pub length: usize,
}

impl LentBook<'_> {
    /// The checks that a step applies to its book after 8: those of a reader, then 12 and 21. `total` is the field's total before the step.
    pub fn check(&self, total: u32) -> Result<Book, Refusal> {
        // A length that the buffer does not have is above that of every book.
        let Some(file) = self.buffer.get(..self.length) else {
            return refuse(14);
        };
        let book = Book::read(file)?;
        if book.closing() != total {
            return refuse_at(12, file.len() / BLOCK);
        }
        if book.is_full() {
            return refuse(21);
        }
        Ok(book)
    }
}

/// The report's line, without a check of any buffer.
pub fn line(file: &[u8]) -> String {
    match Book::read(file).map(|book| book.budget()) {
        Ok(Budget { opening, inflow, outflow, closing }) => format!("opening {opening} in {inflow} out {outflow} closing {closing}\n"),
        Err(refusal) => refused(refusal) + "\n",
    }
}

/// The operation that writes the report's line to a buffer.
pub fn report_book(file: &[u8], buffer: &mut [u8]) -> Result<usize, Refusal> {
    write_text(&line(file), MAX_LINE, buffer)
}
