//! Books for the comparison: in order, of any number of records, and damaged in every way that has a number; and buffers to lend them in.

use crate::book::{record_word, Book, LentBook, Record, COUNT_WORD, MAX_BLOCKS, OPENING_WORD, RECORDS, ROOM};
use crate::damage::{flip, mix_words, swap_blocks};
use crate::files::{block_mut, set_check_words, set_word, word, BLOCK};
use crate::operations::{refuse, refuse_at, Refusal, LIMIT};
use crate::random::{self, Random};
use std::fmt;

/// The records of a full book.
pub const FULL: usize = MAX_BLOCKS * RECORDS;

/// A book's buffer and the length that is told of it.
#[derive(Clone, Default, PartialEq)]
pub struct BookBuffer {
    pub bytes: Vec<u8>,
    pub length: usize,
}

impl BookBuffer {
    /// A buffer with a book at its front, mostly as long as it must be, sometimes longer, with any bytes past the book.
    pub fn of(random: &mut Random, book: &Book) -> BookBuffer {
        let longer = random.pick(&[0, 0, 0, 0, 0, 0, 1, BLOCK, 700]);
        let mut bytes = book.bytes();
        let length = bytes.len();
        bytes.extend(random::bytes(random, ROOM + longer - length));
        BookBuffer { bytes, length }
    }

    pub fn lend(&mut self) -> LentBook<'_> {
        LentBook { buffer: &mut self.bytes, length: self.length }
    }

    /// The bytes that are told to be the book; none if the buffer does not have so many.
    pub fn told(&self) -> &[u8] {
        self.bytes.get(..self.length).unwrap_or_default()
    }
}

/// Short: the lengths, what a reader says, and a check number of all bytes.
impl fmt::Debug for BookBuffer {
    fn fmt(&self, formatter: &mut fmt::Formatter) -> fmt::Result {
        let check = self.bytes.iter().fold(0, |check: u64, &byte| check.wrapping_mul(31).wrapping_add(u64::from(byte)));
        let BookBuffer { bytes, length } = self;
        write!(formatter, "book of {length} in {} bytes, check {check:#x}, ", bytes.len())?;
        match Book::read(self.told()) {
            Ok(book) => write!(formatter, "{} records, {:?}", book.records.len(), book.budget()),
            Err(refusal) => write!(formatter, "{refusal:?}"),
        }
    }
}

// ---- books in order ----

/// A number of records for a book that is not full: mostly of a few blocks, often at their ends, rarely of many.
pub fn record_count(random: &mut Random) -> usize {
    match random.below(100) {
        0 => random.index(FULL),
        1 => nearly_full(random),
        2..=39 => random.pick(&[0, 0, 1, 40, 41, 42, 81, 82, 83, 123]),
        _ => random.index(3 * RECORDS),
    }
}

/// All records but one to four.
pub fn nearly_full(random: &mut Random) -> usize {
    FULL - 1 - random.index(4)
}

/// A book of so many records that closes with the total. Its other totals are any of 32 bits.
pub fn book_to(random: &mut Random, closing: u32, count: usize) -> Book {
    let (style, mut total) = (random.below(4), closing);
    let mut records = Vec::with_capacity(count);
    for _ in 0..count {
        let now = i64::from(total);
        let wanted = match style {
            0 => now - random.between(-5000, 5000),
            1 => random.between(0, i64::from(u32::MAX)),
            2 => random.pick(&[0, now, now, LIMIT as i64, LIMIT as i64 + 1, i64::from(u32::MAX)]),
            _ => now - random.between(-1, 1),
        };
        // No source goes further in 32 bits.
        let reached = wanted.clamp(now - i64::from(i32::MAX), now - i64::from(i32::MIN));
        let before = reached.clamp(0, i64::from(u32::MAX));
        records.push(Record { source: (now - before) as i32, outcome: random.below(3) as u32, total });
        total = before as u32;
    }
    records.reverse();
    Book { opening: total, records }
}

// ---- damage ----

/// What is done to a book in order. Where check words are not spoken of, those of the block are made anew.
#[derive(Clone, Copy, Debug, PartialEq)]
pub enum Damage {
    NoBytes,
    ByteLess,
    ByteMore,
    TooLong,
    /// A block more is told.
    BlockMore,
    /// Some blocks fewer are told.
    BlocksLess,
    /// A bit is flipped and the check words stay.
    Bit,
    /// The block has another number.
    Number,
    /// One of the check words is another.
    CheckWord,
    /// Two unlike words change places and the check words stay: the first is still right.
    Exchange,
    CountAbove,
    /// Too few records are counted before the last block.
    CountBelow,
    /// A block after the first is left without records.
    NoRecords,
    /// A record less is counted in the last block.
    CountLess,
    /// A record more is counted in the last block.
    CountMore,
    OutcomeAbove,
    /// Another outcome, in range.
    OtherOutcome,
    UnusedWord,
    Opening,
    Total,
    Source,
    /// A total follows from the one before modulo 2^32 alone; all later ones are as they were.
    Wrapped,
    /// The last source and the last total are both another.
    OtherClosing,
}

pub const DAMAGES: [Damage; 23] = [
    Damage::NoBytes,
    Damage::ByteLess,
    Damage::ByteMore,
    Damage::TooLong,
    Damage::BlockMore,
    Damage::BlocksLess,
    Damage::Bit,
    Damage::Number,
    Damage::CheckWord,
    Damage::Exchange,
    Damage::CountAbove,
    Damage::CountBelow,
    Damage::NoRecords,
    Damage::CountLess,
    Damage::CountMore,
    Damage::OutcomeAbove,
    Damage::OtherOutcome,
    Damage::UnusedWord,
    Damage::Opening,
    Damage::Total,
    Damage::Source,
    Damage::Wrapped,
    Damage::OtherClosing,
];

/// What a reader must say of a book, by what was done to it: the book that it reads, or a refusal.
pub type Reading = Result<Book, Refusal>;

/// The blocks of a book, and the records of its last one.
fn shape(book: &Book) -> (usize, usize) {
    let last = book.records.len().div_ceil(RECORDS).max(1);
    (last, book.records.len() - (last - 1) * RECORDS)
}

/// A number other than 0, likely 1 or one with few bits.
fn some_change(random: &mut Random) -> u32 {
    let (bit, any) = (1 << random.below(32), 1 + random.below(u64::from(u32::MAX)) as u32);
    random.pick(&[1, 1, u32::MAX, bit, any])
}

/// Sets a word of a block and makes its check words anew.
fn put(lent: &mut BookBuffer, number: usize, index: usize, value: u32) {
    let block = block_mut(&mut lent.bytes, number);
    set_word(block, index, value);
    set_check_words(block);
}

/// Adds to a word of a block, modulo 2^32.
fn add(lent: &mut BookBuffer, number: usize, index: usize, change: u32) {
    let value = word(block_mut(&mut lent.bytes, number), index);
    put(lent, number, index, value.wrapping_add(change));
}

/// Tells another length.
fn tell(random: &mut Random, damage: Damage, book: &Book, lent: &mut BookBuffer) -> Option<Reading> {
    let (last, used) = shape(book);
    match damage {
        Damage::NoBytes => lent.length = 0,
        Damage::ByteLess => lent.length -= 1,
        Damage::ByteMore => lent.length += 1,
        Damage::TooLong => lent.length = ROOM + random.pick(&[1, BLOCK, BLOCK, 2 * BLOCK, 64 * BLOCK]),
        Damage::BlockMore => {
            if last == MAX_BLOCKS {
                return None;
            }
            lent.length += BLOCK;
            return Some(if used < RECORDS { refuse_at(16, last) } else { refuse_at(15, last + 1) });
        }
        _ => {
            if last == 1 {
                return None;
            }
            let left = if random.chance(50) { last - 1 } else { 1 + random.index(last - 1) };
            lent.length = left * BLOCK;
            let records = book.records[..left * RECORDS].to_vec();
            return Some(Ok(Book { opening: book.opening, records }));
        }
    }
    Some(refuse(14))
}

/// Changes number or check words of a block, or what they are checked against.
fn spoil_block(random: &mut Random, damage: Damage, number: usize, lent: &mut BookBuffer) -> Option<Reading> {
    let (change, block) = (some_change(random), block_mut(&mut lent.bytes, number));
    match damage {
        Damage::Bit => block[random.index(BLOCK)] ^= 1 << random.below(8),
        Damage::Number => {
            set_word(block, 0, (number as u32).wrapping_add(change));
            set_check_words(block);
        }
        Damage::CheckWord => {
            let index = random.pick(&[126, 127]);
            set_word(block, index, word(block, index).wrapping_add(change));
        }
        _ => {
            let (one, other) = (1 + random.index(125), 1 + random.index(125));
            let (first, second) = (word(block, one), word(block, other));
            if first == second {
                return None;
            }
            // The running sums between both are all off by the same; only if they are a multiple of 2^32 in sum none shows it.
            let apart = one.abs_diff(other) as u32;
            if first.wrapping_sub(second).wrapping_mul(apart) == 0 {
                return None;
            }
            set_word(block, one, second);
            set_word(block, other, first);
        }
    }
    Some(refuse_at(15, number))
}

/// Changes the number of records in a block.
fn spoil_count(random: &mut Random, damage: Damage, number: usize, book: &Book, lent: &mut BookBuffer) -> Option<Reading> {
    let (last, used) = shape(book);
    let mut other = book.clone();
    match damage {
        Damage::CountAbove => {
            let any = random.between(42, i64::from(u32::MAX)) as u32;
            put(lent, number, COUNT_WORD, random.pick(&[42, 42, 43, 256 + 41, 65536 + 41, 1 << 31, u32::MAX, any]));
            return Some(refuse_at(16, number));
        }
        Damage::CountBelow => {
            if number == last {
                return None;
            }
            put(lent, number, COUNT_WORD, random.pick(&[40, 40, 1, 0]));
            return Some(refuse_at(16, number));
        }
        Damage::NoRecords => {
            if last == 1 {
                return None;
            }
            let block = block_mut(&mut lent.bytes, last);
            (record_word(0)..=COUNT_WORD).for_each(|index| set_word(block, index, 0));
            set_check_words(block);
            return Some(refuse_at(16, last));
        }
        Damage::CountLess => {
            let record = other.records.pop()?;
            put(lent, last, COUNT_WORD, used as u32 - 1);
            let is_zero = record == Record { source: 0, outcome: 0, total: 0 };
            if !is_zero || (used == 1 && last > 1) {
                return Some(refuse_at(16, last));
            }
        }
        _ => {
            if used == RECORDS {
                return None;
            }
            put(lent, last, COUNT_WORD, used as u32 + 1);
            if book.closing() != 0 {
                return Some(refuse_at(12, last));
            }
            other.records.push(Record { source: 0, outcome: 0, total: 0 });
        }
    }
    Some(Ok(other))
}

/// Changes a word of a block's records, or the total that it opens with.
fn spoil_record(random: &mut Random, damage: Damage, number: usize, book: &Book, lent: &mut BookBuffer) -> Option<Reading> {
    let (last, used) = shape(book);
    let (change, mut other) = (some_change(random), book.clone());
    if damage == Damage::Opening {
        add(lent, number, OPENING_WORD, change);
        other.opening = other.opening.wrapping_add(change);
        return Some(if number == 1 && book.records.is_empty() { Ok(other) } else { refuse_at(12, number) });
    }
    if damage == Damage::UnusedWord {
        if used == RECORDS {
            return None;
        }
        let first = record_word(used);
        put(lent, last, first + random.index(COUNT_WORD - first), change);
        return Some(refuse_at(16, last));
    }
    let records = if number == last { used } else { RECORDS };
    if records == 0 {
        return None;
    }
    let index = random.index(records);
    let (first, place) = (record_word(index), (number - 1) * RECORDS + index);
    match damage {
        Damage::OutcomeAbove => {
            put(lent, number, first + 1, random.pick(&[3, 3, 4, 256, 65536 + 1, 1 << 31, u32::MAX]));
            Some(refuse_at(16, number))
        }
        Damage::OtherOutcome => {
            let outcome = (book.records[place].outcome + 1 + random.below(2) as u32) % 3;
            put(lent, number, first + 1, outcome);
            other.records[place].outcome = outcome;
            Some(Ok(other))
        }
        Damage::Total => {
            add(lent, number, first + 2, change);
            Some(refuse_at(12, number))
        }
        _ => {
            add(lent, number, first, change);
            Some(refuse_at(12, number))
        }
    }
}

/// Replaces what stands before a record by a book that closes so far away that the record's total follows modulo 2^32 alone.
fn wrap(random: &mut Random, book: &Book, lent: &mut BookBuffer) -> Option<Reading> {
    let place = random.index(book.records.len().max(1));
    let record = *book.records.get(place)?;
    let total = i64::from(record.total);
    // From below 2^31 down to it past all numbers of 32 bits, or from 2^31 on up to it past 0.
    let (before, source) = if total < 1 << 31 {
        let most = i64::from(i32::MAX) - total;
        if most == 0 {
            return None;
        }
        let above = random.between(1, most);
        ((1 << 32) - above, total + above)
    } else {
        let before = random.between(0, total - (1 << 31));
        (before, total - (1 << 32) - before)
    };
    let mut wrapped = book_to(random, before as u32, place);
    wrapped.records.push(Record { source: source as i32, ..record });
    wrapped.records.extend_from_slice(&book.records[place + 1..]);
    let front = wrapped.bytes();
    lent.bytes[..front.len()].copy_from_slice(&front);
    Some(refuse_at(12, 1 + place / RECORDS))
}

/// Gives the last record another source and another total.
fn spoil_closing(random: &mut Random, book: &Book, lent: &mut BookBuffer) -> Option<Reading> {
    let (last, used) = shape(book);
    let mut other = book.clone();
    let record = other.records.pop()?;
    let total = record.total.wrapping_add(some_change(random));
    let source = i32::try_from(i64::from(total) - i64::from(other.closing())).ok()?;
    let first = record_word(used - 1);
    put(lent, last, first, source as u32);
    put(lent, last, first + 2, total);
    other.records.push(Record { source, total, ..record });
    Some(Ok(other))
}

/// Damages a book in order that stands in the buffer and whose length is told. Returns what a reader must then say; nothing if this cannot be
/// done to this book, and then it stays as it was.
pub fn damage_book(random: &mut Random, damage: Damage, book: &Book, lent: &mut BookBuffer) -> Option<Reading> {
    let (last, _) = shape(book);
    let any = 1 + random.index(last);
    let number = random.pick(&[1, last, any]);
    match damage {
        Damage::NoBytes | Damage::ByteLess | Damage::ByteMore | Damage::TooLong | Damage::BlockMore | Damage::BlocksLess => {
            tell(random, damage, book, lent)
        }
        Damage::Bit | Damage::Number | Damage::CheckWord | Damage::Exchange => spoil_block(random, damage, number, lent),
        Damage::CountAbove | Damage::CountBelow | Damage::NoRecords | Damage::CountLess | Damage::CountMore => {
            spoil_count(random, damage, number, book, lent)
        }
        Damage::OutcomeAbove | Damage::OtherOutcome | Damage::UnusedWord | Damage::Opening | Damage::Total | Damage::Source => {
            spoil_record(random, damage, number, book, lent)
        }
        Damage::Wrapped => wrap(random, book, lent),
        Damage::OtherClosing => spoil_closing(random, book, lent),
    }
}

/// Damages a book that may not be in order any more: one of the kinds above if it is, else any bits, words or blocks.
pub fn damage_again(random: &mut Random, lent: &mut BookBuffer) {
    let (kind, new_checks) = (random.pick(&DAMAGES), random.chance(80));
    let end = lent.length.min(lent.bytes.len());
    match Book::read(lent.told()) {
        Ok(book) if random.chance(70) => {
            damage_book(random, kind, &book, lent);
        }
        _ => match random.below(3) {
            0 => flip(random, &mut lent.bytes[..end], new_checks),
            1 => mix_words(random, &mut lent.bytes[..end], new_checks),
            _ => swap_blocks(random, &mut lent.bytes[..end], new_checks),
        },
    }
}

/// Breaks what a step is lent of a book: the buffer, the length told, the total that it closes with, its last free record, or its sense.
pub fn break_book(random: &mut Random, lent: &mut BookBuffer) {
    match random.below(8) {
        0 => lent.bytes.truncate(random.pick(&[ROOM - 1, ROOM - 1, ROOM - BLOCK, BLOCK, 0])),
        // Lengths that no buffer has, alike in the lower bits.
        1 => lent.length = random.pick(&[lent.length | 1 << 32, lent.length | 1 << 63, usize::MAX, usize::MAX - BLOCK + 1]),
        2 | 3 => {
            if let Ok(book) = Book::read(lent.told()) {
                // Full, with the same closing total.
                let records = if random.chance(60) { FULL } else { record_count(random) };
                let closing = if random.chance(60) { book.closing() } else { book.closing().wrapping_add(some_change(random)) };
                let other = book_to(random, closing, records);
                *lent = BookBuffer::of(random, &other);
            }
        }
        _ => damage_again(random, lent),
    }
}
