//! Damage to field files and answer files: to their bits, words and blocks, their length, and what block 1 says.

use crate::files::{answer_file_length, field_file_length, set_check_words, set_word, word, BLOCK, MAX_ANSWER_FILE, MAX_FIELD_FILE};
use crate::random::{self, Random};
use crate::tree::Field;

/// What a file was written from.
pub enum Contents<'a> {
    Field(&'a Field),
    /// The number of cells.
    Answer(usize),
}

impl Contents<'_> {
    /// Numbers of cells and nodes; an answer has no more than its cells.
    fn counts(&self) -> (usize, usize) {
        match self {
            Contents::Field(field) => (field.targets.len(), field.parents.len()),
            Contents::Answer(cells) => (*cells, *cells),
        }
    }

    /// The length of the largest file.
    fn most(&self) -> usize {
        match self {
            Contents::Field(_) => MAX_FIELD_FILE,
            Contents::Answer(_) => MAX_ANSWER_FILE,
        }
    }
}

/// Block `index` of the file, counted from 0, if it stands there whole.
fn whole_block(file: &mut [u8], index: usize) -> Option<&mut [u8]> {
    file.chunks_exact_mut(BLOCK).nth(index)
}

fn some_block(random: &mut Random, file: &[u8]) -> usize {
    let blocks = file.len() / BLOCK;
    match random.below(3) {
        0 => 0,
        1 => blocks.saturating_sub(1),
        _ => random.index(blocks.max(1)),
    }
}

/// Flips a bit of the file, with or without new check words.
pub fn flip(random: &mut Random, file: &mut [u8], new_checks: bool) {
    let index = some_block(random, file);
    if let Some(block) = whole_block(file, index) {
        block[random.index(BLOCK)] ^= 1 << random.below(8);
        if new_checks {
            set_check_words(block);
        }
    }
}

/// Changes a word of a block and sets its check words. Spare words at the end are likely.
fn change_word(random: &mut Random, file: &mut [u8], contents: &Contents) {
    let place = match random.below(4) {
        0 => random.index(6),
        1 => 119 + random.index(7),
        _ => random.index(126),
    };
    let (cells, nodes) = contents.counts();
    let value = random::odd_number(random, cells, nodes);
    let index = some_block(random, file);
    if let Some(block) = whole_block(file, index) {
        set_word(block, place, value);
        set_check_words(block);
    }
}

/// Swaps two words of a block, which leaves the first check word as it is, or moves one unit from word to word; with or without new check
/// words.
pub fn mix_words(random: &mut Random, file: &mut [u8], new_checks: bool) {
    let (one, other) = (random.index(128), random.index(128));
    let swap = random.chance(50);
    let index = some_block(random, file);
    if let Some(block) = whole_block(file, index) {
        let (first, second) = (word(block, one), word(block, other));
        if swap {
            set_word(block, one, second);
            set_word(block, other, first);
        } else if one != other {
            set_word(block, one, first.wrapping_add(1));
            set_word(block, other, second.wrapping_sub(1));
        }
        if new_checks {
            set_check_words(block);
        }
    }
}

/// Swaps two blocks, with or without new numbers and check words.
pub fn swap_blocks(random: &mut Random, file: &mut [u8], new_checks: bool) {
    let (one, other) = (some_block(random, file), some_block(random, file));
    if file.len() < BLOCK || one == other {
        return;
    }
    for byte in 0..BLOCK {
        file.swap(one * BLOCK + byte, other * BLOCK + byte);
    }
    if new_checks {
        for index in [one, other] {
            let block = &mut file[index * BLOCK..(index + 1) * BLOCK];
            set_word(block, 0, index as u32 + 1);
            set_check_words(block);
        }
    }
}

/// Cuts or lengthens the file; `most` is the length of the largest one.
fn change_length(random: &mut Random, file: &mut Vec<u8>, most: usize) {
    let length = match random.below(9) {
        0 => 0,
        1 => random.index(file.len() + 1),
        2 => file.len().saturating_sub(1),
        3 => file.len() + 1,
        4 => file.len().saturating_sub(BLOCK),
        5 => file.len() + BLOCK,
        6 => BLOCK * random.index(most / BLOCK + 4),
        7 => random.pick(&[511, 512, 513, most - 1, most, most + 1, most + BLOCK, 40000]),
        _ => file.len() + random.index(2000),
    };
    file.resize(length, 0);
}

/// Changes a word of block 1 and sets its check words.
fn change_first_block(file: &mut [u8], index: usize, value: u32) {
    if let Some(block) = whole_block(file, 0) {
        set_word(block, index, value);
        set_check_words(block);
    }
}

/// Cuts the file, or adds blocks of zeros with their numbers and check words.
fn resize(file: &mut Vec<u8>, length: usize) {
    let before = file.len() / BLOCK;
    file.resize(length, 0);
    for (index, block) in file.chunks_exact_mut(BLOCK).enumerate().skip(before) {
        set_word(block, 0, index as u32 + 1);
        set_check_words(block);
    }
}

/// New numbers of cells and nodes in block 1; sometimes the length goes with them.
fn change_counts(random: &mut Random, file: &mut Vec<u8>, field: &Field) {
    let (cells, nodes) = (field.targets.len() as u32, field.parents.len() as u32);
    let cells = if random.chance(50) { random.pick(&[0, cells + 1, cells - 1, 512, 513, u32::MAX]) } else { cells };
    let nodes = if random.chance(50) { random.pick(&[0, cells, cells.wrapping_sub(1), nodes + 1, 1024, 1025, u32::MAX]) } else { nodes };
    change_first_block(file, 2, cells);
    change_first_block(file, 3, nodes);
    if cells < 2000 && nodes < 2000 && random.chance(70) {
        resize(file, field_file_length(cells as usize, nodes as usize));
    }
}

/// The same in an answer.
fn change_cells(random: &mut Random, file: &mut Vec<u8>, cells: u32) {
    let cells = random.pick(&[0, cells + 1, cells - 1, 512, 513, u32::MAX]);
    change_first_block(file, 2, cells);
    if cells < 2000 && random.chance(70) {
        resize(file, answer_file_length(cells as usize));
    }
}

/// Another total for a field.
fn change_total(random: &mut Random, file: &mut [u8], field: &Field) {
    if file.len() >= BLOCK {
        change_first_block(file, 4, random::total(random, field));
    }
}

/// Moves mass between two of the first cells of an answer, modulo 2^32: the sum stays as it is or is 2^32 off.
fn move_mass(random: &mut Random, file: &mut [u8], cells: usize) {
    let used = cells.min(125);
    let (from, to, moved) = (1 + random.index(used), 1 + random.index(used), random.bits() as u32);
    if let Some(block) = whole_block(file, 1) {
        set_word(block, from, word(block, from).wrapping_sub(moved));
        set_word(block, to, word(block, to).wrapping_add(moved));
        set_check_words(block);
    }
}

/// Another outcome, a total near the one in an answer, another change, sum shared out or first spare word, or masses that may miss the
/// total.
fn change_answer(random: &mut Random, file: &mut [u8], cells: usize) {
    if file.len() < BLOCK {
        return;
    }
    let total = word(file, 4);
    match random.below(4) {
        0 => change_first_block(file, 3, random.pick(&[0, 1, 2, 3, 4, 1 << 31, u32::MAX])),
        1 => change_first_block(file, 4, random.pick(&[0, total.wrapping_add(1), total.wrapping_sub(1), total ^ 1 << 31, u32::MAX])),
        2 => change_first_block(file, 5 + random.index(5), random.pick(&[0, 1, 1 << 31, u32::MAX])),
        _ => move_mass(random, file, cells),
    }
}

pub fn damage(random: &mut Random, file: &mut Vec<u8>, contents: &Contents) {
    let new_checks = random.chance(50);
    match (random.below(12), contents) {
        (0, _) => flip(random, file, false),
        (1 | 2, _) => flip(random, file, true),
        (3..=5, _) => change_word(random, file, contents),
        (6, _) => mix_words(random, file, new_checks),
        (7, _) => swap_blocks(random, file, new_checks),
        (8, _) => change_length(random, file, contents.most()),
        (9 | 10, Contents::Field(field)) => change_counts(random, file, field),
        (9 | 10, Contents::Answer(cells)) => change_cells(random, file, *cells as u32),
        (_, Contents::Field(field)) => change_total(random, file, field),
        (_, Contents::Answer(cells)) => change_answer(random, file, *cells),
    }
}
