//! Blocks, field files and answer files, after the section "Files" of 01 and tickets 1 and 2 of 02, and the call on a field file's bytes.
//! Written from the papers alone; shares no code with the library.

use crate::operations::{check_cells, check_counts, reconstruct, refuse, refuse_at, Refusal, MAX_CELLS, MAX_NODES, SCRATCH_PER_NODE};
use crate::tree::{sum, Field, Lists, Repair, Workspace};

pub const BLOCK: usize = 512;
pub const MAX_FIELD_FILE: usize = 36 * BLOCK;
pub const MAX_ANSWER_FILE: usize = 6 * BLOCK;
const CELLS_IN_BLOCK: usize = 20;
const WORDS_OF_CELL: usize = 6;
/// Payload words, which is also the number of parents or masses in a block.
const PAYLOAD: usize = 125;
/// The first payload word of block 1.
const MARK: u32 = 512;

#[inline]
pub fn word(block: &[u8], index: usize) -> u32 {
    u32::from_le_bytes([block[4 * index], block[4 * index + 1], block[4 * index + 2], block[4 * index + 3]])
}

#[inline]
pub fn set_word(block: &mut [u8], index: usize, value: u32) {
    block[4 * index..4 * index + 4].copy_from_slice(&value.to_le_bytes());
}

/// What words 126 and 127 of a block must be.
fn check_words(block: &[u8]) -> (u32, u32) {
    let (mut running, mut second) = (0u32, 0u32);
    for index in 0..126 {
        running = running.wrapping_add(word(block, index));
        second = second.wrapping_add(running);
    }
    (running, second)
}

/// Writes a block's check words.
pub fn set_check_words(block: &mut [u8]) {
    let (first, second) = check_words(block);
    set_word(block, 126, first);
    set_word(block, 127, second);
}

/// Block `number` of a file, counted from 1.
pub fn block(file: &[u8], number: usize) -> &[u8] {
    &file[(number - 1) * BLOCK..number * BLOCK]
}

pub fn block_mut(file: &mut [u8], number: usize) -> &mut [u8] {
    &mut file[(number - 1) * BLOCK..number * BLOCK]
}

/// The payload of block `number` as a part of the file: words 1 to 125. It is empty if the file has no such block whole.
pub fn payload(file: &[u8], number: usize) -> &[u8] {
    let index = number.checked_sub(1);
    index.and_then(|index| file.chunks_exact(BLOCK).nth(index)).map_or(&[], |block| &block[4..4 + 4 * PAYLOAD])
}

/// Refusal 15: a block's number and check words.
pub fn check_block(file: &[u8], number: usize) -> Result<(), Refusal> {
    let block = block(file, number);
    if word(block, 0) as usize != number || check_words(block) != (word(block, 126), word(block, 127)) {
        return refuse_at(15, number);
    }
    Ok(())
}

/// Refusal 16: payload words after the first `used` ones must be 0.
fn check_spare(file: &[u8], number: usize, used: usize) -> Result<(), Refusal> {
    let block = block(file, number);
    if (1 + used..=PAYLOAD).any(|index| word(block, index) != 0) {
        return refuse_at(16, number);
    }
    Ok(())
}

fn cell_blocks(cells: usize) -> usize {
    cells.div_ceil(CELLS_IN_BLOCK)
}

pub fn field_file_length(cells: usize, nodes: usize) -> usize {
    (1 + cell_blocks(cells) + nodes.div_ceil(PAYLOAD)) * BLOCK
}

pub fn answer_file_length(cells: usize) -> usize {
    (1 + cells.div_ceil(PAYLOAD)) * BLOCK
}

/// Block number and first word of a cell's entry.
fn cell_position(cell: usize) -> (usize, usize) {
    (2 + cell / CELLS_IN_BLOCK, 1 + WORDS_OF_CELL * (cell % CELLS_IN_BLOCK))
}

/// Block number and word of entry `index` of a list with 125 entries to a block.
fn list_position(first_block: usize, index: usize) -> (usize, usize) {
    (first_block + index / PAYLOAD, 1 + index % PAYLOAD)
}

/// The words of a number of 64 bits, low word first.
fn two_words(number: u64) -> [u32; 2] {
    [number as u32, (number >> 32) as u32]
}

/// The number of the two words from `index` on.
fn take_two_words(block: &[u8], index: usize) -> u64 {
    u64::from(word(block, index)) | u64::from(word(block, index + 1)) << 32
}

fn put_words(block: &mut [u8], first: usize, words: &[u32]) {
    for (index, &value) in words.iter().enumerate() {
        set_word(block, first + index, value);
    }
}

/// Writes a list with 125 entries to a block.
fn put_list(file: &mut [u8], first_block: usize, list: &[u32]) {
    for (index, &value) in list.iter().enumerate() {
        let (number, place) = list_position(first_block, index);
        set_word(block_mut(file, number), place, value);
    }
}

/// Reads such a list.
fn take_list(file: &[u8], first_block: usize, list: &mut [u32]) {
    for (index, value) in list.iter_mut().enumerate() {
        let (number, place) = list_position(first_block, index);
        *value = word(block(file, number), place);
    }
}

/// Payload words that block `number` of such a list uses.
fn used_by_list(entries: usize, first_block: usize, number: usize) -> usize {
    (entries - (number - first_block) * PAYLOAD).min(PAYLOAD)
}

fn number_blocks(file: &mut [u8]) {
    for (index, block) in file.chunks_mut(BLOCK).enumerate() {
        set_word(block, 0, index as u32 + 1);
        set_check_words(block);
    }
}

/// What block 1 of a field file says.
#[derive(Clone, Copy, Debug, PartialEq)]
pub struct FieldHeader {
    pub cells: usize,
    pub nodes: usize,
    pub total: u32,
}

/// What block 1 of an answer file says.
#[derive(Clone, Copy, Debug, PartialEq)]
pub struct AnswerHeader {
    pub cells: usize,
    pub repair: Repair,
}

// ---- checks ----

/// Refusal 14 for a length that no file has, then 15 and 16 of block 1, of whose payload the first `used` words are used.
fn check_first_block(file: &[u8], most: usize, used: usize) -> Result<(), Refusal> {
    if file.is_empty() || file.len() > most || file.len() % BLOCK != 0 {
        return refuse(14);
    }
    check_block(file, 1)?;
    if word(file, 1) != MARK {
        return refuse_at(16, 1);
    }
    check_spare(file, 1, used)
}

/// Refusal 14 for a length that is not that of the counts in block 1.
fn check_file_length(file: &[u8], length: usize) -> Result<(), Refusal> {
    if file.len() != length {
        return refuse(14);
    }
    Ok(())
}

/// Refusals 15 and 16 of the later blocks in order; `used` gives the payload words that a block uses.
fn check_later_blocks(file: &[u8], used: impl Fn(usize) -> usize) -> Result<(), Refusal> {
    (2..=file.len() / BLOCK).try_for_each(|number| {
        check_block(file, number)?;
        check_spare(file, number, used(number))
    })
}

/// Refusal 3: lists too short for the cells and nodes.
fn check_room(lists: &Lists, cells: usize, nodes: usize) -> Result<(), Refusal> {
    let words = [lists.lows, lists.highs, lists.safe_lows, lists.safe_highs, lists.weights];
    let short = lists.targets.len() < cells || words.iter().any(|list| list.len() < cells);
    if short || lists.parents.len() < nodes {
        return refuse(3);
    }
    Ok(())
}

/// Refusal 16 for an outcome.
fn check_outcome(outcome: u32) -> Result<(), Refusal> {
    if outcome > 2 {
        return refuse_at(16, 1);
    }
    Ok(())
}

/// Refusal 12: masses that do not add up to the total.
fn check_masses(masses: &[u32], total: u32) -> Result<(), Refusal> {
    if sum(masses) != u64::from(total) {
        return refuse(12);
    }
    Ok(())
}

// ---- field files ----

/// Writes the field file of the first `cells` cells and `nodes` nodes to the front of the buffer; returns its length.
pub fn write_field(cells: usize, nodes: usize, total: u32, lists: &Lists, buffer: &mut [u8]) -> Result<usize, Refusal> {
    check_counts(cells, nodes)?;
    check_room(lists, cells, nodes)?;
    let length = field_file_length(cells, nodes);
    if buffer.len() < length {
        return refuse(3);
    }
    let file = &mut buffer[..length];
    file.fill(0);
    put_words(file, 1, &[MARK, cells as u32, nodes as u32, total]);
    let Lists { targets, lows, highs, safe_lows, safe_highs, weights, parents } = lists.first(cells, nodes);
    for cell in 0..cells {
        let (number, first) = cell_position(cell);
        let words = [targets[cell] as u32, lows[cell], highs[cell], safe_lows[cell], safe_highs[cell], weights[cell]];
        put_words(block_mut(file, number), first, &words);
    }
    put_list(file, 2 + cell_blocks(cells), parents);
    number_blocks(file);
    Ok(length)
}

/// The file of a whole field, of any sense, whose numbers of cells and nodes pass.
pub fn field_file(field: &Field, total: u32) -> Vec<u8> {
    let (cells, nodes) = (field.targets.len(), field.parents.len());
    let mut file = vec![0; field_file_length(cells, nodes)];
    write_field(cells, nodes, total, &field.lists(), &mut file).expect("numbers of cells and nodes that pass");
    file
}

/// The checks of reading up to the file's length.
fn check_field_header(file: &[u8]) -> Result<FieldHeader, Refusal> {
    check_first_block(file, MAX_FIELD_FILE, 4)?;
    let header = FieldHeader { cells: word(file, 2) as usize, nodes: word(file, 3) as usize, total: word(file, 4) };
    check_counts(header.cells, header.nodes)?;
    check_file_length(file, field_file_length(header.cells, header.nodes))?;
    Ok(header)
}

/// Payload words that a later block of a field file uses.
fn used_by_field(header: &FieldHeader, number: usize) -> usize {
    let first_parents = 2 + cell_blocks(header.cells);
    if number < first_parents {
        WORDS_OF_CELL * (header.cells - (number - 2) * CELLS_IN_BLOCK).min(CELLS_IN_BLOCK)
    } else {
        used_by_list(header.nodes, first_parents, number)
    }
}

/// Reads a field file into the lists lent, of any lengths; entries past its cells and nodes are left alone.
pub fn read_field(file: &[u8], field: &mut Field) -> Result<FieldHeader, Refusal> {
    let header = check_field_header(file)?;
    check_room(&field.lists(), header.cells, header.nodes)?;
    check_later_blocks(file, |number| used_by_field(&header, number))?;
    for cell in 0..header.cells {
        let (number, first) = cell_position(cell);
        let block = block(file, number);
        field.targets[cell] = word(block, first) as i32;
        field.lows[cell] = word(block, first + 1);
        field.highs[cell] = word(block, first + 2);
        field.safe_lows[cell] = word(block, first + 3);
        field.safe_highs[cell] = word(block, first + 4);
        field.weights[cell] = word(block, first + 5);
    }
    take_list(file, 2 + cell_blocks(header.cells), &mut field.parents[..header.nodes]);
    Ok(header)
}

// ---- answer files ----

/// Writes an answer file to the front of the buffer; returns its length.
pub fn write_answer(cells: usize, repair: Repair, masses: &[u32], buffer: &mut [u8]) -> Result<usize, Refusal> {
    check_cells(cells)?;
    let length = answer_file_length(cells);
    if buffer.len() < length || masses.len() < cells {
        return refuse(3);
    }
    check_outcome(repair.outcome)?;
    let masses = &masses[..cells];
    check_masses(masses, repair.total)?;
    let file = &mut buffer[..length];
    file.fill(0);
    put_words(file, 1, &[MARK, cells as u32, repair.outcome, repair.total]);
    put_words(file, 5, &two_words(repair.change));
    put_words(file, 7, &two_words(repair.shared));
    put_list(file, 2, masses);
    number_blocks(file);
    Ok(length)
}

/// The checks of reading up to the file's length.
pub fn check_answer_header(file: &[u8]) -> Result<AnswerHeader, Refusal> {
    check_first_block(file, MAX_ANSWER_FILE, 8)?;
    let (change, shared) = (take_two_words(file, 5), take_two_words(file, 7));
    let repair = Repair { outcome: word(file, 3), total: word(file, 4), change, shared };
    let header = AnswerHeader { cells: word(file, 2) as usize, repair };
    check_outcome(repair.outcome)?;
    check_cells(header.cells)?;
    check_file_length(file, answer_file_length(header.cells))?;
    Ok(header)
}

/// Reads an answer file into the list lent, of any length; entries past its cells are left alone.
pub fn read_answer(file: &[u8], masses: &mut [u32]) -> Result<AnswerHeader, Refusal> {
    let header = check_answer_header(file)?;
    if masses.len() < header.cells {
        return refuse(3);
    }
    check_later_blocks(file, |number| used_by_list(header.cells, 2, number))?;
    let mut read = vec![0; header.cells];
    take_list(file, 2, &mut read);
    check_masses(&read, header.repair.total)?;
    masses[..header.cells].copy_from_slice(&read);
    Ok(header)
}

// ---- the call on a field file ----

/// Working space of the call on a field file, used again from call to call. Its lists have room for every field.
pub struct FileWorkspace {
    pub tree: Workspace,
    scratch: Vec<i64>,
    pub field: Field,
    masses: Vec<u32>,
}

impl Default for FileWorkspace {
    fn default() -> FileWorkspace {
        FileWorkspace {
            tree: Workspace::default(),
            scratch: vec![0; SCRATCH_PER_NODE * MAX_NODES],
            field: Field::filled(MAX_CELLS, MAX_NODES, 0),
            masses: vec![0; MAX_CELLS],
        }
    }
}

/// A repaired field file: what the repair gives, and targets and masses of its cells.
pub struct RepairedFile<'a> {
    pub repair: Repair,
    pub targets: &'a [i32],
    pub masses: &'a [u32],
}

/// Reads a field file and reconstructs.
pub fn repair_file<'a>(workspace: &'a mut FileWorkspace, file: &[u8]) -> Result<RepairedFile<'a>, Refusal> {
    let header = read_field(file, &mut workspace.field)?;
    repair_read(workspace, header)
}

/// Reconstructs from the field that was read into the workspace.
pub fn repair_read(workspace: &mut FileWorkspace, header: FieldHeader) -> Result<RepairedFile<'_>, Refusal> {
    let lists: Lists = workspace.field.lists().first(header.cells, header.nodes);
    let masses = &mut workspace.masses[..header.cells];
    let repair = reconstruct(&mut workspace.tree, &lists, header.total, masses, &mut workspace.scratch)?;
    Ok(RepairedFile { repair, targets: lists.targets, masses })
}

/// The call from C: reading, then Reconstruct, then writing. Returns the repair and the answer's length.
pub fn reconstruct_file(workspace: &mut FileWorkspace, file: &[u8], answer: &mut [u8]) -> Result<(Repair, usize), Refusal> {
    let RepairedFile { repair, masses, .. } = repair_file(workspace, file)?;
    let length = write_answer(masses.len(), repair, masses, answer)?;
    Ok((repair, length))
}
