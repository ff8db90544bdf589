//! Field files and answer files through the calls from C, and the program's listing, compared with the second implementation: the value
//! returned, every lent list and buffer at exit, entry by entry, and the program's output byte for byte.

use crate::calls;
use crate::check_calls::{any_bits, breaks};
use crate::damage::{damage, Contents};
use crate::files::{answer_file_length, field_file, field_file_length, read_field, reconstruct_file, repair_file, write_answer};
use crate::files::{word, AnswerHeader, FileWorkspace, BLOCK, MAX_ANSWER_FILE};
use crate::from_c::{self, answer_values, returned};
use crate::listing::listing;
use crate::operations::{reconstruct, Refusal, SCRATCH_PER_NODE};
use crate::random::{self, Random};
use crate::shared::shared_by_masses;
use crate::tally::Tally;
use crate::tree::{Field, Repair, Workspace};
use std::ffi::OsStr;
use std::io::{Read, Write};
use std::os::unix::ffi::OsStrExt;
use std::path::Path;
use std::process::{Command, Stdio};

// ---- the call on a field file, and the program ----

/// A field file, valid, of no sense, or damaged.
pub fn make_file(random: &mut Random) -> Vec<u8> {
    let cells = random::cell_count(random);
    let mut field = random::field(random, cells);
    let total = random::total(random, &field);
    let kind = random.below(10);
    if (4..=5).contains(&kind) {
        for _ in 0..1 + random.below(3) {
            random::break_field(random, &mut field);
        }
    }
    let mut file = field_file(&field, total);
    if kind >= 6 {
        for _ in 0..1 + random.below(8) / 5 {
            damage(random, &mut file, &Contents::Field(&field));
        }
    }
    file
}

/// The number of cells that block 1 of a field file or an answer file tells, 512 if it is more; 1 if the block is not whole.
pub fn told_cells(file: &[u8]) -> usize {
    if file.len() < BLOCK {
        1
    } else {
        word(file, 2).min(512) as usize
    }
}

/// Runs both sides on an answer buffer of the length given; returns what the library gives, and its buffer.
pub fn compare_file(tally: &mut Tally, workspace: &mut FileWorkspace, random: &mut Random, file: &[u8], length: usize) -> (u32, Vec<u8>) {
    let mut mine: Vec<u8> = (0..length).map(|_| random.bits() as u8).collect();
    let mut theirs = mine.clone();
    let result = reconstruct_file(workspace, file, &mut mine).map(|(repair, _)| repair.outcome);
    let expected = result.map_or_else(|refusal| refusal.number, |_| 0);
    let got = calls::reconstruct(file, &mut theirs);
    tally.outcome(&result);
    tally.input((expected, &mine) == (got, &theirs), || {
        let first = mine.iter().zip(&theirs).position(|(one, other)| one != other);
        let sides = format!("second implementation {expected}, library {got}, first other byte {first:?}");
        format!("file {file:?}, answer buffer of {length}: {sides}; the listing is {}", listing(workspace, file))
    });
    (got, theirs)
}

/// Field files through the call.
pub fn files(tally: &mut Tally, random: &mut Random, count: u64) {
    let mut workspace = FileWorkspace::default();
    for _ in 0..count {
        let file = make_file(random);
        let exact = answer_file_length(told_cells(&file));
        let length = match random.below(10) {
            0..=4 => exact,
            5 | 6 => exact + random.index(700),
            7 => MAX_ANSWER_FILE,
            8 => exact - random.pick(&[1, 1, 512]),
            _ => random.index(exact + 1),
        };
        compare_file(tally, &mut workspace, random, &file, length);
    }
}

/// What a program prints for its arguments and a file on its standard input.
pub fn printed(program: &Path, arguments: &[Vec<u8>], file: &[u8]) -> Vec<u8> {
    run_program(program, arguments, file).unwrap_or_else(|error| panic!("{}: {error}", program.display()))
}

fn run_program(program: &Path, arguments: &[Vec<u8>], file: &[u8]) -> std::io::Result<Vec<u8>> {
    let arguments = arguments.iter().map(|argument| OsStr::from_bytes(argument));
    let mut child = Command::new(program).args(arguments).stdin(Stdio::piped()).stdout(Stdio::piped()).spawn()?;
    // The program may stop reading a file that is too long, so a failing write is no difference.
    let _ = child.stdin.take().expect("a pipe").write_all(file);
    let mut text = Vec::new();
    child.stdout.take().expect("a pipe").read_to_end(&mut text)?;
    child.wait()?;
    Ok(text)
}

pub fn listings(tally: &mut Tally, random: &mut Random, program: &Path, count: u64) {
    let mut workspace = FileWorkspace::default();
    for _ in 0..count {
        let file = make_file(random);
        tally.outcome(&repair_file(&mut workspace, &file).map(|repaired| repaired.repair.outcome));
        let expected = listing(&mut workspace, &file);
        let got = printed(program, &[], &file);
        tally.input(expected.as_bytes() == got, || {
            format!("program on {file:?}: second implementation\n{expected}program\n{}", String::from_utf8_lossy(&got))
        });
    }
}

// ---- writing a field ----

#[derive(Clone, Debug)]
struct WriteCall {
    cells: usize,
    nodes: usize,
    total: u32,
    field: Field,
    buffer: Vec<u8>,
}

/// A number of nodes for the cells: mostly one at the end of the range or around full blocks.
fn node_count(random: &mut Random, cells: usize) -> usize {
    match random.below(3) {
        0 => random.between(cells as i64, 1024) as usize,
        1 => cells,
        _ => random.pick(&[124, 125, 126, 250, 251, 1000, 1001, 1024]).max(cells),
    }
}

/// A field of any bits: nothing is asked of its values.
fn any_field(random: &mut Random, cells: usize, nodes: usize) -> Field {
    let mut list = |length: usize| any_bits(random, length, |bits| bits as u32);
    Field {
        lows: list(cells),
        highs: list(cells),
        safe_lows: list(cells),
        safe_highs: list(cells),
        weights: list(cells),
        parents: list(nodes),
        targets: any_bits(random, cells, |bits| bits as i32),
    }
}

/// Cuts a list that needs so many entries, often by one.
fn cut<T>(random: &mut Random, list: &mut Vec<T>, needed: usize) {
    let length = if random.chance(70) { needed.saturating_sub(1) } else { random.index(list.len() + 1) };
    list.truncate(length);
}

fn break_write(random: &mut Random, call: &mut WriteCall) {
    let WriteCall { cells, nodes, field, buffer, .. } = call;
    match random.below(12) {
        0 | 1 => *cells = random.pick(&[0, cells.wrapping_add(1), cells.saturating_sub(1), 512, 513, 1 << 32 | *cells, usize::MAX]),
        2 | 3 => *nodes = random.pick(&[0, nodes.wrapping_add(1), cells.saturating_sub(1), 1024, 1025, 1 << 32 | *nodes, usize::MAX]),
        4 => cut(random, &mut field.targets, *cells),
        5 => cut(random, &mut field.lows, *cells),
        6 => cut(random, &mut field.highs, *cells),
        7 => cut(random, &mut field.safe_lows, *cells),
        8 => cut(random, &mut field.safe_highs, *cells),
        9 => cut(random, &mut field.weights, *cells),
        10 => cut(random, &mut field.parents, *nodes),
        _ => cut(random, buffer, field_file_length((*cells).min(512), (*nodes).min(1024))),
    }
}

/// A field to be written, of sense or of none, from lists and into a buffer that may be longer than it needs; sometimes broken.
fn make_write(random: &mut Random) -> WriteCall {
    let cells = random::cell_count(random);
    let nodes = node_count(random, cells);
    let mut field = if random.chance(30) { random::field(random, cells) } else { any_field(random, cells, nodes) };
    let nodes = field.parents.len();
    let longer = |random: &mut Random| if random.chance(30) { random.index(40) } else { 0 };
    let Field { lows, highs, safe_lows, safe_highs, weights, parents, .. } = &mut field;
    for list in [lows, highs, safe_lows, safe_highs, weights, parents] {
        let length = list.len() + longer(random);
        list.resize(length, random.bits() as u32);
    }
    field.targets.resize(cells + longer(random), random.bits() as i32);
    let length = field_file_length(cells, nodes) + 20 * longer(random);
    let mut call = WriteCall { cells, nodes, total: random.bits() as u32, field, buffer: any_bits(random, length, |bits| bits as u8) };
    for _ in 0..breaks(random) {
        break_write(random, &mut call);
    }
    call
}

/// Runs both sides; returns what the second implementation gives, and the library's buffer.
fn compare_write(tally: &mut Tally, call: &WriteCall) -> (Result<(), Refusal>, Vec<u8>) {
    let (mut mine, mut theirs) = (call.buffer.clone(), call.buffer.clone());
    let lists = call.field.lists();
    let result = from_c::write_field(call.cells, call.nodes, call.total, &lists, &mut mine);
    let expected = returned(result);
    let got = calls::write_field(call.cells, call.nodes, call.total, &lists, &mut theirs);
    tally.input((expected, &mine) == (got, &theirs), || {
        let first = mine.iter().zip(&theirs).position(|(one, other)| one != other);
        format!("write {call:?}: second implementation {expected:#x}, library {got:#x}, first other byte {first:?}")
    });
    (result, theirs)
}

/// Fields through the writer. What it wrote is read again: it is the field.
pub fn writes(tally: &mut Tally, random: &mut Random, count: u64) {
    for _ in 0..count {
        let call = make_write(random);
        let (result, buffer) = compare_write(tally, &call);
        tally.answer(&result);
        if result.is_ok() {
            let (cells, nodes) = (call.cells, call.nodes);
            let mut again = Field::filled(cells, nodes, 7);
            let header = read_field(&buffer[..field_file_length(cells, nodes)], &mut again);
            let counts = header.map(|header| (header.cells, header.nodes, header.total));
            if counts != Ok((cells, nodes, call.total)) || again.lists() != call.field.lists().first(cells, nodes) {
                tally.difference(format!("write {call:?}: read again it is {header:?} {again:?}"));
            }
        }
    }
}

// ---- reading an answer ----

/// An answer file, sound or damaged. Its total may be any of 32 bits, its change and the sum shared out any of 64; an older file has 0 for
/// that sum.
fn make_answer(random: &mut Random) -> Vec<u8> {
    let cells = random::cell_count(random);
    let total = if random.chance(30) { random.pick(&[0, 1, 1000, u32::MAX]) } else { random.bits() as u32 };
    let any = |random: &mut Random| random.bits() >> random.below(64);
    let (change, older) = (any(random), random.chance(20));
    let shared = if older { 0 } else { any(random) };
    let repair = Repair { outcome: random.below(3) as u32, total, change, shared };
    let masses = random::partition(random, total, cells);
    let mut file = vec![0; answer_file_length(cells)];
    write_answer(cells, repair, &masses, &mut file).expect("an answer that adds up");
    for _ in 0..breaks(random) {
        damage(random, &mut file, &Contents::Answer(cells));
    }
    file
}

#[derive(Clone, Debug, PartialEq)]
struct ReadCall {
    file: Vec<u8>,
    masses: Vec<u32>,
    answer: Vec<u64>,
}

/// An answer file to be read into lists that may be too short for it, or longer than it needs.
fn make_read(random: &mut Random) -> ReadCall {
    let file = make_answer(random);
    let needed = told_cells(&file);
    let length = match random.below(10) {
        0..=5 => needed,
        6 | 7 => needed + random.index(40),
        8 => needed.saturating_sub(1),
        _ => random.index(needed + 1),
    };
    let entries = random.pick(&[5, 5, 5, 5, 5, 5, 5, 5, 6, 8, 4, 0]);
    ReadCall { file, masses: any_bits(random, length, |bits| bits as u32), answer: any_bits(random, entries, |bits| bits) }
}

/// Runs both sides; returns what the second implementation gives, and the library's lists.
fn compare_read(tally: &mut Tally, call: &ReadCall) -> (Result<(), Refusal>, ReadCall) {
    let (mut mine, mut theirs) = (call.clone(), call.clone());
    let result = from_c::read_answer(&call.file, &mut mine.masses, &mut mine.answer);
    let expected = returned(result);
    let got = calls::read_answer(&call.file, &mut theirs.masses, &mut theirs.answer);
    tally.outcome(&result.map(|()| mine.answer[1] as u32));
    tally.input((expected, &mine) == (got, &theirs), || {
        let lists = |exit: &ReadCall| format!("{:?} {:?}", exit.masses, exit.answer);
        format!("read {call:?}: second implementation {expected:#x} {}, library {got:#x} {}", lists(&mine), lists(&theirs))
    });
    (result, theirs)
}

/// Answer files through the reader. What it read is written again: it is the file.
pub fn reads(tally: &mut Tally, random: &mut Random, count: u64) {
    for _ in 0..count {
        let call = make_read(random);
        let (result, ReadCall { masses, answer, .. }) = compare_read(tally, &call);
        if result.is_ok() {
            let mut again = vec![0; call.file.len()];
            let repair = Repair { outcome: answer[1] as u32, total: answer[2] as u32, change: answer[3], shared: answer[4] };
            let written = write_answer(answer[0] as usize, repair, &masses, &mut again);
            if written != Ok(call.file.len()) || again != call.file {
                tally.difference(format!("read {call:?}: written again it is {written:?} {again:?}"));
            }
        }
    }
}

// ---- from field to answer ----

/// What the library tells of a field's answer, and the masses, by files alone: it writes the field file, repairs it and reads the answer
/// file. A call that is refused gives its number.
pub fn repaired_by_files(field: &Field, total: u32) -> Result<([u64; 5], Vec<u32>), u32> {
    let (cells, nodes) = (field.targets.len(), field.parents.len());
    let mut file = vec![1; field_file_length(cells, nodes)];
    let mut answer_file = vec![1; answer_file_length(cells)];
    let (mut masses, mut answer) = (vec![7; cells], [7; 5]);
    let accept = |number: u32| if number == 0 { Ok(()) } else { Err(number) };
    accept(calls::write_field(cells, nodes, total, &field.lists(), &mut file) as u32)?;
    accept(calls::reconstruct(&file, &mut answer_file))?;
    accept(calls::read_answer(&answer_file, &mut masses, &mut answer) as u32)?;
    Ok((answer, masses))
}

/// Fields through all three calls, and through the second implementation's Reconstruct without any file.
pub fn round_trips(tally: &mut Tally, random: &mut Random, count: u64) {
    let mut workspace = Workspace::default();
    for _ in 0..count {
        let cells = random::cell_count(random);
        let mut field = random::field(random, cells);
        let total = random::total(random, &field);
        if random.chance(20) {
            random::break_field(random, &mut field);
        }
        let (mut masses, mut scratch) = (vec![0; cells], vec![0; SCRATCH_PER_NODE * field.parents.len()]);
        let result = reconstruct(&mut workspace, &field.lists(), total, &mut masses, &mut scratch);
        tally.outcome(&result.map(|repair| repair.outcome));
        let told = result.map(|repair| answer_values(AnswerHeader { cells, repair }));
        let expected = told.map(|answer| (answer, masses)).map_err(|refusal| refusal.number);
        let got = repaired_by_files(&field, total);
        tally.input(expected == got, || format!("files of {field:?}, M {total}: second implementation {expected:?}, library {got:?}"));
        if let (Ok(_), Ok(([_, outcome, _, _, told], masses))) = (&expected, &got) {
            let shared = shared_by_masses(&field, *outcome, masses);
            if *told != shared {
                tally.difference(format!("files of {field:?}, M {total}: by the masses {shared} is shared out, library {told}"));
            }
        }
    }
}
