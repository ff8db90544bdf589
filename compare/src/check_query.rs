//! The tool that queries a cell, compared with the second implementation: what it prints for a field file and its arguments, byte for byte.

use crate::check_files::{make_file, printed, told_cells};
use crate::files::{repair_file, FileWorkspace};
use crate::numbers::each_case;
use crate::program::{Program, MAX_FILE};
use crate::query::{argument_number, correction, line, Correction, Miss, Refused, MAX_LINE};
use crate::query_cases::{read_case, QueryCase};
use crate::random::Random;
use crate::tally::Tally;
use std::path::Path;

/// Runs both sides; returns what the second implementation gives for the cell that the arguments name.
fn compare_query(
    tally: &mut Tally,
    workspace: &mut FileWorkspace,
    tool: &Path,
    file: &[u8],
    arguments: &[Vec<u8>],
) -> Result<Correction, Refused> {
    let cell = argument_number(arguments.first().map_or(&[], Vec::as_slice)) as usize;
    let result = correction(workspace, file, cell);
    if let Ok(correction) = &result {
        check_sum(workspace, file, cell, correction);
    }
    tally.outcome(&result.map(|correction| correction.outcome).map_err(|refused| refused.refusal));
    let (expected, got) = (line(&result), printed(tool, arguments, file));
    tally.input(expected.as_bytes() == got, || {
        let text = |bytes: &Vec<u8>| String::from_utf8_lossy(bytes).into_owned();
        let (arguments, got) = (arguments.iter().map(text).collect::<Vec<String>>(), text(&got));
        format!("tool with {arguments:?} on {file:?}: second implementation\n{expected}tool\n{got}")
    });
    result
}

/// The parts add up to the cell's mass minus its target.
fn check_sum(workspace: &mut FileWorkspace, file: &[u8], cell: usize, correction: &Correction) {
    let repaired = repair_file(workspace, file).expect("a field that was accepted");
    let change = i64::from(repaired.masses[cell]) - i64::from(repaired.targets[cell]);
    assert_eq!(correction.clipping + correction.first + correction.second, change, "parts of cell {cell} of {file:?}: {correction:?}");
}

/// The queries of the test program whose buffers are long enough.
pub fn stored(tally: &mut Tally, tool: &Path, crates: &Path) {
    let (program, mut workspace) = (Program::new(crates, "query_test"), FileWorkspace::default());
    for case in each_case(&program.input(), read_case) {
        if let QueryCase::Query { file, cell, room: MAX_LINE.. } = case {
            let (_, file) = program.told_file(file, "field", MAX_FILE);
            let _ = compare_query(tally, &mut workspace, tool, &file, &[cell.to_string().into_bytes()]);
        }
    }
}

/// A cell number: mostly one of the field's, often around their end.
fn make_cell(random: &mut Random, cells: u64) -> u64 {
    match random.below(10) {
        0..=7 => random.below(cells.max(1)),
        8 => random.pick(&[cells.saturating_sub(1), cells, cells, cells + 1]),
        _ => random.pick(&[0, 511, 512, u64::from(u32::MAX) - 1, u64::from(u32::MAX), u64::MAX]),
    }
}

/// The cell's number otherwise written than in digits, or a number that 32 or 64 bits would take for it.
fn misleading(random: &mut Random, cell: u64) -> Vec<u8> {
    let beyond = |bits: u32| (u128::from(cell) + (1 << bits)).to_string().into_bytes();
    match random.below(8) {
        0 => Vec::new(),
        1 => beyond(32),
        2 => beyond(64),
        3 => format!("0x{cell}").into_bytes(),
        _ => {
            let mut text = cell.to_string().into_bytes();
            let place = random.index(text.len() + 1);
            let byte = if random.chance(70) { random.pick(b" \n\t+-/:.ax\x80\xb1\xff") } else { 1 + random.below(255) as u8 };
            text.insert(place, byte);
            text
        }
    }
}

/// The tool's arguments: the cell's number in digits, with zeros before it or none, or otherwise written; sometimes further ones after it,
/// or none at all.
fn make_arguments(random: &mut Random, cell: u64) -> Vec<Vec<u8>> {
    let first = match random.below(20) {
        0 => return Vec::new(),
        1 | 2 => misleading(random, cell),
        3..=5 => format!("{}{cell}", "0".repeat(random.pick(&[1, 2, 9, 10, 20, 200]))).into_bytes(),
        _ => cell.to_string().into_bytes(),
    };
    let mut arguments = vec![first];
    while random.chance(20) {
        let further = if random.chance(50) { misleading(random, cell) } else { random.below(9).to_string().into_bytes() };
        arguments.push(further);
    }
    arguments
}

/// Field files, sound and damaged, with arguments of all forms.
pub fn queries(tally: &mut Tally, random: &mut Random, tool: &Path, count: u64) {
    let mut workspace = FileWorkspace::default();
    let (mut below, mut above) = (0, 0);
    for _ in 0..count {
        let file = make_file(random);
        let cell = make_cell(random, told_cells(&file) as u64);
        let arguments = make_arguments(random, cell);
        match compare_query(tally, &mut workspace, tool, &file, &arguments).map_err(|refused| refused.miss) {
            Err(Some(Miss::Below(_))) => below += 1,
            Err(Some(Miss::Above(_))) => above += 1,
            _ => {}
        }
    }
    tally.must_occur("query: M below the safe lows' sum", below);
    tally.must_occur("query: M above the safe highs' sum", above);
}
