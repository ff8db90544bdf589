//! Where a cell's correction came from, and the line that tells it, after ticket 6 of 02; and the number that an argument of a tool stands
//! for. Written from the papers alone; shares no code with the library.

use crate::files::{read_field, repair_read, FieldHeader, FileWorkspace};
use crate::listing::{refused, write_text};
use crate::operations::{refuse, Refusal};
use crate::tree::{masses_by_step, sum};

/// A buffer for the line has at least so many bytes. No paper has this number; it is the library's.
pub const MAX_LINE: usize = 128;

/// The parts of a cell's correction, its mass minus its target, by 01's steps at its parent.
#[derive(Clone, Copy, Debug, PartialEq)]
pub struct Correction {
    pub outcome: u32,
    pub clipping: i64,
    pub first: i64,
    pub second: i64,
}

/// How far M lies below the sum of the safe lows, or above that of the safe highs.
#[derive(Clone, Copy, Debug, PartialEq)]
pub enum Miss {
    Below(u64),
    Above(u64),
}

/// A refusal; 8 tells the miss.
#[derive(Clone, Copy, Debug, PartialEq)]
pub struct Refused {
    pub refusal: Refusal,
    pub miss: Option<Miss>,
}

impl From<Refusal> for Refused {
    fn from(refusal: Refusal) -> Refused {
        Refused { refusal, miss: None }
    }
}

/// Reads a field file, checks the cell's number, reconstructs and looks at the cell.
pub fn correction(workspace: &mut FileWorkspace, file: &[u8], cell: usize) -> Result<Correction, Refused> {
    let header = read_field(file, &mut workspace.field)?;
    check_cell(cell, header.cells)?;
    let (outcome, mass) = match repair_read(workspace, header) {
        Ok(repaired) => (repaired.repair.outcome, repaired.masses[cell]),
        Err(refusal) => return Err(Refused { refusal, miss: miss(workspace, header, refusal) }),
    };
    let [clipping, first, second] = parts(workspace, cell, i64::from(mass));
    Ok(Correction { outcome, clipping, first, second })
}

/// Check 3, of the cell's number.
fn check_cell(cell: usize, cells: usize) -> Result<(), Refusal> {
    if cell >= cells {
        return refuse(3);
    }
    Ok(())
}

/// The miss of refusal 8.
fn miss(workspace: &FileWorkspace, header: FieldHeader, refusal: Refusal) -> Option<Miss> {
    if refusal.number != 8 {
        return None;
    }
    let lists = workspace.field.lists().first(header.cells, header.nodes);
    let (total, least, most) = (u64::from(header.total), sum(lists.safe_lows), sum(lists.safe_highs));
    Some(if total < least { Miss::Below(least - total) } else { Miss::Above(total - most) })
}

/// The three parts for a cell of the field that was repaired last. In a field of one node nothing is split: all is second share.
fn parts(workspace: &mut FileWorkspace, cell: usize, mass: i64) -> [i64; 3] {
    let (target, parents) = (i64::from(workspace.field.targets[cell]), &workspace.field.parents);
    if parents[cell] as usize == cell {
        return [0, 0, mass - target];
    }
    let [clipped, with_first, with_both] = masses_by_step(&mut workspace.tree, parents, cell);
    [clipped - target, with_first - clipped, with_both - with_first]
}

/// The line that tells what a query gives.
pub fn line(result: &Result<Correction, Refused>) -> String {
    match result {
        Ok(Correction { outcome, clipping, first, second }) => {
            format!("outcome {outcome} clipping {clipping} first {first} second {second}\n")
        }
        Err(Refused { refusal, miss }) => {
            let told = match miss {
                Some(Miss::Below(distance)) => format!(" below {distance}"),
                Some(Miss::Above(distance)) => format!(" above {distance}"),
                None => String::new(),
            };
            format!("{}{told}\n", refused(*refusal))
        }
    }
}

/// The operation that writes the line to a buffer.
pub fn query(workspace: &mut FileWorkspace, file: &[u8], cell: usize, buffer: &mut [u8]) -> Result<usize, Refusal> {
    write_text(&line(&correction(workspace, file, cell)), MAX_LINE, buffer)
}

/// The number of an argument in decimal digits. One that is empty, otherwise written or beyond 32 bits is 4294967295, too large for every
/// tool (the papers say too large, the number is the library's); one that is missing is taken as empty.
pub fn argument_number(argument: &[u8]) -> u32 {
    if argument.is_empty() || !argument.iter().all(u8::is_ascii_digit) {
        return u32::MAX;
    }
    argument.iter().fold(0, |number: u32, digit| number.saturating_mul(10).saturating_add(u32::from(digit - b'0')))
}
