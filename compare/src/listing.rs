//! The text that the program prints for a field file, after the section "Examples" of 01. Written from 01 alone; shares no code with the
//! library.

use crate::files::{repair_file, FileWorkspace};
use crate::operations::{refuse, Refusal};
use std::fmt::Write;

/// Room for the longest text.
pub const MAX_TEXT: usize = 16384;

/// The line of a refusal, without its end.
pub fn refused(refusal: Refusal) -> String {
    format!("refused {} {}", refusal.number, refusal.place)
}

pub fn listing(workspace: &mut FileWorkspace, file: &[u8]) -> String {
    let repaired = match repair_file(workspace, file) {
        Ok(repaired) => repaired,
        Err(refusal) => return refused(refusal) + "\n",
    };
    let (repair, cells) = (repaired.repair, repaired.masses.len());
    let mut text = format!("outcome {} cells {} total {} change {}\n", repair.outcome, cells, repair.total, repair.change);
    for (cell, (&mass, &target)) in repaired.masses.iter().zip(repaired.targets).enumerate() {
        writeln!(text, "{} {} {}", cell, mass, i64::from(mass) - i64::from(target)).expect("text grows");
    }
    text
}

/// Writes a text to the front of a buffer and returns its length. A buffer shorter than `least` bytes counts under 3.
pub fn write_text(text: &str, least: usize, buffer: &mut [u8]) -> Result<usize, Refusal> {
    if buffer.len() < least {
        return refuse(3);
    }
    buffer[..text.len()].copy_from_slice(text.as_bytes());
    Ok(text.len())
}

/// The operation that writes the listing to a buffer, which has room for the longest.
pub fn report(workspace: &mut FileWorkspace, file: &[u8], buffer: &mut [u8]) -> Result<usize, Refusal> {
    write_text(&listing(workspace, file), MAX_TEXT, buffer)
}
