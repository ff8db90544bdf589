//! The test program of the report, which prints that of every field file from number 0 on, and last that of file 0 in a buffer a byte too
//! short; and the program, which prints the listing of its standard input.

use crate::output;
use compare::files::FileWorkspace;
use compare::listing::{listing, report, MAX_TEXT};
use compare::program::{Program, MAX_FILE};

fn text(workspace: &mut FileWorkspace, file: &[u8], room: usize) -> String {
    output::text(room, |buffer| report(workspace, file, buffer))
}

pub fn expected(program: &Program) -> String {
    let mut workspace = FileWorkspace::default();
    let files = (0..1000).map_while(|number| program.data_file(number, "field", MAX_FILE));
    let mut output: String = files.map(|file| text(&mut workspace, &file, MAX_TEXT)).collect();
    let first = program.data_file(0, "field", MAX_FILE).unwrap_or_default();
    output += &text(&mut workspace, &first, MAX_TEXT - 1);
    output
}

pub fn expected_listing(program: &Program) -> String {
    let mut file = program.read("stdin");
    file.truncate(MAX_FILE);
    listing(&mut FileWorkspace::default(), &file)
}
