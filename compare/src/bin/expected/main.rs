//! Makes the expected output of the test programs again, by the second implementation alone. `expected CRATES NAME` prints what the program
//! of the crate NAME must print; `expected CRATES` compares that of every program with the `stdout` that is stored beside it, and exits
//! with status 0 only if all are the same. CRATES is the folder of the crates.

mod book;
mod bounds;
mod doubles;
mod draws;
mod family;
mod files;
mod kept;
mod output;
mod query;
mod reconstruct;
mod region;
mod report;
mod runs;
mod split;

use compare::program::{self, Program};
use std::path::{Path, PathBuf};

/// Makes the output of a test program.
type Expected = fn(&Program) -> String;

/// The test programs by their crates: the one place where these are named.
const PROGRAMS: [(&str, Expected); 14] = [
    ("split_test", split::expected),
    ("reconstruct_test", reconstruct::expected),
    ("kept_test", kept::expected),
    ("doubles_test", doubles::expected),
    ("files_test", files::expected),
    ("report_test", report::expected),
    ("legzhuro", report::expected_listing),
    ("query_test", query::expected),
    ("legzhuro_query", query::expected_line),
    ("bounds_test", bounds::expected),
    ("family_test", family::expected),
    ("book_test", book::expected),
    ("legzhuro_book", book::expected_line),
    ("region_test", region::expected),
];

/// Compares an output with the one stored: the number of lines, or the first line that differs.
fn compare(expected: &str, stored: &str) -> Result<usize, String> {
    if expected == stored {
        return Ok(expected.lines().count());
    }
    let (mut mine, mut theirs) = (expected.split_inclusive('\n'), stored.split_inclusive('\n'));
    let mut line = 0;
    loop {
        line += 1;
        let (expected, stored) = (mine.next(), theirs.next());
        if expected != stored {
            let (expected, stored) = (expected.unwrap_or_default(), stored.unwrap_or_default());
            return Err(format!("line {line} is stored as {stored:?} and must be {expected:?}"));
        }
    }
}

/// Compares every output; prints a line for each program and returns whether all are the same.
fn check_all(crates: &Path) -> bool {
    let (mut lines, mut wrong) = (0, 0);
    for (name, expected) in PROGRAMS {
        let program = Program::new(crates, name);
        match compare(&expected(&program), &String::from_utf8_lossy(&program.read("stdout"))) {
            Ok(count) => {
                println!("{name}: {count} lines as stored");
                lines += count;
            }
            Err(difference) => {
                println!("{name}: {difference}");
                wrong += 1;
            }
        }
    }
    for name in program::with_output(crates).iter().filter(|name| PROGRAMS.iter().all(|(known, _)| known != name)) {
        println!("{name}: has a stored output that nothing here makes");
        wrong += 1;
    }
    println!("expected: {} programs, {lines} lines as stored, {wrong} programs wrong", PROGRAMS.len());
    wrong == 0
}

fn main() {
    let arguments: Vec<String> = std::env::args().collect();
    let Some(crates) = arguments.get(1).map(PathBuf::from) else {
        println!("usage: expected CRATES [NAME]");
        std::process::exit(2);
    };
    let Some(name) = arguments.get(2) else {
        std::process::exit(i32::from(!check_all(&crates)));
    };
    let Some((_, expected)) = PROGRAMS.iter().find(|(known, _)| known == name) else {
        println!("{name} is no test program; those are {:?}", PROGRAMS.map(|(known, _)| known));
        std::process::exit(2);
    };
    print!("{}", expected(&Program::new(&crates, name)));
}
