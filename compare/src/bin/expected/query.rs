//! The test program of Query and of a tool's argument (`query_cases` has its cases), and the tool, which prints the line for its first
//! argument and its standard input.

use crate::output;
use compare::files::FileWorkspace;
use compare::numbers::each_case;
use compare::program::{Program, MAX_FILE};
use compare::query::{argument_number, correction, line, query};
use compare::query_cases::{read_case, QueryCase};

fn print(program: &Program, workspace: &mut FileWorkspace, case: QueryCase) -> String {
    match case {
        QueryCase::Query { file, cell, room } => {
            let (told, file) = program.told_file(file, "field", MAX_FILE);
            told.to_string() + &output::text(room, |buffer| query(workspace, &file, cell, buffer))
        }
        QueryCase::Argument(argument) => format!("argument {}\n", argument_number(&argument)),
        QueryCase::NoKind => format!("{}\n", output::NO_KIND),
    }
}

pub fn expected(program: &Program) -> String {
    let mut workspace = FileWorkspace::default();
    each_case(&program.input(), |numbers| print(program, &mut workspace, read_case(numbers))).concat()
}

/// The arguments are stored one to a line.
pub fn expected_line(program: &Program) -> String {
    let (arguments, mut file) = (program.read("args"), program.read("stdin"));
    file.truncate(MAX_FILE);
    let first = arguments.split(|&byte| byte == b'\n').next().unwrap_or_default();
    line(&correction(&mut FileWorkspace::default(), &file, argument_number(first) as usize))
}
