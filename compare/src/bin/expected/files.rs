//! The test program of Read a field file, Write an answer, Payload, Write a field and Read an answer. A case starts with its kind: 1 is
//! reading the field file of a number into lists of seven lengths, whose entries are 7 before; 2 is writing the answer of cells, outcome,
//! total, change and the sum shared out, with masses by a rule, into a buffer whose bytes are 9 before; 3 is the payload of a block of the
//! field file of a number; 4 is writing the field of cells, nodes and total, with lists of seven lengths by a rule, into a buffer whose bytes
//! are 9 before; 5 is reading the answer file of a number into a list, whose entries are 7 before.

use crate::output;
use compare::files::{payload, read_answer, read_field, write_answer, write_field};
use compare::numbers::{each_case, Numbers};
use compare::operations::Refusal;
use compare::program::Program;
use compare::tree::{Field, Repair};

/// Of a file so many bytes are read at most.
const MAX_FILE: usize = 20000;

/// A check number of a list: for each entry, 31 times what it was, and the entry, modulo 4294967291.
fn check_number(list: impl IntoIterator<Item = u32>) -> u64 {
    list.into_iter().fold(0, |check, entry| (check * 31 + u64::from(entry)) % 4_294_967_291)
}

/// A length, taken as `most` if it is more.
fn length(numbers: &mut Numbers, most: usize) -> usize {
    numbers.unsigned().min(most as u64) as usize
}

/// The lengths of the lists of a field.
fn lengths(numbers: &mut Numbers) -> [usize; 7] {
    [520, 520, 520, 520, 520, 520, 1030].map(|most| length(numbers, most))
}

/// The lists of a field, `list` giving each by its place among them and its length. A target is what its number stands for in two's
/// complement.
fn field_of(lengths: [usize; 7], list: impl Fn(u64, usize) -> Vec<u32>) -> Field {
    let list = |place: usize| list(place as u64, lengths[place]);
    Field {
        targets: list(0).into_iter().map(|value| value as i32).collect(),
        lows: list(1),
        highs: list(2),
        safe_lows: list(3),
        safe_highs: list(4),
        weights: list(5),
        parents: list(6),
    }
}

fn read(program: &Program, numbers: &mut Numbers) -> String {
    let (told, file) = program.told_file(numbers.unsigned(), "field", MAX_FILE);
    let mut field = field_of(lengths(numbers), |_, length| vec![7; length]);
    let answer = match read_field(&file, &mut field) {
        Ok(header) => format!("read {} {} {}", header.cells, header.nodes, header.total),
        Err(refusal) => output::refused(refusal),
    };
    let targets = check_number(field.targets.iter().map(|&target| target as u32));
    let lists = [field.lows, field.highs, field.safe_lows, field.safe_highs, field.weights, field.parents];
    format!("{told}{answer} {targets}{}", output::spaced(lists.map(check_number)))
}

/// What gives a list: number 0 is `first`, and each later one the number before it and `step`, all modulo `modulus`.
struct Rule {
    first: u64,
    step: u64,
    modulus: u64,
}

impl Rule {
    fn read(numbers: &mut Numbers) -> Rule {
        let (first, step) = (numbers.unsigned(), u64::from(numbers.word()));
        Rule { first, step, modulus: numbers.unsigned().clamp(1, 1 << 32) }
    }

    /// So many numbers by the rule with `first` and `more`.
    fn list(&self, more: u64, count: usize) -> Vec<u32> {
        let first = (self.first % self.modulus + more) % self.modulus;
        let numbers = std::iter::successors(Some(first), |number| Some((number + self.step) % self.modulus));
        numbers.take(count).map(|number| number as u32).collect()
    }
}

/// The line of a file written to a buffer.
fn written(result: Result<usize, Refusal>, buffer: Vec<u8>) -> String {
    let answer = match result {
        Ok(length) => format!("bytes {length}"),
        Err(refusal) => output::refused(refusal),
    };
    format!("{answer} {}", check_number(buffer.into_iter().map(u32::from)))
}

fn write(numbers: &mut Numbers) -> String {
    let cells = numbers.unsigned() as usize;
    let repair = Repair { outcome: numbers.word(), total: numbers.word(), change: numbers.unsigned(), shared: numbers.unsigned() };
    let (count, size) = (length(numbers, 600), length(numbers, 4096));
    let masses = Rule::read(numbers).list(0, count);
    let mut buffer = vec![9; size];
    let result = write_answer(cells, repair, &masses, &mut buffer);
    written(result, buffer)
}

fn write_lists(numbers: &mut Numbers) -> String {
    let (cells, nodes, total) = (numbers.unsigned() as usize, numbers.unsigned() as usize, numbers.word());
    let (lengths, size) = (lengths(numbers), length(numbers, 20000));
    let rule = Rule::read(numbers);
    let field = field_of(lengths, |place, length| rule.list(place, length));
    let mut buffer = vec![9; size];
    let result = write_field(cells, nodes, total, &field.lists(), &mut buffer);
    written(result, buffer)
}

fn read_masses(program: &Program, numbers: &mut Numbers) -> String {
    let (told, file) = program.told_file(numbers.unsigned(), "answer", MAX_FILE);
    let mut masses = vec![7; length(numbers, 600)];
    let answer = match read_answer(&file, &mut masses) {
        Ok(header) => {
            let repair = header.repair;
            format!("read {} {} {} {} {}", header.cells, repair.outcome, repair.total, repair.change, repair.shared)
        }
        Err(refusal) => output::refused(refusal),
    };
    format!("{told}{answer} {}", check_number(masses))
}

fn part(program: &Program, numbers: &mut Numbers) -> String {
    let (told, file) = program.told_file(numbers.unsigned(), "field", MAX_FILE);
    let part = payload(&file, numbers.unsigned() as usize);
    format!("{told}payload {} {}", part.len(), check_number(part.iter().map(|&byte| u32::from(byte))))
}

fn case(program: &Program, numbers: &mut Numbers) -> String {
    let line = match numbers.unsigned() {
        1 => read(program, numbers),
        2 => write(numbers),
        3 => part(program, numbers),
        4 => write_lists(numbers),
        5 => read_masses(program, numbers),
        _ => output::NO_KIND.to_string(),
    };
    line + "\n"
}

pub fn expected(program: &Program) -> String {
    each_case(&program.input(), |numbers| case(program, numbers)).concat()
}
