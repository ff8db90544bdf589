//! The cases of the test program of Query, as its input has them. A case starts with its kind: 1 is Query of the field file of a number, a
//! cell and the length of the buffer; 2 is an argument of a tool, its length and then, after one byte, its own bytes.

use crate::numbers::Numbers;

/// No buffer is longer.
const MAX_BUFFER: u64 = 256;

pub enum QueryCase {
    Query { file: u64, cell: usize, room: usize },
    Argument(Vec<u8>),
    NoKind,
}

pub fn read_case(numbers: &mut Numbers) -> QueryCase {
    match numbers.unsigned() {
        1 => QueryCase::Query {
            file: numbers.unsigned(),
            cell: numbers.unsigned() as usize,
            room: numbers.unsigned().min(MAX_BUFFER) as usize,
        },
        2 => {
            let length = numbers.unsigned() as usize;
            QueryCase::Argument(numbers.bytes(length).to_vec())
        }
        _ => QueryCase::NoKind,
    }
}
