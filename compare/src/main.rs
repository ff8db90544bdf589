//! The comparison program: compares the proved library, through its calls from C, and the programs with the second implementation in this
//! package. Usage: `compare PROGRAMS CRATES [SCALE]`; PROGRAMS is the folder of the programs, CRATES that of the crates, SCALE multiplies
//! the numbers of seeded inputs (in percent, 100 if not given). Exits with status 0 only if nothing differs and every refusal and outcome
//! that a call can give has occurred in its part; with a small SCALE that may fail.

use compare::random::Random;
use compare::tally::Tally;
use compare::{check_books, check_bounds, check_calls, check_examples, check_families, check_files, check_histories, check_published};
use compare::{check_query, check_regions, check_run, check_turns};
use std::path::Path;

const SEED: u64 = 20190525;

// The refusals that a call can give, after the section "Operations and what each turns down" of 01 and tickets 1, 2 and 5 to 12 of 02, in
// its order of checks. From C a list that is too short for what a call gives counts under 3.
const SPLIT: [usize; 6] = [1, 3, 5, 6, 7, 8];
const OPEN: [usize; 4] = [3, 1, 9, 13];
// 12 comes for the kept masses, and again for the book.
const STEP: [usize; 15] = [1, 2, 3, 17, 4, 5, 6, 7, 12, 13, 8, 14, 15, 16, 21];
const IMPORT: [usize; 4] = [3, 9, 10, 11];
// In binary32 too.
const EXPORT: [usize; 3] = [3, 9, 11];
// Reading gives 14, 15, 16, 1 and 2, Reconstruct 4 to 8, and writing 3 alone: lists read have the right lengths, and what Reconstruct
// gives has an outcome up to 2 and masses that add up to M.
const FILE: [usize; 11] = [14, 15, 16, 1, 2, 4, 5, 6, 7, 8, 3];
// The program writes no answer file.
const PROGRAM: [usize; 10] = [14, 15, 16, 1, 2, 4, 5, 6, 7, 8];
const WRITE_FIELD: [usize; 3] = [1, 2, 3];
const READ_ANSWER: [usize; 6] = [14, 15, 16, 1, 3, 12];
// Whole fields, written, repaired and their answers read: those of Reconstruct alone.
const ROUND_TRIP: [usize; 5] = [4, 5, 6, 7, 8];
// Import of one double, at scales in range.
const CLASSES: [usize; 2] = [10, 11];
// The tool that queries a cell: reading, the cell's number, Reconstruct.
const QUERY: [usize; 11] = [14, 15, 16, 1, 2, 3, 4, 5, 6, 7, 8];
// Those of 01's examples.
const EXAMPLES: [usize; 3] = [4, 8, 11];
// Steps by valid fields to any total, and splits with nothing broken.
const PUBLISHED: [usize; 2] = [13, 8];
const BOUNDS: [usize; 3] = [1, 3, 18];
// Steps by sound trees and weights, and by bounds from ratios in range.
const BOUNDS_TO_STEP: [usize; 4] = [5, 6, 13, 8];
// Totals in range that a field with one ratio does not have.
const CONSISTENCY: [usize; 1] = [8];
const FAMILY_START: [usize; 3] = [3, 1, 9];
const FAMILY_OPEN: [usize; 7] = [3, 19, 1, 9, 17, 13, 20];
// 3 comes first for the list of the family, and after 2 for the other lists.
const FAMILY_STEP: [usize; 17] = [3, 19, 1, 2, 17, 4, 5, 6, 7, 12, 13, 20, 8, 14, 15, 16, 21];
const FAMILY_REGISTER: [usize; 2] = [3, 19];
// The next in turn, and the number waiting.
const FAMILY_READ: [usize; 1] = [3];
// 3 comes first for the lists of the family and of the answer; then what the step is refused with.
const FAMILY_TURN: [usize; 17] = FAMILY_STEP;
// All calls but starts.
const FAMILY: [usize; 18] = [3, 19, 1, 2, 9, 17, 4, 5, 6, 7, 12, 13, 20, 8, 14, 15, 16, 21];
const BOOK_START: [usize; 2] = [3, 13];
const BOOK_REPORT: [usize; 5] = [3, 14, 15, 16, 12];
// The program has a buffer that is long enough.
const BOOK_PROGRAM: [usize; 4] = [14, 15, 16, 12];
// Files of sound fields.
const REGION_FILE: [usize; 1] = [8];
// Steps by sound fields: what the book, the total and the scale are refused with.
const REGION_STEP: [usize; 9] = [3, 17, 12, 13, 8, 14, 15, 16, 21];
// Steps by sound fields, with books in order.
const REGION_RUN: [usize; 3] = [13, 8, 21];

const OUTCOMES: [usize; 3] = [0, 1, 2];

fn main() {
    let arguments: Vec<String> = std::env::args().collect();
    let [_, programs, crates, ..] = arguments.as_slice() else {
        println!("usage: compare PROGRAMS CRATES [SCALE]");
        std::process::exit(2);
    };
    let (programs, crates) = (Path::new(programs), Path::new(crates));
    let percent: u64 = arguments.get(3).map_or(100, |text| text.parse().expect("SCALE is a whole number"));
    let scaled = |count: u64| count * percent / 100;
    let (mut tally, mut random) = (Tally::default(), Random::new(SEED));

    check_examples::examples(&mut tally);
    tally.end_part("examples", &EXAMPLES, &OUTCOMES);
    check_calls::splits(&mut tally, &mut random, scaled(400_000));
    tally.end_part("split", &SPLIT, &[]);
    check_calls::opens(&mut tally, &mut random, scaled(60_000));
    tally.end_part("open", &OPEN, &[]);
    check_calls::steps(&mut tally, &mut random, scaled(400_000));
    tally.end_part("step", &STEP, &OUTCOMES);
    check_calls::imports(&mut tally, &mut random, scaled(1_000_000));
    tally.end_part("import", &IMPORT, &[]);
    check_calls::exports(&mut tally, &mut random, scaled(200_000));
    tally.end_part("export", &EXPORT, &[]);
    check_files::files(&mut tally, &mut random, scaled(150_000));
    tally.end_part("file", &FILE, &OUTCOMES);
    check_files::listings(&mut tally, &mut random, &programs.join("legzhuro"), scaled(4_000));
    tally.end_part("program", &PROGRAM, &OUTCOMES);
    // In the last run the book is exchanged for another now and then.
    for (cells, steps, exchanges) in [(24, check_run::FOUR_YEARS, 0), (512, 10_000, 0), (3, 12_000, 2)] {
        check_run::run(&mut tally, &mut random, cells, scaled(steps), exchanges);
        tally.end_part(&format!("run of {cells} cells"), &STEP, &OUTCOMES);
    }
    check_published::published(&mut tally, &mut random, scaled(100_000));
    tally.end_part("published", &PUBLISHED, &OUTCOMES);
    check_files::writes(&mut tally, &mut random, scaled(100_000));
    tally.end_part("write field", &WRITE_FIELD, &[]);
    check_files::reads(&mut tally, &mut random, scaled(100_000));
    tally.end_part("read answer", &READ_ANSWER, &OUTCOMES);
    check_files::round_trips(&mut tally, &mut random, scaled(100_000));
    tally.end_part("field to answer", &ROUND_TRIP, &OUTCOMES);
    check_calls::classes(&mut tally, &mut random, scaled(200_000));
    tally.end_part("import by class", &CLASSES, &[]);
    check_calls::singles(&mut tally, &mut random, scaled(200_000));
    tally.end_part("export single", &EXPORT, &[]);
    let tool = programs.join("legzhuro_query");
    check_query::stored(&mut tally, &tool, crates);
    tally.end_part("stored queries", &QUERY, &OUTCOMES);
    check_query::queries(&mut tally, &mut random, &tool, scaled(4_000));
    tally.end_part("query", &QUERY, &OUTCOMES);
    check_bounds::conversions(&mut tally, &mut random, scaled(200_000));
    tally.end_part("bounds", &BOUNDS, &[]);
    check_bounds::fields(&mut tally, &mut random, scaled(60_000));
    tally.end_part("bounds to step", &BOUNDS_TO_STEP, &OUTCOMES);
    check_bounds::consistency(&mut tally, &mut random, scaled(30_000));
    tally.end_part("consistency", &CONSISTENCY, &[0]);
    check_families::starts(&mut tally, &mut random, scaled(50_000));
    tally.end_part("family start", &FAMILY_START, &[]);
    check_families::opens(&mut tally, &mut random, scaled(100_000));
    tally.end_part("family open", &FAMILY_OPEN, &[]);
    check_families::steps(&mut tally, &mut random, scaled(150_000));
    tally.end_part("family step", &FAMILY_STEP, &OUTCOMES);
    check_turns::registerings(&mut tally, &mut random, scaled(50_000));
    tally.end_part("family register", &FAMILY_REGISTER, &[]);
    check_turns::readings_of_next(&mut tally, &mut random, scaled(40_000));
    tally.end_part("family next", &FAMILY_READ, &[]);
    check_turns::readings_of_waiting(&mut tally, &mut random, scaled(40_000));
    tally.end_part("family waiting", &FAMILY_READ, &[]);
    check_turns::turns(&mut tally, &mut random, scaled(110_000));
    tally.end_part("family turn", &FAMILY_TURN, &OUTCOMES);
    for (cells, histories, calls) in [(8, 24, 6_000), (24, 8, 6_000), (512, 1, 9_000)] {
        check_histories::histories(&mut tally, &mut random, cells, histories, scaled(calls));
        tally.end_part(&format!("families of {cells} cells"), &FAMILY, &OUTCOMES);
    }
    check_books::starts(&mut tally, &mut random, scaled(30_000));
    tally.end_part("book start", &BOOK_START, &[]);
    check_books::steps(&mut tally, &mut random, scaled(40_000));
    tally.end_part("book step", &STEP, &OUTCOMES);
    check_books::reports(&mut tally, &mut random, scaled(60_000));
    tally.end_part("book report", &BOOK_REPORT, &[]);
    check_books::printed_reports(&mut tally, &mut random, &programs.join("legzhuro_book"), scaled(4_000));
    tally.end_part("book program", &BOOK_PROGRAM, &[]);
    check_regions::files(&mut tally, &mut random, scaled(40_000));
    tally.end_part("region files", &REGION_FILE, &OUTCOMES);
    check_regions::steps(&mut tally, &mut random, scaled(40_000));
    tally.end_part("region steps", &REGION_STEP, &OUTCOMES);
    for (cells, runs, steps) in [(8, 4, 1_000), (24, 2, 1_500), (200, 2, 500)] {
        check_regions::runs(&mut tally, &mut random, cells, runs, scaled(steps));
        tally.end_part(&format!("region runs of {cells} cells"), &REGION_RUN, &OUTCOMES);
    }
    check_regions::changed_sums(&mut tally, &mut random, scaled(20_000));
    tally.end_part("changed sums", &REGION_FILE, &OUTCOMES);

    if !tally.passes() {
        std::process::exit(1);
    }
}
