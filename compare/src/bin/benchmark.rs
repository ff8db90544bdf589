//! Measures a step with a book of one block and the call on a field file at 8, 64 and 512 cells on flat, binary and chain trees, a step with a
//! book of 64 blocks on binary ones, and bounds from ratios, which need no tree: the proved library against the second implementation. Every
//! number is the median over batches; both sides take turns, so that other load on the machine slows both alike.

use compare::book::{Book, LentBook, MAX_BLOCKS, RECORDS, ROOM};
use compare::calls;
use compare::files::{answer_file_length, field_file, reconstruct_file, FileWorkspace, BLOCK};
use compare::from_c::{step_by, STEP_ENTRIES};
use compare::operations::{Balance, SCRATCH_PER_NODE};
use compare::random::{binary, chain, flat, partition, Random};
use compare::random_books::book_to;
use compare::ratios::{bounds, WHOLE};
use compare::tree::{sum, Field, Workspace};
use std::hint::black_box;
use std::time::Instant;

const BATCHES: usize = 15;
/// Least time of a batch, in seconds.
const BATCH: f64 = 0.01;

/// Nanoseconds for each of so many calls.
fn time(call: &mut dyn FnMut(), repetitions: u64) -> f64 {
    let started = Instant::now();
    for _ in 0..repetitions {
        call();
    }
    started.elapsed().as_secs_f64() * 1e9 / repetitions as f64
}

fn median(mut times: Vec<f64>) -> f64 {
    times.sort_by(f64::total_cmp);
    times[times.len() / 2]
}

/// Median nanoseconds for a call of each side.
fn measure(library: &mut dyn FnMut(), second: &mut dyn FnMut()) -> (f64, f64) {
    let slower = time(library, 20).max(time(second, 20));
    let repetitions = (BATCH * 1e9 / slower) as u64 + 1;
    let (mut of_library, mut of_second) = (Vec::new(), Vec::new());
    for _ in 0..BATCHES {
        of_library.push(time(library, repetitions));
        of_second.push(time(second, repetitions));
    }
    (median(of_library), median(of_second))
}

/// A field with work to do at every node: some targets out of bounds, weights, and a total that the clipped targets miss.
fn make_field(random: &mut Random, parents: Vec<u32>, cells: usize) -> (Field, u32) {
    let mut field = Field { parents, ..Field::default() };
    for _ in 0..cells {
        let low = random.below(1000) as u32;
        let high = low + 1 + random.below(1000) as u32;
        field.lows.push(low);
        field.highs.push(high);
        field.safe_lows.push(low / 2);
        field.safe_highs.push(high + 500);
        field.weights.push(random.below(100) as u32);
        field.targets.push(random.between(i64::from(low) - 300, i64::from(high) + 300) as i32);
    }
    let total = (sum(&field.lows) + 2 * sum(&field.highs)) / 3;
    (field, total as u32)
}

fn print_line(call: &str, shape: &str, cells: usize, nodes: usize, (library, second): (f64, f64)) {
    println!(
        "{call:<6} {shape:<7} {cells:>5} {nodes:>5} {library:>12.0} {second:>12.0} {:>7.2} {:>12.1} {:>12.1}",
        library / second,
        library / nodes as f64,
        second / nodes as f64
    );
}

/// A book that every step is lent as it was at first, whatever the steps record.
#[derive(Clone)]
struct Reset {
    buffer: Vec<u8>,
    length: usize,
    /// The last block as it was at first.
    block: Vec<u8>,
}

impl Reset {
    fn new(book: &Book) -> Reset {
        let mut buffer = book.bytes();
        let length = buffer.len();
        let block = buffer[length - BLOCK..].to_vec();
        buffer.resize(ROOM, 0);
        Reset { buffer, length, block }
    }

    /// The last block is the only one that a step writes, since it has a record left.
    fn lend(&mut self) -> LentBook<'_> {
        self.buffer[self.length - BLOCK..self.length].copy_from_slice(&self.block);
        LentBook { buffer: &mut self.buffer, length: self.length }
    }
}

/// Steps with source 0 and a book of so many blocks, the last half used: each one leads to the total again, so they are all accepted.
fn measure_step(random: &mut Random, field: &Field, total: u32, blocks: usize) -> (f64, f64) {
    let balance = Balance { total, scale: 0 };
    let mut kept = partition(random, total, field.targets.len());
    let (mut kept_too, lists, mut workspace) = (kept.clone(), field.lists(), Workspace::default());
    let (mut scratch, mut answer) = (vec![0; SCRATCH_PER_NODE * field.parents.len()], [0; STEP_ENTRIES]);
    let (mut scratch_too, mut answer_too) = (scratch.clone(), answer);
    let mut book = Reset::new(&book_to(random, total, (blocks - 1) * RECORDS + RECORDS / 2));
    let mut book_too = book.clone();
    let mut library = || {
        let (kept, lists, book) = (black_box(&mut kept), black_box(&lists), black_box(&mut book).lend());
        assert!(calls::step(balance, kept, 0, balance.scale, lists, &mut scratch, book, &mut answer) == 0);
    };
    let mut second = || {
        let (kept, lists, book) = (black_box(&mut kept_too), black_box(&lists), black_box(&mut book_too).lend());
        let (scratch, answer) = (&mut scratch_too, &mut answer_too);
        assert!(step_by::<SCRATCH_PER_NODE>(&mut workspace, balance, kept, 0, balance.scale, lists, scratch, book, answer).is_ok());
    };
    measure(&mut library, &mut second)
}

fn measure_file(field: &Field, total: u32) -> (f64, f64) {
    let (file, mut workspace) = (field_file(field, total), FileWorkspace::default());
    let mut answer = vec![0; answer_file_length(field.targets.len())];
    let mut answer_too = answer.clone();
    let mut library = || assert!(calls::reconstruct(black_box(&file), black_box(&mut answer)) == 0);
    let mut second = || assert!(reconstruct_file(&mut workspace, black_box(&file), black_box(&mut answer_too)).is_ok());
    measure(&mut library, &mut second)
}

fn measure_bounds(random: &mut Random, cells: usize) -> (f64, f64) {
    let mut list = |most: u32| (0..cells).map(|_| random.below(u64::from(most) + 1) as u32).collect::<Vec<u32>>();
    let (air, low_ratios, high_ratios) = (list(u32::MAX), list(WHOLE), list(WHOLE));
    let mut lent = [0; 4].map(|_| vec![0; cells]);
    let mut lent_too = lent.clone();
    let mut library = || {
        let [lows, highs, safe_lows, safe_highs] = black_box(&mut lent);
        assert!(calls::bounds(black_box(&air), &low_ratios, &high_ratios, lows, highs, safe_lows, safe_highs) == 0);
    };
    let mut second = || {
        let [lows, highs, safe_lows, safe_highs] = black_box(&mut lent_too);
        assert!(bounds(black_box(&air), &low_ratios, &high_ratios, lows, highs, safe_lows, safe_highs).is_ok());
    };
    measure(&mut library, &mut second)
}

fn main() {
    let mut random = Random::new(512);
    println!("Nanoseconds for each call; ratio is library to second implementation; the last two columns are nanoseconds for each node.");
    println!("call   tree    cells nodes      library       second   ratio library/node  second/node");
    for call in ["step", "file"] {
        for cells in [8, 64, 512] {
            for (shape, parents) in [("flat", flat(cells)), ("binary", binary(cells)), ("chain", chain(cells))] {
                let (field, total) = make_field(&mut random, parents, cells);
                let times = if call == "step" { measure_step(&mut random, &field, total, 1) } else { measure_file(&field, total) };
                print_line(call, shape, cells, field.parents.len(), times);
            }
        }
    }
    // With a long book, of which a step reads every block.
    for cells in [8, 64, 512] {
        let (field, total) = make_field(&mut random, binary(cells), cells);
        print_line("step64", "binary", cells, field.parents.len(), measure_step(&mut random, &field, total, MAX_BLOCKS));
    }
    // Without a tree the cells are all the nodes.
    for cells in [8, 64, 512] {
        print_line("bounds", "none", cells, cells, measure_bounds(&mut random, cells));
    }
}
