//! How far mass drifts towards high cell numbers under the library's rounding: two years of half-hour steps of symmetric fields, flat trees
//! of two to eight cells and a binary tree of eight. All cells are alike: they begin with one mass, have one low, one high and one weight,
//! and each step's targets are the masses that the last one left. So nothing but the rounding of shares prefers one cell to another. The
//! book goes along and is replaced when it is full; what its report tells must be what the steps had.

use compare::book::{fresh_book, LentBook, MAX_BLOCKS, RECORDS, ROOM};
use compare::calls;
use compare::from_c::STEP_ENTRIES;
use compare::operations::{Balance, LIMIT, SCRATCH_PER_NODE};
use compare::random::{binary, flat, Random};
use compare::tree::Field;

/// Two years of 365 days.
const STEPS: u64 = 2 * 365 * 48;

/// The least and the most source of a step; every number between them is as likely.
const SOURCES: [(i64, i64); 3] = [(0, 9), (-9, 0), (-9, 9)];

/// The masses' moment about the middle of the cell numbers: how many units stand how many cells above it. Below 0, mass leans towards low
/// cell numbers.
fn moment(masses: &[u32]) -> f64 {
    let middle = (masses.len() - 1) as f64 / 2.0;
    masses.iter().enumerate().map(|(cell, &mass)| (cell as f64 - middle) * f64::from(mass)).sum()
}

/// A book and what it must hold by the steps so far.
struct Volume {
    buffer: Vec<u8>,
    length: usize,
    opening: i64,
    inflow: i64,
    outflow: i64,
    records: usize,
}

impl Volume {
    fn start(total: u32) -> Volume {
        let (buffer, length) = fresh_book(total);
        Volume { buffer, length, opening: i64::from(total), inflow: 0, outflow: 0, records: 0 }
    }

    fn lend(&mut self) -> LentBook<'_> {
        LentBook { buffer: &mut self.buffer, length: self.length }
    }

    /// Counts an accepted step. A full book is looked at and replaced.
    fn record(&mut self, source: i32, length: u64) {
        self.inflow += i64::from(source).max(0);
        self.outflow -= i64::from(source).min(0);
        (self.records, self.length) = (self.records + 1, length as usize);
        if self.records == MAX_BLOCKS * RECORDS {
            self.check();
            self.replace();
        }
    }

    fn closing(&self) -> i64 {
        self.opening + self.inflow - self.outflow
    }

    /// The library's report tells what the steps had.
    fn check(&self) {
        let mut answer = [0; 4];
        let returned = calls::book_report(&self.buffer[..self.length], &mut answer);
        let wanted = [self.opening, self.inflow, self.outflow, self.closing()].map(|number| number as u64);
        assert_eq!((returned, answer), (0, wanted), "a report is wrong");
    }

    /// The library starts the next book in the same buffer.
    fn replace(&mut self) {
        let (closing, mut answer) = (self.closing(), [0]);
        assert_eq!(self.length, ROOM, "a full book is shorter");
        assert_eq!(calls::book_start(closing as u32, &mut self.buffer, &mut answer), 0, "a book was not started");
        (self.length, self.opening, self.inflow, self.outflow, self.records) = (answer[0] as usize, closing, 0, 0, 0);
    }
}

/// The moment after the last step, and the largest after any of them, by its size.
fn drift(parents: &[u32], cells: usize, weight: u32, (least, most): (i64, i64)) -> (f64, f64) {
    let high = LIMIT as u32 / cells as u32;
    let mut kept = vec![high / 2; cells];
    let mut balance = Balance { total: high / 2 * cells as u32, scale: 0 };
    let mut field = Field::filled(cells, 0, 0);
    field.parents = parents.to_vec();
    (field.highs, field.safe_highs, field.weights) = (vec![high; cells], vec![high; cells], vec![weight; cells]);
    let (mut scratch, mut answer) = (vec![0; SCRATCH_PER_NODE * parents.len()], [0; STEP_ENTRIES]);
    let (mut random, mut largest, mut volume) = (Random::new(2), 0.0_f64, Volume::start(balance.total));
    for _ in 0..STEPS {
        field.targets = kept.iter().map(|&mass| mass as i32).collect();
        let source = random.between(least, most) as i32;
        let lists = field.lists();
        let returned = calls::step(balance, &mut kept, source, balance.scale, &lists, &mut scratch, volume.lend(), &mut answer);
        assert_eq!(returned, 0, "a step was refused");
        balance.total = answer[1] as u32;
        volume.record(source, answer[4]);
        largest = largest.max(moment(&kept).abs());
    }
    volume.check();
    (moment(&kept), largest)
}

fn main() {
    println!("Moment of the masses about the middle cell number, units x cells, after {STEPS} steps; in brackets the largest on the way.");
    print!("tree    cells weight");
    for (least, most) in SOURCES {
        print!(" {:>21}", format!("sources {least} to {most}"));
    }
    println!();
    let mut trees: Vec<(&str, usize, Vec<u32>)> = (2..=8).map(|cells| ("flat", cells, flat(cells))).collect();
    trees.push(("binary", 8, binary(8)));
    for weight in [0, 1] {
        for (shape, cells, parents) in &trees {
            print!("{shape:<7} {cells:>5} {weight:>6}");
            for sources in SOURCES {
                let (last, largest) = drift(parents, *cells, weight, sources);
                print!(" {:>21}", format!("{last:.1} ({largest:.1})"));
            }
            println!();
        }
    }
}
