//! Bounds from mixing ratios, after ticket 8 of 02, through the calls from C and compared with the second implementation: the conversion
//! alone, fields with its bounds, and the ticket's consistency of fields with one ratio.

use crate::calls;
use crate::check_calls::{any_bits, breaks, compare_step, make_step, stretch, wrong_count};
use crate::check_files::repaired_by_files;
use crate::from_c::returned;
use crate::operations::{Refusal, LIMIT};
use crate::random::{self, Random};
use crate::ratios::{bounds, WHOLE};
use crate::tally::Tally;
use crate::tree::{sum, Field, Workspace};

// ---- the conversion ----

/// Lows, highs, safe lows and safe highs.
type Bounds = [Vec<u32>; 4];

#[derive(Clone, Debug)]
struct BoundsCall {
    air: Vec<u32>,
    low_ratios: Vec<u32>,
    high_ratios: Vec<u32>,
    /// The lent lists before the call.
    lent: Bounds,
}

impl BoundsCall {
    /// With lent lists of as many entries as there are air masses.
    fn new(random: &mut Random, air: Vec<u32>, low_ratios: Vec<u32>, high_ratios: Vec<u32>) -> BoundsCall {
        let lent = [0; 4].map(|_| any_bits(random, air.len(), |bits| bits as u32));
        BoundsCall { air, low_ratios, high_ratios, lent }
    }
}

/// Runs both sides; returns what the second implementation gives, and the library's lists.
fn compare_bounds(tally: &mut Tally, call: &BoundsCall) -> (Result<(), Refusal>, Bounds) {
    let BoundsCall { air, low_ratios, high_ratios, lent } = call;
    let (mut mine, mut theirs) = (lent.clone(), lent.clone());
    let [lows, highs, safe_lows, safe_highs] = &mut mine;
    let result = bounds(air, low_ratios, high_ratios, lows, highs, safe_lows, safe_highs);
    let expected = returned(result);
    let [lows, highs, safe_lows, safe_highs] = &mut theirs;
    let got = calls::bounds(air, low_ratios, high_ratios, lows, highs, safe_lows, safe_highs);
    tally.input((expected, &mine) == (got, &theirs), || {
        format!("bounds {call:?}: second implementation {expected:#x} {mine:?}, library {got:#x} {theirs:?}")
    });
    (result, theirs)
}

/// Air masses; those next to multiples of 1048576 give remainders of 1 and 1048575 with some ratios.
fn make_air(random: &mut Random, cells: usize) -> Vec<u32> {
    let style = random.below(5);
    let mut air = || match style {
        0 => random.pick(&[0, 1, u32::MAX - 1, u32::MAX]),
        1 => random.below(1000) as u32,
        2 => (random.below(4096) as u32 * WHOLE).wrapping_add(random.between(-1, 1) as u32),
        3 => (random.bits() as u32) << random.below(32),
        _ => random.bits() as u32,
    };
    (0..cells).map(|_| air()).collect()
}

fn sound_ratio(random: &mut Random) -> u32 {
    random.below(u64::from(WHOLE) + 1) as u32
}

/// Ratios in range; sometimes all cells have the same one.
fn make_ratios(random: &mut Random, cells: usize) -> Vec<u32> {
    let (style, same) = (random.below(4), random.chance(25));
    let mut ratio = || match style {
        0 => random.below(4) as u32,
        1 => random.pick(&[0, 1, WHOLE - 1, WHOLE]),
        2 => WHOLE >> random.below(21),
        _ => sound_ratio(random),
    };
    if same {
        vec![ratio(); cells]
    } else {
        (0..cells).map(|_| ratio()).collect()
    }
}

fn wrong_ratio(random: &mut Random) -> u32 {
    let any = random.between(i64::from(WHOLE) + 1, i64::from(u32::MAX)) as u32;
    random.pick(&[WHOLE + 1, WHOLE + 1, 2 * WHOLE, 1 << 31, u32::MAX, any])
}

/// Gives one list another length, all lists a length that may be wrong, or some cells ratios out of range.
fn break_bounds(random: &mut Random, call: &mut BoundsCall) {
    let BoundsCall { air, low_ratios, high_ratios, lent: [lows, highs, safe_lows, safe_highs] } = call;
    let lists = [air, low_ratios, high_ratios, lows, highs, safe_lows, safe_highs];
    match random.below(8) {
        0..=3 => {
            let (list, filler) = (random.index(lists.len()), sound_ratio(random));
            stretch(random, lists[list], filler);
        }
        4 => {
            let length = wrong_count(random);
            for list in lists {
                list.resize(length, 0);
            }
        }
        _ => {
            for _ in 0..1 + random.below(3) {
                let (list, ratio) = (random.between(1, 2) as usize, wrong_ratio(random));
                random::break_list(random, lists[list], ratio);
            }
        }
    }
}

/// A conversion; of its ratios the high ones are the low ones, or not below them, or any. Sometimes it is broken.
fn make_conversion(random: &mut Random) -> BoundsCall {
    let cells = random::cell_count(random);
    let (air, low_ratios) = (make_air(random, cells), make_ratios(random, cells));
    let mut high_ratios = make_ratios(random, cells);
    match random.below(4) {
        0 => high_ratios.clone_from(&low_ratios),
        1 | 2 => high_ratios.iter_mut().zip(&low_ratios).for_each(|(high, &low)| *high = low.max(*high)),
        _ => {}
    }
    let mut call = BoundsCall::new(random, air, low_ratios, high_ratios);
    for _ in 0..breaks(random) {
        break_bounds(random, &mut call);
    }
    call
}

/// 1048576 times a mass, and the product that it is rounded from.
fn unrounded(mass: u32, air: u32, ratio: u32) -> (i64, i64) {
    (i64::from(mass) * i64::from(WHOLE), i64::from(air) * i64::from(ratio))
}

/// The mass is not under the product, and one less would be.
fn is_rounded_up(mass: u32, air: u32, ratio: u32) -> bool {
    let (parts, product) = unrounded(mass, air, ratio);
    parts >= product && parts - i64::from(WHOLE) < product
}

/// The mass is not over the product, and one more would be.
fn is_rounded_down(mass: u32, air: u32, ratio: u32) -> bool {
    let (parts, product) = unrounded(mass, air, ratio);
    parts <= product && parts + i64::from(WHOLE) > product
}

/// Whether bounds are what the ticket says of a call that is accepted.
fn are_bounds(call: &BoundsCall, [lows, highs, safe_lows, safe_highs]: &Bounds) -> bool {
    let BoundsCall { air, low_ratios, high_ratios, .. } = call;
    let (Some(&smallest_low), Some(&largest_high)) = (low_ratios.iter().min(), high_ratios.iter().max()) else {
        return false;
    };
    (0..air.len()).all(|cell| {
        is_rounded_up(lows[cell], air[cell], low_ratios[cell])
            && is_rounded_down(highs[cell], air[cell], high_ratios[cell])
            && is_rounded_up(safe_lows[cell], air[cell], smallest_low)
            && is_rounded_down(safe_highs[cell], air[cell], largest_high)
    })
}

/// How often conversions have met what they must.
#[derive(Default)]
struct Met {
    /// Products other than 0 that divide evenly.
    even: u64,
    /// Products that do not.
    uneven: u64,
    /// Lows above highs.
    crossed: u64,
    /// Those of one ratio, so by the rounding alone.
    crossed_by_rounding: u64,
    /// Refusals with 3 for one list alone, list by list: shorter than the air masses, and longer.
    lengths: [[u64; 2]; 6],
}

impl Met {
    fn count_bounds(&mut self, call: &BoundsCall, [lows, highs, ..]: &Bounds) {
        for cell in 0..call.air.len() {
            let (low_ratio, crossed) = (call.low_ratios[cell], lows[cell] > highs[cell]);
            let product = u64::from(call.air[cell]) * u64::from(low_ratio);
            let even = product % u64::from(WHOLE) == 0;
            self.even += u64::from(even && product > 0);
            self.uneven += u64::from(!even);
            self.crossed += u64::from(crossed);
            self.crossed_by_rounding += u64::from(crossed && low_ratio == call.high_ratios[cell]);
        }
    }

    fn count_lengths(&mut self, call: &BoundsCall) {
        let [lows, highs, safe_lows, safe_highs] = &call.lent;
        let lists = [&call.low_ratios, &call.high_ratios, lows, highs, safe_lows, safe_highs];
        let orders = lists.map(|list| list.len().cmp(&call.air.len()));
        if orders.iter().filter(|order| order.is_ne()).count() == 1 {
            for (counts, order) in self.lengths.iter_mut().zip(orders) {
                counts[0] += u64::from(order.is_lt());
                counts[1] += u64::from(order.is_gt());
            }
        }
    }

    fn look_for(&self, tally: &mut Tally) {
        tally.must_occur("bounds: a product that divides evenly", self.even);
        tally.must_occur("bounds: a product that does not divide evenly", self.uneven);
        tally.must_occur("bounds: a low above its high", self.crossed);
        tally.must_occur("bounds: a low above its high, of one ratio", self.crossed_by_rounding);
        for (list, [shorter, longer]) in self.lengths.iter().enumerate() {
            tally.must_occur(&format!("bounds: list {list} after the air masses alone shorter"), *shorter);
            tally.must_occur(&format!("bounds: list {list} after the air masses alone longer"), *longer);
        }
    }
}

/// Conversions, sound and broken. What is accepted is also looked at by the meaning of its roundings; what is refused writes to no list.
pub fn conversions(tally: &mut Tally, random: &mut Random, count: u64) {
    let mut met = Met::default();
    for _ in 0..count {
        let call = make_conversion(random);
        let (result, exit) = compare_bounds(tally, &call);
        tally.answer(&result);
        let as_told = if result.is_ok() { are_bounds(&call, &exit) } else { exit == call.lent };
        if !as_told {
            tally.difference(format!("bounds {call:?}: {result:?}, and the library's lists are {exit:?}"));
        }
        match result {
            Ok(()) => met.count_bounds(&call, &exit),
            Err(Refusal { number: 3, .. }) => met.count_lengths(&call),
            Err(_) => {}
        }
    }
    met.look_for(tally);
}

// ---- fields with bounds from ratios ----

/// The library's bounds for lists and ratios that pass every check.
fn sound_bounds(tally: &mut Tally, call: &BoundsCall) -> Bounds {
    let (result, exit) = compare_bounds(tally, call);
    result.expect("lists and ratios that pass");
    exit
}

/// Whether no whole mass lies between the ratios' shares of the air.
fn crosses(air: u32, low_ratio: u32, high_ratio: u32) -> bool {
    let product = |ratio: u32| u64::from(air) * u64::from(ratio);
    product(high_ratio) / u64::from(WHOLE) * u64::from(WHOLE) < product(low_ratio)
}

/// Two numbers from `least` to `most`, the smaller one first.
fn two_between(random: &mut Random, least: u32, most: u32) -> (u32, u32) {
    let [one, other] = [0; 2].map(|_| random.between(i64::from(least), i64::from(most)) as u32);
    (one.min(other), one.max(other))
}

/// Air and ratios of a field, all ratios in one part of the range. A cell whose bounds would cross has no air; but sometimes such cells
/// stay as they are, and sometimes a cell's ratios are exchanged. Only with much air may the safe highs pass the limit.
fn make_field_bounds(random: &mut Random) -> BoundsCall {
    let cells = random::cell_count(random);
    let even = LIMIT / cells as u64;
    let most_air = random.pick(&[20, 1000, even, even, even, even, 2 * even, u64::from(u32::MAX)]);
    let (least, most) = two_between(random, 0, WHOLE);
    let mut air: Vec<u32> = (0..cells).map(|_| random.below(most_air + 1) as u32).collect();
    let (mut low_ratios, mut high_ratios): (Vec<u32>, Vec<u32>) = (0..cells).map(|_| two_between(random, least, most)).unzip();
    match random.below(12) {
        0 => {}
        1 => {
            let cell = random.index(cells);
            std::mem::swap(&mut low_ratios[cell], &mut high_ratios[cell]);
        }
        _ => {
            for (cell, air) in air.iter_mut().enumerate() {
                if crosses(*air, low_ratios[cell], high_ratios[cell]) {
                    *air = 0;
                }
            }
        }
    }
    BoundsCall::new(random, air, low_ratios, high_ratios)
}

/// A field with these bounds, which may cross.
fn field_within(random: &mut Random, [lows, highs, safe_lows, safe_highs]: Bounds) -> Field {
    let (cells, style) = (lows.len(), random.below(8).min(5));
    let targets = lows.iter().zip(&highs).map(|(&low, &high)| random::target(random, style, low.min(high), low.max(high))).collect();
    let (weights, parents) = (random::weights(random, cells), random::tree(random, cells));
    Field { targets, lows, highs, safe_lows, safe_highs, weights, parents }
}

/// Conversions, and then steps of fields with what they gave.
pub fn fields(tally: &mut Tally, random: &mut Random, count: u64) {
    let mut workspace = Workspace::default();
    for _ in 0..count {
        let call = make_field_bounds(random);
        let field = field_within(random, sound_bounds(tally, &call));
        let wanted = random::total(random, &field);
        let call = make_step(random, field, wanted);
        compare_step(tally, &mut workspace, &call);
    }
}

// ---- fields with one ratio ----

/// A ratio, and air masses whose products with it divide evenly; the masses add up to the limit at most, sometimes to the limit itself.
fn make_uniform(random: &mut Random) -> (Vec<u32>, u32) {
    let twos = random.below(21);
    let any = ((random.below(u64::from(WHOLE) >> twos) + 1) << twos) as u32;
    let ratio = random.pick(&[0, WHOLE, WHOLE / 2, any, any, any, any, any]);
    // The least air whose product divides evenly, and its mass.
    let unit = WHOLE >> ratio.trailing_zeros().min(20);
    let mass = u64::from(unit) * u64::from(ratio) / u64::from(WHOLE);
    let (cells, most_in_cell) = (random::cell_count(random), u32::MAX / unit);
    let most = (LIMIT / mass.max(1)).min(cells as u64 * u64::from(most_in_cell));
    let units = if random.chance(30) { most } else { random.below(most + 1) >> random.below(32) };
    let parts = random::partition(random, units as u32, cells);
    (parts.into_iter().map(|part| part.min(most_in_cell) * unit).collect(), ratio)
}

/// The field of the ratio: its bounds come from the library, its targets are any.
fn uniform_field(tally: &mut Tally, random: &mut Random, air: &[u32], ratio: u32) -> Field {
    let cells = air.len();
    let call = BoundsCall::new(random, air.to_vec(), vec![ratio; cells], vec![ratio; cells]);
    let [lows, highs, safe_lows, safe_highs] = sound_bounds(tally, &call);
    let (weights, parents) = (random::weights(random, cells), random::tree(random, cells));
    Field { targets: any_bits(random, cells, |bits| bits as i32), lows, highs, safe_lows, safe_highs, weights, parents }
}

/// Whether each mass is its cell's air times the ratio.
fn is_uniform(air: &[u32], ratio: u32, masses: &[u32]) -> bool {
    air.iter().zip(masses).all(|(&air, &mass)| {
        let (parts, product) = unrounded(mass, air, ratio);
        parts == product
    })
}

/// The ticket's consistency, by a step and by files: each mass is its cell's air times the ratio. With another total than theirs the field
/// is refused with 8.
pub fn consistency(tally: &mut Tally, random: &mut Random, count: u64) {
    let (mut workspace, mut at_limit) = (Workspace::default(), 0);
    for _ in 0..count {
        let (air, ratio) = make_uniform(random);
        let field = uniform_field(tally, random, &air, ratio);
        let total = (sum(&air) * u64::from(ratio) / u64::from(WHOLE)) as i64;
        let any = random.between(0, LIMIT as i64);
        let other = random.pick(&[total - 1, total + 1, any]).clamp(0, LIMIT as i64);
        let wanted = if random.chance(80) { total } else { other };
        at_limit += u64::from(wanted == total && total == LIMIT as i64);
        let is_consistent = |result: &Result<Vec<u32>, u32>| match result {
            Ok(masses) => wanted == total && is_uniform(&air, ratio, masses),
            Err(number) => wanted != total && *number == 8,
        };
        let by_files = repaired_by_files(&field, wanted as u32).map(|(_, masses)| masses);
        tally.input(is_consistent(&by_files), || format!("air {air:?} ratio {ratio}, files of {field:?}, M {wanted}: {by_files:?}"));
        let call = make_step(random, field, wanted as u32);
        let (_, exit) = compare_step(tally, &mut workspace, &call);
        let by_step = if exit.returned == 0 { Ok(exit.kept) } else { Err(exit.returned as u32) };
        if !is_consistent(&by_step) {
            tally.difference(format!("air {air:?} ratio {ratio}, step {call:?}: {by_step:?}"));
        }
    }
    tally.must_occur("consistency: a total at the limit", at_limit);
}
