//! One split of a total among items, after the section "One split" of 01, steps 1 to 5, and tickets 2 and 3 of 02. Written from the papers
//! alone; shares no code with the library.
//!
//! Once an operation's checks have passed, highs and weights each add up to at most 2147483647 and the total lies between the sums of the
//! lows and the highs. Every product below is then at most 2147483647^2, and twice that plus 2147483647 is under 2^63, so 64 bits are
//! enough. Targets may be any 64-bit numbers: they are only compared.

/// An item of a split. `mass` is the result.
#[derive(Clone, Copy, Default)]
pub struct Item {
    pub target: i64,
    pub low: i64,
    pub high: i64,
    pub weight: i64,
    pub mass: i64,
}

/// Gives each item its mass. Returns d, signed. `watch` is shown the items three times: clipped, with their first shares, and with both.
pub fn share_out(items: &mut [Item], total: i64, mut watch: impl FnMut(&[Item])) -> i64 {
    let difference = total - clip(items);
    watch(items);
    if difference < 0 {
        both_passes(items, -difference, -1, watch);
    } else {
        both_passes(items, difference, 1, watch);
    }
    difference
}

/// Steps 3 and 4 for d of this size and sign.
fn both_passes(items: &mut [Item], size: i64, sign: i64, mut watch: impl FnMut(&[Item])) {
    let left = by_weights(items, size, sign);
    watch(items);
    by_capacities(items, left, sign);
    watch(items);
}

/// Step 1: every mass is the clipped target. Returns their sum.
fn clip(items: &mut [Item]) -> i64 {
    let mut sum = 0;
    for item in items.iter_mut() {
        item.mass = if item.target < item.low {
            item.low
        } else if item.target > item.high {
            item.high
        } else {
            item.target
        };
        sum += item.mass;
    }
    sum
}

/// Step 2: how far the item's mass can still move in the direction of `sign`.
fn capacity(item: &Item, sign: i64) -> i64 {
    if sign > 0 {
        item.high - item.mass
    } else {
        item.mass - item.low
    }
}

/// The rounded quotient of both passes, after ticket 3 of 02.
pub fn rounded(a: i64, b: i64) -> i64 {
    (2 * a + b) / (2 * b)
}

/// Step 3: shares `size` out by weights and returns what is left of it.
fn by_weights(items: &mut [Item], size: i64, sign: i64) -> i64 {
    if size == 0 {
        return 0;
    }
    let weights: i64 = items.iter().map(|item| item.weight).sum();
    if weights == 0 {
        return size;
    }
    let (mut left, mut upto, mut given) = (size, 0, 0);
    for item in items.iter_mut() {
        upto += item.weight;
        let now = rounded(size * upto, weights);
        let share = capacity(item, sign).min(now - given);
        given = now;
        item.mass += sign * share;
        left -= share;
    }
    left
}

/// Step 4: shares `size` out by the capacities that are left.
fn by_capacities(items: &mut [Item], size: i64, sign: i64) {
    if size == 0 {
        return;
    }
    let capacities: i64 = items.iter().map(|item| capacity(item, sign)).sum();
    let (mut upto, mut given) = (0, 0);
    for item in items.iter_mut() {
        upto += capacity(item, sign);
        let now = rounded(size * upto, capacities);
        item.mass += sign * (now - given);
        given = now;
    }
}
