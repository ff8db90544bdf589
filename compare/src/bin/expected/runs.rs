//! Lists that the input of a test program gives in runs: a count and a number that stands that many times, until the list is full. A count
//! below 1 is taken as 1; the last run may have more than the list takes. A number beyond the range of its list is taken as the end of the
//! range.

use compare::numbers::Numbers;

fn list(numbers: &mut Numbers, length: usize, least: i64, most: i64) -> Vec<i64> {
    let mut list = Vec::new();
    while list.len() < length {
        let (count, value) = (numbers.signed().max(1), numbers.signed());
        let left = (length - list.len()) as i64;
        list.extend((0..count.min(left)).map(|_| value.clamp(least, most)));
    }
    list
}

pub fn words(numbers: &mut Numbers, length: usize) -> Vec<u32> {
    list(numbers, length, 0, i64::from(u32::MAX)).into_iter().map(|value| value as u32).collect()
}

pub fn targets(numbers: &mut Numbers, length: usize) -> Vec<i32> {
    list(numbers, length, i64::from(i32::MIN), i64::from(i32::MAX)).into_iter().map(|value| value as i32).collect()
}
