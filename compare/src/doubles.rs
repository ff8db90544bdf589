//! Import and Export, after the section "Doubles" of 01, and Export in binary32, after ticket 5 of 02. A double is taken apart into sign,
//! whole mantissa and exponent; rounding to units is done on whole numbers, never with doubles. Written from the papers alone; shares no
//! code with the library.

use crate::operations::{check_scale, refuse, Refusal, LIMIT};

/// How a field is rounded.
#[derive(Clone, Copy, PartialEq)]
enum Rounding {
    NearestEven,
    Up,
    Down,
}

/// The fields in order: target, low, high, safe low, safe high.
const ROUNDINGS: [Rounding; 5] = [Rounding::NearestEven, Rounding::Up, Rounding::Down, Rounding::Up, Rounding::Down];

/// A finite double: its size is `mantissa` times 2^`exponent`.
struct Parts {
    negative: bool,
    mantissa: u128,
    exponent: i32,
}

/// Takes a double apart; nothing for infinities and what is not a number.
fn take_apart(double: f64) -> Option<Parts> {
    let bits = double.to_bits();
    let fraction = u128::from(bits & ((1 << 52) - 1));
    let field = ((bits >> 52) & 0x7ff) as i32;
    let negative = bits >> 63 == 1;
    match field {
        0x7ff => None,
        0 => Some(Parts { negative, mantissa: fraction, exponent: -1074 }),
        _ => Some(Parts { negative, mantissa: fraction | 1 << 52, exponent: field - 1075 }),
    }
}

/// The whole number and whether a remainder is less than, equal to or more than a half (-1, 0, 1), or there is none.
fn shift_right(mantissa: u128, places: u32) -> (i128, Option<i32>) {
    // A mantissa has at most 53 bits: past 100 places only a remainder far under a half is left, as there.
    let places = places.min(100);
    let whole = (mantissa >> places) as i128;
    let rest = mantissa & ((1 << places) - 1);
    if rest == 0 {
        return (whole, None);
    }
    let half = 1 << (places - 1);
    (whole, Some(rest.cmp(&half) as i32))
}

/// The double times 2^scale, rounded. Sizes over 2^100 are given as 2^100: they are out of every range.
fn round(parts: &Parts, scale: u32, rounding: Rounding) -> i128 {
    let exponent = parts.exponent + scale as i32;
    let (whole, rest) = if parts.mantissa == 0 {
        (0, None)
    } else if exponent > 40 {
        (1 << 100, None)
    } else if exponent >= 0 {
        ((parts.mantissa << exponent) as i128, None)
    } else {
        shift_right(parts.mantissa, (-exponent) as u32)
    };
    let away = match (rounding, rest) {
        (_, None) => false,
        (Rounding::NearestEven, Some(half)) => half > 0 || (half == 0 && whole % 2 == 1),
        (Rounding::Up, Some(_)) => !parts.negative,
        (Rounding::Down, Some(_)) => parts.negative,
    };
    let size = whole + i128::from(away);
    if parts.negative {
        -size
    } else {
        size
    }
}

/// A refusal of Import. One for a field carries the field's double as it came; the one for the scale carries none.
#[derive(Clone, Copy, Debug)]
pub struct ImportRefusal {
    pub refusal: Refusal,
    pub double: Option<f64>,
}

/// Returns the units, field by field.
pub fn import(doubles: [f64; 5], scale: u32) -> Result<[i64; 5], ImportRefusal> {
    check_scale(scale).map_err(|refusal| ImportRefusal { refusal, double: None })?;
    let mut units = [0; 5];
    for (field, &double) in doubles.iter().enumerate() {
        let refused = |number| ImportRefusal { refusal: Refusal { number, place: field as u32 }, double: Some(double) };
        let parts = take_apart(double).ok_or(refused(10))?;
        let unit = round(&parts, scale, ROUNDINGS[field]);
        let least = if field == 0 { -2147483648 } else { 0 };
        if unit < least || unit > i128::from(LIMIT) {
            return Err(refused(11));
        }
        units[field] = unit as i64;
    }
    Ok(units)
}

/// The double that is exactly mass times 2^-scale, put together from its bits.
fn put_together(mass: u32, scale: u32) -> f64 {
    if mass == 0 {
        return f64::from_bits(0);
    }
    let highest = 31 - mass.leading_zeros();
    let field = u64::from(1023 + highest - scale);
    let fraction = (u64::from(mass) << (52 - highest)) & ((1 << 52) - 1);
    f64::from_bits(field << 52 | fraction)
}

fn check_export(mass: u32, scale: u32) -> Result<(), Refusal> {
    check_scale(scale)?;
    if u64::from(mass) > LIMIT {
        return refuse(11);
    }
    Ok(())
}

pub fn export(mass: u32, scale: u32) -> Result<f64, Refusal> {
    check_export(mass, scale)?;
    Ok(put_together(mass, scale))
}

/// The binary32 nearest to a double from 0 up to the largest binary32, ties to even: found among all patterns with the sign plus, which are
/// in the order of their values. For a double with no more digits than a mass has, both distances are exact.
fn nearest_single(double: f64) -> f32 {
    let value = |pattern| f64::from(f32::from_bits(pattern));
    let (mut below, mut above) = (0, f32::INFINITY.to_bits());
    while above - below > 1 {
        let middle = below + (above - below) / 2;
        if value(middle) <= double {
            below = middle;
        } else {
            above = middle;
        }
    }
    let (down, up) = (double - value(below), value(above) - double);
    let even = if below % 2 == 0 { below } else { above };
    f32::from_bits(if down < up {
        below
    } else if up < down {
        above
    } else {
        even
    })
}

pub fn export_single(mass: u32, scale: u32) -> Result<f32, Refusal> {
    check_export(mass, scale)?;
    Ok(nearest_single(put_together(mass, scale)))
}
