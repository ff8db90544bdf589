//! Bounds from mixing ratios, after ticket 8 of 02. Written from the papers alone; shares no code with the library.

use crate::operations::{check_cells, refuse, refuse_at, Refusal};

/// Ratios are in parts of this, and none is above it.
pub const WHOLE: u32 = 1048576;

// Three quantities, each a type of its own, so that none stands in another's place.

#[derive(Clone, Copy)]
struct AirMass(u32);

struct TracerMass(u32);

#[derive(Clone, Copy)]
struct Ratio(u32);

/// Air × ratio: `WHOLE` times the tracer mass before it is rounded.
fn product(air: AirMass, ratio: Ratio) -> u64 {
    u64::from(air.0) * u64::from(ratio.0)
}

// No ratio is above `WHOLE`, so neither tracer mass is above the air mass.

fn rounded_up(air: AirMass, ratio: Ratio) -> TracerMass {
    TracerMass(product(air, ratio).div_ceil(u64::from(WHOLE)) as u32)
}

fn rounded_down(air: AirMass, ratio: Ratio) -> TracerMass {
    TracerMass((product(air, ratio) / u64::from(WHOLE)) as u32)
}

/// A low above a high is none of its refusals: Reconstruct turns it down.
pub fn bounds(
    air: &[u32],
    low_ratios: &[u32],
    high_ratios: &[u32],
    lows: &mut [u32],
    highs: &mut [u32],
    safe_lows: &mut [u32],
    safe_highs: &mut [u32],
) -> Result<(), Refusal> {
    let cells = air.len();
    check_cells(cells)?;
    if [low_ratios.len(), high_ratios.len(), lows.len(), highs.len(), safe_lows.len(), safe_highs.len()] != [cells; 6] {
        return refuse(3);
    }
    if let Some(cell) = (0..cells).find(|&cell| low_ratios[cell] > WHOLE || high_ratios[cell] > WHOLE) {
        return refuse_at(18, cell);
    }
    let smallest_low = low_ratios.iter().copied().fold(WHOLE, u32::min);
    let largest_high = high_ratios.iter().copied().fold(0, u32::max);
    for cell in 0..cells {
        let air = AirMass(air[cell]);
        lows[cell] = rounded_up(air, Ratio(low_ratios[cell])).0;
        highs[cell] = rounded_down(air, Ratio(high_ratios[cell])).0;
        safe_lows[cell] = rounded_up(air, Ratio(smallest_low)).0;
        safe_highs[cell] = rounded_down(air, Ratio(largest_high)).0;
    }
    Ok(())
}
