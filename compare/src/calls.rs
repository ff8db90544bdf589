//! The calls from C of the proved library, as `legzhuro.h` declares them, and safe wrappers: a slice goes as its pointer and its length.

use crate::book::LentBook;
use crate::operations::Balance;
use crate::tree::Lists;

#[link(name = "legzhuro_c", kind = "static")]
extern "C" {
    fn legzhuro_reconstruct(file: *const u8, file_len: usize, answer: *mut u8, answer_len: usize) -> u32;
    fn legzhuro_split(
        targets: *const i64,
        targets_len: usize,
        lows: *const i64,
        lows_len: usize,
        highs: *const i64,
        highs_len: usize,
        weights: *const i64,
        weights_len: usize,
        total: i64,
        masses: *mut i64,
        masses_len: usize,
        deficit: *mut i64,
        deficit_len: usize,
    ) -> u64;
    fn legzhuro_open(kept: *const u32, kept_len: usize, scale: u32, answer: *mut u64, answer_len: usize) -> u64;
    fn legzhuro_step(
        total: u32,
        total_scale: u32,
        kept: *mut u32,
        kept_len: usize,
        source: i32,
        scale: u32,
        targets: *const i32,
        targets_len: usize,
        lows: *const u32,
        lows_len: usize,
        highs: *const u32,
        highs_len: usize,
        safe_lows: *const u32,
        safe_lows_len: usize,
        safe_highs: *const u32,
        safe_highs_len: usize,
        weights: *const u32,
        weights_len: usize,
        parents: *const u32,
        parents_len: usize,
        scratch: *mut i64,
        scratch_len: usize,
        book: *mut u8,
        book_room: usize,
        book_length: usize,
        answer: *mut u64,
        answer_len: usize,
    ) -> u64;
    fn legzhuro_import(
        target: f64,
        low: f64,
        high: f64,
        safe_low: f64,
        safe_high: f64,
        scale: u32,
        units: *mut i64,
        units_len: usize,
    ) -> u64;
    fn legzhuro_export(mass: u32, scale: u32, value: *mut f64, value_len: usize) -> u64;
    fn legzhuro_export_single(mass: u32, scale: u32, value: *mut f32, value_len: usize) -> u64;
    fn legzhuro_write_field(
        cells: usize,
        nodes: usize,
        total: u32,
        targets: *const i32,
        targets_len: usize,
        lows: *const u32,
        lows_len: usize,
        highs: *const u32,
        highs_len: usize,
        safe_lows: *const u32,
        safe_lows_len: usize,
        safe_highs: *const u32,
        safe_highs_len: usize,
        weights: *const u32,
        weights_len: usize,
        parents: *const u32,
        parents_len: usize,
        buffer: *mut u8,
        buffer_len: usize,
    ) -> u64;
    fn legzhuro_read_answer(
        file: *const u8,
        file_len: usize,
        masses: *mut u32,
        masses_len: usize,
        answer: *mut u64,
        answer_len: usize,
    ) -> u64;
    fn legzhuro_bounds(
        air: *const u32,
        air_len: usize,
        low_ratios: *const u32,
        low_ratios_len: usize,
        high_ratios: *const u32,
        high_ratios_len: usize,
        lows: *mut u32,
        lows_len: usize,
        highs: *mut u32,
        highs_len: usize,
        safe_lows: *mut u32,
        safe_lows_len: usize,
        safe_highs: *mut u32,
        safe_highs_len: usize,
    ) -> u64;
    fn legzhuro_family_start(cap: u64, scale: u32, cells: u32, family: *mut u64, family_len: usize) -> u64;
    fn legzhuro_family_open(
        family: *mut u64,
        family_len: usize,
        member: u32,
        kept: *const u32,
        kept_len: usize,
        scale: u32,
        answer: *mut u64,
        answer_len: usize,
    ) -> u64;
    fn legzhuro_family_step(
        family: *mut u64,
        family_len: usize,
        member: u32,
        kept: *mut u32,
        kept_len: usize,
        source: i32,
        scale: u32,
        targets: *const i32,
        targets_len: usize,
        lows: *const u32,
        lows_len: usize,
        highs: *const u32,
        highs_len: usize,
        safe_lows: *const u32,
        safe_lows_len: usize,
        safe_highs: *const u32,
        safe_highs_len: usize,
        weights: *const u32,
        weights_len: usize,
        parents: *const u32,
        parents_len: usize,
        scratch: *mut i64,
        scratch_len: usize,
        book: *mut u8,
        book_room: usize,
        book_length: usize,
        answer: *mut u64,
        answer_len: usize,
    ) -> u64;
    fn legzhuro_family_register(family: *mut u64, family_len: usize, member: u32) -> u64;
    fn legzhuro_family_next(family: *const u64, family_len: usize, answer: *mut u64, answer_len: usize) -> u64;
    fn legzhuro_family_waiting(family: *const u64, family_len: usize, answer: *mut u64, answer_len: usize) -> u64;
    fn legzhuro_family_turn(
        family: *mut u64,
        family_len: usize,
        kept: *mut u32,
        kept_len: usize,
        source: i32,
        scale: u32,
        targets: *const i32,
        targets_len: usize,
        lows: *const u32,
        lows_len: usize,
        highs: *const u32,
        highs_len: usize,
        safe_lows: *const u32,
        safe_lows_len: usize,
        safe_highs: *const u32,
        safe_highs_len: usize,
        weights: *const u32,
        weights_len: usize,
        parents: *const u32,
        parents_len: usize,
        scratch: *mut i64,
        scratch_len: usize,
        book: *mut u8,
        book_room: usize,
        book_length: usize,
        answer: *mut u64,
        answer_len: usize,
    ) -> u64;
    fn legzhuro_book_start(total: u32, buffer: *mut u8, buffer_len: usize, answer: *mut u64, answer_len: usize) -> u64;
    fn legzhuro_book_report(file: *const u8, file_len: usize, answer: *mut u64, answer_len: usize) -> u64;
}

// Safety of every wrapper: the pointers and lengths are those of slices, so they are valid, aligned and not null, and exclusive borrows
// overlap nothing.

pub fn reconstruct(file: &[u8], answer: &mut [u8]) -> u32 {
    unsafe { legzhuro_reconstruct(file.as_ptr(), file.len(), answer.as_mut_ptr(), answer.len()) }
}

pub fn split(targets: &[i64], lows: &[i64], highs: &[i64], weights: &[i64], total: i64, masses: &mut [i64], deficit: &mut [i64]) -> u64 {
    unsafe {
        legzhuro_split(
            targets.as_ptr(),
            targets.len(),
            lows.as_ptr(),
            lows.len(),
            highs.as_ptr(),
            highs.len(),
            weights.as_ptr(),
            weights.len(),
            total,
            masses.as_mut_ptr(),
            masses.len(),
            deficit.as_mut_ptr(),
            deficit.len(),
        )
    }
}

pub fn open(kept: &[u32], scale: u32, answer: &mut [u64]) -> u64 {
    unsafe { legzhuro_open(kept.as_ptr(), kept.len(), scale, answer.as_mut_ptr(), answer.len()) }
}

#[allow(clippy::too_many_arguments)] // those of the call
pub fn step(
    balance: Balance,
    kept: &mut [u32],
    source: i32,
    scale: u32,
    lists: &Lists,
    scratch: &mut [i64],
    book: LentBook,
    answer: &mut [u64],
) -> u64 {
    unsafe {
        legzhuro_step(
            balance.total,
            balance.scale,
            kept.as_mut_ptr(),
            kept.len(),
            source,
            scale,
            lists.targets.as_ptr(),
            lists.targets.len(),
            lists.lows.as_ptr(),
            lists.lows.len(),
            lists.highs.as_ptr(),
            lists.highs.len(),
            lists.safe_lows.as_ptr(),
            lists.safe_lows.len(),
            lists.safe_highs.as_ptr(),
            lists.safe_highs.len(),
            lists.weights.as_ptr(),
            lists.weights.len(),
            lists.parents.as_ptr(),
            lists.parents.len(),
            scratch.as_mut_ptr(),
            scratch.len(),
            book.buffer.as_mut_ptr(),
            book.buffer.len(),
            book.length,
            answer.as_mut_ptr(),
            answer.len(),
        )
    }
}

pub fn import(doubles: [f64; 5], scale: u32, units: &mut [i64]) -> u64 {
    let [target, low, high, safe_low, safe_high] = doubles;
    unsafe { legzhuro_import(target, low, high, safe_low, safe_high, scale, units.as_mut_ptr(), units.len()) }
}

pub fn export(mass: u32, scale: u32, value: &mut [f64]) -> u64 {
    unsafe { legzhuro_export(mass, scale, value.as_mut_ptr(), value.len()) }
}

pub fn export_single(mass: u32, scale: u32, value: &mut [f32]) -> u64 {
    unsafe { legzhuro_export_single(mass, scale, value.as_mut_ptr(), value.len()) }
}

pub fn write_field(cells: usize, nodes: usize, total: u32, lists: &Lists, buffer: &mut [u8]) -> u64 {
    unsafe {
        legzhuro_write_field(
            cells,
            nodes,
            total,
            lists.targets.as_ptr(),
            lists.targets.len(),
            lists.lows.as_ptr(),
            lists.lows.len(),
            lists.highs.as_ptr(),
            lists.highs.len(),
            lists.safe_lows.as_ptr(),
            lists.safe_lows.len(),
            lists.safe_highs.as_ptr(),
            lists.safe_highs.len(),
            lists.weights.as_ptr(),
            lists.weights.len(),
            lists.parents.as_ptr(),
            lists.parents.len(),
            buffer.as_mut_ptr(),
            buffer.len(),
        )
    }
}

pub fn read_answer(file: &[u8], masses: &mut [u32], answer: &mut [u64]) -> u64 {
    unsafe { legzhuro_read_answer(file.as_ptr(), file.len(), masses.as_mut_ptr(), masses.len(), answer.as_mut_ptr(), answer.len()) }
}

pub fn bounds(
    air: &[u32],
    low_ratios: &[u32],
    high_ratios: &[u32],
    lows: &mut [u32],
    highs: &mut [u32],
    safe_lows: &mut [u32],
    safe_highs: &mut [u32],
) -> u64 {
    unsafe {
        legzhuro_bounds(
            air.as_ptr(),
            air.len(),
            low_ratios.as_ptr(),
            low_ratios.len(),
            high_ratios.as_ptr(),
            high_ratios.len(),
            lows.as_mut_ptr(),
            lows.len(),
            highs.as_mut_ptr(),
            highs.len(),
            safe_lows.as_mut_ptr(),
            safe_lows.len(),
            safe_highs.as_mut_ptr(),
            safe_highs.len(),
        )
    }
}

pub fn family_start(cap: u64, scale: u32, cells: u32, family: &mut [u64]) -> u64 {
    unsafe { legzhuro_family_start(cap, scale, cells, family.as_mut_ptr(), family.len()) }
}

pub fn family_open(family: &mut [u64], member: u32, kept: &[u32], scale: u32, answer: &mut [u64]) -> u64 {
    unsafe {
        legzhuro_family_open(family.as_mut_ptr(), family.len(), member, kept.as_ptr(), kept.len(), scale, answer.as_mut_ptr(), answer.len())
    }
}

#[allow(clippy::too_many_arguments)] // those of the call
pub fn family_step(
    family: &mut [u64],
    member: u32,
    kept: &mut [u32],
    source: i32,
    scale: u32,
    lists: &Lists,
    scratch: &mut [i64],
    book: LentBook,
    answer: &mut [u64],
) -> u64 {
    unsafe {
        legzhuro_family_step(
            family.as_mut_ptr(),
            family.len(),
            member,
            kept.as_mut_ptr(),
            kept.len(),
            source,
            scale,
            lists.targets.as_ptr(),
            lists.targets.len(),
            lists.lows.as_ptr(),
            lists.lows.len(),
            lists.highs.as_ptr(),
            lists.highs.len(),
            lists.safe_lows.as_ptr(),
            lists.safe_lows.len(),
            lists.safe_highs.as_ptr(),
            lists.safe_highs.len(),
            lists.weights.as_ptr(),
            lists.weights.len(),
            lists.parents.as_ptr(),
            lists.parents.len(),
            scratch.as_mut_ptr(),
            scratch.len(),
            book.buffer.as_mut_ptr(),
            book.buffer.len(),
            book.length,
            answer.as_mut_ptr(),
            answer.len(),
        )
    }
}

pub fn family_register(family: &mut [u64], member: u32) -> u64 {
    unsafe { legzhuro_family_register(family.as_mut_ptr(), family.len(), member) }
}

pub fn family_next(family: &[u64], answer: &mut [u64]) -> u64 {
    unsafe { legzhuro_family_next(family.as_ptr(), family.len(), answer.as_mut_ptr(), answer.len()) }
}

pub fn family_waiting(family: &[u64], answer: &mut [u64]) -> u64 {
    unsafe { legzhuro_family_waiting(family.as_ptr(), family.len(), answer.as_mut_ptr(), answer.len()) }
}

#[allow(clippy::too_many_arguments)] // those of the call
pub fn family_turn(
    family: &mut [u64],
    kept: &mut [u32],
    source: i32,
    scale: u32,
    lists: &Lists,
    scratch: &mut [i64],
    book: LentBook,
    answer: &mut [u64],
) -> u64 {
    unsafe {
        legzhuro_family_turn(
            family.as_mut_ptr(),
            family.len(),
            kept.as_mut_ptr(),
            kept.len(),
            source,
            scale,
            lists.targets.as_ptr(),
            lists.targets.len(),
            lists.lows.as_ptr(),
            lists.lows.len(),
            lists.highs.as_ptr(),
            lists.highs.len(),
            lists.safe_lows.as_ptr(),
            lists.safe_lows.len(),
            lists.safe_highs.as_ptr(),
            lists.safe_highs.len(),
            lists.weights.as_ptr(),
            lists.weights.len(),
            lists.parents.as_ptr(),
            lists.parents.len(),
            scratch.as_mut_ptr(),
            scratch.len(),
            book.buffer.as_mut_ptr(),
            book.buffer.len(),
            book.length,
            answer.as_mut_ptr(),
            answer.len(),
        )
    }
}

pub fn book_start(total: u32, buffer: &mut [u8], answer: &mut [u64]) -> u64 {
    unsafe { legzhuro_book_start(total, buffer.as_mut_ptr(), buffer.len(), answer.as_mut_ptr(), answer.len()) }
}

pub fn book_report(file: &[u8], answer: &mut [u64]) -> u64 {
    unsafe { legzhuro_book_report(file.as_ptr(), file.len(), answer.as_mut_ptr(), answer.len()) }
}
