//! The calls of the static library, declared by hand as `bindings/c/counter_ties.h` has them, each behind a safe
//! function: nothing compares these declarations with the library's.

/// What a call returns where it was done.
pub const DONE: u8 = 0;

/// So many numbers a list of multipliers has at least.
pub const MULTIPLIERS: usize = 64;

#[repr(C)]
#[derive(Clone, Copy, Default)]
pub struct Spot {
    pub tie: usize,
    pub place: usize,
}

#[repr(C)]
#[derive(Clone, Copy, Default)]
pub struct Summary {
    pub standing: usize,
    pub stopped_at: Spot,
    pub free: u16,
    pub stopped: u8,
    pub heads: u8,
    pub counters: u8,
    pub settled: [u8; 32],
}

unsafe extern "C" {
    fn counter_ties_report(file: *const u8, file_length: usize, summary: *mut Summary) -> u8;

    fn counter_ties_sheet(
        file: *const u8,
        file_length: usize,
        list: *mut u32,
        list_length: usize,
        free: *mut u16,
    ) -> u8;

    fn counter_ties_multipliers(
        file: *const u8,
        file_length: usize,
        list: *mut u32,
        list_length: usize,
        spot: *mut Spot,
    ) -> u8;

    fn counter_ties_check(
        file: *const u8,
        file_length: usize,
        multipliers: *const u32,
        multipliers_length: usize,
        yes: *mut u8,
        spot: *mut Spot,
    ) -> u8;
}

// SAFETY, of each call below: the declarations fit the library's, which asks nothing of its numbers; each pointer is
// that of a reference, so it is not null, is aligned, and leads to as many initialized items as its length says; and
// what is written to is borrowed for the call alone. The calls keep no pointer.

pub fn report(file: &[u8], summary: &mut Summary) -> u8 {
    unsafe { counter_ties_report(file.as_ptr(), file.len(), summary) }
}

pub fn sheet(file: &[u8], list: &mut [u32], free: &mut u16) -> u8 {
    unsafe {
        counter_ties_sheet(
            file.as_ptr(),
            file.len(),
            list.as_mut_ptr(),
            list.len(),
            free,
        )
    }
}

pub fn multipliers(file: &[u8], list: &mut [u32], spot: &mut Spot) -> u8 {
    unsafe {
        counter_ties_multipliers(
            file.as_ptr(),
            file.len(),
            list.as_mut_ptr(),
            list.len(),
            spot,
        )
    }
}

pub fn check(file: &[u8], multipliers: &[u32], yes: &mut u8, spot: &mut Spot) -> u8 {
    unsafe {
        counter_ties_check(
            file.as_ptr(),
            file.len(),
            multipliers.as_ptr(),
            multipliers.len(),
            yes,
            spot,
        )
    }
}
