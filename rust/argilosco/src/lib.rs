//! The safe wrapper over the proved library's C calls.
//!
//! Each call reads a table and writes into the output it is lent; the numbers are those of docs/FORMAT.md.
//! Nothing checks these declarations against the library's source: keep them next to
//! `include/argilosco.h`, which says the same for C.

/// The answer of expanding and normalising.
#[repr(C)]
#[derive(Clone, Copy, Debug, PartialEq, Eq)]
pub struct Written {
    pub number: u32,
    pub written: u32,
}

/// The answer of scheduling.
#[repr(C)]
#[derive(Clone, Copy, Debug, PartialEq, Eq)]
pub struct Scheduled {
    pub number: u32,
    pub written: u32,
    pub openings: u32,
}

/// The C declarations: a slice is a pointer, never null, and then a length.
#[cfg(any(feature = "expand", feature = "normalise", feature = "schedule"))]
mod c {
    use super::*;
    type In = *const u8;
    type Out = *mut u8;

    extern "C" {
        #[cfg(feature = "expand")]
        pub fn argilosco_expand(passes: In, length: usize, out: Out, room: usize) -> Written;
        #[cfg(feature = "normalise")]
        pub fn argilosco_normalise(jobs: In, length: usize, out: Out, room: usize) -> Written;
        #[cfg(feature = "schedule")]
        pub fn argilosco_schedule(jobs: In, length: usize, budget: u32, out: Out, room: usize) -> Scheduled;
    }
}

/// Expands a pass table into a job table.
#[cfg(feature = "expand")]
pub fn expand(passes: &[u8], out: &mut [u8]) -> Written {
    // Sound: both slices are valid for their lengths and, by their types, do not overlap.
    unsafe { c::argilosco_expand(passes.as_ptr(), passes.len(), out.as_mut_ptr(), out.len()) }
}

/// Writes the normal form of a job table.
#[cfg(feature = "normalise")]
pub fn normalise(jobs: &[u8], out: &mut [u8]) -> Written {
    // Sound: as in `expand`.
    unsafe { c::argilosco_normalise(jobs.as_ptr(), jobs.len(), out.as_mut_ptr(), out.len()) }
}

/// Schedules a job table under a budget of openings.
#[cfg(feature = "schedule")]
pub fn schedule(jobs: &[u8], budget: u32, out: &mut [u8]) -> Scheduled {
    // Sound: as in `expand`.
    unsafe { c::argilosco_schedule(jobs.as_ptr(), jobs.len(), budget, out.as_mut_ptr(), out.len()) }
}
