//! The proved engine, through its C library.
use crate::day::PolicyRow;

unsafe extern "C" {
    fn setxulda_check_setup(
        thresholds: *const u32,
        threshold_count: usize,
        cells: *mut u32,
        cell_count: usize,
        rights: *mut u32,
        right_count: usize,
        policies: *const PolicyRow,
        policy_count: usize,
    ) -> u32;

    fn setxulda_run_tape(
        thresholds: *const u32,
        threshold_count: usize,
        cells: *mut u32,
        cell_count: usize,
        rights: *mut u32,
        right_count: usize,
        policies: *const PolicyRow,
        policy_count: usize,
        tape: *const u8,
        tape_len: usize,
        lines: *mut u8,
        lines_len: usize,
        lines_used: *mut usize,
    ) -> u32;
}

/// What set-up refuses, or 0.
pub fn check(thresholds: &[u32], cells: &mut [u32], rights: &mut [u32], policies: &[PolicyRow]) -> u32 {
    // A pointer of a Rust slice is never null, and each goes with that slice's own length.
    unsafe {
        setxulda_check_setup(
            thresholds.as_ptr(),
            thresholds.len(),
            cells.as_mut_ptr(),
            cells.len(),
            rights.as_mut_ptr(),
            rights.len(),
            policies.as_ptr(),
            policies.len(),
        )
    }
}

/// Runs a tape on the two lists: the number that is answered, and how many bytes of lines there are.
#[inline(never)]
pub fn run_tape(
    thresholds: &[u32],
    cells: &mut [u32],
    rights: &mut [u32],
    policies: &[PolicyRow],
    tape: &[u8],
    lines: &mut [u8],
) -> (u32, usize) {
    let mut used = 0;
    // As above.
    let number = unsafe {
        setxulda_run_tape(
            thresholds.as_ptr(),
            thresholds.len(),
            cells.as_mut_ptr(),
            cells.len(),
            rights.as_mut_ptr(),
            rights.len(),
            policies.as_ptr(),
            policies.len(),
            tape.as_ptr(),
            tape.len(),
            lines.as_mut_ptr(),
            lines.len(),
            &mut used,
        )
    };
    (number, used)
}
