//! SQLite in memory, for days whose transactions come one after another.
use crate::day::{PolicyRow, SetUp};
use std::ffi::{CStr, c_char, c_int};

#[repr(C)]
struct Handle {
    _inner: [u8; 0],
}

unsafe extern "C" {
    fn sqlite_day_version() -> *const c_char;
    fn sqlite_day_new(journal: c_int, rights: *const u32, policies: *const PolicyRow, policy_count: usize, cell_count: usize) -> *mut Handle;
    fn sqlite_day_put_cells(store: *mut Handle, cells: *const u32, cell_count: usize);
    fn sqlite_day_get_cells(store: *mut Handle, cells: *mut u32, cell_count: usize);
    fn sqlite_day_run(store: *mut Handle, tape: *const u8, tape_len: usize, lines: *mut u8) -> usize;
}

pub struct Sqlite {
    handle: *mut Handle,
    pub cells: Vec<u32>,
}

pub fn version() -> String {
    // SQLite answers a text that stays.
    unsafe { CStr::from_ptr(sqlite_day_version()) }.to_string_lossy().into_owned()
}

/// The handle comes from `sqlite_day_new` and is never closed, and each list goes with its own length.
impl Sqlite {
    /// With a journal in memory or with none.
    pub fn new(journal: bool, set_up: &SetUp) -> Sqlite {
        let (policies, cells) = (&set_up.policies, set_up.cells.clone());
        let handle = unsafe { sqlite_day_new(journal.into(), set_up.rights.as_ptr(), policies.as_ptr(), policies.len(), cells.len()) };
        Sqlite { handle, cells }
    }

    pub fn put_cells(&mut self) {
        unsafe { sqlite_day_put_cells(self.handle, self.cells.as_ptr(), self.cells.len()) }
    }

    pub fn get_cells(&mut self) -> &[u32] {
        unsafe { sqlite_day_get_cells(self.handle, self.cells.as_mut_ptr(), self.cells.len()) };
        &self.cells
    }

    /// Runs a sound tape, and answers how many bytes of lines there are. A record has at least 5 bytes, and a line at most 13.
    #[inline(never)]
    pub fn run_tape(&mut self, tape: &[u8], lines: &mut [u8]) -> usize {
        assert!(tape.len() / 5 * 13 <= lines.len());
        unsafe { sqlite_day_run(self.handle, tape.as_ptr(), tape.len(), lines.as_mut_ptr()) }
    }
}
