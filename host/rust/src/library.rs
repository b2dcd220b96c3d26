//! The functions of `include/drive.h`. Only `bench` calls them.

/// `drive_reply`.
#[repr(C)]
#[derive(Clone, Copy, Debug, PartialEq, Eq)]
pub struct Reply {
    pub refusal: u32,
    pub outcome: u32,
    pub line: usize,
    pub cells: usize,
    pub exception: i64,
    pub statement: u32,
    pub steps: u32,
}

extern "C" {
    pub fn drive_verdict(text: *const u8, text_len: usize, work: *mut u32, work_len: usize) -> Reply;
    pub fn drive_cells(text: *const u8, text_len: usize, work: *mut u32, work_len: usize) -> Reply;
    pub fn drive_owners(text: *const u8, text_len: usize, work: *mut u32, work_len: usize, names: *mut usize, names_len: usize) -> Reply;
    pub fn drive_run(
        text: *const u8,
        text_len: usize,
        work: *mut u32,
        work_len: usize,
        values: *mut i64,
        values_len: usize,
        marks: *mut u8,
        marks_len: usize,
        budget: u32,
    ) -> Reply;
    pub fn drive_mark_owners(
        text: *const u8,
        text_len: usize,
        work: *mut u32,
        work_len: usize,
        names: *mut usize,
        names_len: usize,
    ) -> Reply;
    pub fn drive_mark(
        text: *const u8,
        text_len: usize,
        work: *mut u32,
        work_len: usize,
        values: *mut i64,
        values_len: usize,
        marks: *mut u8,
        marks_len: usize,
        budget: u32,
    ) -> Reply;
}

/// `drive_owners` or `drive_mark_owners`.
pub type Owners = unsafe extern "C" fn(*const u8, usize, *mut u32, usize, *mut usize, usize) -> Reply;

/// `drive_run` or `drive_mark`.
pub type Machine = unsafe extern "C" fn(*const u8, usize, *mut u32, usize, *mut i64, usize, *mut u8, usize, u32) -> Reply;
