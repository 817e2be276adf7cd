//! The proved library for boards from Rust: the two functions of board.h, and safe ones over them,
//! since a slice's own pointer and length are what each asks for.
//!
//!     #[path = "include/board.rs"]
//!     mod board;
//!
//!     rustc -L crates/board_c/out -l static=board_c program.rs
//!
//! It uses `core` alone, in any edition, from rustc 1.82 on. board.h says what each field means and
//! what the library needs; `Run` is its `board_run_answer`. No compiler holds these declarations to
//! the library, so they stand here once; tests/comparison calls each.

// A program need not call all of it.
#![allow(dead_code)]

#[cfg(any(not(target_arch = "x86_64"), windows))]
compile_error!("the library is code for x86-64 with System V calls");

/// What `number` says: the answer stands, or why the call is refused.
pub const ANSWERED: usize = 0;
pub const SHORT_SHEET: usize = 13;
pub const ODD_CALL: usize = 14;
pub const BAD_SHEET: usize = 15;

#[repr(C)]
#[derive(Clone, Copy, Debug, Default, PartialEq)]
pub struct Answer {
    pub number: usize,
    pub detail: usize,
    pub second: usize,
    pub size: usize,
}

#[repr(C)]
#[derive(Debug, Default, PartialEq)]
pub struct Run {
    pub number: usize,
    pub detail: usize,
    pub second: usize,
    pub blocked: usize,
    pub ran: usize,
    pub machine: usize,
    pub places: [u8; 16],
}

// The layout of the library, as board.h asserts it too.
macro_rules! layout {
    ($name:ident has $size:literal bytes, $($field:ident $place:literal),+) => {
        const _: () = assert!(core::mem::size_of::<$name>() == $size);
        $(const _: () = assert!(core::mem::offset_of!($name, $field) == $place);)+
    };
}
layout!(Answer has 32 bytes, number 0, detail 8, second 16, size 24);
layout!(Run has 64 bytes, number 0, detail 8, second 16, blocked 24, ran 32, machine 40, places 48);

unsafe extern "C" {
    pub fn board_sheet(sheet: *const u8, sheet_len: usize, out: *mut u8, out_len: usize) -> Answer;
    pub fn board_run(sheet: *const u8, sheet_len: usize, names: *const u8, names_len: usize) -> Run;
}

pub fn sheet(sheet: &[u8], out: &mut [u8]) -> Answer {
    unsafe { board_sheet(sheet.as_ptr(), sheet.len(), out.as_mut_ptr(), out.len()) }
}

/// Each name is ended by byte 10.
pub fn run(sheet: &[u8], names: &[u8]) -> Run {
    unsafe { board_run(sheet.as_ptr(), sheet.len(), names.as_ptr(), names.len()) }
}
