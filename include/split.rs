//! The proved library from Rust: the functions of split.h, and safe ones over them, since a slice's
//! own pointer and length are what each asks for.
//!
//!     #[path = "include/split.rs"]
//!     mod split;
//!
//!     rustc -L crates/split_c/out -l static=split_c program.rs
//!
//! It uses `core` alone, in any edition, from rustc 1.82 on. split.h says what each field means and
//! what the library needs; `Name` is its `split_part`, `Run` its `split_run_answer`. No compiler
//! holds these declarations to the library, so they stand here once; tests/comparison calls each.

// A program need not call all of it.
#![allow(dead_code)]

#[cfg(any(not(target_arch = "x86_64"), windows))]
compile_error!("the library is code for x86-64 with System V calls");

/// What `number` says: the answer stands, or why the call is refused.
pub const ANSWERED: usize = 0;
pub const MISFORMED: usize = 1;
pub const OVERSIZE: usize = 2;
pub const STRANGER: usize = 3;
pub const STANDSTILL: usize = 4;
pub const FORK: usize = 5;
pub const IDLE_EVENT: usize = 6;
pub const UNREACHED: usize = 7;
pub const DOUBLED: usize = 8;
pub const MISSING: usize = 9;
pub const UNEVEN: usize = 10;
pub const UNHELD: usize = 11;
pub const OPEN: usize = 12;
pub const SHORT_SHEET: usize = 13;
pub const ODD_CALL: usize = 14;
pub const BAD_SHEET: usize = 15;

#[repr(C)]
#[derive(Clone, Copy, Debug, Default, PartialEq)]
pub struct Step {
    pub source: u8,
    pub event: u8,
    pub target: u8,
}

#[repr(C)]
#[derive(Clone, Copy, Debug, Default, PartialEq)]
pub struct Answer {
    pub number: usize,
    pub detail: usize,
    pub second: usize,
    pub size: usize,
}

#[repr(C)]
#[derive(Debug, Default, PartialEq)]
pub struct Name {
    pub number: usize,
    pub detail: usize,
    pub second: usize,
    pub from: usize,
    pub size: usize,
}

#[repr(C)]
#[derive(Debug, Default, PartialEq)]
pub struct Run {
    pub number: usize,
    pub detail: usize,
    pub second: usize,
    pub blocked: usize,
    pub ran: usize,
    pub machine: usize,
    pub places: [u8; 16],
}

#[repr(C)]
#[derive(Debug, Default, PartialEq)]
pub struct Set {
    pub number: usize,
    pub detail: usize,
    pub second: usize,
    pub machines: usize,
    pub size: usize,
}

// The layout of the library, as split.h asserts it too.
macro_rules! layout {
    ($name:ident has $size:literal bytes, $($field:ident $place:literal),+) => {
        const _: () = assert!(core::mem::size_of::<$name>() == $size);
        $(const _: () = assert!(core::mem::offset_of!($name, $field) == $place);)+
    };
}
layout!(Step has 3 bytes, source 0, event 1, target 2);
layout!(Answer has 32 bytes, number 0, detail 8, second 16, size 24);
layout!(Name has 40 bytes, number 0, detail 8, second 16, from 24, size 32);
layout!(Run has 64 bytes, number 0, detail 8, second 16, blocked 24, ran 32, machine 40, places 48);
layout!(Set has 40 bytes, number 0, detail 8, second 16, machines 24, size 32);

unsafe extern "C" {
    pub fn split_check(text: *const u8, text_len: usize, out: *mut u8, out_len: usize) -> Answer;
    pub fn split_steps(text: *const u8, text_len: usize, out: *mut Step, out_len: usize) -> Answer;
    pub fn split_name(text: *const u8, text_len: usize, event: usize) -> Name;
    pub fn split_run(text: *const u8, text_len: usize, events: *const u8, events_len: usize) -> Run;
    pub fn split_thin(text: *const u8, text_len: usize) -> Set;
    pub fn split_merge(text: *const u8, text_len: usize, out: *mut u8, out_len: usize) -> Answer;
    pub fn split_quote(text: *const u8, text_len: usize, out: *mut u8, out_len: usize) -> Answer;
    pub fn split_sheet(sheet: *const u8, sheet_len: usize, out: *mut u8, out_len: usize) -> Answer;
    pub fn split_board(sheet: *const u8, sheet_len: usize, names: *const u8, names_len: usize) -> Run;
}

pub fn check(text: &[u8], out: &mut [u8]) -> Answer {
    unsafe { split_check(text.as_ptr(), text.len(), out.as_mut_ptr(), out.len()) }
}

pub fn steps(text: &[u8], out: &mut [Step]) -> Answer {
    unsafe { split_steps(text.as_ptr(), text.len(), out.as_mut_ptr(), out.len()) }
}

pub fn name(text: &[u8], event: usize) -> Name {
    unsafe { split_name(text.as_ptr(), text.len(), event) }
}

pub fn run(text: &[u8], events: &[u8]) -> Run {
    unsafe { split_run(text.as_ptr(), text.len(), events.as_ptr(), events.len()) }
}

pub fn thin(text: &[u8]) -> Set {
    unsafe { split_thin(text.as_ptr(), text.len()) }
}

pub fn merge(text: &[u8], out: &mut [u8]) -> Answer {
    unsafe { split_merge(text.as_ptr(), text.len(), out.as_mut_ptr(), out.len()) }
}

pub fn quote(text: &[u8], out: &mut [u8]) -> Answer {
    unsafe { split_quote(text.as_ptr(), text.len(), out.as_mut_ptr(), out.len()) }
}

pub fn sheet(sheet: &[u8], out: &mut [u8]) -> Answer {
    unsafe { split_sheet(sheet.as_ptr(), sheet.len(), out.as_mut_ptr(), out.len()) }
}

/// Each name is ended by byte 10.
pub fn board(sheet: &[u8], names: &[u8]) -> Run {
    unsafe { split_board(sheet.as_ptr(), sheet.len(), names.as_ptr(), names.len()) }
}
