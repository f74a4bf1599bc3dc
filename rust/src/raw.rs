//! The declarations of the library, written by hand after `hardieflax.h`. `tests/wrappers.sh` tries them on a stand-in that is compiled with
//! that header; nothing compares the header with the library.

use std::ffi::c_char;

/// `hardieflax` of the header.
#[repr(C)]
#[derive(Debug)]
pub struct Handle {
    pub bytes: *const u8,
    pub length: usize,
    pub owned: *mut u8,
    pub in_use: bool,
}

extern "C" {
    pub fn hardieflax_build(handle: *mut Handle, document: *const u8, length: usize) -> u32;
    pub fn hardieflax_guard(handle: *mut Handle, document: *const u8, length: usize) -> u32;
    pub fn hardieflax_read(handle: *mut Handle, dialect: u32, text: *const u8, length: usize) -> u32;
    pub fn hardieflax_audit(handle: *mut Handle, dialect: u32, texts: *const u8, length: usize) -> u32;
    pub fn hardieflax_open(handle: *mut Handle, document: *const u8, length: usize) -> u32;
    pub fn hardieflax_next(handle: *mut Handle, document: *const u8, length: usize) -> u32;
    pub fn hardieflax_open_within(handle: *mut Handle, document: *const u8, length: usize, capacity: usize) -> u32;
    pub fn hardieflax_reset(handle: *mut Handle) -> u32;
    pub fn hardieflax_audit_next(handle: *mut Handle, dialect: u32, texts: *const u8, length: usize) -> u32;
    pub fn hardieflax_free(handle: *mut Handle);
    pub fn hardieflax_version() -> *const c_char;
}
