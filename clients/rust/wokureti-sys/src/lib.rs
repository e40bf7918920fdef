//! The calls of libwokureti, as `wokureti.h` declares them. What a caller must uphold is said there.
#![no_std]
#![allow(non_camel_case_types)]

use core::ffi::c_void;

/// A handle: null holds nothing.
#[repr(C)]
pub struct wk_handle {
    pub at: *mut c_void,
}

/// The strides of the caller's rooms, and what a call says of a frame.
#[repr(C)]
#[derive(Clone, Copy, Debug, Default, PartialEq, Eq)]
pub struct wk_shown {
    pub luma_stride: usize,
    pub chroma_stride: usize,
    pub width: u32,
    pub height: u32,
    pub source: u64,
    pub packet: u64,
}

/// The file that is refused, and why.
#[repr(C)]
#[derive(Clone, Copy, Debug, Default, PartialEq, Eq)]
pub struct wk_fault {
    pub source: u64,
    pub cause: u32,
}

/// The first frame that is not exported, and why.
#[repr(C)]
#[derive(Clone, Copy, Debug, Default, PartialEq, Eq)]
pub struct wk_unexported {
    pub frame: u64,
    pub node: u64,
    pub source: u64,
    pub packet: u64,
}

pub const WK_OK: u32 = 0;
pub const WK_ARGUMENT: u32 = 1;
pub const WK_FILE: u32 = 2;
pub const WK_MEMORY: u32 = 3;
pub const WK_CLOSED: u32 = 4;
pub const WK_ROOM: u32 = 5;
pub const WK_TABLES: u32 = 6;
pub const WK_LOST: u32 = 7;
/// The first number of a refusal.
pub const WK_LINE: u32 = 16;
pub const WK_SOURCE: u32 = 17;
pub const WK_PACKET: u32 = 24;
pub const WK_NO_MEMORY: u32 = 31;
/// The last number of a refusal.
pub const WK_NO_BIT: u32 = 32;
pub const WK_CHANGED: u32 = 33;
pub const WK_EXPORT_PLACE: u32 = 34;
pub const WK_EXPORT_FULL: u32 = 35;
pub const WK_EXPORT_SIZE: u32 = 36;
pub const WK_EXPORT_TOO_LARGE: u32 = 37;

extern "C" {
    pub fn wk_version() -> u32;
    pub fn wk_open(
        handle: *mut wk_handle,
        files: *const u8,
        size: usize,
        ends: *const usize,
        sources: usize,
        states: u16,
        tables: *const u8,
        table_size: usize,
        fault: *mut wk_fault,
    ) -> u32;
    pub fn wk_open_bytes(
        handle: *mut wk_handle,
        files: *const u8,
        size: usize,
        ends: *const usize,
        sources: usize,
        bytes: u64,
        tables: *const u8,
        table_size: usize,
        fault: *mut wk_fault,
    ) -> u32;
    pub fn wk_close(handle: *mut wk_handle);
    pub fn wk_frame(
        handle: *mut wk_handle,
        n: u64,
        y: *mut u8,
        y_size: usize,
        cb: *mut u8,
        cb_size: usize,
        cr: *mut u8,
        cr_size: usize,
        shown: *mut wk_shown,
    ) -> u32;
    pub fn wk_request(handle: *mut wk_handle, line: *const u8, size: usize, length: *mut usize) -> u32;
    pub fn wk_why(handle: *mut wk_handle, length: *mut usize) -> u32;
    pub fn wk_save(handle: *mut wk_handle, pads: bool, length: *mut usize) -> u32;
    pub fn wk_save_source(handle: *mut wk_handle, source: usize, pads: bool, restamps: bool, length: *mut usize) -> u32;
    pub fn wk_export(handle: *mut wk_handle, pads: bool, length: *mut usize, unexported: *mut wk_unexported) -> u32;
    pub fn wk_text(handle: *mut wk_handle, room: *mut u8, size: usize, length: *mut usize) -> u32;
}
