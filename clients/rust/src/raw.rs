//! What `vosdrieng.h` declares.
use core::ffi::c_void;
use core::ptr::null_mut;

/// The version of the header that these declarations are of.
pub(crate) const VERSION: u32 = 1000;

#[repr(C)]
pub(crate) struct Handle {
    mark: u64,
    at: *mut c_void,
}

impl Handle {
    pub(crate) const fn none() -> Handle {
        Handle { mark: 0, at: null_mut() }
    }
}

#[repr(C)]
#[derive(Clone, Copy, Default)]
pub(crate) struct Numbers {
    pub kind: u32,
    pub detail: u32,
    pub consumer: u64,
    pub exchange: u64,
    pub representation: u64,
    pub position: u64,
    pub end: u64,
    pub first: u64,
    pub second: u64,
    pub length: u64,
    pub method_length: u64,
    pub target_length: u64,
    pub status: u32,
    pub has_end: u32,
}

unsafe extern "C" {
    pub(crate) safe fn vosdrieng_version() -> u32;
    pub(crate) safe fn vosdrieng_new(cache: &mut Handle, max_entry: u64, max_total: u64) -> u32;
    pub(crate) fn vosdrieng_open(
        cache: &mut Handle,
        max_entry: u64,
        max_total: u64,
        image: *const u8,
        image_len: usize,
    ) -> u32;
    pub(crate) safe fn vosdrieng_free(cache: &mut Handle);
    pub(crate) fn vosdrieng_start(
        cache: &mut Handle,
        now: u64,
        consumer: u64,
        method: *const u8,
        method_len: usize,
        mode: u32,
        target: *const u8,
        target_len: usize,
        fields: *const u8,
        fields_len: usize,
    ) -> u32;
    pub(crate) safe fn vosdrieng_poll(cache: &mut Handle, now: u64, consumer: u64, want: u32) -> u32;
    pub(crate) safe fn vosdrieng_cancel(cache: &mut Handle, now: u64, consumer: u64) -> u32;
    pub(crate) fn vosdrieng_doom(cache: &mut Handle, now: u64, target: *const u8, target_len: usize) -> u32;
    pub(crate) fn vosdrieng_head(
        cache: &mut Handle,
        now: u64,
        exchange: u64,
        status: u32,
        fields: *const u8,
        fields_len: usize,
    ) -> u32;
    pub(crate) fn vosdrieng_piece(
        cache: &mut Handle,
        now: u64,
        exchange: u64,
        bytes: *const u8,
        len: usize,
    ) -> u32;
    pub(crate) safe fn vosdrieng_end(cache: &mut Handle, now: u64, exchange: u64) -> u32;
    pub(crate) safe fn vosdrieng_fault(cache: &mut Handle, now: u64, exchange: u64) -> u32;
    pub(crate) safe fn vosdrieng_next_act(cache: &mut Handle, act: &mut Numbers) -> u32;
    pub(crate) fn vosdrieng_act_bytes(cache: &mut Handle, into: *mut u8, room: usize) -> usize;
    pub(crate) fn vosdrieng_image(cache: &mut Handle, into: *mut u8, room: usize, len: &mut usize) -> u32;
    pub(crate) fn vosdrieng_schedule(
        cache: &mut Handle,
        text: *const u8,
        len: usize,
        line: &mut u64,
        why: &mut u32,
    ) -> u32;
    pub(crate) safe fn vosdrieng_schedule_end(cache: &mut Handle, line: &mut u64, why: &mut u32) -> u32;
    pub(crate) fn vosdrieng_report(cache: &mut Handle, into: *mut u8, room: usize) -> usize;
    pub(crate) safe fn vosdrieng_faults(cache: &mut Handle) -> u64;
    pub(crate) safe fn vosdrieng_moment(cache: &mut Handle) -> u64;
    pub(crate) safe fn vosdrieng_live(cache: &mut Handle) -> u64;
}
