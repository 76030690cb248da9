//! `tscache.h`, word for word. `Time` and `Figures` of this crate are those of C, and stand for
//! them.
use crate::{Figures, Time};
use std::ffi::{c_char, c_void};

pub const EXCLUDE_FROM: u32 = 1;
pub const EXCLUDE_TO: u32 = 2;
pub const ONWARD: u32 = 4;
pub const POINT: u32 = 8;

pub const BUSY: u32 = 14;
pub const SHORT: u32 = 17;

#[repr(C)]
#[derive(Debug)]
pub struct Store {
    pub at: *mut c_void,
}

#[repr(C)]
pub struct Value {
    pub wall: u64,
    pub logical: u32,
    pub owner: [u8; 16],
}

#[repr(C)]
pub struct Added {
    pub evicted: u64,
    pub kept: bool,
    pub rotated: bool,
}

#[repr(C)]
pub struct Mark {
    pub from_at: usize,
    pub from_len: usize,
    pub to_at: usize,
    pub to_len: usize,
    pub value: Value,
    pub ends: u32,
}

#[repr(C)]
pub struct Span {
    pub from_at: usize,
    pub from_len: usize,
    pub to_at: usize,
    pub to_len: usize,
    pub ends: u32,
}

#[repr(C)]
pub struct Build {
    pub version: *const c_char,
    pub commit: *const c_char,
    pub kit: *const c_char,
    pub proved: bool,
}

extern "C" {
    pub fn tsc_built() -> *const Build;
    pub fn tsc_open(
        store: *mut Store,
        page_first: u32,
        page_max: u32,
        min_pages: u32,
        retention: u64,
        low_water: *const Time,
        handle: *mut u64,
    ) -> u32;
    pub fn tsc_add(
        store: *mut Store,
        handle: u64,
        from: *const u8,
        from_len: usize,
        to: *const u8,
        to_len: usize,
        ends: u32,
        value: *const Value,
        now: *const Time,
        out: *mut Added,
    ) -> u32;
    pub fn tsc_add_all(
        store: *mut Store,
        handle: u64,
        keys: *const u8,
        keys_len: usize,
        marks: *const Mark,
        marks_len: usize,
        now: *const Time,
        out: *mut Added,
    ) -> u32;
    pub fn tsc_get_max(
        store: *mut Store,
        handle: u64,
        from: *const u8,
        from_len: usize,
        to: *const u8,
        to_len: usize,
        ends: u32,
        out: *mut Value,
    ) -> u32;
    pub fn tsc_earliest_write(
        store: *mut Store,
        handle: u64,
        keys: *const u8,
        keys_len: usize,
        spans: *const Span,
        spans_len: usize,
        write: *const Value,
        out: *mut Time,
    ) -> u32;
    pub fn tsc_may_write(
        store: *mut Store,
        handle: u64,
        keys: *const u8,
        keys_len: usize,
        spans: *const Span,
        spans_len: usize,
        write: *const Value,
        out: *mut bool,
    ) -> u32;
    pub fn tsc_summary(
        store: *mut Store,
        handle: u64,
        from: *const u8,
        from_len: usize,
        to: *const u8,
        to_len: usize,
        ends: u32,
        most: usize,
        out: *mut u8,
        room: usize,
        len: *mut usize,
    ) -> u32;
    pub fn tsc_apply(
        store: *mut Store,
        handle: u64,
        summary: *const u8,
        summary_len: usize,
        now: *const Time,
        out: *mut Added,
    ) -> u32;
    pub fn tsc_low_water(store: *mut Store, handle: u64, out: *mut Time) -> u32;
    pub fn tsc_figures_of(store: *mut Store, handle: u64, out: *mut Figures) -> u32;
    pub fn tsc_free(store: *mut Store);
    pub fn tsc_move(
        store: *mut Store,
        handle: u64,
        other: *mut Store,
        other_handle: *mut u64,
    ) -> u32;
    pub fn tsc_open_shared(
        store: *mut Store,
        page_first: u32,
        page_max: u32,
        min_pages: u32,
        retention: u64,
        low_water: *const Time,
        seats: u32,
        limit: u64,
        handle: *mut u64,
    ) -> u32;
    pub fn tsc_open_striped(
        store: *mut Store,
        page_first: u32,
        page_max: u32,
        min_pages: u32,
        retention: u64,
        low_water: *const Time,
        keys: *const u8,
        keys_len: usize,
        lens: *const usize,
        lens_len: usize,
        seats: u32,
        handle: *mut u64,
    ) -> u32;
    pub fn tsc_seat_add(
        store: *mut Store,
        seat: u64,
        from: *const u8,
        from_len: usize,
        to: *const u8,
        to_len: usize,
        ends: u32,
        value: *const Value,
        now: *const Time,
        tries: u32,
        place_in_history: *mut u64,
        out: *mut Added,
    ) -> u32;
    pub fn tsc_seat_add_all(
        store: *mut Store,
        seat: u64,
        keys: *const u8,
        keys_len: usize,
        marks: *const Mark,
        marks_len: usize,
        now: *const Time,
        tries: u32,
        place_in_history: *mut u64,
        out: *mut Added,
    ) -> u32;
    pub fn tsc_seat_get_max(
        store: *mut Store,
        seat: u64,
        from: *const u8,
        from_len: usize,
        to: *const u8,
        to_len: usize,
        ends: u32,
        seen: *mut u64,
        out: *mut Value,
    ) -> u32;
    pub fn tsc_seat_earliest_write(
        store: *mut Store,
        seat: u64,
        keys: *const u8,
        keys_len: usize,
        spans: *const Span,
        spans_len: usize,
        write: *const Value,
        seen: *mut u64,
        out: *mut Time,
    ) -> u32;
    pub fn tsc_seat_may_write(
        store: *mut Store,
        seat: u64,
        keys: *const u8,
        keys_len: usize,
        spans: *const Span,
        spans_len: usize,
        write: *const Value,
        seen: *mut u64,
        out: *mut bool,
    ) -> u32;
    pub fn tsc_seat_low_water(store: *mut Store, seat: u64, seen: *mut u64, out: *mut Time) -> u32;
    pub fn tsc_seat_figures_of(
        store: *mut Store,
        seat: u64,
        seen: *mut u64,
        out: *mut Figures,
    ) -> u32;
    pub fn tsc_seat_summary(
        store: *mut Store,
        seat: u64,
        from: *const u8,
        from_len: usize,
        to: *const u8,
        to_len: usize,
        ends: u32,
        most: usize,
        seen: *mut u64,
        out: *mut u8,
        room: usize,
        len: *mut usize,
    ) -> u32;
    pub fn tsc_close_shared(store: *mut Store, handle: u64, length: *mut u64) -> u32;
    pub fn tsc_replay(
        trace: *const u8,
        trace_len: usize,
        out: *mut u8,
        room: usize,
        len: *mut usize,
    ) -> u32;
    pub fn tsc_check(
        trace: *const u8,
        trace_len: usize,
        log: *const u8,
        log_len: usize,
        out: *mut u8,
        room: usize,
        len: *mut usize,
    ) -> u32;
}
