//! The helpers of the header, called as C.

use crate::library::plain;
use reference::{Buffers, Call, Reply};
use season_calls::RawReply;
use std::ffi::{c_char, c_uint, CStr};

/// `season_kind_row` of the header.
#[repr(C)]
pub struct KindRow {
    pub kind: u8,
    pub first_mode: u8,
    pub last_mode: u8,
    pub per: u8,
    pub name: [u8; 4],
}

/// `season_buffers` of the header.
#[repr(C)]
struct RawBuffers {
    season: *const u8,
    season_len: usize,
    sheet: *mut u8,
    sheet_len: usize,
    ledger: *mut u32,
    ledger_len: usize,
    tally: *mut u64,
    tally_len: usize,
}

extern "C" {
    fn season_end(bytes: *const u8, length: usize) -> usize;
    fn season_sheet_items(season: *const u8, season_len: usize) -> usize;
    fn season_ledger_items(season: *const u8, season_len: usize) -> usize;
    fn season_tally_items(season: *const u8, season_len: usize) -> usize;
    fn season_head(season: *const u8, season_len: usize, c: usize) -> *const u8;
    fn season_body(season: *const u8, season_len: usize, c: usize) -> *const u8;
    fn season_group_size(group: *const u8, bytes: usize) -> usize;
    fn season_deviations(season: *const u8, season_len: usize, c: usize) -> usize;
    fn season_ledger_first(season: *const u8, season_len: usize, c: usize) -> usize;
    fn season_kind_row_of(kind: c_uint, mode: c_uint) -> *const KindRow;
    fn season_refusal_text(number: c_uint) -> *const c_char;
    fn season_buffers_open(lent: *const RawBuffers) -> RawReply;
    fn season_buffers_set(lent: *const RawBuffers, game: u64, slot: u64) -> RawReply;
    fn season_buffers_exchange(lent: *const RawBuffers, game: u64, other: u64) -> RawReply;
}

// The helpers are given slices with their true lengths, and what they hand back points into these.

pub fn end(bytes: &[u8]) -> usize {
    unsafe { season_end(bytes.as_ptr(), bytes.len()) }
}

pub fn sheet_items(season: &[u8]) -> usize {
    unsafe { season_sheet_items(season.as_ptr(), season.len()) }
}

pub fn ledger_items(season: &[u8]) -> usize {
    unsafe { season_ledger_items(season.as_ptr(), season.len()) }
}

pub fn tally_items(season: &[u8]) -> usize {
    unsafe { season_tally_items(season.as_ptr(), season.len()) }
}

/// Where the head is, if there is one.
pub fn head(season: &[u8], c: usize) -> Option<usize> {
    let head = unsafe { season_head(season.as_ptr(), season.len(), c) };
    (!head.is_null()).then(|| head as usize - season.as_ptr() as usize)
}

pub fn body(season: &[u8], c: usize) -> Option<usize> {
    let body = unsafe { season_body(season.as_ptr(), season.len(), c) };
    (!body.is_null()).then(|| body as usize - season.as_ptr() as usize)
}

pub fn group_size(group: &[u8]) -> usize {
    unsafe { season_group_size(group.as_ptr(), group.len()) }
}

pub fn deviations(season: &[u8], c: usize) -> usize {
    unsafe { season_deviations(season.as_ptr(), season.len(), c) }
}

pub fn ledger_first(season: &[u8], c: usize) -> usize {
    unsafe { season_ledger_first(season.as_ptr(), season.len(), c) }
}

pub fn kind_row(kind: u32, mode: u32) -> Option<&'static KindRow> {
    unsafe { season_kind_row_of(kind, mode).as_ref() }
}

pub fn refusal_text(number: u32) -> &'static str {
    unsafe { CStr::from_ptr(season_refusal_text(number)) }.to_str().unwrap()
}

/// A call by way of `season_buffers`. Buffers without items are lent as null.
pub fn call(season: &[u8], buffers: &mut Buffers, call: Call) -> Reply {
    let lent = RawBuffers {
        season: if season.is_empty() { std::ptr::null() } else { season.as_ptr() },
        season_len: season.len(),
        sheet: null_if_empty(&mut buffers.sheet),
        sheet_len: buffers.sheet.len(),
        ledger: null_if_empty(&mut buffers.ledger),
        ledger_len: buffers.ledger.len(),
        tally: null_if_empty(&mut buffers.tally),
        tally_len: buffers.tally.len(),
    };
    let raw = unsafe {
        match call {
            Call::Open => season_buffers_open(&lent),
            Call::Set { game, slot } => season_buffers_set(&lent, game, slot),
            Call::Exchange { game, other } => season_buffers_exchange(&lent, game, other),
        }
    };
    plain(raw.reply())
}

fn null_if_empty<T>(items: &mut [T]) -> *mut T {
    if items.is_empty() {
        std::ptr::null_mut()
    } else {
        items.as_mut_ptr()
    }
}
