//! The C surface of the proved library, as `bindings/c/daxurbi.h` declares it. Nothing compares the
//! two declarations.

use std::ffi::c_void;
use std::ptr::null_mut;

/// One session. All zero is a closed slot.
#[repr(C)]
#[derive(Debug)]
pub(crate) struct Slot {
    session: *mut c_void,
    is_open: bool,
}

impl Slot {
    pub(crate) fn closed() -> Self {
        Slot {
            session: null_mut(),
            is_open: false,
        }
    }
}

/// What a call answers.
pub(crate) mod answers {
    pub(crate) const OK: u32 = 0;
    pub(crate) const STOPPED: u32 = 1;
    pub(crate) const STOPPED_BEFORE: u32 = 2;
    pub(crate) const NO_MEMORY: u32 = 3;
    #[cfg(test)]
    pub(crate) const NOT_A_STEP: u32 = 6;
    pub(crate) const SHORT_BUFFER: u32 = 8;
    pub(crate) const NOT_LIVE: u32 = 9;
    pub(crate) const NOT_A_MESSAGE: u32 = 13;
    pub(crate) const NO_LINK_LEFT: u32 = 14;
}

/// The kinds of a control message.
pub(crate) mod kinds {
    pub(crate) const DECLARE: u32 = 0;
    pub(crate) const DECLARE_GLOBAL: u32 = 1;
    pub(crate) const DISCHARGE: u32 = 2;
    pub(crate) const DISCHARGE_COMMIT: u32 = 3;
    pub(crate) const DISCHARGE_ROLLBACK: u32 = 4;
}

extern "C" {
    pub(crate) fn daxurbi_open(slot: *mut Slot, seed: *const u8, seed_len: usize) -> u32;

    pub(crate) fn daxurbi_open_with_ids(slot: *mut Slot, ids: *const u8, ids_len: usize) -> u32;

    pub(crate) fn daxurbi_close(slot: *mut Slot) -> u32;

    pub(crate) fn daxurbi_step(
        slot: *mut Slot,
        line: *const u8,
        line_len: usize,
        answer: u32,
    ) -> u32;

    pub(crate) fn daxurbi_report(
        slot: *mut Slot,
        out: *mut u8,
        out_len: usize,
        needed: *mut usize,
    ) -> u32;

    pub(crate) fn daxurbi_pending(
        slot: *mut Slot,
        id: *const u8,
        id_len: usize,
        out: *mut u8,
        out_len: usize,
        needed: *mut usize,
    ) -> u32;

    pub(crate) fn daxurbi_payload(
        kind: u32,
        id: *const u8,
        id_len: usize,
        out: *mut u8,
        out_len: usize,
        needed: *mut usize,
    ) -> u32;

    pub(crate) fn daxurbi_message(
        payload: *const u8,
        payload_len: usize,
        kind: *mut u32,
        id: *mut u8,
        id_cap: usize,
        needed: *mut usize,
    ) -> u32;
}
