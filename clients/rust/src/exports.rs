//! The exports of the library, and a handle that is freed when it is dropped. tests/gate/exports.py compares this file with
//! the crate lt_live_c.
#![allow(dead_code)]
use std::ffi::c_void;
use std::ptr::null_mut;

#[repr(C)]
pub struct Handle {
    at: *mut c_void,
}

// SAFETY: it is proved of the library's handle that it may go from thread to thread.
unsafe impl Send for Handle {}
// SAFETY: each call of the library wants the handle alone, by `&mut`; a shared one tells no more than whether it is none.
unsafe impl Sync for Handle {}

/// A further set, by its name and that of its parent.
#[repr(C)]
pub struct NewSet {
    pub name: *const u8,
    pub length: usize,
    pub parent: *const u8,
    pub parent_length: usize,
}

/// A bit for each client.
#[repr(C)]
#[derive(Clone, Copy, Default)]
pub struct Clients {
    pub bits: [u64; 16],
}

extern "C" {
    pub fn lockrun_open(text: *const u8, length: usize, limit: u64, places: u32, service: *mut Handle) -> u32;
    pub fn lockrun_open_sets(
        text: *const u8,
        length: usize,
        sets: *const NewSet,
        count: usize,
        limit: u64,
        places: u32,
        service: *mut Handle,
    ) -> u32;
    pub fn lockrun_open_keys(
        text: *const u8,
        length: usize,
        families: u32,
        members: u32,
        limit: u64,
        places: u32,
        service: *mut Handle,
    ) -> u32;
    pub fn lockrun_key(
        first: u32,
        families: u32,
        members: u32,
        parent: *const u8,
        parent_length: usize,
        key: *const u8,
        length: usize,
        set: *mut u32,
    ) -> u32;
    pub fn lockrun_fault(text: *const u8, length: usize, line: *mut u64, fault: *mut u32) -> u32;
    pub fn lockrun_take_station(service: *mut Handle, station: *mut Handle) -> u32;
    pub fn lockrun_take_session(service: *mut Handle, session: *mut Handle) -> u32;
    pub fn lockrun_turn(station: *mut Handle) -> u32;
    pub fn lockrun_turn_telling(station: *mut Handle, sent: *mut u64, told: *mut Clients) -> u32;
    pub fn lockrun_forget(station: *mut Handle) -> u32;
    pub fn lockrun_submit(session: *mut Handle, kind: u32, set: u32, first: u32, second: u32) -> u32;
    pub fn lockrun_poll(session: *mut Handle, count: *mut u64) -> u32;
    pub fn lockrun_do(
        station: *mut Handle,
        session: *mut Handle,
        kind: u32,
        set: u32,
        first: u32,
        second: u32,
        count: *mut u64,
        sent: *mut u64,
        told: *mut Clients,
    ) -> u32;
    pub fn lockrun_set(session: *mut Handle, name: *const u8, length: usize, set: *mut u32) -> u32;
    pub fn lockrun_left(session: *mut Handle) -> u64;
    pub fn lockrun_client(session: *mut Handle) -> u32;
    pub fn lockrun_home(session: *mut Handle) -> u32;
    pub fn lockrun_held(station: *mut Handle, client: u32, from: u32, set: *mut u32) -> u32;
    pub fn lockrun_locks(station: *mut Handle, client: u32, set: u32, mode: u32) -> u64;
    pub fn lockrun_asked(station: *mut Handle, client: u32, set: *mut u32, mode: *mut u32) -> u32;
    pub fn lockrun_behind(station: *mut Handle, set: u32, client: u32, other: u32) -> u32;
    pub fn lockrun_count(station: *mut Handle, read: *mut u64, taken: *mut u64, counts: *mut u64, length: usize)
        -> u32;
    pub fn lockrun_give(service: *mut Handle, given: *mut Handle) -> u32;
    pub fn lockrun_served(service: *mut Handle, submitted: *mut usize, polled: *mut usize) -> u32;
    pub fn lockrun_finish(service: *mut Handle, journal: *mut Handle) -> u32;
    pub fn lockrun_copy(journal: *mut Handle, from: usize, out: *mut u8, room: usize) -> usize;
    pub fn lockrun_script(journal: *mut Handle, from: usize, out: *mut u8, room: usize) -> usize;
    pub fn lockrun_end(journal: *mut Handle, held: *mut usize, waiting: *mut usize) -> u32;
    fn lockrun_free(handle: *mut Handle);
    pub fn lockrun_node_open(
        text: *const u8,
        length: usize,
        node: u32,
        key: *const u8,
        key_length: usize,
        start: u64,
        limit: u64,
        places: u32,
        opened: *mut Handle,
    ) -> u32;
    pub fn lockrun_send(node: *mut Handle, to: u32, buffer: *mut u8, room: usize, length: *mut usize) -> u32;
    pub fn lockrun_receive(node: *mut Handle, from: u32, bytes: *const u8, length: usize, used: *mut usize) -> u32;
    pub fn lockrun_pending(node: *mut Handle, to: u32) -> u32;
    pub fn lockrun_node_finish(node: *mut Handle, journal: *mut Handle) -> u32;
}

impl Handle {
    pub const NONE: Handle = Handle { at: null_mut() };

    pub fn is_none(&self) -> bool {
        self.at.is_null()
    }
}

impl Drop for Handle {
    fn drop(&mut self) {
        if !self.at.is_null() {
            // SAFETY: a handle that isn't null stands for something.
            unsafe { lockrun_free(self) }
        }
    }
}

pub const OK: u32 = 0;
pub const NOTHING: u32 = 1;
pub const WRONG_HANDLE: u32 = 2;
pub const NO_MEMORY: u32 = 3;
pub const BAD_ARGUMENT: u32 = 4;
pub const BAD_SCRIPT: u32 = 5;
pub const SPENT: u32 = 6;
pub const FULL: u32 = 7;
pub const LOG_FULL: u32 = 8;
pub const FORGOTTEN: u32 = 9;
pub const TOO_MANY: u32 = 10;
pub const BAD_SET: u32 = 11;
pub const OTHER_VERSION: u32 = 40;
pub const OTHER_SERVICE: u32 = 41;
pub const OTHER_NODE: u32 = 42;
pub const MISSING: u32 = 43;
pub const AGAIN: u32 = 44;
pub const TOO_LONG: u32 = 45;
pub const BAD_SEAL: u32 = 46;
pub const NO_LETTER: u32 = 47;
pub const MISFIT: u32 = 48;

pub const LOCK: u32 = 0;
pub const TRY: u32 = 1;
pub const UNLOCK: u32 = 2;
pub const CHANGE: u32 = 3;
pub const DROP: u32 = 4;
pub const WITHDRAW: u32 = 5;

pub const GRANTED: u32 = 16;
pub const TRUE: u32 = 17;
pub const FALSE: u32 = 18;
pub const UNLOCKED: u32 = 19;
pub const NOT_HELD: u32 = 20;
pub const CHANGED: u32 = 21;
pub const DROPPED: u32 = 22;
pub const BUSY: u32 = 23;
pub const WITHDRAWN: u32 = 24;
pub const WITHHELD: u32 = 25;
