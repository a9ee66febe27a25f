//! One node's station, which one thread at a time turns, and the word that says that it has something to do.
use crate::calls::{self, Heard};
use crate::exports::{self, Handle};
use crate::waiting::Asked;
use std::cell::UnsafeCell;
use std::ops::{Deref, DerefMut};
use std::sync::atomic::{AtomicBool, Ordering::SeqCst};

/// So many turns are made at most before the station is let go. A ring of letters between two nodes has as many places.
const TURNS: u32 = 64;

/// A node that forgets does it each so many turns, so that each turn has a small part of it.
const KEPT: u32 = 4096;

/// A station and what is counted of it.
pub(crate) struct Turned {
    pub handle: Handle,
    // How many turns were made since the node forgot.
    turns: u32,
    forgets: bool,
    // Whether calls of clients made turns since other turns were made.
    was_called: bool,
}

/// How turns ended.
#[derive(Clone, Copy, PartialEq, Eq)]
pub(crate) enum Ended {
    /// The last one found nothing to do.
    Quiet,
    /// There may be more.
    Moved,
    /// The node made as many moves as it may.
    Full,
    NoMemory,
}

/// A station that a thread has while it turns it, in lines of the caches that no other one is in.
#[repr(align(128))]
pub(crate) struct Station {
    claimed: AtomicBool,
    turned: UnsafeCell<Turned>,
}

// SAFETY: what is turned is reached by a claim alone, and one thread at a time has that.
unsafe impl Sync for Station {}

/// The one who may turn a station now.
pub(crate) struct Claim<'s>(&'s Station);

impl Station {
    pub fn new(handle: Handle, forgets: bool) -> Station {
        Station {
            claimed: AtomicBool::new(false),
            turned: UnsafeCell::new(Turned { handle, turns: 0, forgets, was_called: false }),
        }
    }

    /// The station, if no other thread has it.
    pub fn claim(&self) -> Option<Claim<'_>> {
        let is_free = !self.claimed.load(SeqCst) && !self.claimed.swap(true, SeqCst);
        is_free.then(|| Claim(self))
    }

    pub fn is_claimed(&self) -> bool {
        self.claimed.load(SeqCst)
    }

    pub fn into_handle(self) -> Handle {
        self.turned.into_inner().handle
    }
}

impl Deref for Claim<'_> {
    type Target = Turned;

    fn deref(&self) -> &Turned {
        // SAFETY: the claim has it alone.
        unsafe { &*self.0.turned.get() }
    }
}

impl DerefMut for Claim<'_> {
    fn deref_mut(&mut self) -> &mut Turned {
        // SAFETY: as above.
        unsafe { &mut *self.0.turned.get() }
    }
}

impl Drop for Claim<'_> {
    fn drop(&mut self) {
        self.0.claimed.store(false, SeqCst);
    }
}

impl Turned {
    /// Makes turns until one finds nothing to do, but not for long; and whether rings that were full may have places since.
    pub fn turn(&mut self, heard: &mut Heard) -> (Ended, bool) {
        let was_called = std::mem::take(&mut self.was_called);
        for _ in 0..TURNS {
            match calls::turn(&mut self.handle, heard) {
                exports::OK => self.count(),
                exports::LOG_FULL => return (Ended::Full, was_called),
                exports::NO_MEMORY => return (Ended::NoMemory, was_called),
                _ => return (Ended::Quiet, was_called),
            }
        }
        (Ended::Moved, true)
    }

    /// Makes one turn; and whether rings that were full may have places since, where it found nothing to do.
    pub fn turn_once(&mut self, heard: &mut Heard) -> (u32, bool) {
        let code = calls::turn(&mut self.handle, heard);
        if code == exports::OK {
            self.was_called = true;
            self.count();
        }
        (code, code == exports::NOTHING && std::mem::take(&mut self.was_called))
    }

    /// Submits a command of a session of this node and makes turns until the reply is there, or none is to come yet.
    pub fn submit_and_turn(&mut self, session: &mut Handle, asked: Asked, heard: &mut Heard) -> (u32, u64) {
        self.was_called = true;
        self.count();
        calls::submit_and_turn(&mut self.handle, session, asked, heard)
    }

    /// Forgets moves and commands. Want of memory loses nothing.
    pub fn forget(&mut self) -> u32 {
        self.turns = 0;
        // SAFETY: the handle stands for something, and `&mut` gives it to one call at a time.
        unsafe { exports::lockrun_forget(&mut self.handle) }
    }

    fn count(&mut self) {
        self.turns = self.turns.wrapping_add(1);
        if self.forgets && self.turns >= KEPT {
            self.forget();
        }
    }
}
