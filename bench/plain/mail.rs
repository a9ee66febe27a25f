//! Rings of letters between each two nodes, and a node's ends of them.
use crate::letter::Letter;
use crate::out::Post;
use std::cell::UnsafeCell;
use std::collections::VecDeque;
use std::mem::MaybeUninit;
use std::sync::atomic::{AtomicU32, AtomicU64, Ordering};

// The places of a ring.
const PLACES: u32 = 64;

/// On a line of the cache of its own.
#[derive(Default)]
#[repr(align(64))]
pub struct Line<T>(pub T);

// How many letters were ever taken from a ring, and how many given to it. The one is written by the taking node alone,
// the other by the sending one.
#[derive(Default)]
struct Counts {
    taken: Line<AtomicU32>,
    given: Line<AtomicU32>,
}

/// All rings, by sender and receiver, and for each receiver the senders that have given letters since it last looked.
pub struct Rings {
    nodes: usize,
    counts: Vec<Counts>,
    places: Vec<UnsafeCell<MaybeUninit<Letter>>>,
    senders: Vec<Line<AtomicU64>>,
}

// A place is written by the sending node before it raises `given`, and read by the taking one before it raises `taken`;
// and a node is in the hands of one thread at a time.
unsafe impl Sync for Rings {}

impl Rings {
    pub fn new(nodes: usize) -> Rings {
        let count = nodes * nodes * PLACES as usize;
        let mut places = Vec::with_capacity(count);
        // A place needs no value, and so no page is touched before a letter comes.
        unsafe { places.set_len(count) };
        Rings {
            nodes,
            counts: (0..nodes * nodes).map(|_| Counts::default()).collect(),
            places,
            senders: (0..nodes).map(|_| Line::default()).collect(),
        }
    }

    fn place(&self, ring: usize, number: u32) -> *mut Letter {
        self.places[ring * PLACES as usize + (number % PLACES) as usize].get().cast()
    }
}

// The sending end of a ring, and the letters that found no place yet.
#[derive(Default)]
struct OutLane {
    given: u32,
    taken: u32,
    outbox: VecDeque<Letter>,
}

// The taking end of a ring.
#[derive(Clone, Copy, Default)]
struct InLane {
    taken: u32,
    given: u32,
}

pub struct Mail<'a> {
    rings: &'a Rings,
    me: usize,
    outs: Vec<OutLane>,
    ins: Vec<InLane>,
    // The nodes with letters in their outboxes, and those from which letters are known to be in rings.
    waiting: u64,
    known: u64,
    /// The nodes that letters went to since this was last cleared.
    pub reached: u64,
}

impl Post for Mail<'_> {
    fn send(&mut self, to: u8, letter: Letter) {
        self.reached |= 1 << to;
        if self.waiting >> to & 1 == 0 && self.has_place(to) {
            self.give(to, letter);
        } else {
            self.outs[usize::from(to)].outbox.push_back(letter);
            self.waiting |= 1 << to;
        }
    }
}

impl<'a> Mail<'a> {
    pub fn new(rings: &'a Rings, me: usize) -> Mail<'a> {
        let outs = (0..rings.nodes).map(|_| OutLane::default()).collect();
        Mail { rings, me, outs, ins: vec![InLane::default(); rings.nodes], waiting: 0, known: 0, reached: 0 }
    }

    fn has_place(&mut self, to: u8) -> bool {
        let lane = &mut self.outs[usize::from(to)];
        if lane.given - lane.taken < PLACES {
            return true;
        }
        let counts = &self.rings.counts[self.me * self.rings.nodes + usize::from(to)];
        lane.taken = counts.taken.0.load(Ordering::Acquire);
        lane.given - lane.taken < PLACES
    }

    // There is a place.
    fn give(&mut self, to: u8, letter: Letter) {
        let lane = &mut self.outs[usize::from(to)];
        let ring = self.me * self.rings.nodes + usize::from(to);
        unsafe { self.rings.place(ring, lane.given).write(letter) };
        lane.given += 1;
        self.rings.counts[ring].given.0.store(lane.given, Ordering::Release);
        self.rings.senders[usize::from(to)].0.fetch_or(1 << self.me, Ordering::Release);
    }

    /// Gives letters of outboxes to rings that have places.
    pub fn flush(&mut self) {
        let mut waiting = self.waiting;
        while waiting != 0 {
            let to = waiting.trailing_zeros() as u8;
            waiting &= waiting - 1;
            while self.has_place(to)
                && let Some(letter) = self.outs[usize::from(to)].outbox.pop_front()
            {
                self.give(to, letter);
            }
            if self.outs[usize::from(to)].outbox.is_empty() {
                self.waiting &= !(1 << to);
            }
        }
    }

    /// The next letter of the first node that one comes from.
    pub fn take(&mut self) -> Option<(u8, Letter)> {
        let senders = &self.rings.senders[self.me].0;
        if senders.load(Ordering::Relaxed) != 0 {
            self.known |= senders.swap(0, Ordering::Acquire);
        }
        while self.known != 0 {
            let from = self.known.trailing_zeros() as usize;
            let ring = from * self.rings.nodes + self.me;
            let (lane, counts) = (&mut self.ins[from], &self.rings.counts[ring]);
            if lane.taken == lane.given {
                lane.given = counts.given.0.load(Ordering::Acquire);
            }
            if lane.taken == lane.given {
                self.known &= self.known - 1;
                continue;
            }
            let letter = unsafe { self.rings.place(ring, lane.taken).read() };
            lane.taken += 1;
            counts.taken.0.store(lane.taken, Ordering::Release);
            return Some((from as u8, letter));
        }
        None
    }
}
