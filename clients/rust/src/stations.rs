//! All stations, and who turns them: whoever made work for a node, until no node has any.
//!
//! Whoever submits a command, or makes a turn that sends a letter to a node, marks that node, and then turns each marked node
//! that no other thread has. So a client that waits need not turn anything, and sleeps until it is told. No wake-up is lost, by
//! the order of these steps, each of which is sequentially consistent:
//!
//! - A node is marked after what it has to do is in its ring. The mark is cleared by who has claimed the station, before the turns,
//!   which so find what was in the ring; what comes later marks it again. Who finds the station claimed leaves the mark. Who lets a
//!   station go looks at the mark after that. So either the former found it free, or the latter finds the mark.
//! - A client says that it sleeps, then looks whether nodes are marked and whether it was told, and then sleeps. Who puts a reply
//!   into its ring then notes that it was told, and then looks whether it sleeps. So one of both sees what the other did.
//! - A call that had its reply at once may leave nodes marked, but only if it finds, after it marked them and let its station go,
//!   that nobody waits. Who is about to wait counts itself first, and then turns all nodes that are marked.
//! - A ring of letters may be full. Then the sender keeps the letter, and is to be turned once there is a place. To make it
//!   the taker made as many turns as the ring has places, in one claim, or some of them in a call of its own clients. So who
//!   ends such a claim marks those whose letters had marked the node.
use crate::calls::{bits_of, Heard};
use crate::exports::{self, Handle};
use crate::seat::Seat;
use crate::station::{Claim, Ended, Station};
use crate::victims::Victims;
use crate::waiting::Asked;
use std::sync::atomic::{AtomicBool, AtomicU64, AtomicUsize, Ordering::SeqCst};
use std::thread::{sleep, yield_now};
use std::time::Duration;

/// So often one caller turns nodes in one call before it leaves what is left to those who sleep.
const ROUNDS: u32 = 1024;

/// How long a thread waits before it makes a turn again that found no memory.
const PAUSE: Duration = Duration::from_millis(1);

/// What lies alone in its lines of the caches.
#[repr(align(128))]
#[derive(Default)]
pub(crate) struct Alone<T>(pub T);

pub(crate) struct Stations {
    stations: Vec<Station>,
    // What a node may have to do: letters of each node whose bit is set, and commands or further turns if its own bit is.
    marks: Vec<Alone<AtomicU64>>,
    seats: Vec<Seat>,
    waiting: Alone<AtomicUsize>,
    is_full: Alone<AtomicBool>,
    pub victims: Alone<Victims>,
}

impl Stations {
    pub fn new(handles: Vec<Handle>, clients: usize, forgets: bool, victims: Victims) -> Stations {
        Stations {
            marks: handles.iter().map(|_| Alone::default()).collect(),
            stations: handles.into_iter().map(|handle| Station::new(handle, forgets)).collect(),
            seats: (0..clients as u32).map(Seat::new).collect(),
            waiting: Alone::default(),
            is_full: Alone::default(),
            victims: Alone(victims),
        }
    }

    pub fn seats(&self) -> &[Seat] {
        &self.seats
    }

    pub fn count(&self) -> usize {
        self.stations.len()
    }

    pub fn seat(&self, client: u32) -> &Seat {
        &self.seats[client as usize]
    }

    /// Somebody waits from now on, until `end_wait`.
    pub fn begin_wait(&self) {
        self.waiting.0.fetch_add(1, SeqCst);
    }

    pub fn end_wait(&self) {
        self.waiting.0.fetch_sub(1, SeqCst);
    }

    /// Whether a node made as many moves as it may.
    pub fn is_full(&self) -> bool {
        self.is_full.0.load(SeqCst)
    }

    /// A command is in a ring of the node.
    pub fn mark(&self, node: usize) {
        self.mark_from(node, node);
    }

    // A letter of the node `from` is in a ring of this node. It is no look and then a write: so who clears the mark sees the letter.
    fn mark_from(&self, node: usize, from: usize) {
        self.marks[node].0.fetch_or(1 << from, SeqCst);
    }

    // The node has further turns to make. Its station is claimed, so that nobody clears the mark meanwhile.
    fn mark_claimed(&self, node: usize, senders: u64) {
        let (mark, own) = (&self.marks[node].0, senders | 1 << node);
        if mark.load(SeqCst) & own != own {
            mark.fetch_or(own, SeqCst);
        }
    }

    fn is_marked(&self, node: usize) -> bool {
        self.marks[node].0.load(SeqCst) != 0
    }

    /// Submits a command and turns its node, if no other thread has that: the code and the count. If the reply isn't there yet
    /// the caller waits for it.
    pub fn submit_and_turn(&self, client: u32, home: usize, session: &mut Handle, asked: Asked) -> Option<(u32, u64)> {
        let mut heard = Heard::default();
        let mut claim = self.stations[home].claim()?;
        let (code, count) = claim.submit_and_turn(session, asked, &mut heard);
        // Where the reply came the last turn has sent all that it had to send.
        if code < exports::GRANTED {
            self.mark_claimed(home, 0);
        }
        drop(claim);
        self.pass_on(home, &heard, Some(client));
        if code == exports::LOG_FULL {
            self.end_of_moves();
        }
        if self.waiting.0.load(SeqCst) > 0 {
            self.help(heard.sent & self.all() | 1 << home);
        }
        Some((code, count))
    }

    /// Turns all nodes that have something to do: whether none had at the end, and no other thread was turning one.
    pub fn help_all(&self) -> bool {
        let nodes = 0..self.stations.len();
        let marked = nodes.clone().filter(|&node| self.is_marked(node)).fold(0, |marked, node| marked | 1 << node);
        self.help(marked);
        nodes.into_iter().all(|node| !self.is_marked(node) && !self.stations[node].is_claimed())
    }

    // Turns these nodes, and those that they send letters to.
    fn help(&self, mut nodes: u64) {
        let mut rounds = 0;
        while nodes != 0 {
            nodes = bits_of(nodes).fold(0, |further, node| further | self.turn(node));
            rounds += 1;
            if rounds > ROUNDS && nodes != 0 {
                self.wake_all();
                return;
            }
        }
    }

    // Turns a node, if it has something to do and no other thread has it: the nodes that have something to do then.
    fn turn(&self, node: usize) -> u64 {
        if !self.is_marked(node) {
            return 0;
        }
        let mut claim = match self.stations[node].claim() {
            Some(claim) => claim,
            None => return 0,
        };
        let mut heard = Heard::default();
        let senders = self.marks[node].0.swap(0, SeqCst) & !(1 << node);
        let (ended, made_places) = claim.turn(&mut heard);
        if ended == Ended::Moved || ended == Ended::NoMemory {
            self.mark_claimed(node, senders);
        }
        drop(claim);
        self.pass_on(node, &heard, None);
        let kept = if made_places { senders } else { 0 };
        bits_of(kept).for_each(|sender| self.mark(sender));
        self.after(ended);
        kept | heard.sent & self.all() | u64::from(self.is_marked(node)) << node
    }

    /// One turn of a node that this thread has, and what comes of it.
    pub fn turn_claimed(&self, node: usize, claim: &mut Claim<'_>, heard: &mut Heard) -> u32 {
        let senders = self.marks[node].0.swap(0, SeqCst) & !(1 << node);
        let (code, made_places) = claim.turn_once(heard);
        if code != exports::NOTHING {
            self.mark_claimed(node, senders);
        } else if made_places {
            bits_of(senders).for_each(|sender| self.mark(sender));
        }
        self.pass_on(node, heard, None);
        code
    }

    /// Does something with a node's station, which no other thread has then.
    pub fn with_claim<T>(&self, node: usize, work: impl FnOnce(&mut Claim<'_>) -> T) -> T {
        work(&mut claim(&self.stations[node]))
    }

    fn after(&self, ended: Ended) {
        match ended {
            Ended::Full => self.end_of_moves(),
            Ended::NoMemory => sleep(PAUSE),
            Ended::Quiet | Ended::Moved => {}
        }
    }

    fn mark_all(&self) -> u64 {
        (0..self.stations.len()).for_each(|node| self.mark(node));
        self.all()
    }

    // A bit for each node.
    fn all(&self) -> u64 {
        u64::MAX >> (64 - self.stations.len())
    }

    // Marks the nodes that this one sent letters to, and wakes the clients that it told, but not this client.
    fn pass_on(&self, from: usize, heard: &Heard, client: Option<u32>) {
        bits_of(heard.sent & self.all()).for_each(|node| self.mark_from(node, from));
        for (seats, &told) in self.seats.chunks(64).zip(&heard.told.bits) {
            let told = bits_of(told).filter_map(|place| seats.get(place));
            told.filter(|seat| Some(seat.client) != client).for_each(Seat::tell);
        }
    }

    #[cold]
    fn end_of_moves(&self) {
        if !self.is_full.0.swap(true, SeqCst) {
            self.wake_all();
        }
    }

    #[cold]
    fn wake_all(&self) {
        self.seats.iter().for_each(Seat::tell);
    }

    /// Turns all nodes until none makes a move any more.
    pub fn rest(&self) {
        while self.mark_all() != 0 && !self.help_all() && !self.is_full() {
            yield_now();
        }
    }

    /// Lets each node forget its moves and commands.
    pub fn forget(&self) -> u32 {
        let code = self.stations.iter().map(|station| claim(station).forget()).fold(exports::OK, u32::max);
        // Who found a station claimed left its mark.
        self.help_all();
        code
    }

    /// Looks at each node's station, in order.
    pub fn look(&self, mut look: impl FnMut(usize, &mut Handle)) {
        for (node, station) in self.stations.iter().enumerate() {
            look(node, &mut claim(station).handle);
        }
        // As above.
        self.help_all();
    }

    /// All stations, in order, while no other thread turns one.
    pub fn claim_all(&self) -> Vec<Claim<'_>> {
        self.stations.iter().map(claim).collect()
    }

    pub fn into_handles(self) -> impl Iterator<Item = Handle> {
        self.stations.into_iter().map(Station::into_handle)
    }
}

// Waits until the station is free: no thread has it for long.
fn claim(station: &Station) -> Claim<'_> {
    loop {
        match station.claim() {
            Some(claim) => return claim,
            None => yield_now(),
        }
    }
}
