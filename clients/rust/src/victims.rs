//! Who gives up where clients wait in a ring, and whether nodes rest.
use crate::calls::Heard;
use crate::exports;
use crate::nodes::Nodes;
use crate::rings::Rings;
use crate::station::Claim;
use crate::stations::Stations;
use std::sync::atomic::{AtomicBool, AtomicU64, AtomicUsize, Ordering::SeqCst};
use std::sync::{Arc, Mutex, PoisonError, Weak};
use std::thread::{sleep, spawn};
use std::time::{Duration, Instant};

/// So many rounds of turns are made at most before it is looked for a ring.
const ROUNDS: u32 = 64;

/// The policy: after which time of its wait a client looks for a ring, and what that wants to know.
#[derive(Default)]
pub(crate) struct Victims {
    after: Option<Duration>,
    asks: AtomicU64,
    // How many commands were submitted; and how many there were when there was no ring.
    done: AtomicU64,
    seen: AtomicU64,
    looked: Mutex<Option<Instant>>,
    // How many tasks wait, and whether a thread looks for them.
    tasks: AtomicUsize,
    is_watched: AtomicBool,
}

impl Victims {
    pub fn new(after: Option<Duration>) -> Victims {
        Victims { after, ..Victims::default() }
    }

    /// Whether nobody ever gives up by it.
    pub fn is_none(&self) -> bool {
        self.after.is_none()
    }

    /// The number of the next ask, if asks are numbered; a later one has a greater number.
    pub fn next_ask(&self) -> Option<u64> {
        self.after.map(|_| self.asks.fetch_add(1, SeqCst) + 1)
    }

    /// A command was submitted: without one no ring comes to be among nodes that rest.
    pub fn note_command(&self) {
        if self.after.is_some() {
            self.done.fetch_add(1, SeqCst);
        }
    }

    /// When a waiter looks for a ring next.
    pub fn next_look(&self) -> Option<Instant> {
        self.after.and_then(|after| Instant::now().checked_add(after))
    }

    // Whether it is time to look, as nobody did it just now.
    fn begins_look(&self, after: Duration) -> bool {
        let (now, mut looked) = (Instant::now(), self.looked.lock().unwrap_or_else(PoisonError::into_inner));
        let is_time = looked.map_or(true, |before| now.saturating_duration_since(before) >= after / 2);
        if is_time {
            *looked = Some(now);
        }
        is_time
    }
}

impl Stations {
    /// Whether at a moment of this call no node had anything to do.
    pub fn rests(&self) -> bool {
        let mut claims = self.claim_all();
        let rests = self.all_find_nothing(&mut claims);
        drop(claims);
        // Who found a station claimed left its mark.
        self.help_all();
        rests
    }

    /// The same of one node.
    pub fn node_rests(&self, node: usize) -> bool {
        let rests = self.with_claim(node, |claim| self.finds_nothing(node, claim));
        self.help_all();
        rests
    }

    fn all_find_nothing(&self, claims: &mut [Claim<'_>]) -> bool {
        claims.iter_mut().enumerate().fold(true, |rests, (node, claim)| self.finds_nothing(node, claim) & rests)
    }

    // Whether a turn makes no move and has neither a letter nor a reply to give out.
    fn finds_nothing(&self, node: usize, claim: &mut Claim<'_>) -> bool {
        let mut heard = Heard::default();
        let code = self.turn_claimed(node, claim, &mut heard);
        code == exports::NOTHING && heard.is_nothing()
    }

    /// Looks for a ring, unless somebody did it just now, or found none and no command was submitted since: its youngest client gives up.
    pub fn look_for_ring(&self) {
        let victims = &self.victims.0;
        let done = victims.done.load(SeqCst);
        match victims.after {
            Some(after) if done != victims.seen.load(SeqCst) && victims.begins_look(after) => {}
            _ => return,
        }
        let mut claims = self.claim_all();
        if (0..ROUNDS).any(|_| self.all_find_nothing(&mut claims)) {
            match Rings::new(&mut claims, self.seats()).find() {
                Some(ring) => self.choose(&ring),
                None => victims.seen.store(done, SeqCst),
            }
        }
        drop(claims);
        self.help_all();
    }

    // Of a ring the one that asked last is chosen, unless one was before.
    fn choose(&self, ring: &[usize]) {
        let seats = || ring.iter().map(|&client| &self.seats()[client]);
        if seats().any(|seat| seat.is_victim()) {
            return;
        }
        if let Some(youngest) = seats().max_by_key(|seat| seat.ask()) {
            youngest.choose();
            youngest.tell();
        }
    }

    /// A task waits from now on, which no thread wakes by itself: one looks for rings while there are such.
    pub fn begin_task(self: &Arc<Stations>) {
        if let Some(after) = self.victims.0.after {
            self.victims.0.tasks.fetch_add(1, SeqCst);
            if !self.victims.0.is_watched.swap(true, SeqCst) {
                let stations = Arc::downgrade(self);
                spawn(move || watch(stations, after));
            }
        }
    }

    pub fn end_task(&self) {
        if self.victims.0.after.is_some() {
            self.victims.0.tasks.fetch_sub(1, SeqCst);
        }
    }

    // Whether the thread that looks has nothing to do any more. A task that comes then either is seen, or begins another thread.
    fn ends_watch(&self) -> bool {
        let Victims { tasks, is_watched, .. } = &self.victims.0;
        if tasks.load(SeqCst) > 0 {
            return false;
        }
        is_watched.store(false, SeqCst);
        tasks.load(SeqCst) == 0 || is_watched.swap(true, SeqCst)
    }
}

fn watch(stations: Weak<Stations>, after: Duration) {
    loop {
        sleep(after);
        match stations.upgrade() {
            Some(stations) if !stations.ends_watch() => stations.look_for_ring(),
            _ => return,
        }
    }
}

impl Nodes {
    /// Whether all nodes rest: at a moment in this call there was no letter on its way, no command that was submitted and not made,
    /// and no reply that was not given out; what was submitted since is not looked at. A node that has something to do does a part of
    /// it by this call. A node that can't go on doesn't rest.
    ///
    /// ```
    /// # use lockrun::Mode;
    /// # let (nodes, mut sessions) = lockrun::open("nodes 2\nset a\nclient ann at 0\nclient ben at 1\n", 1 << 20)?;
    /// let _lock = sessions[1].lock(0, Mode::Write)?;
    /// while !nodes.rests() {}
    /// assert!(nodes.rests());
    /// # Ok::<(), lockrun::Error>(())
    /// ```
    pub fn rests(&self) -> bool {
        self.stations.rests()
    }

    /// The same of one node; but where another node has no place for its letters now they may wait. No other number rests.
    ///
    /// ```
    /// # let (nodes, _sessions) = lockrun::open("nodes 2\nset a\nclient ann at 0\nclient ben at 1\n", 1 << 20)?;
    /// assert!(nodes.node_rests(1));
    /// assert!(!nodes.node_rests(2));
    /// # Ok::<(), lockrun::Error>(())
    /// ```
    pub fn node_rests(&self, node: u32) -> bool {
        (node as usize) < self.stations.count() && self.stations.node_rests(node as usize)
    }
}
