//! Nested transactions that lock sets: the rules as a plain Rust program has them.

use std::collections::VecDeque;

pub type Mode = usize;

/// Whether locks of the two modes conflict; modes count as the words of `lines.rs` stand.
const CONFLICTS: [[bool; 6]; 6] = [
    [false, false, false, false, false, true],
    [false, false, false, true, true, true],
    [false, false, true, true, true, true],
    [false, true, true, false, true, true],
    [false, true, true, true, true, true],
    [true, true, true, true, true, true],
];

struct Transaction {
    parent: Option<u16>,
    open: bool,
    children: u16,
    wish: Option<(usize, Mode)>,
}

struct Entry {
    owner: u16,
    mode: Mode,
    count: u32,
}

#[derive(Clone, Copy)]
struct Ask {
    owner: u16,
    mode: Mode,
}

/// Which of the 256 transactions up to x are x or an ancestor of x, and the ancestor below them.
struct Marks {
    first: u16,
    own: [bool; 256],
    above: Option<u16>,
}

#[derive(Default)]
struct Set {
    entries: Vec<Entry>,
    queue: VecDeque<Ask>,
}

#[derive(Clone, Copy, PartialEq, Eq)]
pub enum Asked {
    Granted,
    Waits,
    False,
    NotOpen,
    Busy,
}

#[derive(Clone, Copy, PartialEq, Eq)]
pub enum Ended {
    Done,
    NotOpen,
    Busy,
    HasChildren,
}

pub struct Nest {
    transactions: Vec<Transaction>,
    sets: Vec<Set>,
    pub grants: VecDeque<(u16, usize, Mode)>,
}

impl Nest {
    pub fn new(sets: usize) -> Nest {
        Nest {
            transactions: Vec::new(),
            sets: (0..sets).map(|_| Set::default()).collect(),
            grants: VecDeque::new(),
        }
    }

    fn is_open(&self, x: u16) -> bool {
        self.transactions.get(x as usize).is_some_and(|t| t.open)
    }

    /// The number of a new transaction; none if the parent isn't open.
    pub fn begin(&mut self, parent: Option<u16>) -> Option<u16> {
        if let Some(p) = parent {
            if !self.is_open(p) {
                return None;
            }
            self.transactions[p as usize].children += 1;
        }
        self.transactions.push(Transaction { parent, open: true, children: 0, wish: None });
        Some((self.transactions.len() - 1) as u16)
    }

    fn parent(&self, x: u16) -> Option<u16> {
        self.transactions[x as usize].parent
    }

    /// Whether the owner is x or an ancestor of x.
    fn is_own(&self, owner: u16, x: u16) -> bool {
        let mut at = x;
        while at > owner {
            match self.parent(at) {
                Some(p) => at = p,
                None => return false,
            }
        }
        at == owner
    }

    fn marks(&self, x: u16) -> Marks {
        let first = x.saturating_sub(255);
        let mut marks = Marks { first, own: [false; 256], above: Some(x) };
        while let Some(at) = marks.above.filter(|at| *at >= first) {
            marks.own[usize::from(at - first)] = true;
            marks.above = self.parent(at);
        }
        marks
    }

    /// Whether one of the locks stands against the mode for x. Behind the first that conflicts, marks tell.
    fn bar(&self, x: u16, mode: Mode, mut locks: impl Iterator<Item = (u16, Mode)>) -> bool {
        let Some((first, _)) = locks.find(|(_, other)| CONFLICTS[mode][*other]) else {
            return false;
        };
        if !self.is_own(first, x) {
            return true;
        }
        let marks = self.marks(x);
        locks.any(|(owner, other)| CONFLICTS[mode][other] && !self.is_marked(&marks, owner, x))
    }

    fn is_marked(&self, marks: &Marks, owner: u16, x: u16) -> bool {
        if owner >= marks.first {
            owner <= x && marks.own[usize::from(owner - marks.first)]
        } else {
            marks.above.is_some_and(|p| self.is_own(owner, p))
        }
    }

    /// Whether the mode is free for x behind the first asks of the queue.
    fn is_free(&self, set: usize, earlier: usize, x: u16, mode: Mode) -> bool {
        let set = &self.sets[set];
        !self.bar(x, mode, set.entries.iter().map(|e| (e.owner, e.mode)))
            && !self.bar(x, mode, set.queue.iter().take(earlier).map(|a| (a.owner, a.mode)))
    }

    pub fn ask(&mut self, x: u16, set: usize, mode: Mode, may_wait: bool) -> Asked {
        if !self.is_open(x) {
            return Asked::NotOpen;
        }
        if self.transactions[x as usize].wish.is_some() {
            return Asked::Busy;
        }
        if self.is_free(set, self.sets[set].queue.len(), x, mode) {
            add(&mut self.sets[set].entries, x, mode, 1);
            return Asked::Granted;
        }
        if !may_wait {
            return Asked::False;
        }
        self.sets[set].queue.push_back(Ask { owner: x, mode });
        self.transactions[x as usize].wish = Some((set, mode));
        Asked::Waits
    }

    pub fn commit(&mut self, x: u16) -> Ended {
        if !self.is_open(x) {
            return Ended::NotOpen;
        }
        if self.transactions[x as usize].wish.is_some() {
            return Ended::Busy;
        }
        if self.transactions[x as usize].children > 0 {
            return Ended::HasChildren;
        }
        let parent = self.end(x);
        for set in 0..self.sets.len() {
            let entries = &mut self.sets[set].entries;
            if entries.iter().any(|e| e.owner == x) {
                match parent {
                    Some(p) => pass(entries, x, p),
                    None => entries.retain(|e| e.owner != x),
                }
                self.serve(set);
            }
        }
        Ended::Done
    }

    pub fn abort(&mut self, x: u16) -> Ended {
        if !self.is_open(x) {
            return Ended::NotOpen;
        }
        let family = self.transactions[x as usize].children > 0;
        self.end(x);
        if family {
            for y in x as usize + 1..self.transactions.len() {
                if self.transactions[y].parent.is_some_and(|p| !self.is_open(p)) {
                    self.transactions[y].open = false;
                }
            }
        }
        for k in 0..self.sets.len() {
            let (transactions, set) = (&self.transactions, &mut self.sets[k]);
            let before = set.entries.len() + set.queue.len();
            set.entries.retain(|e| transactions[e.owner as usize].open);
            set.queue.retain(|a| transactions[a.owner as usize].open);
            if set.entries.len() + set.queue.len() < before {
                self.serve(k);
            }
        }
        Ended::Done
    }

    /// Ends x alone, and answers its parent.
    fn end(&mut self, x: u16) -> Option<u16> {
        self.transactions[x as usize].open = false;
        let parent = self.transactions[x as usize].parent;
        if let Some(p) = parent {
            self.transactions[p as usize].children -= 1;
        }
        parent
    }

    fn serve(&mut self, set: usize) {
        while let Some(k) = (0..self.sets[set].queue.len()).find(|k| {
            let ask = self.sets[set].queue[*k];
            self.is_free(set, *k, ask.owner, ask.mode)
        }) {
            let ask = self.sets[set].queue.remove(k).unwrap();
            add(&mut self.sets[set].entries, ask.owner, ask.mode, 1);
            self.transactions[ask.owner as usize].wish = None;
            self.grants.push_back((ask.owner, set, ask.mode));
        }
    }

    pub fn held(&self, x: u16, set: usize, mode: Mode) -> u32 {
        let entries = self.sets[set].entries.iter();
        entries.filter(|e| e.owner == x && e.mode == mode).map(|e| e.count).sum()
    }

    pub fn waiting(&self, x: u16) -> Option<(usize, Mode)> {
        if self.is_open(x) { self.transactions[x as usize].wish } else { None }
    }
}

/// Gives x so many locks more.
fn add(entries: &mut Vec<Entry>, x: u16, mode: Mode, count: u32) {
    match entries.iter_mut().find(|e| e.owner == x && e.mode == mode) {
        Some(entry) => entry.count += count,
        None => entries.push(Entry { owner: x, mode, count }),
    }
}

/// The entries of x are p's from now on.
fn pass(entries: &mut Vec<Entry>, x: u16, p: u16) {
    while let Some(k) = entries.iter().position(|e| e.owner == x) {
        let entry = entries.remove(k);
        add(entries, p, entry.mode, entry.count);
    }
}
