//! The desk that the token carries.
use crate::letter::{Ask, Parked, Stamp, Tell};
use crate::modes::{Mode, Tally, bars};

/// What the desk knows of a node.
#[derive(Clone, Default)]
pub struct Entry {
    pub reported: u8,
    pub frozen: u8,
    /// The reported modes and those of the owed asks.
    pub record: u8,
    pub told_at: Stamp,
    pub owed: Vec<(Stamp, Mode)>,
}

impl Entry {
    /// Keeps these of the owed asks, with new reported modes.
    pub fn settle(&mut self, reported: u8, told_at: Stamp, mut keeps: impl FnMut(Stamp) -> bool) {
        self.reported = reported;
        self.told_at = told_at;
        self.record = reported;
        if !self.owed.is_empty() {
            self.owed.retain(|copy| keeps(copy.0));
            self.record = self.owed.iter().fold(reported, |modes, copy| modes | 1 << copy.1);
        }
    }
}

pub struct Desk {
    pub epoch: u32,
    pub number: u32,
    /// Holders' asks stand before all others.
    pub queue: Vec<Ask>,
    holders: usize,
    asked: Tally,
    /// The node that has it.
    pub at: u8,
    pub entries: Vec<Entry>,
    /// The records of all nodes but the one that has the desk.
    pub records: Tally,
    /// The modes of the last freezes, and whether a node with a record may not have been told them.
    pub told: u8,
    pub is_stale: bool,
}

impl Desk {
    pub fn new(nodes: usize) -> Desk {
        Desk {
            epoch: 0,
            number: 0,
            queue: Vec::new(),
            holders: 0,
            asked: Tally::default(),
            at: 0,
            entries: vec![Entry::default(); nodes],
            records: Tally::default(),
            told: 0,
            is_stale: false,
        }
    }

    /// The modes of the asks before a new one.
    pub fn before(&self, holder: bool) -> u8 {
        if holder {
            self.queue[..self.holders].iter().fold(0, |modes, ask| modes | 1 << ask.mode)
        } else {
            self.asked.one
        }
    }

    fn enter(&mut self, ask: Ask) {
        self.asked.add(ask.mode);
        if ask.holder {
            self.queue.insert(self.holders, ask);
            self.holders += 1;
        } else {
            self.queue.push(ask);
        }
    }

    pub fn remove(&mut self, place: usize) -> Ask {
        let ask = self.queue.remove(place);
        self.holders -= usize::from(ask.holder);
        self.asked.remove(ask.mode);
        ask
    }

    pub fn deal(&mut self, item: &Parked) {
        match item {
            Parked::Ask(ask) => self.enter(*ask),
            Parked::Tell(tell) => self.apply(tell),
        }
    }

    fn apply(&mut self, tell: &Tell) {
        let entry = &mut self.entries[usize::from(tell.node)];
        if tell.stamp > entry.told_at {
            let before = entry.record;
            entry.settle(tell.modes, tell.stamp, |owed| tell.is_pending(owed) || owed > tell.stamp);
            if tell.node != self.at {
                self.records.exchange(before, entry.record);
                self.is_stale |= entry.record != 0 && entry.frozen != self.told;
            }
        }
    }

    /// The ask was sent a copy.
    pub fn owe(&mut self, ask: &Ask) {
        let entry = &mut self.entries[usize::from(ask.node)];
        entry.owed.push((ask.stamp, ask.mode));
        self.records.exchange(entry.record, entry.record | 1 << ask.mode);
        entry.record |= 1 << ask.mode;
        self.is_stale |= entry.frozen != self.told;
    }

    /// The desk is at another node now, whose record is no longer counted; this one's is.
    pub fn move_to(&mut self, node: u8) {
        self.records.exchange(0, self.entries[usize::from(self.at)].record);
        self.at = node;
        self.records.exchange(self.entries[usize::from(node)].record, 0);
    }

    /// The modes that conflict with a waiting ask.
    pub fn frozen(&self) -> u8 {
        bars(self.asked.one)
    }
}
