//! What a session keeps of the locks that its client has.
use crate::exports;
use crate::waiting::Asked;

/// The sets in which the client has locks, and how many, the last one that was taken behind the others.
#[derive(Default)]
pub(crate) struct Held(Vec<(u32, u64)>);

impl Held {
    /// The last set in which the client has locks.
    pub fn last(&self) -> Option<u32> {
        self.0.last().map(|&(set, _)| set)
    }

    /// Keeps what a reply to a command of this client says.
    pub fn keep(&mut self, client: u32, asked: Asked, code: u32, count: u64) {
        match code {
            exports::GRANTED => self.add(asked.set),
            exports::TRUE if asked.kind == exports::TRY => self.add(asked.set),
            exports::UNLOCKED => self.take(asked.set, 1),
            exports::DROPPED if asked.first == client => self.take_family(asked.set, count),
            _ => {}
        }
    }

    fn place(&self, set: u32) -> Option<usize> {
        self.0.iter().rposition(|&(other, _)| other == set)
    }

    fn add(&mut self, set: u32) {
        match self.place(set) {
            Some(place) => self.0[place].1 += 1,
            None => self.0.push((set, 1)),
        }
    }

    fn take(&mut self, set: u32, count: u64) {
        if let Some(place) = self.place(set) {
            self.0[place].1 = self.0[place].1.saturating_sub(count);
            if self.0[place].1 == 0 {
                self.0.remove(place);
            }
        }
    }

    // All locks of the set's family are gone; if there are none but these, all are.
    fn take_family(&mut self, set: u32, count: u64) {
        if count >= self.0.iter().map(|&(_, locks)| locks).sum() {
            self.0.clear();
        } else {
            self.take(set, u64::MAX);
        }
    }
}
