//! How a client gives up that was chosen from those who wait in a ring.
use crate::error::Error;
use crate::exports;
use crate::waiting::{is_over, Asked, Reply, Waiter};
use std::time::Instant;

impl Waiter {
    /// What is about to be asked gets a number, where asks have one; what is asked again keeps its own.
    pub fn number(&self) {
        if let Some(number) = self.stations.victims.0.next_ask() {
            if self.seat().withheld().is_none() {
                self.seat().set_ask(number);
            }
        }
    }

    /// The reply's code; or `Victim`, if it was given up for that.
    pub fn known(&self, code: u32) -> Result<u32, Error> {
        if code == exports::WITHDRAWN && self.seat().is_victim() {
            return Err(Error::Victim);
        }
        Ok(code)
    }

    /// Whether a client that is withheld in this set is chosen to give up; once it is time it looks for a ring by itself.
    pub fn is_spent(&self, set: u32, next: &mut Option<Instant>) -> bool {
        if self.stations.victims.0.is_none() {
            return false;
        }
        if self.seat().set_withheld(Some(set)).is_none() {
            self.stations.victims.0.note_command();
        }
        if is_over(*next) {
            self.stations.look_for_ring();
        }
        if next.is_none() || is_over(*next) {
            *next = self.stations.victims.0.next_look();
        }
        self.seat().is_victim()
    }

    /// It asks no more for what is withheld.
    pub fn end_withheld(&self) {
        if !self.stations.victims.0.is_none() {
            self.seat().set_withheld(None);
        }
    }

    /// Asks again later for what is withheld; or it is chosen to give up.
    pub fn begin_withheld(&self, set: u32) -> Result<(), Error> {
        if self.is_spent(set, &mut None) {
            return Err(Error::Victim);
        }
        Ok(())
    }

    /// Who is chosen gives up; where its commands are used up it goes on waiting.
    pub fn yield_as_victim(&mut self) -> Option<Reply> {
        let asked = self.asked.filter(|_| !self.withdraws && self.seat().is_victim())?;
        match self.put(Asked { kind: exports::WITHDRAW, set: asked.set, first: self.client, second: 0 }) {
            Ok(came) => {
                self.withdraws = true;
                came.and_then(|reply| self.note(reply)).or_else(|| self.take_reply())
            }
            Err(_) => {
                self.seat().spare();
                None
            }
        }
    }
}
