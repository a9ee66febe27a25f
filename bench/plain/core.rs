//! One lock set at one node.
use crate::desk::Desk;
use crate::letter::{Ask, Body, Letter, MOST_OF_NODE, NONE, Parked, Stamp, Tell, clock};
use crate::modes::{self, Mode, Tally, barred, bars, bars_all, covers, each, excludes_itself};
use crate::out::{Out, Post, WAIT};

/// A client, and its place among the clients of its node.
#[derive(Clone, Copy)]
pub struct Asker {
    pub client: u16,
    pub slot: u8,
}

// What the desk does next.
enum Pick {
    Local(usize),
    Copy(usize),
    Move(usize),
    Nothing,
}

#[derive(Default)]
pub struct Core {
    me: u8,
    set: u8,
    // The modes of each client, and how often it holds each; the modes that clients hold.
    modes: [u8; MOST_OF_NODE],
    pub counts: [[u16; modes::COUNT]; MOST_OF_NODE],
    held: Tally,
    charge: u8,
    frozen: u8,
    number: u32,
    firm: u8,
    epoch: u32,
    hoped: Option<(u8, Stamp)>,
    pub pending: Vec<Ask>,
    parked: Vec<Parked>,
    pub desk: Option<Box<Desk>>,
}

impl Core {
    pub fn new(nodes: u8, me: u8, set: u8) -> Core {
        let desk = (me == 0).then(|| Box::new(Desk::new(usize::from(nodes))));
        Core { me, set, desk, ..Core::default() }
    }

    fn others_bar(&self, slot: u8, mode: Mode) -> bool {
        barred(self.held.others(self.modes[usize::from(slot)]), mode)
    }

    pub fn holds(&self, slot: u8, mode: Mode) -> bool {
        self.modes[usize::from(slot)] >> mode & 1 == 1
    }

    fn own_owed(&self, desk: &Desk) -> u8 {
        let owed = desk.entries[usize::from(self.me)].owed.iter();
        let waits = |stamp| self.pending.iter().any(|ask| ask.stamp == stamp);
        owed.filter(|copy| waits(copy.0)).fold(0, |modes, copy| modes | 1 << copy.1)
    }

    pub fn can_grant(&self, slot: u8, mode: Mode) -> bool {
        let own = self.modes[usize::from(slot)];
        if covers(own, mode) {
            return true;
        }
        if self.others_bar(slot, mode) {
            return false;
        }
        match &self.desk {
            None => covers(self.charge, mode) && self.frozen >> mode & 1 == 0,
            Some(desk) => !barred(desk.records.one | self.own_owed(desk) | desk.before(own != 0), mode),
        }
    }

    pub fn give(&mut self, slot: u8, mode: Mode, gives_up: Mode) {
        if gives_up != NONE {
            self.take(slot, gives_up);
        }
        self.counts[usize::from(slot)][usize::from(mode)] += 1;
        if !self.holds(slot, mode) {
            self.modes[usize::from(slot)] |= 1 << mode;
            self.held.add(mode);
        }
    }

    /// One lock goes, if the client holds one.
    pub fn take(&mut self, slot: u8, mode: Mode) -> bool {
        let count = &mut self.counts[usize::from(slot)][usize::from(mode)];
        if *count == 0 {
            return false;
        }
        *count -= 1;
        if *count == 0 {
            self.modes[usize::from(slot)] &= !(1 << mode);
            self.held.remove(mode);
        }
        true
    }

    /// All locks of a client go; how many there were.
    pub fn take_all(&mut self, slot: u8) -> u32 {
        let modes = std::mem::take(&mut self.modes[usize::from(slot)]);
        let counts = std::mem::take(&mut self.counts[usize::from(slot)]);
        each(modes, |mode| self.held.remove(mode));
        counts.into_iter().map(u32::from).sum()
    }

    fn send<P: Post>(&self, to: u8, body: Body, stamp: Stamp, out: &mut Out<P>) {
        out.post.send(to, Letter { clock: clock(stamp), epoch: self.epoch, link: self.firm, set: self.set, body });
    }

    pub fn wait<P: Post>(&mut self, asker: Asker, mode: Mode, gives_up: Mode, stamp: Stamp, out: &mut Out<P>) {
        let Asker { client, slot } = asker;
        let holder = self.modes[usize::from(slot)] != 0;
        let ask = Ask { stamp, client, node: self.me, slot, mode, gives_up, holder };
        self.pending.push(ask);
        out.lock_line(&WAIT, client, self.set, mode);
        self.route_ask(ask, false, stamp, out);
    }

    fn route_ask<P: Post>(&mut self, ask: Ask, by_hoped: bool, stamp: Stamp, out: &mut Out<P>) {
        if let Some(desk) = &mut self.desk {
            return desk.deal(&Parked::Ask(ask));
        }
        let is_older = |own: &Ask| excludes_itself(own.mode) && own.stamp < ask.stamp;
        if self.firm == self.me || by_hoped && self.pending.iter().any(is_older) {
            return self.parked.push(Parked::Ask(ask));
        }
        match self.hoped {
            Some((node, hope)) if !by_hoped && hope < ask.stamp => self.send(node, Body::Ask(ask, true), stamp, out),
            _ => self.send(self.firm, Body::Ask(ask, false), stamp, out),
        }
        if ask.node != self.me && excludes_itself(ask.mode) {
            self.hoped = Some((ask.node, ask.stamp));
        }
    }

    fn route_tell<P: Post>(&mut self, tell: Tell, stamp: Stamp, out: &mut Out<P>) {
        if let Some(desk) = &mut self.desk {
            desk.deal(&Parked::Tell(tell));
        } else if self.firm == self.me {
            self.parked.push(Parked::Tell(tell));
        } else {
            self.send(self.firm, Body::Tell(tell), stamp, out);
        }
    }

    fn answer<P: Post>(&mut self, ask: &Ask, out: &mut Out<P>) {
        if let Some(place) = self.pending.iter().position(|own| own.stamp == ask.stamp) {
            self.pending.remove(place);
        }
        self.give(ask.slot, ask.mode, ask.gives_up);
        out.answered.push(ask.slot);
        out.answer_line(ask, self.set);
    }

    /// The node takes a letter, up to the end of the move.
    pub fn arrive<P: Post>(&mut self, letter: Letter, stamp: Stamp, out: &mut Out<P>) {
        if letter.epoch > self.epoch {
            self.epoch = letter.epoch;
            self.firm = letter.link;
            self.hoped = None;
        }
        match letter.body {
            Body::Ask(ask, by_hoped) => self.route_ask(ask, by_hoped, stamp, out),
            Body::Tell(tell) => self.route_tell(tell, stamp, out),
            Body::Copy(ask) => {
                if self.desk.is_none() {
                    self.charge |= 1 << ask.mode;
                }
                self.answer(&ask, out);
            }
            Body::Freeze(number, modes) => {
                if number > self.number {
                    self.number = number;
                    self.frozen = modes;
                }
            }
            Body::Token(mut desk) => {
                self.firm = self.me;
                self.epoch = desk.epoch;
                self.hoped = None;
                for item in self.parked.drain(..) {
                    desk.deal(&item);
                }
                self.desk = Some(desk);
            }
        }
    }

    // The place of the ask that is served next, and whether it is of this node; or else that of the ask to whose node
    // the desk goes.
    fn pick(&self, desk: &Desk) -> Pick {
        let owed = self.own_owed(desk);
        let own = self.held.one | owed;
        let (mut before, mut next) = (0, Pick::Nothing);
        for (k, ask) in desk.queue.iter().enumerate() {
            if ask.node == self.me {
                let others = before | desk.records.one | owed;
                if !barred(others, ask.mode) && !self.others_bar(ask.slot, ask.mode) {
                    return Pick::Local(k);
                }
            } else {
                let record = desk.entries[usize::from(ask.node)].record;
                let others = own | desk.records.others(record);
                if !barred(before | others, ask.mode) {
                    let is_free = !barred(record, ask.mode);
                    if is_free && covers(others, ask.mode) {
                        return Pick::Copy(k);
                    }
                    if matches!(next, Pick::Nothing) && (k == 0 || is_free) {
                        next = Pick::Move(k);
                    }
                }
            }
            before |= 1 << ask.mode;
            if bars_all(before) {
                break;
            }
        }
        next
    }

    /// The end of a move.
    pub fn finish<P: Post>(&mut self, stamp: Stamp, out: &mut Out<P>) {
        if self.desk.is_some() {
            let next = self.serve(stamp, out);
            self.freeze(stamp, out);
            if let Some((k, desk)) = next.and_then(|k| Some((k, self.desk.take()?))) {
                self.hand_over(k, desk, stamp, out);
            }
        } else if self.held.one != self.charge && bars(self.held.one) != bars(self.charge) {
            self.charge = self.held.one;
            let tell = Tell::new(stamp, self.me, self.charge, &self.pending);
            self.route_tell(tell, stamp, out);
        }
    }

    // Serves what can be served; the place of the ask to whose node the desk goes then.
    fn serve<P: Post>(&mut self, stamp: Stamp, out: &mut Out<P>) -> Option<usize> {
        loop {
            let desk = self.desk.as_ref().filter(|desk| !desk.queue.is_empty())?;
            let (k, is_own) = match self.pick(desk) {
                Pick::Local(k) => (k, true),
                Pick::Copy(k) => (k, false),
                Pick::Move(k) => return Some(k),
                Pick::Nothing => return None,
            };
            let desk = self.desk.as_mut()?;
            let ask = desk.remove(k);
            if is_own {
                self.answer(&ask, out);
            } else {
                desk.owe(&ask);
                self.send(ask.node, Body::Copy(ask), stamp, out);
                out.copy_line(self.set, &ask);
            }
        }
    }

    fn freeze<P: Post>(&mut self, stamp: Stamp, out: &mut Out<P>) {
        let Some(desk) = &mut self.desk else { return };
        let (me, modes) = (usize::from(self.me), desk.frozen());
        desk.entries[me].frozen = modes;
        if modes != desk.told || desk.is_stale {
            (desk.told, desk.is_stale) = (modes, false);
            let number = desk.number + 1;
            for (x, entry) in desk.entries.iter_mut().enumerate() {
                if entry.frozen != modes && entry.record != 0 && x != me {
                    entry.frozen = modes;
                    desk.number = number;
                    let body = Body::Freeze(number, modes);
                    let clock = clock(stamp);
                    let letter = Letter { clock, epoch: self.epoch, link: self.firm, set: self.set, body };
                    out.post.send(x as u8, letter);
                    out.freeze_line(self.set, x as u8, number, modes);
                }
            }
        }
        self.frozen = modes;
        self.number = desk.number;
    }

    fn hand_over<P: Post>(&mut self, k: usize, mut desk: Box<Desk>, stamp: Stamp, out: &mut Out<P>) {
        let to = desk.queue[k].node;
        self.charge = self.held.one;
        let pending = &self.pending;
        let entry = &mut desk.entries[usize::from(self.me)];
        entry.settle(self.charge, stamp, |owed| pending.iter().any(|ask| ask.stamp == owed));
        desk.move_to(to);
        desk.epoch += 1;
        self.firm = to;
        self.epoch = desk.epoch;
        self.hoped = None;
        out.token_line(self.set, to, desk.epoch);
        self.send(to, Body::Token(desk), stamp, out);
    }
}
