//! All sets at one node, and its clients.
use crate::core::{Asker, Core};
use crate::letter::{Letter, NONE, stamp};
use crate::out::{GRANT, Out, Post, Reply, UNLOCK};
use crate::script::{Command, Script};

pub struct Node<'a> {
    script: &'a Script<'a>,
    pub me: u8,
    pub clock: u32,
    pub cores: Vec<Core>,
    /// The commands of each of its clients, and how many of them it made.
    lists: Vec<Vec<Command>>,
    pub made: Vec<u16>,
    /// The clients that can act, and those that wait, by their places, as bits.
    pub ready: u16,
    pub waits: u16,
}

impl<'a> Node<'a> {
    pub fn new(script: &'a Script<'a>, me: u8) -> Node<'a> {
        let clients = &script.of_node[usize::from(me)];
        let mut node = Node {
            script,
            me,
            clock: 0,
            cores: (0..script.sets.len()).map(|set| Core::new(script.nodes, me, set as u8)).collect(),
            lists: clients.iter().map(|client| script.clients[usize::from(*client)].commands.clone()).collect(),
            made: vec![0; clients.len()],
            ready: 0,
            waits: 0,
        };
        for slot in 0..clients.len() {
            node.note_ready(slot as u8);
        }
        node
    }

    // The client can act if it has a command left.
    fn note_ready(&mut self, slot: u8) {
        if usize::from(self.made[usize::from(slot)]) < self.lists[usize::from(slot)].len() {
            self.ready |= 1 << slot;
        }
    }

    /// The command is the last one of the client at this place.
    pub fn append(&mut self, slot: u8, command: Command) {
        self.lists[usize::from(slot)].push(command);
        if self.waits >> slot & 1 == 0 {
            self.ready |= 1 << slot;
        }
    }

    /// The node takes a letter.
    pub fn take<P: Post>(&mut self, from: u8, letter: Letter, out: &mut Out<P>) {
        self.clock = self.clock.max(letter.clock) + 1;
        out.take_line(self.clock, self.me, from);
        let core = &mut self.cores[usize::from(letter.set)];
        let stamp = stamp(self.clock, self.me);
        core.arrive(letter, stamp, out);
        core.finish(stamp, out);
        self.note_answers(out);
    }

    // Clients that a move answered can act again.
    fn note_answers<P>(&mut self, out: &Out<P>) {
        for slot in &out.answered {
            self.waits &= !(1 << slot);
            self.note_ready(*slot);
        }
    }

    /// The client at this place, which can act, makes its next command.
    pub fn act<P: Post>(&mut self, slot: u8, out: &mut Out<P>) {
        let script = self.script;
        let client = script.of_node[usize::from(self.me)][usize::from(slot)];
        let made = &mut self.made[usize::from(slot)];
        let command = self.lists[usize::from(slot)][usize::from(*made)];
        *made += 1;
        self.ready &= !(1 << slot);
        self.clock += 1;
        out.act_line(self.clock, self.me, client);
        match command {
            Command::Drop(other, set) => self.drop_all(client, other, set, out),
            command => self.ask(Asker { client, slot }, command, out),
        }
        if self.waits >> slot & 1 == 0 {
            self.note_ready(slot);
        }
        self.note_answers(out);
    }

    fn ask<P: Post>(&mut self, asker: Asker, command: Command, out: &mut Out<P>) {
        let Asker { client, slot } = asker;
        let (Command::Lock(set, _)
        | Command::Try(set, _)
        | Command::Unlock(set, _)
        | Command::Change(set, ..)
        | Command::Drop(_, set)) = command;
        let stamp = stamp(self.clock, self.me);
        let core = &mut self.cores[usize::from(set)];
        match command {
            Command::Lock(_, mode) if core.can_grant(slot, mode) => {
                core.give(slot, mode, NONE);
                out.lock_line(&GRANT, client, set, mode);
                out.post.reply(client, Reply::Granted);
            }
            Command::Lock(_, mode) => {
                self.waits |= 1 << slot;
                core.wait(asker, mode, NONE, stamp, out);
            }
            Command::Try(_, mode) => {
                let got = core.can_grant(slot, mode);
                if got {
                    core.give(slot, mode, NONE);
                }
                out.try_line(client, set, mode, got);
            }
            Command::Unlock(_, mode) if core.take(slot, mode) => {
                out.lock_line(&UNLOCK, client, set, mode);
                out.post.reply(client, Reply::Unlocked);
            }
            Command::Unlock(_, mode) => out.not_held_line(client, set, mode),
            Command::Change(_, from, _) if !core.holds(slot, from) => out.not_held_line(client, set, from),
            Command::Change(_, from, to) if core.can_grant(slot, to) => {
                core.give(slot, to, from);
                out.change_line(client, set, from, to);
            }
            Command::Change(_, from, to) => {
                self.waits |= 1 << slot;
                core.wait(asker, to, from, stamp, out);
            }
            Command::Drop(..) => {}
        }
        core.finish(stamp, out);
    }

    fn drop_all<P: Post>(&mut self, client: u16, other: u16, set: u8, out: &mut Out<P>) {
        let sets = &self.script.sets;
        let family = sets[usize::from(set)].family;
        let slot = self.script.clients[usize::from(other)].slot;
        let of_family = |(k, _): &(usize, &mut Core)| sets[*k].family == family;
        if self.waits >> slot & 1 == 1 {
            out.busy_line(client, other, set);
        } else {
            let cores = self.cores.iter_mut().enumerate().filter(of_family);
            let count = cores.map(|(_, core)| core.take_all(slot)).sum();
            out.drop_line(client, other, set, count);
        }
        let stamp = stamp(self.clock, self.me);
        self.cores.iter_mut().enumerate().filter(of_family).for_each(|(_, core)| core.finish(stamp, out));
    }
}
