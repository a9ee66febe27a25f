//! All nodes on one thread, and the letters between them.
use crate::closing::close;
use crate::letter::Letter;
use crate::node::Node;
use crate::out::{Out, Post, Words};
use crate::script::Script;
use crate::text::Text;
use std::collections::VecDeque;

#[derive(Clone, Copy)]
pub enum Step {
    Act(u16),
    Take(u8),
}

// The clients that can act, as bits, by how many commands each has made.
struct Acts {
    least: usize,
    // So many words are for each number of commands.
    width: usize,
    bits: Vec<u64>,
}

impl Acts {
    fn new(script: &Script<'_>) -> Acts {
        let width = script.clients.len().div_ceil(64).max(1);
        let most = script.clients.iter().map(|client| client.commands.len()).max().unwrap_or(0);
        Acts { least: 0, width, bits: vec![0; (most + 1) * width] }
    }

    fn add(&mut self, client: u16, made: u16) {
        let first = usize::from(made) * self.width;
        self.bits[first + usize::from(client) / 64] |= 1 << (client % 64);
        self.least = self.least.min(first);
    }

    fn remove(&mut self, client: u16, made: u16) {
        self.bits[usize::from(made) * self.width + usize::from(client) / 64] &= !(1 << (client % 64));
    }

    // The first client of those that made least. Words without a client are left behind.
    fn first(&mut self) -> Option<u16> {
        while *self.bits.get(self.least)? == 0 {
            self.least += 1;
        }
        Some((self.least % self.width * 64) as u16 + self.bits[self.least].trailing_zeros() as u16)
    }
}

/// The letters that are on their way.
pub struct Network {
    // The node that makes a move.
    from: usize,
    // By sender and receiver; and for each receiver the senders of letters, as bits; the receivers of letters.
    letters: Vec<VecDeque<Letter>>,
    senders: Vec<u64>,
    takers: u64,
}

impl Post for Network {
    fn send(&mut self, to: u8, letter: Letter) {
        self.letters[self.from * self.senders.len() + usize::from(to)].push_back(letter);
        self.senders[usize::from(to)] |= 1 << self.from;
        self.takers |= 1 << to;
    }
}

impl Network {
    fn pop(&mut self, node: u8, sender: u8) -> Option<Letter> {
        let letters = &mut self.letters[usize::from(sender) * self.senders.len() + usize::from(node)];
        let letter = letters.pop_front();
        if letters.is_empty() {
            self.senders[usize::from(node)] &= !(1 << sender);
            if self.senders[usize::from(node)] == 0 {
                self.takers &= !(1 << node);
            }
        }
        letter
    }
}

pub struct World<'a> {
    script: &'a Script<'a>,
    nodes: Vec<Node<'a>>,
    acts: Acts,
    moves: usize,
    pub out: Out<'a, Network>,
}

impl<'a> World<'a> {
    pub fn new(script: &'a Script<'a>, words: &'a Words, room: usize) -> World<'a> {
        let count = usize::from(script.nodes);
        let nodes: Vec<Node> = (0..script.nodes).map(|me| Node::new(script, me)).collect();
        let letters = (0..count * count).map(|_| VecDeque::new()).collect();
        let post = Network { from: 0, letters, senders: vec![0; count], takers: 0 };
        let mut acts = Acts::new(script);
        for (client, its) in script.clients.iter().enumerate().filter(|(_, its)| !its.commands.is_empty()) {
            debug_assert!(nodes[usize::from(its.node)].ready >> its.slot & 1 == 1);
            acts.add(client as u16, 0);
        }
        let out = Out { words, text: Text::new(room), post, answered: Vec::new() };
        World { script, nodes, acts, moves: 0, out }
    }

    /// The first enabled move.
    pub fn pick(&mut self) -> Option<(u8, Step)> {
        if self.out.post.takers != 0 {
            let node = self.out.post.takers.trailing_zeros() as u8;
            let sender = self.out.post.senders[usize::from(node)].trailing_zeros() as u8;
            return Some((node, Step::Take(sender)));
        }
        let client = self.acts.first()?;
        Some((self.script.clients[usize::from(client)].node, Step::Act(client)))
    }

    /// Whether the move can be made.
    pub fn is_enabled(&self, node: u8, step: Step) -> bool {
        match step {
            Step::Take(sender) => {
                self.out.post.senders.get(usize::from(node)).is_some_and(|senders| senders >> (sender & 63) & 1 == 1)
            }
            Step::Act(client) => {
                let client = &self.script.clients[usize::from(client)];
                client.node == node && self.nodes[usize::from(node)].ready >> client.slot & 1 == 1
            }
        }
    }

    /// Makes an enabled move, and adds its lines to the text.
    pub fn step(&mut self, number: u8, step: Step) {
        self.moves += 1;
        let node = &mut self.nodes[usize::from(number)];
        let out = &mut self.out;
        out.post.from = usize::from(number);
        out.answered.clear();
        match step {
            Step::Take(sender) => {
                let Some(letter) = out.post.pop(number, sender) else { return };
                node.take(sender, letter, out);
            }
            Step::Act(client) => {
                let slot = self.script.clients[usize::from(client)].slot;
                self.acts.remove(client, node.made[usize::from(slot)]);
                node.act(slot, out);
                if node.ready >> slot & 1 == 1 {
                    self.acts.add(client, node.made[usize::from(slot)]);
                }
            }
        }
        for slot in &out.answered {
            if node.ready >> slot & 1 == 1 {
                let client = self.script.of_node[usize::from(number)][usize::from(*slot)];
                self.acts.add(client, node.made[usize::from(*slot)]);
            }
        }
    }

    /// Adds the lines of the end, and tells how many moves were made.
    pub fn close(&mut self) -> usize {
        let nodes: Vec<&Node> = self.nodes.iter().collect();
        close(self.script, &nodes, self.moves, &mut self.out);
        self.moves
    }
}
