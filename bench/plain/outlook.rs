//! What a worker knows of the nodes, and where it looks next.

/// The most refused claims, one after the other.
const PATIENCE: u32 = 256;

// A visit for a command is short if it made fewer moves than this and a letter was sent; and after how many of these a
// worker that may leave gives its nodes up to the others.
const SHORT: usize = 16;
const MOST_SHORT: u32 = 4;

/// A bit for each node. Letters come before commands, and commands at one node before those at the next, so that a token
/// stays where its clients are.
pub struct Outlook {
    count: u32,
    all: u64,
    // The node from which on it looks for the next one with mail.
    at: u32,
    // It doesn't leave for short visits.
    stays: bool,
    // The nodes that its runners sent letters to, and those that may have another move.
    mail: u64,
    acts: u64,
    /// Whether it looks at the node for letters alone.
    pub by_mail: bool,
    // Visits without a move, and refused claims, one after the other.
    vain: u32,
    refused: u32,
    // The nodes with mail that another worker had when they were claimed, and that weren't claimed since.
    owed: u64,
    // Short visits.
    short: u32,
}

impl Outlook {
    pub fn new(at: u32, count: u32) -> Outlook {
        let all = u64::MAX >> (64 - count);
        let stays = at == 0;
        Outlook { count, all, at, stays, mail: 0, acts: all, by_mail: false, vain: 0, refused: 0, owed: 0, short: 0 }
    }

    /// Whether the worker has tried often enough, or is in the way of the others.
    pub fn is_over(&self) -> bool {
        let leaves = !self.stays && self.short >= MOST_SHORT && self.mail == 0;
        self.owed == 0 && (self.vain >= self.count || leaves) || self.refused >= PATIENCE
    }

    /// The next node.
    pub fn next(&mut self) -> u32 {
        self.by_mail = self.mail != 0;
        if self.acts == 0 {
            self.acts = self.all;
        }
        let (nodes, from) = if self.by_mail { (self.mail, self.at) } else { (self.acts, 0) };
        let later = nodes & u64::MAX << from;
        let node = if later == 0 { nodes } else { later }.trailing_zeros();
        self.mail &= !(1 << node);
        self.acts &= !(1 << node);
        self.at = if node + 1 < self.count { node + 1 } else { 0 };
        node
    }

    /// Another worker has the node.
    pub fn note_refusal(&mut self, node: u32) {
        self.refused += 1;
        if self.by_mail {
            self.acts |= 1 << node;
            self.owed |= 1 << node;
        }
    }

    /// The node was visited; it made so many moves, and sent letters to these nodes.
    pub fn note_visit(&mut self, node: u32, moves: usize, reached: u64) {
        self.owed &= !(1 << node);
        if moves == 0 {
            self.vain += 1;
            return;
        }
        if !self.by_mail && moves < SHORT && reached != 0 {
            self.short += 1;
        }
        self.vain = 0;
        self.refused = 0;
        self.mail |= reached;
        self.acts |= 1 << node;
    }
}
