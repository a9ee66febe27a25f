//! Asks, tells, and letters.
use crate::desk::Desk;
use crate::modes::Mode;

/// A clock and a node: a stamp is greater if its clock is, or the clocks are the same and its node is.
pub type Stamp = u64;

pub fn stamp(clock: u32, node: u8) -> Stamp {
    u64::from(clock) << 8 | u64::from(node)
}

pub fn clock(stamp: Stamp) -> u32 {
    (stamp >> 8) as u32
}

/// In the place of a mode that an ask gives up.
pub const NONE: Mode = 255;

#[derive(Clone, Copy)]
pub struct Ask {
    pub stamp: Stamp,
    pub client: u16,
    pub node: u8,
    /// The place of the client among those of its node.
    pub slot: u8,
    pub mode: Mode,
    pub gives_up: Mode,
    pub holder: bool,
}

/// A node has at most so many clients, and each waits for at most one ask.
pub const MOST_OF_NODE: usize = 16;

#[derive(Clone, Copy)]
pub struct Tell {
    pub stamp: Stamp,
    pub node: u8,
    pub modes: u8,
    count: u8,
    // The clocks of the unanswered asks.
    clocks: [u32; MOST_OF_NODE],
}

impl Tell {
    pub fn new(stamp: Stamp, node: u8, modes: u8, pending: &[Ask]) -> Tell {
        let mut clocks = [0; MOST_OF_NODE];
        for (place, ask) in clocks.iter_mut().zip(pending) {
            *place = clock(ask.stamp);
        }
        Tell { stamp, node, modes, count: pending.len() as u8, clocks }
    }

    pub fn is_pending(&self, ask: Stamp) -> bool {
        self.clocks[..usize::from(self.count)].contains(&clock(ask))
    }
}

/// An ask or a tell on its way to the desk.
#[derive(Clone, Copy)]
pub enum Parked {
    Ask(Ask),
    Tell(Tell),
}

pub enum Body {
    Ask(Ask, bool),
    Tell(Tell),
    Copy(Ask),
    Token(Box<Desk>),
    Freeze(u32, u8),
}

pub struct Letter {
    pub clock: u32,
    pub epoch: u32,
    /// The node to which the token went by this epoch.
    pub link: u8,
    pub set: u8,
    pub body: Body,
}
