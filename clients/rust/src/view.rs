//! Who holds what now, and who waits.
use crate::calls;
use crate::exports::Handle;
use crate::nodes::Nodes;
use crate::session::{Mode, MODES};

/// Locks of one mode that a client holds in a set.
#[derive(Clone, Copy, Debug, PartialEq, Eq)]
pub struct Holds {
    pub client: u32,
    pub set: u32,
    pub mode: Mode,
    pub count: u64,
}

/// What a client waits for.
#[derive(Clone, Copy, Debug, PartialEq, Eq)]
pub struct Waits {
    pub client: u32,
    pub set: u32,
    pub mode: Mode,
}

/// What the clients of all nodes hold and wait for, node by node: of each node as it was at one moment, and of two nodes at two.
#[derive(Clone, Debug, Default, PartialEq, Eq)]
pub struct Locks {
    pub held: Vec<Holds>,
    pub waiting: Vec<Waits>,
}

impl Locks {
    fn add(&mut self, station: &mut Handle, client: u32) {
        let mut from = 0;
        while let Some((set, counts)) = calls::held(station, client, from) {
            let of_mode = |(mode, count): (Mode, u64)| Holds { client, set, mode, count };
            self.held.extend(MODES.into_iter().zip(counts).filter(|&(_, count)| count > 0).map(of_mode));
            from = set + 1;
        }
        if let Some((set, mode)) = calls::asked(station, client) {
            let mode = MODES.into_iter().find(|&other| other as u32 == mode);
            self.waiting.extend(mode.map(|mode| Waits { client, set, mode }));
        }
    }
}

impl Nodes {
    /// Who holds what now, and who waits for what. Other threads may be in calls.
    ///
    /// ```
    /// # use lockrun::{Holds, Mode};
    /// # let (nodes, mut sessions) = lockrun::open("nodes 1\nset a\nset b\nclient ann at 0\nclient ben at 0\n", 1 << 20)?;
    /// let lock = sessions[1].lock(0, Mode::Write)?;
    /// assert_eq!(nodes.locks().held, [Holds { client: 1, set: 0, mode: Mode::Write, count: 1 }]);
    /// drop(lock);
    /// assert!(nodes.locks().held.is_empty());
    /// # Ok::<(), lockrun::Error>(())
    /// ```
    pub fn locks(&self) -> Locks {
        let mut locks = Locks::default();
        self.stations.look(|node, station| {
            let own = |&(_, &home): &(usize, &usize)| home == node;
            self.homes.iter().enumerate().filter(own).for_each(|(client, _)| locks.add(station, client as u32));
        });
        locks
    }
}
