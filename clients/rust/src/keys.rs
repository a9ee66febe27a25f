//! Sets for keys, which nobody declared.
use crate::calls;
use crate::error::Error;
use crate::nodes::Nodes;

/// The families of sets behind those of a script.
#[derive(Clone, Copy, Debug)]
pub(crate) struct Keys {
    pub first: u32,
    pub families: u32,
    pub members: u32,
    /// How many families behind these are for exact names.
    pub names: u32,
}

impl Keys {
    /// No families: no key has a set.
    pub const NONE: Keys = Keys { first: 0, families: 0, members: 1, names: 0 };

    /// How many families there are: none, if they are more than any service has.
    pub fn all(&self) -> Option<u32> {
        self.families.checked_add(self.names)
    }

    /// The first set behind those for keys; the nodes are open, so it is one.
    pub fn end(&self) -> u32 {
        self.first + self.families * self.members
    }
}

impl Nodes {
    /// The set of a key, of nodes that were opened with [`keys`](crate::Opening::keys): the same for the same key in each process,
    /// by its hash. It is the first one of a family, so a lock of it stands above those of the keys under it.
    ///
    /// Two keys may have one set. Then a client may wait for another one that has a lock of the other key, and never the other way
    /// round: two clients that have locks of one key that conflict. Who locks two keys locks their sets in rising order, each once.
    ///
    /// ```
    /// # use lockrun::Opening;
    /// let nodes = Opening::new("nodes 1\nclient ann at 0\n").keys(1000, 20).open_pool()?;
    /// assert_eq!(nodes.key("a document")?, nodes.key(b"a document")?);
    /// # Ok::<(), lockrun::Error>(())
    /// ```
    pub fn key(&self, key: impl AsRef<[u8]>) -> Result<u32, Error> {
        self.set_of(&[], key.as_ref())
    }

    /// The set of a key under another one, in its family. A parent of no bytes is none.
    ///
    /// ```
    /// # use lockrun::{Mode, Opening};
    /// let nodes = Opening::new("nodes 1\nclient ann at 0\n").keys(1000, 20).open_pool()?;
    /// let mut client = nodes.client()?;
    /// let mut folder = client.lock(nodes.key("folder")?, Mode::IntentionWrite)?;
    /// let _file = folder.and(nodes.key_under("folder", "file")?, Mode::Write)?;
    /// # Ok::<(), lockrun::Error>(())
    /// ```
    pub fn key_under(&self, parent: impl AsRef<[u8]>, key: impl AsRef<[u8]>) -> Result<u32, Error> {
        self.set_of(parent.as_ref(), key.as_ref())
    }

    fn set_of(&self, parent: &[u8], key: &[u8]) -> Result<u32, Error> {
        let Keys { first, families, members, .. } = self.keys;
        calls::key(first, families, members, parent, key)
    }
}
