//! Sets for exact names, which are added while the nodes run.
use crate::error::Error;
use crate::nodes::Nodes;
use std::collections::HashMap;
use std::sync::{Arc, PoisonError, RwLock};

type Name = Arc<[u8]>;

/// The families of sets for names: the first set, how many families there are, and how many sets each has.
pub(crate) struct Names {
    begin: u32,
    families: u32,
    members: u32,
    table: RwLock<Table>,
}

/// Which names were added, family by family.
#[derive(Default)]
struct Table {
    roots: HashMap<Name, u32>,
    families: Vec<Family>,
}

/// The names of a family in the order of their sets, of which the first is that of the root, and the places of the others.
struct Family {
    names: Vec<Name>,
    places: HashMap<Name, u32>,
}

impl Names {
    pub fn new(begin: u32, families: u32, members: u32) -> Names {
        Names { begin, families, members, table: RwLock::default() }
    }

    // The set of a name; a parent of no bytes is none.
    fn set_of(&self, parent: &[u8], name: &[u8]) -> Result<u32, Error> {
        if self.families == 0 || (!parent.is_empty() && self.members == 1) {
            return Err(Error::BadArgument);
        }
        let known = self.table.read().unwrap_or_else(PoisonError::into_inner).find(parent, name);
        let (family, place) = match known {
            Some(known) => known,
            None => self.table.write().unwrap_or_else(PoisonError::into_inner).add(self, parent, name)?,
        };
        Ok(self.begin + family * self.members + place)
    }

    fn name_of(&self, set: u32) -> Option<Vec<u8>> {
        let place = set.checked_sub(self.begin)?;
        let (family, member) = (place.checked_div(self.members)?, place.checked_rem(self.members)?);
        let table = self.table.read().unwrap_or_else(PoisonError::into_inner);
        Some(table.families.get(family as usize)?.names.get(member as usize)?.to_vec())
    }
}

impl Table {
    fn find(&self, parent: &[u8], name: &[u8]) -> Option<(u32, u32)> {
        if parent.is_empty() {
            return self.roots.get(name).map(|&family| (family, 0));
        }
        let family = *self.roots.get(parent)?;
        self.families[family as usize].places.get(name).map(|&place| (family, place))
    }

    fn add(&mut self, of: &Names, parent: &[u8], name: &[u8]) -> Result<(u32, u32), Error> {
        let family = self.root(of, if parent.is_empty() { name } else { parent })?;
        let place = if parent.is_empty() { 0 } else { self.families[family as usize].place(of, name)? };
        Ok((family, place))
    }

    // The family of a name without a parent, which is added if it isn't there.
    fn root(&mut self, of: &Names, name: &[u8]) -> Result<u32, Error> {
        if let Some(&family) = self.roots.get(name) {
            return Ok(family);
        }
        let (family, name) = (self.families.len() as u32, Name::from(name));
        if family == of.families {
            return Err(Error::NamesFull);
        }
        self.families.push(Family { names: vec![name.clone()], places: HashMap::new() });
        self.roots.insert(name, family);
        Ok(family)
    }
}

impl Family {
    fn place(&mut self, of: &Names, name: &[u8]) -> Result<u32, Error> {
        if let Some(&place) = self.places.get(name) {
            return Ok(place);
        }
        let (place, name) = (self.names.len() as u32, Name::from(name));
        if place >= of.members {
            return Err(Error::NamesFull);
        }
        self.names.push(name.clone());
        self.places.insert(name, place);
        Ok(place)
    }
}

impl Nodes {
    /// The set of an exact name, of nodes that were opened with [`names`](crate::Opening::names): the same for the same name on any
    /// thread, and of no other name, nor of a key. It is added if it isn't there, and stays. `NamesFull` if as many are there as may
    /// be. Which set it is depends on the order in which names come, so it is of this process alone.
    ///
    /// ```
    /// # use lockrun::{Error, Opening};
    /// let nodes = Opening::new("nodes 1\nclient ann at 0\n").names(2).open_pool()?;
    /// assert_eq!(nodes.name("a document")?, nodes.name(b"a document")?);
    /// assert_ne!(nodes.name("a document")?, nodes.name("another one")?);
    /// assert_eq!(nodes.name("a third one"), Err(Error::NamesFull));
    /// # Ok::<(), lockrun::Error>(())
    /// ```
    pub fn name(&self, name: impl AsRef<[u8]>) -> Result<u32, Error> {
        self.names.set_of(&[], name.as_ref())
    }

    /// The set of a name under another one, in its family. The same name under two others is two names. A parent of no bytes is
    /// none; the parent itself has its set as a name without one, and is added too.
    ///
    /// ```
    /// # use lockrun::{Mode, Opening};
    /// let nodes = Opening::new("nodes 1\nclient ann at 0\n").keys(0, 20).names(1000).open_pool()?;
    /// let mut client = nodes.client()?;
    /// let mut folder = client.lock(nodes.name("folder")?, Mode::IntentionWrite)?;
    /// let _file = folder.and(nodes.name_under("folder", "file")?, Mode::Write)?;
    /// # Ok::<(), lockrun::Error>(())
    /// ```
    pub fn name_under(&self, parent: impl AsRef<[u8]>, name: impl AsRef<[u8]>) -> Result<u32, Error> {
        self.names.set_of(parent.as_ref(), name.as_ref())
    }

    /// The name that has this set, without that of its parent.
    ///
    /// ```
    /// # use lockrun::Opening;
    /// let nodes = Opening::new("nodes 1\nset a\nclient ann at 0\n").names(2).open_pool()?;
    /// assert_eq!(nodes.name_of(nodes.name("a document")?), Some(b"a document".to_vec()));
    /// assert_eq!(nodes.name_of(0), None);
    /// # Ok::<(), lockrun::Error>(())
    /// ```
    pub fn name_of(&self, set: u32) -> Option<Vec<u8>> {
        self.names.name_of(set)
    }
}
