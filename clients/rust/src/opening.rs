//! How nodes are opened.
use crate::error::{check, Error};
use crate::exports::{self, Handle};
use crate::fault::{BadSet, Fault};
use crate::keys::Keys;
use crate::nodes::Nodes;
use crate::session::Session;
use crate::stations::Stations;
use crate::victims::Victims;
use std::sync::Arc;
use std::time::Duration;

/// How many places the rings of a session have.
const PLACES: u32 = 4;

/// How many moves a node makes at most, if nothing else is said: some hundred thousand a second for a month.
const LIMIT: u64 = 1 << 40;

/// A further set: its name, and that of its parent, which is a set before it, if it has one.
#[derive(Clone, Copy, Debug)]
pub struct NewSet<'a> {
    pub name: &'a str,
    pub parent: Option<&'a str>,
}

/// How a script's nodes are to be opened.
///
/// The script is of version 3, which alone knows how to give up a wait: its line is put before a script that has no line of a
/// version. In version 2, if the script says so, a call that would have to give up is a `BadArgument`.
#[derive(Clone, Copy, Debug)]
#[must_use = "nothing is opened yet"]
pub struct Opening<'a> {
    script: &'a str,
    sets: &'a [NewSet<'a>],
    keys: Keys,
    limit: u64,
    keeps: bool,
    victims: Option<Duration>,
}

impl<'a> Opening<'a> {
    /// The nodes, sets and clients of a script. Its nodes forget their moves now and then, so that their memory doesn't grow
    /// with what they did.
    ///
    /// ```
    /// let (_nodes, sessions) = lockrun::Opening::new("nodes 1\nset a\nclient ann at 0\n").open()?;
    /// assert_eq!(sessions.len(), 1);
    /// # Ok::<(), lockrun::Error>(())
    /// ```
    pub fn new(script: &'a str) -> Opening<'a> {
        let first = script.lines().filter(|line| line.split_whitespace().next() == Some("set")).count() as u32;
        Opening { script, sets: &[], keys: Keys { first, ..Keys::NONE }, limit: LIMIT, keeps: false, victims: None }
    }

    /// Further sets behind those of the script, at most 65,536 with these. If they are more than 8 the nodes have no journal.
    ///
    /// ```
    /// # use lockrun::{NewSet, Opening};
    /// let rows = [NewSet { name: "row", parent: Some("table") }];
    /// let (_nodes, mut sessions) = Opening::new("nodes 1\nset table\nclient ann at 0\n").sets(&rows).open()?;
    /// assert_eq!(sessions[0].set("row"), Some(1));
    /// # Ok::<(), lockrun::Error>(())
    /// ```
    pub fn sets(self, sets: &'a [NewSet<'a>]) -> Opening<'a> {
        Opening { sets, ..self }
    }

    /// Sets for keys, in so many families of so many members each, behind those of the script: see [`Nodes::key`]. With these there
    /// are no further sets by name.
    ///
    /// ```
    /// # use lockrun::{Mode, Opening};
    /// let nodes = Opening::new("nodes 1\nclient ann at 0\n").keys(1 << 16, 1).open_pool()?;
    /// let mut client = nodes.client()?;
    /// let _lock = client.lock(nodes.key("any key")?, Mode::Write)?;
    /// # Ok::<(), lockrun::Error>(())
    /// ```
    pub fn keys(self, families: u32, members: u32) -> Opening<'a> {
        Opening { keys: Keys { families, members, ..self.keys }, ..self }
    }

    /// Sets for so many exact names without a parent, behind those for keys: see [`Nodes::name`]. Where `keys` says that a family has
    /// `members` sets, each has a family for itself and `members - 1` names under it.
    ///
    /// ```
    /// # use lockrun::{Mode, Opening};
    /// let nodes = Opening::new("nodes 1\nclient ann at 0\n").names(1000).open_pool()?;
    /// let mut client = nodes.client()?;
    /// let _lock = client.lock(nodes.name("any name")?, Mode::Write)?;
    /// # Ok::<(), lockrun::Error>(())
    /// ```
    pub fn names(self, names: u32) -> Opening<'a> {
        Opening { keys: Keys { names, ..self.keys }, ..self }
    }

    /// Who waits for longer than this looks for a ring of clients that wait for one another, again and again, and the youngest of it
    /// gives up: the one that asked last has [`Error::Victim`]. It is found once all nodes rest. Without this nobody gives up so. On
    /// several nodes somebody may give up who needn't: where an ask that was given up before stands in the way it isn't known for what.
    /// While tasks wait, a thread looks for them. In a script of version 2 it is a `BadArgument`.
    ///
    /// ```
    /// # use lockrun::{Error, Mode, Opening};
    /// # use std::{thread::scope, time::Duration};
    /// let script = "nodes 1\nset a\nset b\nclient ann at 0\nclient ben at 0\n";
    /// let (_nodes, mut sessions) = Opening::new(script).victims(Duration::from_millis(10)).open()?;
    /// let (mut ben, mut ann) = (sessions.remove(1), sessions.remove(0));
    /// let (mut one, mut other) = (ann.lock(0, Mode::Write)?, ben.lock(1, Mode::Write)?);
    /// scope(|scope| {
    ///     let waits = scope.spawn(move || one.and(1, Mode::Write).map(drop));
    ///     let waited = other.and(0, Mode::Write).map(drop);
    ///     drop(other);
    ///     assert!([waited, waits.join().unwrap()].contains(&Err(Error::Victim)));
    /// });
    /// # Ok::<(), lockrun::Error>(())
    /// ```
    pub fn victims(self, after: Duration) -> Opening<'a> {
        Opening { victims: Some(after.max(Duration::from_micros(1))), ..self }
    }

    /// How many moves each node makes at most: when they are used up no further call of its clients is answered.
    ///
    /// ```
    /// # use lockrun::{Error, Mode, Opening};
    /// let (_nodes, mut sessions) = Opening::new("nodes 1\nset a\nclient ann at 0\n").limit(1).open()?;
    /// std::mem::forget(sessions[0].lock(0, Mode::Write)?);
    /// assert_eq!(sessions[0].unlock(0, Mode::Write), Err(Error::LogFull));
    /// # Ok::<(), lockrun::Error>(())
    /// ```
    pub fn limit(self, limit: u64) -> Opening<'a> {
        Opening { limit, ..self }
    }

    /// The nodes keep all that they did, some 150 bytes for a lock and its unlock, so that [`Nodes::finish`] has their journal.
    ///
    /// ```
    /// let (nodes, sessions) = lockrun::Opening::new("nodes 1\nset a\nclient ann at 0\n").keep_journal().open()?;
    /// assert_eq!(nodes.finish(sessions)?.held, 0);
    /// # Ok::<(), lockrun::Error>(())
    /// ```
    pub fn keep_journal(self) -> Opening<'a> {
        Opening { keeps: true, ..self }
    }

    /// The nodes, and a session for each client, in order.
    ///
    /// ```
    /// let (_nodes, sessions) = lockrun::Opening::new("nodes 1\nset a\nclient ann at 0\n").open()?;
    /// assert_eq!(sessions.len(), 1);
    /// # Ok::<(), lockrun::Error>(())
    /// ```
    pub fn open(self) -> Result<(Nodes, Vec<Session>), Error> {
        let (script, gives_up) = (with_version(self.script), version(self.script) != 2);
        if self.victims.is_some() && !gives_up {
            return Err(Error::BadArgument);
        }
        let mut service = self.open_service(&script)?;
        let stations = take_all(&mut service, exports::lockrun_take_station)?;
        let sessions = take_all(&mut service, exports::lockrun_take_session)?;
        let victims = Victims::new(self.victims);
        let stations = Arc::new(Stations::new(stations, sessions.len(), !self.keeps, victims));
        let sessions: Vec<Session> =
            sessions.into_iter().map(|raw| Session::new(raw, stations.clone(), gives_up)).collect();
        let homes = sessions.iter().map(|session| session.waiter.home).collect();
        Ok((Nodes::new(service, stations, homes, self.keys, self.keeps), sessions))
    }

    /// The nodes, with all sessions in their pool: see [`Nodes::client`].
    ///
    /// ```
    /// let nodes = lockrun::Opening::new("nodes 1\nset a\nclient ann at 0\n").open_pool()?;
    /// let _client = nodes.client()?;
    /// # Ok::<(), lockrun::Error>(())
    /// ```
    pub fn open_pool(self) -> Result<Nodes, Error> {
        let (mut nodes, sessions) = self.open()?;
        nodes.pool.fill(sessions);
        Ok(nodes)
    }

    fn open_service(&self, script: &str) -> Result<Handle, Error> {
        let (text, length, mut service) = (script.as_ptr(), script.len(), Handle::NONE);
        let (families, members) = (self.keys.all().ok_or(Error::TooMany)?, self.keys.members);
        let sets: Vec<exports::NewSet> = self.sets.iter().map(new_set).collect();
        let code = match (families, sets.is_empty()) {
            // SAFETY: the text and the names are borrowed for the call, and the handle stands for nothing.
            (0, _) => unsafe {
                exports::lockrun_open_sets(text, length, sets.as_ptr(), sets.len(), self.limit, PLACES, &mut service)
            },
            // SAFETY: as above.
            (_, true) => unsafe {
                exports::lockrun_open_keys(text, length, families, members, self.limit, PLACES, &mut service)
            },
            (_, false) => exports::BAD_ARGUMENT,
        };
        match code {
            exports::BAD_SCRIPT => Err(Error::BadScript(fault_of(self.script))),
            exports::BAD_SET => Err(Error::BadSet(BadSet::of(self.script, self.sets))),
            code => check(code).map(|()| service),
        }
    }
}

/// Opens the script's nodes, sets and clients: its nodes, and a session for each client, in order. Each node makes at most
/// `limit` moves. They forget what they did, as [`Opening::new`] says.
///
/// ```
/// let (_nodes, sessions) = lockrun::open("nodes 1\nset a\nclient ann at 0\n", 1 << 20)?;
/// assert_eq!(sessions.len(), 1);
/// # Ok::<(), lockrun::Error>(())
/// ```
pub fn open(script: &str, limit: u64) -> Result<(Nodes, Vec<Session>), Error> {
    Opening::new(script).limit(limit).open()
}

/// The same with further sets behind those of the script, at most 65,536 with these.
///
/// ```
/// # use lockrun::{open_sets, NewSet};
/// let rows = [NewSet { name: "row", parent: Some("table") }];
/// let (_nodes, mut sessions) = open_sets("nodes 1\nset table\nclient ann at 0\n", &rows, 1 << 20)?;
/// assert_eq!(sessions[0].set("row"), Some(1));
/// # Ok::<(), lockrun::Error>(())
/// ```
pub fn open_sets(script: &str, sets: &[NewSet<'_>], limit: u64) -> Result<(Nodes, Vec<Session>), Error> {
    Opening::new(script).sets(sets).limit(limit).open()
}

/// The fault of a script that was refused, as the program wrote it.
pub(crate) fn fault_of(script: &str) -> Fault {
    Fault::of(&with_version(script), u64::from(version(script) == 1))
}

/// The script with the line `version 3` before it, if it has no line of a version.
pub(crate) fn with_version(script: &str) -> String {
    if version(script) == 1 {
        format!("version 3\n{script}")
    } else {
        script.into()
    }
}

// The number of the script's version, by its first line that isn't skipped.
fn version(script: &str) -> u32 {
    let mut lines = script.lines().map(str::split_whitespace);
    let first =
        lines.find_map(|mut words| words.next().filter(|word| !word.starts_with('#')).map(|word| (word, words.next())));
    match first {
        Some(("version", Some("3"))) => 3,
        Some(("version", _)) => 2,
        _ => 1,
    }
}

// The same for C, where a parent of no bytes is none.
fn new_set(set: &NewSet<'_>) -> exports::NewSet {
    let (name, parent) = (set.name, set.parent.unwrap_or(""));
    exports::NewSet { name: name.as_ptr(), length: name.len(), parent: parent.as_ptr(), parent_length: parent.len() }
}

/// `lockrun_take_station` or `lockrun_take_session`.
pub(crate) type Take = unsafe extern "C" fn(*mut Handle, *mut Handle) -> u32;

pub(crate) fn take_all(service: &mut Handle, take: Take) -> Result<Vec<Handle>, Error> {
    let mut found = Vec::new();
    loop {
        let mut next = Handle::NONE;
        // SAFETY: the service stands for something, and the two handles are two.
        match unsafe { take(service, &mut next) } {
            exports::NOTHING => return Ok(found),
            code => check(code)?,
        }
        found.push(next);
    }
}
