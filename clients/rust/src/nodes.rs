//! Nodes: what all of them do together, and their end.
use crate::error::{check, Error};
use crate::exports::{self, Handle};
use crate::journal::{read_journal, Journal, Served};
use crate::keys::Keys;
use crate::names::Names;
use crate::opening::Take;
use crate::pool::Pool;
use crate::session::Session;
use crate::station::Claim;
use crate::stations::Stations;
use std::sync::Arc;
use std::thread::{sleep, yield_now};
use std::time::Duration;

/// How long it pauses before it takes again what found no memory.
const PAUSE: Duration = Duration::from_millis(1);

/// The nodes of an open script. Threads may share them.
///
/// No call comes after the end:
///
/// ```compile_fail
/// let (nodes, mut sessions) = lockrun::open("nodes 1\nset a\nclient ann at 0\n", 1 << 20).unwrap();
/// nodes.finish(sessions);
/// sessions[0].left();
/// ```
///
/// Nor does one while a client is out:
///
/// ```compile_fail
/// let nodes = lockrun::Opening::new("nodes 1\nset a\nclient ann at 0\n").open_pool().unwrap();
/// let client = nodes.client();
/// nodes.finish(Vec::new());
/// drop(client);
/// ```
pub struct Nodes {
    service: Handle,
    pub(crate) stations: Arc<Stations>,
    /// The node of each client.
    pub(crate) homes: Vec<usize>,
    keeps: bool,
    pub(crate) keys: Keys,
    pub(crate) names: Names,
    pub(crate) pool: Pool,
}

impl Nodes {
    pub(crate) fn new(service: Handle, stations: Arc<Stations>, homes: Vec<usize>, keys: Keys, keeps: bool) -> Nodes {
        let names = Names::new(keys.end(), keys.names, keys.members);
        Nodes { service, stations, homes, keeps, keys, names, pool: Pool::default() }
    }

    /// Lets each node forget its moves and commands: their memory serves further ones. Then they have no journal. Other
    /// threads may be in calls. Want of memory loses nothing. Nodes that keep no journal do it now and then of themselves.
    ///
    /// ```
    /// # use lockrun::Mode;
    /// # let (nodes, mut sessions) = lockrun::open("nodes 1\nset a\nset b\nclient ann at 0\nclient ben at 0\n", 1 << 20)?;
    /// drop(sessions[0].lock(0, Mode::Write)?);
    /// nodes.forget()?;
    /// # Ok::<(), lockrun::Error>(())
    /// ```
    pub fn forget(&self) -> Result<(), Error> {
        check(self.stations.forget())
    }

    /// What all sessions were served so far: there is a run in which they were served so, and the nodes go on. It borrows all
    /// sessions that were opened with them and aren't in the pool, in any order.
    ///
    /// ```
    /// # use lockrun::{Mode, Served};
    /// # let (mut nodes, mut sessions) = lockrun::open("nodes 1\nset a\nset b\nclient ann at 0\nclient ben at 0\n", 1 << 20)?;
    /// drop(sessions[0].lock(0, Mode::Write)?);
    /// assert_eq!(nodes.served(&mut sessions)?, Served { submitted: 2, polled: 2 });
    /// # Ok::<(), lockrun::Error>(())
    /// ```
    pub fn served(&mut self, sessions: &mut [Session]) -> Result<Served, Error> {
        let Nodes { service, stations, homes, pool, .. } = self;
        let mut sessions: Vec<&mut Session> = sessions.iter_mut().chain(pool.sessions()).collect();
        sessions.sort_by_key(|session| session.client());
        if !are_all(stations, homes.len(), sessions.iter().map(|session| &**session)) {
            return Err(Error::OtherSessions);
        }
        // No other thread has one: each that turns nodes has a session.
        let mut claims: Vec<Claim> = stations.claim_all();
        let mut stations: Vec<&mut Handle> = claims.iter_mut().map(|claim| &mut claim.handle).collect();
        let mut sessions: Vec<&mut Handle> = sessions.into_iter().map(Session::handle).collect();
        let mut all = stations.iter_mut().chain(&mut sessions);
        let given = all.try_for_each(|handle| give(service, handle));
        let served = given.and_then(|()| served(service));
        for station in stations {
            take_again(service, exports::lockrun_take_station, station);
        }
        for session in sessions {
            take_again(service, exports::lockrun_take_session, session);
        }
        served
    }

    /// Lets all nodes make turns until none makes a move, and ends them: their journal, if they keep it, and else `Forgotten`. It
    /// takes all sessions that were opened with them and aren't in the pool, in any order. If these aren't they, or an error comes,
    /// all is dropped.
    ///
    /// ```
    /// # use lockrun::{Mode, Opening};
    /// # let (nodes, mut sessions) = Opening::new("nodes 1\nset a\nclient ann at 0\n").keep_journal().open()?;
    /// drop(sessions[0].lock(0, Mode::Write)?);
    /// let journal = nodes.finish(sessions)?;
    /// assert_eq!((journal.held, journal.waiting), (0, 0));
    /// # Ok::<(), lockrun::Error>(())
    /// ```
    pub fn finish(mut self, mut sessions: Vec<Session>) -> Result<Journal, Error> {
        sessions.extend(self.pool.into_sessions());
        sessions.sort_by_key(Session::client);
        if !are_all(&self.stations, self.homes.len(), sessions.iter()) {
            return Err(Error::OtherSessions);
        }
        if !self.keeps {
            return Err(Error::Forgotten);
        }
        self.stations.rest();
        if self.stations.is_full() {
            return Err(Error::LogFull);
        }
        let sessions: Vec<Handle> = sessions.into_iter().map(Session::into_handle).collect();
        let stations = alone(self.stations);
        let mut all = stations.into_handles().chain(sessions);
        all.try_for_each(|mut handle| give(&mut self.service, &mut handle))?;
        finish(self.service)
    }
}

// Whether these, which are in the order of clients, are all sessions that were opened with the nodes.
fn are_all<'s>(stations: &Arc<Stations>, clients: usize, sessions: impl ExactSizeIterator<Item = &'s Session>) -> bool {
    let is_own = |(client, session): (usize, &Session)| session.is_of(stations) && session.client() as usize == client;
    sessions.len() == clients && sessions.enumerate().all(is_own)
}

// The sessions have ended, so nobody else has them for long.
fn alone(mut stations: Arc<Stations>) -> Stations {
    loop {
        match Arc::try_unwrap(stations) {
            Ok(stations) => return stations,
            Err(others) => stations = others,
        }
        yield_now();
    }
}

fn give(service: &mut Handle, given: &mut Handle) -> Result<(), Error> {
    // SAFETY: two handles, each of which stands for something.
    check(unsafe { exports::lockrun_give(service, given) })
}

// Takes what was given back, if it was. Want of memory loses nothing, so it is tried again.
fn take_again(service: &mut Handle, take: Take, given: &mut Handle) {
    // SAFETY: the service stands for something, and has what was given; the other handle stands for nothing.
    while given.is_none() && unsafe { take(service, given) } != exports::OK {
        sleep(PAUSE);
    }
}

fn served(service: &mut Handle) -> Result<Served, Error> {
    let (mut submitted, mut polled) = (0, 0);
    // SAFETY: all stations and all sessions of one `open` were given back in order.
    check(unsafe { exports::lockrun_served(service, &mut submitted, &mut polled) })?;
    Ok(Served { submitted, polled })
}

fn finish(mut service: Handle) -> Result<Journal, Error> {
    let mut journal = Handle::NONE;
    // SAFETY: all stations and all sessions of one `open` were given back in order.
    check(unsafe { exports::lockrun_finish(&mut service, &mut journal) })?;
    read_journal(journal)
}
