//! Sessions: locks that a client takes.
use crate::error::Error;
use crate::exports::{self, Handle};
use crate::futures::Locking;
use crate::guard::Guard;
use crate::stations::Stations;
use crate::waiting::{Asked, Waiter};
use std::sync::Arc;
use std::time::Duration;

/// How a client holds a set: which modes go with which the rules say.
#[derive(Clone, Copy, Debug, PartialEq, Eq)]
pub enum Mode {
    IntentionRead,
    Read,
    Upgrade,
    IntentionWrite,
    /// Of a script of version 2 or 3 alone.
    ReadIntentionWrite,
    Write,
}

/// The session of one client. If it is dropped its locks stay held; a [`Client`](crate::Client) gives them up. No two of them
/// are in one line of the caches.
///
/// One thread at a time uses it:
///
/// ```compile_fail
/// # let (_nodes, mut sessions) = lockrun::open("nodes 1\nset a\nclient ann at 0\n", 1 << 20).unwrap();
/// let session = &mut sessions[0];
/// std::thread::scope(|scope| {
///     scope.spawn(|| session.left());
///     scope.spawn(|| session.left());
/// });
/// ```
#[repr(align(128))]
pub struct Session {
    pub(crate) waiter: Waiter,
}

impl Session {
    pub(crate) fn new(mut raw: Handle, stations: Arc<Stations>, gives_up: bool) -> Session {
        // SAFETY: the handle stands for something.
        let (client, home) = unsafe { (exports::lockrun_client(&mut raw), exports::lockrun_home(&mut raw)) };
        Session { waiter: Waiter::new(raw, stations, client, home as usize, gives_up) }
    }

    pub(crate) fn is_of(&self, stations: &Arc<Stations>) -> bool {
        Arc::ptr_eq(&self.waiter.stations, stations)
    }

    pub(crate) fn handle(&mut self) -> &mut Handle {
        &mut self.waiter.raw
    }

    pub(crate) fn into_handle(self) -> Handle {
        self.waiter.raw
    }

    /// The number of its client.
    ///
    /// ```
    /// # let (_nodes, mut sessions) = lockrun::open("nodes 1\nset a\nset b\nclient ann at 0\nclient ben at 0\n", 1 << 20)?;
    /// assert_eq!(sessions[1].client(), 1);
    /// # Ok::<(), lockrun::Error>(())
    /// ```
    pub fn client(&self) -> u32 {
        self.waiter.client
    }

    /// How many commands may still be submitted.
    ///
    /// ```
    /// # let (_nodes, mut sessions) = lockrun::open("nodes 1\nset a\nset b\nclient ann at 0\nclient ben at 0\n", 1 << 20)?;
    /// assert!(sessions[0].left() > 1 << 50);
    /// # Ok::<(), lockrun::Error>(())
    /// ```
    pub fn left(&mut self) -> u64 {
        // SAFETY: the handle stands for something.
        unsafe { exports::lockrun_left(self.handle()) }
    }

    /// The number of the set with this name.
    ///
    /// ```
    /// # let (_nodes, mut sessions) = lockrun::open("nodes 1\nset a\nset b\nclient ann at 0\nclient ben at 0\n", 1 << 20)?;
    /// assert_eq!((sessions[0].set("b"), sessions[0].set("c")), (Some(1), None));
    /// # Ok::<(), lockrun::Error>(())
    /// ```
    pub fn set(&mut self, name: &str) -> Option<u32> {
        let mut set = 0;
        // SAFETY: the handle stands for something, and the name is borrowed for the call.
        let code = unsafe { exports::lockrun_set(self.handle(), name.as_ptr(), name.len(), &mut set) };
        (code == exports::OK).then_some(set)
    }

    /// Waits until the lock is granted. `Withdrawn` only if another client gave the wait up.
    ///
    /// ```
    /// # use lockrun::Mode;
    /// # let (_nodes, mut sessions) = lockrun::open("nodes 1\nset a\nset b\nclient ann at 0\nclient ben at 0\n", 1 << 20)?;
    /// let lock = sessions[0].lock(0, Mode::Write)?;
    /// assert_eq!(lock.mode(), Mode::Write);
    /// # Ok::<(), lockrun::Error>(())
    /// ```
    pub fn lock(&mut self, set: u32, mode: Mode) -> Result<Guard<'_>, Error> {
        self.locked(set, mode, None)
    }

    /// Waits for so long. After `Withdrawn` nothing is asked for, and the session holds what it held. In no time at all it is
    /// granted what is free, on any node: nodes make the turns that it takes, and no other client is waited for.
    ///
    /// ```
    /// # use lockrun::{Error, Mode};
    /// # use std::time::Duration;
    /// # let (_nodes, mut sessions) = lockrun::open("nodes 2\nset a\nclient ann at 0\nclient ben at 1\n", 1 << 20)?;
    /// # let (mut ben, mut ann) = (sessions.remove(1), sessions.remove(0));
    /// let lock = ben.lock_within(0, Mode::Write, Duration::ZERO)?;
    /// assert_eq!(ann.lock_within(0, Mode::Read, Duration::from_millis(10)).err(), Some(Error::Withdrawn));
    /// # Ok::<(), lockrun::Error>(())
    /// ```
    pub fn lock_within(&mut self, set: u32, mode: Mode, patience: Duration) -> Result<Guard<'_>, Error> {
        self.locked(set, mode, Some(patience))
    }

    /// Has the lock at once, or none. It isn't exact: none may come though nobody holds the set, on another node than the one that
    /// has its token. `lock_within` with no time is granted then.
    ///
    /// ```
    /// # use lockrun::Mode;
    /// # let (_nodes, mut sessions) = lockrun::open("nodes 1\nset a\nset b\nclient ann at 0\nclient ben at 0\n", 1 << 20)?;
    /// # let (mut ben, mut ann) = (sessions.remove(1), sessions.remove(0));
    /// let _lock = ann.lock(0, Mode::Read)?;
    /// assert!(ben.try_lock(0, Mode::Write)?.is_none());
    /// # Ok::<(), lockrun::Error>(())
    /// ```
    pub fn try_lock(&mut self, set: u32, mode: Mode) -> Result<Option<Guard<'_>>, Error> {
        match self.waiter.call(Asked { kind: exports::TRY, set, first: mode as u32, second: 0 })?.0 {
            exports::TRUE => Ok(Some(Guard::new(self, set, mode))),
            exports::FALSE => Ok(None),
            code => Err(Error::of(code)),
        }
    }

    /// A future that asks for the lock once it is polled. Any executor can poll it. If it is dropped before it is ready it gives
    /// up: then nothing is asked for.
    ///
    /// ```
    /// # use lockrun::Mode;
    /// # let (_nodes, mut sessions) = lockrun::open("nodes 1\nset a\nset b\nclient ann at 0\nclient ben at 0\n", 1 << 20)?;
    /// # let (mut ben, mut ann) = (sessions.remove(1), sessions.remove(0));
    /// async fn count(session: &mut lockrun::Session, number: &mut u64) -> Result<(), lockrun::Error> {
    ///     let _lock = session.lock_async(0, Mode::Write).await?;
    ///     *number += 1;
    ///     Ok(())
    /// }
    /// let mut number = 0;
    /// lockrun::block_on(count(&mut ann, &mut number))?;
    /// assert_eq!(number, 1);
    /// # Ok::<(), lockrun::Error>(())
    /// ```
    pub fn lock_async(&mut self, set: u32, mode: Mode) -> Locking<'_> {
        Locking::new(self, set, mode)
    }

    /// Gives up a lock whose guard was forgotten (`std::mem::forget`), in any order.
    ///
    /// ```
    /// # use lockrun::{Error, Mode};
    /// # let (_nodes, mut sessions) = lockrun::open("nodes 1\nset a\nset b\nclient ann at 0\nclient ben at 0\n", 1 << 20)?;
    /// # let mut ann = sessions.remove(0);
    /// std::mem::forget(ann.lock(0, Mode::Read)?);
    /// std::mem::forget(ann.lock(1, Mode::Write)?);
    /// ann.unlock(0, Mode::Read)?;
    /// assert_eq!(ann.unlock(0, Mode::Read), Err(Error::NotHeld));
    /// # Ok::<(), lockrun::Error>(())
    /// ```
    pub fn unlock(&mut self, set: u32, mode: Mode) -> Result<(), Error> {
        match self.waiter.call(unlock_of(set, mode))?.0 {
            exports::UNLOCKED => Ok(()),
            code => Err(Error::of(code)),
        }
    }

    fn locked(&mut self, set: u32, mode: Mode, patience: Option<Duration>) -> Result<Guard<'_>, Error> {
        match self.waiter.within(lock_of(set, mode), patience)? {
            exports::GRANTED => Ok(Guard::new(self, set, mode)),
            code => Err(Error::of(code)),
        }
    }
}

pub(crate) const MODES: [Mode; 6] =
    [Mode::IntentionRead, Mode::Read, Mode::Upgrade, Mode::IntentionWrite, Mode::ReadIntentionWrite, Mode::Write];

pub(crate) fn lock_of(set: u32, mode: Mode) -> Asked {
    Asked { kind: exports::LOCK, set, first: mode as u32, second: 0 }
}

pub(crate) fn unlock_of(set: u32, mode: Mode) -> Asked {
    Asked { kind: exports::UNLOCK, set, first: mode as u32, second: 0 }
}
