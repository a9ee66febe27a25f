//! What else a session asks: to wait on, to give up, and to drop locks.
use crate::error::Error;
use crate::exports;
use crate::guard::Guard;
use crate::session::{lock_of, Mode, Session, MODES};
use crate::waiting::Asked;
use std::time::Duration;

impl Session {
    /// Waits for so long, for callers that go on waiting: after `StillWaits` the lock is still asked for. `wait` goes on waiting
    /// for it, `give_up` gives it up, and until then no other call does anything.
    ///
    /// ```
    /// # use lockrun::{Error, Mode};
    /// # let (_nodes, mut sessions) = lockrun::open("nodes 1\nset a\nset b\nclient ann at 0\nclient ben at 0\n", 1 << 20)?;
    /// # let (mut ben, mut ann) = (sessions.remove(1), sessions.remove(0));
    /// # let patience = std::time::Duration::from_millis(10);
    /// let _lock = ann.lock(0, Mode::Read)?;
    /// assert_eq!(ben.ask(0, Mode::Write, patience).err(), Some(Error::StillWaits));
    /// # Ok::<(), lockrun::Error>(())
    /// ```
    pub fn ask(&mut self, set: u32, mode: Mode, patience: Duration) -> Result<Guard<'_>, Error> {
        match self.waiter.begin(lock_of(set, mode))? {
            Some((code, _)) => self.granted(code, set, mode),
            None => self.wait(patience),
        }
    }

    /// Goes on waiting for the lock that was asked for.
    ///
    /// ```
    /// # use lockrun::{Error, Mode};
    /// # let (_nodes, mut sessions) = lockrun::open("nodes 1\nset a\nset b\nclient ann at 0\nclient ben at 0\n", 1 << 20)?;
    /// # let (mut ben, mut ann) = (sessions.remove(1), sessions.remove(0));
    /// # let patience = std::time::Duration::from_millis(10);
    /// let lock = ann.lock(0, Mode::Read)?;
    /// assert_eq!(ben.ask(0, Mode::Write, patience).err(), Some(Error::StillWaits));
    /// drop(lock);
    /// let _lock = ben.wait(patience)?;
    /// # Ok::<(), lockrun::Error>(())
    /// ```
    pub fn wait(&mut self, patience: Duration) -> Result<Guard<'_>, Error> {
        let (set, mode) = self.asked_lock()?;
        let (code, _) = self.waiter.reply(patience)?;
        self.granted(code, set, mode)
    }

    fn granted(&mut self, code: u32, set: u32, mode: Mode) -> Result<Guard<'_>, Error> {
        match self.waiter.known(code)? {
            exports::GRANTED => Ok(Guard::new(self, set, mode)),
            code => Err(Error::of(code)),
        }
    }

    /// Gives up the lock that was asked for; the guard, if it was granted first. It waits for no other client.
    ///
    /// ```
    /// # use lockrun::{Error, Mode};
    /// # let (_nodes, mut sessions) = lockrun::open("nodes 1\nset a\nset b\nclient ann at 0\nclient ben at 0\n", 1 << 20)?;
    /// # let (mut ben, mut ann) = (sessions.remove(1), sessions.remove(0));
    /// # let patience = std::time::Duration::from_millis(10);
    /// let _lock = ann.lock(0, Mode::Read)?;
    /// assert_eq!(ben.ask(0, Mode::Write, patience).err(), Some(Error::StillWaits));
    /// assert!(ben.give_up()?.is_none());
    /// # Ok::<(), lockrun::Error>(())
    /// ```
    pub fn give_up(&mut self) -> Result<Option<Guard<'_>>, Error> {
        let (set, mode) = self.asked_lock()?;
        match self.waiter.give_up()?.0 {
            exports::GRANTED => Ok(Some(Guard::new(self, set, mode))),
            exports::WITHDRAWN | exports::WITHHELD => Ok(None),
            code => Err(Error::of(code)),
        }
    }

    /// Drops the locks of a client of the same node in the set's family: how many they were.
    ///
    /// ```
    /// # use lockrun::Mode;
    /// # let (_nodes, mut sessions) = lockrun::open("nodes 1\nset a\nset b\nclient ann at 0\nclient ben at 0\n", 1 << 20)?;
    /// # let (mut ben, mut ann) = (sessions.remove(1), sessions.remove(0));
    /// std::mem::forget(ann.lock(0, Mode::Read)?);
    /// assert_eq!(ben.drop_locks(0, ann.client())?, 1);
    /// # Ok::<(), lockrun::Error>(())
    /// ```
    pub fn drop_locks(&mut self, set: u32, whose: u32) -> Result<u64, Error> {
        match self.waiter.call(Asked { kind: exports::DROP, set, first: whose, second: 0 })? {
            (exports::DROPPED, count) => Ok(count),
            (code, _) => Err(Error::of(code)),
        }
    }

    /// Gives up what another client of the same node waits for in the set: whether it waited there. Its call answers `Withdrawn`.
    ///
    /// ```
    /// # use lockrun::{Error, Mode};
    /// # let (_nodes, mut sessions) = lockrun::open("nodes 1\nset a\nclient ann at 0\nclient ben at 0\nclient cam at 0\n", 1 << 20)?;
    /// # let (mut cam, mut ben, mut ann) = (sessions.remove(2), sessions.remove(1), sessions.remove(0));
    /// # let patience = std::time::Duration::from_millis(10);
    /// let _lock = ann.lock(0, Mode::Read)?;
    /// assert_eq!(ben.ask(0, Mode::Write, patience).err(), Some(Error::StillWaits));
    /// assert!(cam.withdraw(0, ben.client())?);
    /// assert_eq!(ben.wait(patience).err(), Some(Error::Withdrawn));
    /// # Ok::<(), lockrun::Error>(())
    /// ```
    pub fn withdraw(&mut self, set: u32, whose: u32) -> Result<bool, Error> {
        match self.waiter.call(Asked { kind: exports::WITHDRAW, set, first: whose, second: 0 })?.0 {
            exports::TRUE => Ok(true),
            exports::FALSE => Ok(false),
            code => Err(Error::of(code)),
        }
    }

    /// Gives up what it waits for, and then drops all locks that it was granted and whose guards were forgotten, family by
    /// family: how many they were.
    ///
    /// ```
    /// # use lockrun::Mode;
    /// # let (_nodes, mut sessions) = lockrun::open("nodes 1\nset a\nset b\nclient ann at 0\nclient ben at 0\n", 1 << 20)?;
    /// # let mut ann = sessions.remove(0);
    /// std::mem::forget(ann.lock(0, Mode::Read)?);
    /// std::mem::forget(ann.lock(1, Mode::Write)?);
    /// assert_eq!(ann.abort()?, 2);
    /// # Ok::<(), lockrun::Error>(())
    /// ```
    pub fn abort(&mut self) -> Result<u64, Error> {
        self.waiter.end_ask()?;
        let mut all = 0;
        while let Some(set) = self.waiter.last_held() {
            all += self.drop_locks(set, self.client())?;
        }
        Ok(all)
    }

    fn asked_lock(&self) -> Result<(u32, Mode), Error> {
        let asked = self.waiter.asked().filter(|asked| asked.kind == exports::LOCK).ok_or(Error::NothingAsked)?;
        let mode = MODES.into_iter().find(|&mode| mode as u32 == asked.first).ok_or(Error::NothingAsked)?;
        Ok((asked.set, mode))
    }
}
