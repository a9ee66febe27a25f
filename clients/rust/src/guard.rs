//! The locks that sessions hold.
use crate::error::Error;
use crate::exports;
use crate::futures::{Changing, Locking};
use crate::session::{lock_of, unlock_of, Mode, Session};
use crate::waiting::{Asked, Waiter};
use std::time::Duration;

/// A lock that a session holds. It is given up when it is dropped; if the share of commands is used up then, it stays held.
///
/// Further locks are taken under it, and end before it. To give locks up in any order let `std::mem::forget` have their guards, and
/// call [`Session::unlock`].
#[must_use = "a lock that isn't kept is given up at once"]
pub struct Guard<'s> {
    session: &'s mut Session,
    set: u32,
    mode: Mode,
}

impl<'s> Guard<'s> {
    pub(crate) fn new(session: &'s mut Session, set: u32, mode: Mode) -> Guard<'s> {
        Guard { session, set, mode }
    }

    pub(crate) fn waiter(&mut self) -> &mut Waiter {
        &mut self.session.waiter
    }

    /// A further lock of the same client, which is given up before this one.
    ///
    /// ```
    /// # use lockrun::Mode;
    /// # let (_nodes, mut sessions) = lockrun::open("nodes 1\nset a\nset b\nclient ann at 0\nclient ben at 0\n", 1 << 20)?;
    /// # let mut ann = sessions.remove(0);
    /// let mut first = ann.lock(0, Mode::Read)?;
    /// let _second = first.and(1, Mode::Write)?;
    /// # Ok::<(), lockrun::Error>(())
    /// ```
    pub fn and(&mut self, set: u32, mode: Mode) -> Result<Guard<'_>, Error> {
        self.session.lock(set, mode)
    }

    /// The same, waiting for so long.
    ///
    /// ```
    /// # use lockrun::{Error, Mode};
    /// # let (_nodes, mut sessions) = lockrun::open("nodes 1\nset a\nset b\nclient ann at 0\nclient ben at 0\n", 1 << 20)?;
    /// # let (mut ben, mut ann) = (sessions.remove(1), sessions.remove(0));
    /// # let patience = std::time::Duration::from_millis(10);
    /// let _lock = ben.lock(1, Mode::Read)?;
    /// let mut first = ann.lock(0, Mode::Read)?;
    /// assert_eq!(first.and_within(1, Mode::Write, patience).err(), Some(Error::Withdrawn));
    /// # Ok::<(), lockrun::Error>(())
    /// ```
    pub fn and_within(&mut self, set: u32, mode: Mode, patience: Duration) -> Result<Guard<'_>, Error> {
        self.session.lock_within(set, mode, patience)
    }

    /// The same at once, or none. It is no more exact than [`Session::try_lock`].
    ///
    /// ```
    /// # use lockrun::Mode;
    /// # let (_nodes, mut sessions) = lockrun::open("nodes 1\nset folder\nset file\nclient ann at 0\n", 1 << 20)?;
    /// # let mut ann = sessions.remove(0);
    /// let mut folder = ann.lock(0, Mode::IntentionWrite)?;
    /// assert!(folder.and_try(1, Mode::Write)?.is_some());
    /// # Ok::<(), lockrun::Error>(())
    /// ```
    pub fn and_try(&mut self, set: u32, mode: Mode) -> Result<Option<Guard<'_>>, Error> {
        self.session.try_lock(set, mode)
    }

    /// The same for a task: see [`Session::lock_async`].
    ///
    /// ```
    /// # use lockrun::Mode;
    /// # let (_nodes, mut sessions) = lockrun::open("nodes 1\nset a\nset b\nclient ann at 0\nclient ben at 0\n", 1 << 20)?;
    /// # let mut ann = sessions.remove(0);
    /// let mut first = ann.lock(0, Mode::Read)?;
    /// let _second = lockrun::block_on(first.and_async(1, Mode::Write))?;
    /// # Ok::<(), lockrun::Error>(())
    /// ```
    pub fn and_async(&mut self, set: u32, mode: Mode) -> Locking<'_> {
        self.session.lock_async(set, mode)
    }

    /// Changes the mode: so an upgrade becomes a write. It waits until the new mode goes with what others hold. After an error
    /// it has the mode that it had.
    ///
    /// ```
    /// # use lockrun::Mode;
    /// # let (_nodes, mut sessions) = lockrun::open("nodes 1\nset a\nset b\nclient ann at 0\nclient ben at 0\n", 1 << 20)?;
    /// # let mut ann = sessions.remove(0);
    /// let mut lock = ann.lock(0, Mode::Upgrade)?;
    /// lock.change(Mode::Write)?;
    /// # Ok::<(), lockrun::Error>(())
    /// ```
    pub fn change(&mut self, mode: Mode) -> Result<(), Error> {
        self.changed(mode, None)
    }

    /// The same, waiting for so long.
    ///
    /// ```
    /// # use lockrun::{Error, Mode};
    /// # let (_nodes, mut sessions) = lockrun::open("nodes 1\nset a\nset b\nclient ann at 0\nclient ben at 0\n", 1 << 20)?;
    /// # let (mut ben, mut ann) = (sessions.remove(1), sessions.remove(0));
    /// # let patience = std::time::Duration::from_millis(10);
    /// let _lock = ben.lock(0, Mode::Read)?;
    /// let mut lock = ann.lock(0, Mode::Upgrade)?;
    /// assert_eq!(lock.change_within(Mode::Write, patience), Err(Error::Withdrawn));
    /// assert_eq!(lock.mode(), Mode::Upgrade);
    /// # Ok::<(), lockrun::Error>(())
    /// ```
    pub fn change_within(&mut self, mode: Mode, patience: Duration) -> Result<(), Error> {
        self.changed(mode, Some(patience))
    }

    /// The same without waiting for another client: whether it has the new mode.
    ///
    /// ```
    /// # use lockrun::Mode;
    /// # let (_nodes, mut sessions) = lockrun::open("nodes 1\nset a\nset b\nclient ann at 0\nclient ben at 0\n", 1 << 20)?;
    /// # let (mut ben, mut ann) = (sessions.remove(1), sessions.remove(0));
    /// let other = ben.lock(0, Mode::Read)?;
    /// let mut lock = ann.lock(0, Mode::Upgrade)?;
    /// assert!(!lock.change_try(Mode::Write)?);
    /// drop(other);
    /// assert!(lock.change_try(Mode::Write)?);
    /// # Ok::<(), lockrun::Error>(())
    /// ```
    pub fn change_try(&mut self, mode: Mode) -> Result<bool, Error> {
        in_time(self.change_within(mode, Duration::ZERO))
    }

    /// The same for a task: see [`Session::lock_async`].
    ///
    /// ```
    /// # use lockrun::Mode;
    /// # let (_nodes, mut sessions) = lockrun::open("nodes 1\nset a\nset b\nclient ann at 0\nclient ben at 0\n", 1 << 20)?;
    /// # let mut ann = sessions.remove(0);
    /// let mut lock = ann.lock(0, Mode::Upgrade)?;
    /// lockrun::block_on(lock.change_async(Mode::Write))?;
    /// assert_eq!(lock.mode(), Mode::Write);
    /// # Ok::<(), lockrun::Error>(())
    /// ```
    pub fn change_async(&mut self, mode: Mode) -> Changing<'_, 's> {
        Changing::new(self, mode)
    }

    /// Goes on to another set, hand over hand: takes a lock there, and then gives up the one that it had. After an error it has
    /// that one.
    ///
    /// ```
    /// # use lockrun::Mode;
    /// # let (_nodes, mut sessions) = lockrun::open("nodes 1\nset a\nset b\nclient ann at 0\nclient ben at 0\n", 1 << 20)?;
    /// # let (mut ben, mut ann) = (sessions.remove(1), sessions.remove(0));
    /// let mut lock = ann.lock(0, Mode::Write)?;
    /// lock.go_on(1, Mode::Write)?;
    /// assert_eq!(lock.set(), 1);
    /// let _other = ben.lock(0, Mode::Write)?;
    /// # Ok::<(), lockrun::Error>(())
    /// ```
    pub fn go_on(&mut self, set: u32, mode: Mode) -> Result<(), Error> {
        self.gone_on(set, mode, None)
    }

    /// The same, waiting for so long.
    ///
    /// ```
    /// # use lockrun::{Error, Mode};
    /// # let (_nodes, mut sessions) = lockrun::open("nodes 1\nset a\nset b\nclient ann at 0\nclient ben at 0\n", 1 << 20)?;
    /// # let (mut ben, mut ann) = (sessions.remove(1), sessions.remove(0));
    /// # let patience = std::time::Duration::from_millis(10);
    /// let _other = ben.lock(1, Mode::Read)?;
    /// let mut lock = ann.lock(0, Mode::Write)?;
    /// assert_eq!(lock.go_on_within(1, Mode::Write, patience), Err(Error::Withdrawn));
    /// assert_eq!(lock.set(), 0);
    /// # Ok::<(), lockrun::Error>(())
    /// ```
    pub fn go_on_within(&mut self, set: u32, mode: Mode, patience: Duration) -> Result<(), Error> {
        self.gone_on(set, mode, Some(patience))
    }

    /// The same without waiting for another client: whether it has the other lock now.
    ///
    /// ```
    /// # use lockrun::Mode;
    /// # let (_nodes, mut sessions) = lockrun::open("nodes 1\nset a\nset b\nclient ann at 0\nclient ben at 0\n", 1 << 20)?;
    /// # let (mut ben, mut ann) = (sessions.remove(1), sessions.remove(0));
    /// let other = ben.lock(1, Mode::Read)?;
    /// let mut lock = ann.lock(0, Mode::Write)?;
    /// assert!(!lock.go_on_try(1, Mode::Write)?);
    /// drop(other);
    /// assert!(lock.go_on_try(1, Mode::Write)?);
    /// # Ok::<(), lockrun::Error>(())
    /// ```
    pub fn go_on_try(&mut self, set: u32, mode: Mode) -> Result<bool, Error> {
        in_time(self.go_on_within(set, mode, Duration::ZERO))
    }

    /// The same for a task: see [`Session::lock_async`].
    ///
    /// ```
    /// # use lockrun::Mode;
    /// # let (_nodes, mut sessions) = lockrun::open("nodes 1\nset a\nset b\nclient ann at 0\nclient ben at 0\n", 1 << 20)?;
    /// # let mut ann = sessions.remove(0);
    /// let mut lock = ann.lock(0, Mode::Write)?;
    /// lockrun::block_on(lock.go_on_async(1, Mode::Write))?;
    /// assert_eq!(lock.set(), 1);
    /// # Ok::<(), lockrun::Error>(())
    /// ```
    pub async fn go_on_async(&mut self, set: u32, mode: Mode) -> Result<(), Error> {
        std::mem::forget(self.session.lock_async(set, mode).await?);
        self.move_to(set, mode);
        Ok(())
    }

    /// The mode that it has.
    ///
    /// ```
    /// # use lockrun::Mode;
    /// # let (_nodes, mut sessions) = lockrun::open("nodes 1\nset a\nset b\nclient ann at 0\nclient ben at 0\n", 1 << 20)?;
    /// assert_eq!(sessions[0].lock(0, Mode::Upgrade)?.mode(), Mode::Upgrade);
    /// # Ok::<(), lockrun::Error>(())
    /// ```
    pub fn mode(&self) -> Mode {
        self.mode
    }

    /// The set that it is of.
    ///
    /// ```
    /// # use lockrun::Mode;
    /// # let (_nodes, mut sessions) = lockrun::open("nodes 1\nset a\nset b\nclient ann at 0\nclient ben at 0\n", 1 << 20)?;
    /// assert_eq!(sessions[0].lock(1, Mode::Upgrade)?.set(), 1);
    /// # Ok::<(), lockrun::Error>(())
    /// ```
    pub fn set(&self) -> u32 {
        self.set
    }

    pub(crate) fn change_of(&self, mode: Mode) -> Asked {
        Asked { kind: exports::CHANGE, set: self.set, first: self.mode as u32, second: mode as u32 }
    }

    pub(crate) fn changed_by(&mut self, code: u32, mode: Mode) -> Result<(), Error> {
        if code != exports::CHANGED {
            return Err(Error::of(code));
        }
        self.mode = mode;
        Ok(())
    }

    fn changed(&mut self, mode: Mode, patience: Option<Duration>) -> Result<(), Error> {
        let asked = self.change_of(mode);
        let code = self.waiter().within(asked, patience)?;
        self.changed_by(code, mode)
    }

    fn gone_on(&mut self, set: u32, mode: Mode, patience: Option<Duration>) -> Result<(), Error> {
        match self.waiter().within(lock_of(set, mode), patience)? {
            exports::GRANTED => self.move_to(set, mode),
            code => return Err(Error::of(code)),
        }
        Ok(())
    }

    // Gives the lock up, and has that one, which was granted.
    fn move_to(&mut self, set: u32, mode: Mode) {
        let unlock = unlock_of(self.set, self.mode);
        let _ = self.waiter().call(unlock);
        self.set = set;
        self.mode = mode;
    }
}

// Whether it came in time.
fn in_time(asked: Result<(), Error>) -> Result<bool, Error> {
    match asked {
        Ok(()) => Ok(true),
        Err(Error::Withdrawn) => Ok(false),
        Err(why) => Err(why),
    }
}

impl Drop for Guard<'_> {
    fn drop(&mut self) {
        let unlock = unlock_of(self.set, self.mode);
        let _ = self.waiter().call(unlock);
    }
}
