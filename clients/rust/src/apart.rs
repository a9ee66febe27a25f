//! A node in a process of its own: all other nodes lie in other processes, and a carrier takes bytes between them.
use crate::error::{check, Error};
use crate::exports::{self, Handle};
use crate::journal::{read_journal, Journal};
use crate::opening::{fault_of, take_all, with_version};
use crate::session::Mode;
use std::time::{Duration, Instant};

/// For how many bytes of frames there is room at first; and how many of a frame aren't of its letter.
const ROOM: usize = 1 << 16;
const AROUND: usize = 39;

/// What takes bytes between nodes.
///
/// ```
/// use lockrun::Carrier;
/// use std::sync::mpsc::{Receiver, Sender};
/// use std::time::Duration;
///
/// /// Between two nodes of one process, by channels.
/// struct Channel {
///     to_other: Sender<Vec<u8>>,
///     from_other: Receiver<Vec<u8>>,
///     other: u32,
/// }
///
/// impl Carrier for Channel {
///     fn carry(&mut self, _to: u32, frames: &[u8]) -> std::io::Result<()> {
///         self.to_other.send(frames.to_vec()).map_err(|_| std::io::ErrorKind::BrokenPipe.into())
///     }
///
///     fn sleep(&mut self, patience: Option<Duration>) -> std::io::Result<Option<(u32, Vec<u8>)>> {
///         let came = self.from_other.recv_timeout(patience.unwrap_or(Duration::from_secs(3600)));
///         Ok(came.ok().map(|frames| (self.other, frames)))
///     }
/// }
///
/// let (to_other, at_other) = std::sync::mpsc::channel();
/// let (to_me, from_other) = std::sync::mpsc::channel();
/// let mut carrier = Channel { to_other, from_other, other: 1 };
/// carrier.carry(1, b"frames")?;
/// assert_eq!(at_other.recv().unwrap(), b"frames");
/// to_me.send(b"others".to_vec()).unwrap();
/// assert_eq!(carrier.sleep(None)?, Some((1, b"others".to_vec())));
/// assert_eq!(carrier.sleep(Some(Duration::ZERO))?, None);
/// # Ok::<(), std::io::Error>(())
/// ```
pub trait Carrier {
    /// Carries frames to a node.
    fn carry(&mut self, to: u32, frames: &[u8]) -> std::io::Result<()>;

    /// Sleeps until bytes come, at most so long, or for ever: the node that they are of, and they.
    fn sleep(&mut self, patience: Option<Duration>) -> std::io::Result<Option<(u32, Vec<u8>)>>;
}

/// Which node it is, of how many, and what all are opened with beside their script: the key that only they have, and a start, which
/// differs from that of each earlier time.
#[derive(Clone, Copy, Debug)]
pub struct Place<'a> {
    pub me: u32,
    pub nodes: u32,
    pub key: &'a [u8],
    pub start: u64,
}

/// One node of a script in this process, with its clients. While a call waits it takes in what came, turns the node, gives out what
/// the node sends, and sleeps until something comes; while it makes no call the node answers nobody, so a program that has other
/// work calls `serve` between its parts.
pub struct Apart<C: Carrier> {
    node: Handle,
    sessions: Vec<Handle>,
    me: u32,
    // Of each node what came and wasn't received yet.
    came: Vec<Vec<u8>>,
    frames: Vec<u8>,
    carrier: C,
    /// How many frames went out, and how many were received.
    pub sent: u64,
    pub received: u64,
}

impl<C: Carrier> Apart<C> {
    /// Opens the node. It makes at most `limit` moves.
    ///
    /// ```
    /// use lockrun::{Apart, Place, Tcp};
    ///
    /// // The only one; each of two would name both addresses, and be opened in a process of its own.
    /// let carrier = Tcp::begin(0, &["127.0.0.1:0".parse().unwrap()]).unwrap();
    /// let place = Place { me: 0, nodes: 1, key: b"what only the nodes have", start: 1 };
    /// let apart = Apart::open("nodes 1\nset a\nclient ann at 0\n", place, 1 << 20, carrier)?;
    /// assert_eq!((apart.sent, apart.received), (0, 0));
    /// # Ok::<(), lockrun::Error>(())
    /// ```
    pub fn open(text: &str, place: Place<'_>, limit: u64, carrier: C) -> Result<Apart<C>, Error> {
        let script = with_version(text);
        let (bytes, key, mut node) = (script.as_bytes(), place.key, Handle::NONE);
        let Place { me, start, .. } = place;
        // SAFETY: the text and the key are borrowed for the call, and the handle stands for nothing.
        let code = unsafe {
            let (text, length) = (bytes.as_ptr(), bytes.len());
            exports::lockrun_node_open(text, length, me, key.as_ptr(), key.len(), start, limit, 4, &mut node)
        };
        match code {
            exports::BAD_SCRIPT => return Err(Error::BadScript(fault_of(text))),
            code => check(code)?,
        }
        let sessions = take_all(&mut node, exports::lockrun_take_session)?;
        let came = vec![Vec::new(); place.nodes as usize];
        Ok(Apart { node, sessions, me: place.me, came, frames: vec![0; ROOM], carrier, sent: 0, received: 0 })
    }

    /// Waits until a client of this node has the lock; `client` is its place among them.
    ///
    /// ```
    /// # use lockrun::{Apart, Mode, Place, Tcp};
    /// # let carrier = Tcp::begin(0, &["127.0.0.1:0".parse().unwrap()]).unwrap();
    /// # let place = Place { me: 0, nodes: 1, key: b"what only the nodes have", start: 1 };
    /// # let mut apart = Apart::open("nodes 1\nset a\nclient ann at 0\n", place, 1 << 20, carrier)?;
    /// apart.lock(0, 0, Mode::Write)?;
    /// # Ok::<(), lockrun::Error>(())
    /// ```
    pub fn lock(&mut self, client: usize, set: u32, mode: Mode) -> Result<(), Error> {
        self.call(client, exports::LOCK, set, mode, exports::GRANTED)
    }

    /// Gives a lock up.
    ///
    /// ```
    /// # use lockrun::{Apart, Mode, Place, Tcp};
    /// # let carrier = Tcp::begin(0, &["127.0.0.1:0".parse().unwrap()]).unwrap();
    /// # let place = Place { me: 0, nodes: 1, key: b"what only the nodes have", start: 1 };
    /// # let mut apart = Apart::open("nodes 1\nset a\nclient ann at 0\n", place, 1 << 20, carrier)?;
    /// apart.lock(0, 0, Mode::Write)?;
    /// apart.unlock(0, 0, Mode::Write)?;
    /// assert_eq!(apart.unlock(0, 0, Mode::Write), Err(lockrun::Error::NotHeld));
    /// # Ok::<(), lockrun::Error>(())
    /// ```
    pub fn unlock(&mut self, client: usize, set: u32, mode: Mode) -> Result<(), Error> {
        self.call(client, exports::UNLOCK, set, mode, exports::UNLOCKED)
    }

    fn call(&mut self, client: usize, kind: u32, set: u32, mode: Mode, wanted: u32) -> Result<(), Error> {
        // SAFETY: the handle stands for something, and `&mut` gives it to one call at a time.
        check(unsafe { exports::lockrun_submit(&mut self.sessions[client], kind, set, mode as u32, 0) })?;
        // Else a caller that has all it wants would keep others out.
        self.sleep(Some(Duration::ZERO))?;
        loop {
            self.turn()?;
            let mut count = 0;
            // SAFETY: as above.
            match unsafe { exports::lockrun_poll(&mut self.sessions[client], &mut count) } {
                exports::NOTHING => self.sleep(None)?,
                code if code == wanted => return Ok(()),
                code => return Err(Error::of(code)),
            }
        }
    }

    /// Sleeps until something comes, at most so long, and serves the others.
    ///
    /// ```
    /// # use lockrun::{Apart, Mode, Place, Tcp};
    /// # let carrier = Tcp::begin(0, &["127.0.0.1:0".parse().unwrap()]).unwrap();
    /// # let place = Place { me: 0, nodes: 1, key: b"what only the nodes have", start: 1 };
    /// # let mut apart = Apart::open("nodes 1\nset a\nclient ann at 0\n", place, 1 << 20, carrier)?;
    /// apart.serve(std::time::Duration::from_millis(1))?;
    /// # Ok::<(), lockrun::Error>(())
    /// ```
    pub fn serve(&mut self, patience: Duration) -> Result<(), Error> {
        let end = Instant::now().checked_add(patience);
        self.turn()?;
        self.sleep(end.map(|end| end.saturating_duration_since(Instant::now())))?;
        self.turn()
    }

    /// Whether something waits to be carried to another node.
    ///
    /// ```
    /// # use lockrun::{Apart, Carrier, Place};
    /// # use std::time::Duration;
    /// # struct Nowhere;
    /// # impl Carrier for Nowhere {
    /// #     fn carry(&mut self, _to: u32, _frames: &[u8]) -> std::io::Result<()> {
    /// #         Ok(())
    /// #     }
    /// #     fn sleep(&mut self, _patience: Option<Duration>) -> std::io::Result<Option<(u32, Vec<u8>)>> {
    /// #         Ok(None)
    /// #     }
    /// # }
    /// # let place = Place { me: 0, nodes: 2, key: b"what only the nodes have", start: 1 };
    /// # let mut apart = Apart::open("nodes 2\nset a\nclient ann at 0\n", place, 1 << 20, Nowhere)?;
    /// assert!(!apart.pending(1)?);
    /// # Ok::<(), lockrun::Error>(())
    /// ```
    pub fn pending(&mut self, to: u32) -> Result<bool, Error> {
        // SAFETY: as above.
        match unsafe { exports::lockrun_pending(&mut self.node, to) } {
            exports::NOTHING => Ok(false),
            code => check(code).map(|()| true),
        }
    }

    /// Ends the node: the lines of its own moves, with the line `cut NODE` after them, and the script with the commands of its own
    /// clients. `tools/join` joins those of all nodes.
    ///
    /// ```
    /// # use lockrun::{Apart, Mode, Place, Tcp};
    /// # let carrier = Tcp::begin(0, &["127.0.0.1:0".parse().unwrap()]).unwrap();
    /// # let place = Place { me: 0, nodes: 1, key: b"what only the nodes have", start: 1 };
    /// # let mut apart = Apart::open("nodes 1\nset a\nclient ann at 0\n", place, 1 << 20, carrier)?;
    /// apart.lock(0, 0, Mode::Write)?;
    /// let journal = apart.finish()?;
    /// assert!(journal.text.ends_with(b"cut 0\n"));
    /// # Ok::<(), lockrun::Error>(())
    /// ```
    pub fn finish(mut self) -> Result<Journal, Error> {
        let mut journal = Handle::NONE;
        // SAFETY: two handles, of which the former stands for something, and the latter for nothing.
        check(unsafe { exports::lockrun_node_finish(&mut self.node, &mut journal) })?;
        read_journal(journal)
    }

    fn sleep(&mut self, patience: Option<Duration>) -> Result<(), Error> {
        let mut came = self.carrier.sleep(patience).map_err(|_| Error::NoCarrier)?;
        while let Some((from, bytes)) = came {
            self.came[from as usize].extend(bytes);
            came = self.carrier.sleep(Some(Duration::ZERO)).map_err(|_| Error::NoCarrier)?;
        }
        Ok(())
    }

    // Receives, makes moves until there is none, and gives out.
    fn turn(&mut self) -> Result<(), Error> {
        loop {
            (0..self.came.len()).try_for_each(|from| self.receive(from))?;
            if !self.make_moves()? {
                break;
            }
        }
        (0..self.came.len() as u32)
            .filter(|&to| to != self.me)
            .collect::<Vec<_>>()
            .into_iter()
            .try_for_each(|to| self.send(to))
    }

    fn make_moves(&mut self) -> Result<bool, Error> {
        let mut moved = false;
        loop {
            // SAFETY: as above.
            match unsafe { exports::lockrun_turn(&mut self.node) } {
                exports::NOTHING => return Ok(moved),
                code => check(code)?,
            }
            moved = true;
        }
    }

    fn receive(&mut self, from: usize) -> Result<(), Error> {
        let came = &mut self.came[from];
        if came.is_empty() {
            return Ok(());
        }
        let mut used = 0;
        // SAFETY: the handle stands for something, and the bytes are borrowed for the call.
        let code =
            unsafe { exports::lockrun_receive(&mut self.node, from as u32, came.as_ptr(), came.len(), &mut used) };
        self.received += count(&came[..used]);
        came.drain(..used);
        check(code)
    }

    fn send(&mut self, to: u32) -> Result<(), Error> {
        loop {
            let (room, mut length) = (self.frames.len(), 0);
            // SAFETY: the handle stands for something, and the buffer has so many bytes.
            match unsafe { exports::lockrun_send(&mut self.node, to, self.frames.as_mut_ptr(), room, &mut length) } {
                exports::NOTHING => return Ok(()),
                exports::FULL => self.frames.resize(length, 0),
                code => {
                    check(code)?;
                    self.sent += count(&self.frames[..length]);
                    self.carrier.carry(to, &self.frames[..length]).map_err(|_| Error::NoCarrier)?;
                }
            }
        }
    }
}

// How many frames these are: each begins with the length of its letter.
fn count(mut frames: &[u8]) -> u64 {
    let mut count = 0;
    while let [a, b, c, d, ..] = *frames {
        frames = &frames[AROUND + u32::from_le_bytes([a, b, c, d]) as usize..];
        count += 1;
    }
    count
}
