//! A pool of sessions, for clients that come and go.
use crate::error::Error;
use crate::nodes::Nodes;
use crate::session::Session;
use crate::waiting::end_of;
use std::collections::VecDeque;
use std::future::Future;
use std::ops::{Deref, DerefMut};
use std::pin::Pin;
use std::sync::{Condvar, Mutex, MutexGuard, PoisonError};
use std::task::{Context, Poll, Waker};
use std::time::{Duration, Instant};

/// The sessions that nobody has, and the tasks that wait for one.
#[derive(Default)]
pub(crate) struct Pool {
    idle: Mutex<Idle>,
    came: Condvar,
}

#[derive(Default)]
struct Idle {
    sessions: Vec<Session>,
    // Those that could not give up what they held. Nobody gets them.
    broken: Vec<Session>,
    // How many others there are, here or out.
    count: usize,
    tasks: VecDeque<(u64, Waker)>,
    next_task: u64,
}

impl Pool {
    pub fn fill(&mut self, sessions: Vec<Session>) {
        let idle = self.idle.get_mut().unwrap_or_else(PoisonError::into_inner);
        idle.count = sessions.len();
        // The first one is taken first.
        idle.sessions = sessions.into_iter().rev().collect();
    }

    /// All that are here.
    pub fn sessions(&mut self) -> impl Iterator<Item = &mut Session> {
        let idle = self.idle.get_mut().unwrap_or_else(PoisonError::into_inner);
        idle.sessions.iter_mut().chain(&mut idle.broken)
    }

    pub fn into_sessions(self) -> impl Iterator<Item = Session> {
        let idle = self.idle.into_inner().unwrap_or_else(PoisonError::into_inner);
        idle.sessions.into_iter().chain(idle.broken)
    }

    fn idle(&self) -> MutexGuard<'_, Idle> {
        self.idle.lock().unwrap_or_else(PoisonError::into_inner)
    }

    fn take(&self, end: Option<Instant>) -> Result<Session, Error> {
        let mut idle = self.idle();
        loop {
            if let Some(session) = idle.sessions.pop() {
                return Ok(session);
            }
            if idle.count == 0 {
                return Err(Error::NoClient);
            }
            idle = match end.map(|end| end.saturating_duration_since(Instant::now())) {
                None => self.came.wait(idle).unwrap_or_else(PoisonError::into_inner),
                Some(Duration::ZERO) => return Err(Error::NoClient),
                Some(left) => self.came.wait_timeout(idle, left).unwrap_or_else(PoisonError::into_inner).0,
            };
        }
    }

    // One more is here, for the task that waits longest, or for a thread.
    fn give(&self, session: Session) {
        let mut idle = self.idle();
        idle.sessions.push(session);
        let task = idle.tasks.pop_front();
        drop(idle);
        self.came.notify_one();
        if let Some((_, waker)) = task {
            waker.wake();
        }
    }

    fn lose(&self, session: Session) {
        let mut idle = self.idle();
        idle.broken.push(session);
        idle.count -= 1;
        let tasks = std::mem::take(&mut idle.tasks);
        drop(idle);
        self.came.notify_all();
        tasks.into_iter().for_each(|(_, waker)| waker.wake());
    }

    // The session, if one is here; else the task is woken when one is.
    fn poll(&self, task: &mut Option<u64>, context: &Context<'_>) -> Poll<Result<Session, Error>> {
        let mut idle = self.idle();
        let number = task.take();
        idle.tasks.retain(|&(other, _)| Some(other) != number);
        if let Some(session) = idle.sessions.pop() {
            return Poll::Ready(Ok(session));
        }
        if idle.count == 0 {
            return Poll::Ready(Err(Error::NoClient));
        }
        let number = number.unwrap_or(idle.next_task);
        idle.next_task = idle.next_task.max(number + 1);
        idle.tasks.push_back((number, context.waker().clone()));
        *task = Some(number);
        Poll::Pending
    }

    // A task waits no more. If it was woken for a session that it didn't take, another one is.
    fn leave(&self, number: u64) {
        let mut idle = self.idle();
        let before = idle.tasks.len();
        idle.tasks.retain(|&(other, _)| other != number);
        if idle.tasks.len() == before && !idle.sessions.is_empty() {
            let task = idle.tasks.pop_front();
            drop(idle);
            if let Some((_, waker)) = task {
                waker.wake();
            }
        }
    }
}

/// A session of the pool: it holds and asks nothing at first. When it is dropped it gives up what it asks and holds then, and
/// somebody else may have it. It is used as the session is.
#[must_use = "a client that isn't kept is given back at once"]
pub struct Client<'n> {
    // Until it is dropped.
    session: Option<Session>,
    pool: &'n Pool,
}

impl Deref for Client<'_> {
    type Target = Session;

    fn deref(&self) -> &Session {
        self.session.as_ref().expect("it is there until it is dropped")
    }
}

impl DerefMut for Client<'_> {
    fn deref_mut(&mut self) -> &mut Session {
        self.session.as_mut().expect("it is there until it is dropped")
    }
}

impl Drop for Client<'_> {
    fn drop(&mut self) {
        if let Some(mut session) = self.session.take() {
            match session.abort() {
                Ok(_) => self.pool.give(session),
                Err(_) => self.pool.lose(session),
            }
        }
    }
}

/// A client that a task waits for.
#[must_use = "a future takes nothing until it is polled"]
pub struct Coming<'n> {
    pool: &'n Pool,
    task: Option<u64>,
}

impl<'n> Future for Coming<'n> {
    type Output = Result<Client<'n>, Error>;

    fn poll(mut self: Pin<&mut Self>, context: &mut Context<'_>) -> Poll<Self::Output> {
        let pool = self.pool;
        pool.poll(&mut self.task, context).map(|taken| taken.map(|session| Client { session: Some(session), pool }))
    }
}

impl Drop for Coming<'_> {
    fn drop(&mut self) {
        if let Some(number) = self.task {
            self.pool.leave(number);
        }
    }
}

impl Nodes {
    /// A client of the pool, of nodes that were opened by [`open_pool`](crate::Opening::open_pool). It waits until one is free.
    /// `NoClient` if no session is in the pool, or out.
    ///
    /// ```
    /// # use lockrun::{Mode, Opening};
    /// let nodes = Opening::new("nodes 1\nset a\nclient ann at 0\nclient ben at 0\n").open_pool()?;
    /// std::thread::scope(|scope| {
    ///     for _ in 0..8 {
    ///         scope.spawn(|| nodes.client().unwrap().lock(0, Mode::Write).map(drop).unwrap());
    ///     }
    /// });
    /// # Ok::<(), lockrun::Error>(())
    /// ```
    pub fn client(&self) -> Result<Client<'_>, Error> {
        self.taken(None)
    }

    /// Waits for so long: `NoClient` if none came free.
    ///
    /// ```
    /// # use lockrun::{Error, Opening};
    /// # let nodes = Opening::new("nodes 1\nset a\nclient ann at 0\n").open_pool()?;
    /// let _client = nodes.client()?;
    /// assert_eq!(nodes.client_within(std::time::Duration::from_millis(10)).err(), Some(Error::NoClient));
    /// # Ok::<(), lockrun::Error>(())
    /// ```
    pub fn client_within(&self, patience: Duration) -> Result<Client<'_>, Error> {
        self.taken(end_of(Some(patience)))
    }

    /// The same for a task. If the future is dropped it waits no more.
    ///
    /// ```
    /// # use lockrun::{Mode, Opening};
    /// # let nodes = Opening::new("nodes 1\nset a\nclient ann at 0\n").open_pool()?;
    /// lockrun::block_on(async {
    ///     let mut client = nodes.client_async().await?;
    ///     client.lock_async(0, Mode::Write).await.map(drop)
    /// })?;
    /// # Ok::<(), lockrun::Error>(())
    /// ```
    pub fn client_async(&self) -> Coming<'_> {
        Coming { pool: &self.pool, task: None }
    }

    fn taken(&self, end: Option<Instant>) -> Result<Client<'_>, Error> {
        let session = self.pool.take(end)?;
        Ok(Client { session: Some(session), pool: &self.pool })
    }
}
