//! Locks and changes that tasks wait for. Any executor can poll them: they know nothing but the waker that they are given.
use crate::error::Error;
use crate::exports;
use crate::guard::Guard;
use crate::session::{lock_of, unlock_of, Mode, Session};
use crate::waiting::{Asked, Waiter, FIRST_PAUSE};
use std::future::Future;
use std::pin::Pin;
use std::sync::Arc;
use std::task::{Context, Poll, Wake, Waker};
use std::thread::{current, park, sleep, spawn, Thread};

/// A command that a task asks, and how far it came.
struct Asking {
    asked: Asked,
    state: State,
}

#[derive(PartialEq, Eq)]
enum State {
    New,
    Waits,
    Done,
}

impl Asking {
    fn new(asked: Asked) -> Asking {
        Asking { asked, state: State::New }
    }

    // Asks, or looks for the reply: its code.
    fn poll(&mut self, waiter: &mut Waiter, context: &Context<'_>) -> Poll<Result<u32, Error>> {
        let looked = match self.state {
            State::New => waiter.may_give_up().and_then(|()| waiter.begin(self.asked)),
            State::Waits => waiter.look(),
            State::Done => Err(Error::NothingAsked),
        };
        match looked {
            Ok(None) => self.wait(waiter, context),
            Ok(Some((code, _))) => self.end(waiter, code, context),
            Err(why) => self.fail(waiter, why),
        }
    }

    // The waker is given before the last look, so that no reply wakes nobody.
    fn wait(&mut self, waiter: &mut Waiter, context: &Context<'_>) -> Poll<Result<u32, Error>> {
        if self.state == State::New {
            self.state = State::Waits;
            waiter.stations.begin_wait();
            waiter.stations.begin_task();
        }
        waiter.stations.seat(waiter.client).begin_wait(context.waker());
        waiter.stations.help_all();
        match waiter.look() {
            Ok(None) => Poll::Pending,
            Ok(Some((code, _))) => self.end(waiter, code, context),
            Err(why) => self.fail(waiter, why),
        }
    }

    // What was withheld is asked for again, after a pause.
    fn end(&mut self, waiter: &Waiter, code: u32, context: &Context<'_>) -> Poll<Result<u32, Error>> {
        self.leave(waiter);
        if code != exports::WITHHELD {
            waiter.end_withheld();
            return Poll::Ready(waiter.known(code));
        }
        if let Err(why) = waiter.begin_withheld(self.asked.set) {
            return self.fail(waiter, why);
        }
        self.state = State::New;
        waiter.stations.help_all();
        wake_later(context.waker());
        Poll::Pending
    }

    fn fail(&mut self, waiter: &Waiter, why: Error) -> Poll<Result<u32, Error>> {
        self.leave(waiter);
        waiter.end_withheld();
        Poll::Ready(Err(why))
    }

    // Nobody waits any more.
    fn leave(&mut self, waiter: &Waiter) {
        if self.state == State::Waits {
            waiter.stations.seat(waiter.client).end();
            waiter.stations.end_wait();
            waiter.stations.end_task();
        }
        self.state = State::Done;
    }

    // Gives up what is still asked for: the reply's code, if it came first.
    fn cancel(&mut self, waiter: &mut Waiter) -> Option<u32> {
        waiter.end_withheld();
        if self.state != State::Waits {
            return None;
        }
        self.leave(waiter);
        waiter.give_up().ok().map(|(code, _)| code)
    }
}

// Such a pause is rare: it comes where the client gave up what it now asks for, and another node doesn't know it yet.
fn wake_later(waker: &Waker) {
    let waker = waker.clone();
    spawn(move || {
        sleep(FIRST_PAUSE);
        waker.wake();
    });
}

/// A lock that a task waits for; it has the guard at its end.
#[must_use = "a future asks for nothing until it is polled"]
pub struct Locking<'s> {
    // Until it is ready.
    session: Option<&'s mut Session>,
    set: u32,
    mode: Mode,
    asking: Asking,
}

impl<'s> Locking<'s> {
    pub(crate) fn new(session: &'s mut Session, set: u32, mode: Mode) -> Locking<'s> {
        Locking { session: Some(session), set, mode, asking: Asking::new(lock_of(set, mode)) }
    }
}

impl<'s> Future for Locking<'s> {
    type Output = Result<Guard<'s>, Error>;

    fn poll(mut self: Pin<&mut Self>, context: &mut Context<'_>) -> Poll<Self::Output> {
        let this = &mut *self;
        let session = match this.session.take() {
            Some(session) => session,
            None => return Poll::Ready(Err(Error::NothingAsked)),
        };
        match this.asking.poll(&mut session.waiter, context) {
            Poll::Pending => {
                this.session = Some(session);
                Poll::Pending
            }
            Poll::Ready(Ok(exports::GRANTED)) => Poll::Ready(Ok(Guard::new(session, this.set, this.mode))),
            Poll::Ready(Ok(code)) => Poll::Ready(Err(Error::of(code))),
            Poll::Ready(Err(why)) => Poll::Ready(Err(why)),
        }
    }
}

impl Drop for Locking<'_> {
    fn drop(&mut self) {
        if let Some(session) = self.session.take() {
            if self.asking.cancel(&mut session.waiter) == Some(exports::GRANTED) {
                let _ = session.waiter.call(unlock_of(self.set, self.mode));
            }
        }
    }
}

/// A change of a lock's mode that a task waits for. If it is dropped before it is ready the lock has the mode that it had.
#[must_use = "a future asks for nothing until it is polled"]
pub struct Changing<'g, 's> {
    guard: &'g mut Guard<'s>,
    mode: Mode,
    asking: Asking,
}

impl<'g, 's> Changing<'g, 's> {
    pub(crate) fn new(guard: &'g mut Guard<'s>, mode: Mode) -> Changing<'g, 's> {
        let asking = Asking::new(guard.change_of(mode));
        Changing { guard, mode, asking }
    }
}

impl Future for Changing<'_, '_> {
    type Output = Result<(), Error>;

    fn poll(mut self: Pin<&mut Self>, context: &mut Context<'_>) -> Poll<Self::Output> {
        let this = &mut *self;
        match this.asking.poll(this.guard.waiter(), context) {
            Poll::Pending => Poll::Pending,
            Poll::Ready(Err(why)) => Poll::Ready(Err(why)),
            Poll::Ready(Ok(code)) => Poll::Ready(this.guard.changed_by(code, this.mode)),
        }
    }
}

impl Drop for Changing<'_, '_> {
    fn drop(&mut self) {
        if let Some(code) = self.asking.cancel(self.guard.waiter()) {
            let _ = self.guard.changed_by(code, self.mode);
        }
    }
}

/// A thread that sleeps until its future can go on.
struct Sleeper(Thread);

impl Wake for Sleeper {
    fn wake(self: Arc<Self>) {
        self.0.unpark();
    }
}

/// Polls a future on this thread until it is ready, for programs without an executor.
///
/// ```
/// assert_eq!(lockrun::block_on(async { 6 * 7 }), 42);
/// ```
pub fn block_on<F: Future>(future: F) -> F::Output {
    let mut future = Box::pin(future);
    let waker = Waker::from(Arc::new(Sleeper(current())));
    let mut context = Context::from_waker(&waker);
    loop {
        if let Poll::Ready(output) = future.as_mut().poll(&mut context) {
            return output;
        }
        park();
    }
}
