//! What a session asks, and how it waits for the reply or gives up.
use crate::error::{check, Error};
use crate::exports::{self, Handle};
use crate::held::Held;
use crate::seat::Seat;
use crate::stations::Stations;
use std::sync::Arc;
use std::thread::{sleep, yield_now};
use std::time::{Duration, Instant};

/// How often a thread looks before it sleeps until it is told.
const LOOKS: u32 = 3;

/// So long each call lets other threads finish the turns that they are at, if its time is over before.
const GRACE: Duration = Duration::from_millis(2);

/// How long it pauses before it asks again for what was withheld.
pub(crate) const FIRST_PAUSE: Duration = Duration::from_millis(1);
const LONGEST_PAUSE: Duration = Duration::from_millis(64);

/// A command, by the numbers of the library.
#[derive(Clone, Copy)]
pub(crate) struct Asked {
    pub kind: u32,
    pub set: u32,
    pub first: u32,
    pub second: u32,
}

/// A reply, and how many locks were dropped.
pub(crate) type Reply = (u32, u64);

/// A session's handle, and what is to come of it.
pub(crate) struct Waiter {
    pub raw: Handle,
    pub stations: Arc<Stations>,
    pub client: u32,
    pub home: usize,
    // Whether the script is of version 3, which alone knows how to give up.
    gives_up: bool,
    // The command whose reply is still to come, and whether that to a withdraw of it is to come too.
    pub(crate) asked: Option<Asked>,
    pub(crate) withdraws: bool,
    // The reply to the command, where only that to the withdraw is still to come.
    answer: Option<Reply>,
    held: Held,
}

impl Waiter {
    pub fn new(raw: Handle, stations: Arc<Stations>, client: u32, home: usize, gives_up: bool) -> Waiter {
        let held = Held::default();
        stations.seat(client).set_home(home);
        Waiter { raw, stations, client, home, gives_up, asked: None, withdraws: false, answer: None, held }
    }

    /// The command whose reply is still to come.
    pub fn asked(&self) -> Option<Asked> {
        self.asked
    }

    /// The last set in which the client has locks.
    pub fn last_held(&self) -> Option<u32> {
        self.held.last()
    }

    /// Submits a command: the reply, if it is there at once.
    pub fn begin(&mut self, asked: Asked) -> Result<Option<Reply>, Error> {
        if self.asked.is_some() {
            return Err(Error::StillWaits);
        }
        self.number();
        let came = self.put(asked)?;
        self.asked = Some(asked);
        Ok(came.and_then(|reply| self.note(reply)))
    }

    pub fn seat(&self) -> &Seat {
        self.stations.seat(self.client)
    }

    // Where its station is free it makes the turns itself; else who has the station does, since its mark is set.
    pub(crate) fn put(&mut self, asked: Asked) -> Result<Option<Reply>, Error> {
        let came = self.submit(asked);
        self.stations.victims.0.note_command();
        came
    }

    fn submit(&mut self, asked: Asked) -> Result<Option<Reply>, Error> {
        match self.stations.submit_and_turn(self.client, self.home, &mut self.raw, asked) {
            Some((exports::NOTHING | exports::LOG_FULL | exports::NO_MEMORY, _)) => Ok(None),
            Some((code, count)) if code >= exports::GRANTED => Ok(Some((code, count))),
            Some((code, _)) => Err(Error::of(code)),
            None => {
                let Asked { kind, set, first, second } = asked;
                // SAFETY: the handle stands for something, and `&mut` gives it to one call at a time.
                check(unsafe { exports::lockrun_submit(&mut self.raw, kind, set, first, second) })?;
                self.stations.mark(self.home);
                Ok(None)
            }
        }
    }

    /// A call that waits for no other client.
    pub fn call(&mut self, asked: Asked) -> Result<Reply, Error> {
        match self.begin(asked)? {
            Some(reply) => Ok(reply),
            None => self.reply_until(None),
        }
    }

    /// Asks for a lock or a change, and gives up once the time is over. What was given up before in the same set may still stand
    /// at another node; then it asks again, at once after turns of the nodes, and then after pauses that grow.
    pub fn within(&mut self, asked: Asked, patience: Option<Duration>) -> Result<u32, Error> {
        if patience.is_some() {
            self.may_give_up()?;
        }
        let code = self.asked_again(asked, patience);
        self.end_withheld();
        self.known(code?)
    }

    fn asked_again(&mut self, asked: Asked, patience: Option<Duration>) -> Result<u32, Error> {
        let (mut end, mut pause, mut next) = (None, Duration::ZERO, None);
        loop {
            let code = match self.begin(asked)? {
                Some((code, _)) => code,
                None => {
                    end = end.or_else(|| end_of(patience));
                    match self.reply_until(end) {
                        Ok((code, _)) => code,
                        Err(why) => self.give_up_since(why)?,
                    }
                }
            };
            end = end.or_else(|| if code == exports::WITHHELD { end_of(patience) } else { None });
            match code {
                exports::WITHHELD if pause > Duration::ZERO && is_over(end) => return Err(Error::Withdrawn),
                exports::WITHHELD if self.is_spent(asked.set, &mut next) => return Err(Error::Victim),
                exports::WITHHELD => self.pause_withheld(left_of(end).map_or(pause, |left| pause.min(left))),
                code => return Ok(code),
            }
            pause = LONGEST_PAUSE.min(FIRST_PAUSE.max(2 * pause));
        }
    }

    /// Whether it may ask for what it may have to give up.
    pub fn may_give_up(&self) -> Result<(), Error> {
        if self.asked.is_none() && !self.gives_up {
            return Err(Error::BadArgument);
        }
        Ok(())
    }

    // What was given up is gone once other nodes had their turns.
    fn pause_withheld(&self, pause: Duration) {
        self.stations.help_all();
        sleep(pause);
        self.stations.help_all();
    }

    fn give_up_since(&mut self, why: Error) -> Result<u32, Error> {
        match self.give_up() {
            Ok((exports::WITHDRAWN, _)) if why == Error::StillWaits => Err(Error::Withdrawn),
            Ok((exports::WITHDRAWN, _)) | Err(_) => Err(why),
            Ok((code, _)) => Ok(code),
        }
    }

    /// Gives up the command whose reply is still to come: the reply, which may have come first. Turns of the own node give it.
    pub fn give_up(&mut self) -> Result<Reply, Error> {
        let asked = self.asked.ok_or(Error::NothingAsked)?;
        if !self.withdraws {
            let came = self.put(Asked { kind: exports::WITHDRAW, set: asked.set, first: self.client, second: 0 })?;
            self.withdraws = true;
            if let Some(reply) = came.and_then(|reply| self.note(reply)) {
                return Ok(reply);
            }
        }
        self.reply_until(None)
    }

    /// Gives up what is asked for, if anything is; and a lock that was granted first is unlocked.
    pub fn end_ask(&mut self) -> Result<(), Error> {
        if let Some(asked) = self.asked {
            if self.give_up()?.0 == exports::GRANTED {
                self.call(Asked { kind: exports::UNLOCK, ..asked })?;
            }
        }
        Ok(())
    }

    /// Waits for the reply, for so long.
    pub fn reply(&mut self, patience: Duration) -> Result<Reply, Error> {
        self.reply_until(end_of(Some(patience)))
    }

    fn reply_until(&mut self, end: Option<Instant>) -> Result<Reply, Error> {
        if let Some(reply) = self.take_reply() {
            return Ok(reply);
        }
        self.stations.begin_wait();
        let reply = self.sleep_until(end);
        self.stations.seat(self.client).end();
        self.stations.end_wait();
        reply
    }

    fn sleep_until(&mut self, end: Option<Instant>) -> Result<Reply, Error> {
        let (mut looks, least) = (0, end.map(|_| Instant::now() + GRACE));
        let mut next = self.stations.victims.0.next_look();
        loop {
            if looks >= LOOKS {
                self.stations.seat(self.client).begin_sleep();
            }
            let rests = self.stations.help_all();
            if let Some(reply) = self.look()? {
                return Ok(reply);
            }
            if is_over(next) {
                self.stations.look_for_ring();
                next = self.stations.victims.0.next_look();
            } else if !is_over(end) {
                self.pause(looks, earlier(end, next));
            } else if rests || is_over(least) {
                return Err(Error::StillWaits);
            } else {
                yield_now();
            }
            looks = LOOKS.min(looks + 1);
        }
    }

    fn pause(&self, looks: u32, end: Option<Instant>) {
        let seat = self.stations.seat(self.client);
        if looks < LOOKS {
            seat.spin();
        } else {
            seat.sleep(end);
        }
    }

    /// The reply, if it is there. Who is chosen to give up does so.
    pub fn look(&mut self) -> Result<Option<Reply>, Error> {
        match self.take_reply().or_else(|| self.yield_as_victim()) {
            None if self.stations.is_full() => Err(Error::LogFull),
            reply => Ok(reply),
        }
    }

    // Takes the replies that are there: that to the command, once all have come.
    pub(crate) fn take_reply(&mut self) -> Option<Reply> {
        while let Some(reply) = self.poll() {
            if let Some(reply) = self.note(reply) {
                return Some(reply);
            }
        }
        None
    }

    // Notes a reply: that to the command, if it was the last one that is to come.
    pub(crate) fn note(&mut self, reply: Reply) -> Option<Reply> {
        if self.answer.is_none() {
            self.answer = Some(reply);
            self.keep(reply);
        } else {
            self.withdraws = false;
        }
        if self.withdraws {
            return None;
        }
        self.asked = None;
        self.answer.take()
    }

    fn keep(&mut self, (code, count): Reply) {
        if let Some(asked) = self.asked {
            self.held.keep(self.client, asked, code, count);
        }
    }

    fn poll(&mut self) -> Option<Reply> {
        let mut count = 0;
        // SAFETY: the handle stands for something, and `&mut` gives it to one call at a time.
        let code = unsafe { exports::lockrun_poll(&mut self.raw, &mut count) };
        (code != exports::NOTHING).then_some((code, count))
    }
}

/// When this time is over, or never, if the clock doesn't count so far.
pub(crate) fn end_of(patience: Option<Duration>) -> Option<Instant> {
    patience.and_then(|patience| Instant::now().checked_add(patience))
}

pub(crate) fn is_over(end: Option<Instant>) -> bool {
    end.map_or(false, |end| Instant::now() >= end)
}

fn earlier(one: Option<Instant>, other: Option<Instant>) -> Option<Instant> {
    one.into_iter().chain(other).min()
}

fn left_of(end: Option<Instant>) -> Option<Duration> {
    end.map(|end| end.saturating_duration_since(Instant::now()))
}
