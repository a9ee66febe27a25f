//! Calls that give up: what they leave behind; a ring of three callers that is broken by the time of one; and callers on threads
//! with random times on few sets, of whom no two hold locks that conflict, and none is left waiting.
//!
//! usage: deadlines NODES SCRIPT JOURNAL: the ring and the threads on so many nodes. It writes the script of what the threads
//! asked, and the journal, into these files.
use lockrun::{Error, Guard, Journal, Mode, Nodes, Opening, Session};
use std::error::Error as Fault;
use std::panic::catch_unwind;
use std::sync::atomic::{AtomicI32, Ordering::SeqCst};
use std::sync::Barrier;
use std::thread::{scope, yield_now};
use std::time::Duration;

const SETS: usize = 3;
const CALLERS: usize = 6;
const ROUNDS: usize = 40;
const LONGEST: u64 = 4;
const RING: usize = 3;
const SHORT: Duration = Duration::from_millis(30);
const LONG: Duration = Duration::from_secs(60);
const AT_ONCE: Duration = Duration::ZERO;

/// What a writer counts for, in place of one.
const WRITER: i32 = 1000;

/// Who holds each set by now, as the callers see it: 1 for a reader, and many for a writer.
static HOLDERS: [AtomicI32; SETS] = [const { AtomicI32::new(0) }; SETS];

fn open(script: &str) -> Result<(Nodes, Vec<Session>), Error> {
    Opening::new(script).keep_journal().open()
}

fn ends(nodes: Nodes, sessions: Vec<Session>) -> Result<Journal, Error> {
    let journal = nodes.finish(sessions)?;
    assert_eq!((journal.held, journal.waiting), (0, 0));
    Ok(journal)
}

// What a `?` leaves behind: nothing is asked for, and the locks of both guards are given up.
fn two_locks(session: &mut Session) -> Result<(), Error> {
    let mut first = session.lock_within(1, Mode::Read, LONG)?;
    let _second = first.and_within(0, Mode::Read, AT_ONCE)?;
    Ok(())
}

fn in_time() -> Result<(), Error> {
    let (mut nodes, mut sessions) = open("nodes 1\nset a\nset b\nclient ann at 0\nclient ben at 0\n")?;
    let [ann, ben] = sessions.as_mut_slice() else { unreachable!("two clients") };
    let mut held = ann.lock(0, Mode::Write)?;
    assert_eq!(ben.lock_within(0, Mode::Read, AT_ONCE).err(), Some(Error::Withdrawn));
    assert_eq!(ben.wait(AT_ONCE).err(), Some(Error::NothingAsked));
    assert_eq!(two_locks(ben), Err(Error::Withdrawn));
    assert!(ben.try_lock(1, Mode::Write)?.is_some());
    held.change_within(Mode::Read, AT_ONCE)?;
    two_locks(ben)?;
    let mut other = ben.lock_within(0, Mode::Read, AT_ONCE)?;
    assert_eq!(other.change_within(Mode::Write, AT_ONCE), Err(Error::Withdrawn));
    assert_eq!(other.mode(), Mode::Read);
    drop(held);
    other.change_within(Mode::Write, AT_ONCE)?;
    drop(other);
    let served = nodes.served(&mut sessions)?;
    assert_eq!(served.submitted, served.polled);
    ends(nodes, sessions).map(drop)
}

// Who goes on waiting gives up when it likes, or a neighbour gives it up. A panic ends a guard as any other end does.
fn by_others() -> Result<(), Error> {
    let (nodes, mut sessions) = open("nodes 1\nset a\nset b\nclient ann at 0\nclient ben at 0\n")?;
    let [ann, ben] = sessions.as_mut_slice() else { unreachable!("two clients") };
    std::mem::forget(ann.lock(0, Mode::Write)?);
    std::mem::forget(ben.lock(1, Mode::Write)?);
    assert_eq!(ben.ask(0, Mode::Read, AT_ONCE).err(), Some(Error::StillWaits));
    assert_eq!(ben.lock_within(1, Mode::Read, AT_ONCE).err(), Some(Error::StillWaits));
    assert_eq!(ann.drop_locks(1, 1), Err(Error::Busy));
    assert!(ben.give_up()?.is_none());
    assert_eq!(ben.give_up().err(), Some(Error::NothingAsked));
    assert_eq!(ben.ask(0, Mode::Read, AT_ONCE).err(), Some(Error::StillWaits));
    assert!(!ann.withdraw(1, 1)?);
    assert!(ann.withdraw(0, 1)?);
    assert_eq!(ben.wait(LONG).err(), Some(Error::Withdrawn));
    assert_eq!(ben.ask(0, Mode::Read, AT_ONCE).err(), Some(Error::StillWaits));
    assert_eq!(ann.abort()?, 1);
    assert!(ben.give_up()?.is_some());
    assert_eq!(ben.abort()?, 1);
    let panics = catch_unwind(std::panic::AssertUnwindSafe(|| {
        let _held = ann.lock(0, Mode::Write);
        std::panic::resume_unwind(Box::new(()))
    }));
    assert!(panics.is_err() && ben.try_lock(0, Mode::Write)?.is_some());
    ends(nodes, sessions).map(drop)
}

// In a script of version 2 nothing is given up, so that nothing is asked for in so much time.
fn in_another_version() -> Result<(), Error> {
    let (nodes, mut sessions) = open("# old\n\nversion 2\nnodes 1\nset a\nclient ann at 0\nclient ben at 0\n")?;
    let [ann, ben] = sessions.as_mut_slice() else { unreachable!("two clients") };
    let held = ann.lock(0, Mode::ReadIntentionWrite)?;
    assert_eq!(ben.lock_within(0, Mode::Read, AT_ONCE).err(), Some(Error::BadArgument));
    assert_eq!(ben.ask(0, Mode::Write, AT_ONCE).err(), Some(Error::StillWaits));
    assert_eq!(ben.give_up().err(), Some(Error::BadArgument));
    drop(held);
    drop(ben.wait(LONG)?);
    ends(nodes, sessions).map(drop)
}

// Nodes, sets, and so many clients, one after the other on each node.
fn script(nodes: usize, clients: usize) -> String {
    let sets = (0..SETS).map(|k| format!("set s{k}\n"));
    let clients = (0..clients).map(|k| format!("client c{k} at {}\n", k % nodes));
    format!("version 3\nnodes {nodes}\n") + &sets.chain(clients).collect::<String>()
}

// Each caller on a thread of its own.
fn run_all(sessions: &mut [Session], call: impl Fn(&mut Session) -> Result<(), Error> + Sync) -> Result<(), Error> {
    scope(|scope| {
        let threads: Vec<_> = sessions.iter_mut().map(|session| scope.spawn(|| call(session))).collect();
        threads.into_iter().try_for_each(|thread| thread.join().expect("no caller panics"))
    })
}

// Each locks a set, and then that of the next one. The first one loses its patience, and gives up what it has.
fn ring(count: usize) -> Result<(), Error> {
    let (nodes, mut sessions) = open(&script(count, RING))?;
    let all_have_one = Barrier::new(RING);
    run_all(&mut sessions, |session| {
        let own = session.client();
        let mut first = session.lock_within(own, Mode::Write, LONG)?;
        all_have_one.wait();
        let second = first.and_within((own + 1) % RING as u32, Mode::Write, if own == 0 { SHORT } else { LONG });
        assert_eq!(second.err(), (own == 0).then_some(Error::Withdrawn));
        Ok(())
    })?;
    ends(nodes, sessions).map(drop)
}

fn weight(mode: Mode) -> i32 {
    if mode == Mode::Write {
        WRITER
    } else {
        1
    }
}

/// A lock by a caller that was granted in time, which no other has that conflicts.
struct Inside<'s> {
    guard: Guard<'s>,
    set: usize,
}

impl Inside<'_> {
    fn new(guard: Guard<'_>, set: usize) -> Inside<'_> {
        let before = HOLDERS[set].fetch_add(weight(guard.mode()), SeqCst);
        assert!(if guard.mode() == Mode::Write { before == 0 } else { before < WRITER });
        Inside { guard, set }
    }

    // A reader becomes a writer, if it can in this time.
    fn raise(&mut self, patience: Duration) -> Result<(), Error> {
        let old = self.guard.mode();
        match self.guard.change_within(Mode::Write, patience) {
            Ok(()) => {
                let before = HOLDERS[self.set].fetch_add(WRITER - weight(old), SeqCst);
                assert_eq!(before, weight(old));
                Ok(())
            }
            Err(Error::Withdrawn) => Ok(()),
            Err(error) => Err(error),
        }
    }
}

impl Drop for Inside<'_> {
    fn drop(&mut self) {
        HOLDERS[self.set].fetch_sub(weight(self.guard.mode()), SeqCst);
    }
}

// None, if the time was over.
fn in_this_time(asked: Result<Guard<'_>, Error>, set: usize) -> Result<Option<Inside<'_>>, Error> {
    match asked {
        Ok(guard) => Ok(Some(Inside::new(guard, set))),
        Err(Error::Withdrawn) => Ok(None),
        Err(error) => Err(error),
    }
}

// A lock, a change of it, and a second lock in another set, in any order of sets: each in some time.
fn call(session: &mut Session) -> Result<(), Error> {
    let mut seed = 77 + session.client();
    let mut draw = |below: u64| {
        seed = seed.wrapping_mul(1_103_515_245).wrapping_add(12_345);
        u64::from(seed >> 16) % below
    };
    for _ in 0..ROUNDS {
        let set = draw(SETS as u64) as usize;
        let other = (set + 1 + draw(SETS as u64 - 1) as usize) % SETS;
        let mode = if draw(2) == 0 { Mode::Read } else { Mode::Write };
        let asked = session.lock_within(set as u32, mode, Duration::from_millis(draw(LONGEST)));
        let Some(mut inside) = in_this_time(asked, set)? else { continue };
        if mode == Mode::Read && draw(2) == 0 {
            inside.raise(Duration::from_millis(draw(LONGEST)))?;
        }
        let asked = inside.guard.and_within(other as u32, Mode::Write, Duration::from_millis(draw(LONGEST)));
        let _second = in_this_time(asked, other)?;
        yield_now();
    }
    Ok(())
}

// All at once; and at the end each set is free for each caller.
fn threads(count: usize) -> Result<Journal, Error> {
    let (mut nodes, mut sessions) = open(&script(count, CALLERS))?;
    let all_are_here = Barrier::new(CALLERS);
    run_all(&mut sessions, |session| {
        all_are_here.wait();
        call(session)
    })?;
    for session in &mut sessions {
        (0..SETS as u32).try_for_each(|set| session.lock_within(set, Mode::Write, LONG).map(drop))?;
    }
    let served = nodes.served(&mut sessions)?;
    assert_eq!(served.submitted, served.polled);
    ends(nodes, sessions)
}

fn main() -> Result<(), Box<dyn Fault>> {
    let words: Vec<String> = std::env::args().collect();
    let [_, count, script_file, journal_file] = words.as_slice() else {
        return Err("usage: deadlines NODES SCRIPT JOURNAL".into());
    };
    let count = count.parse()?;
    in_time()?;
    by_others()?;
    in_another_version()?;
    ring(count)?;
    let journal = threads(count)?;
    std::fs::write(script_file, &journal.script)?;
    std::fs::write(journal_file, &journal.text)?;
    println!("deadlines: it is as it should be");
    Ok(())
}
