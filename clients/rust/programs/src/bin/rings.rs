//! Clients that wait in rings, as threads and as tasks, and the policy by which the youngest of a ring gives up; exact names that
//! threads add; and nodes that rest.
//!
//! usage: rings: it ends with a panic if an answer is another one than it should be.
use lockrun::{block_on, Error, Guard, Mode, Nodes, Opening, Session};
use std::sync::atomic::{AtomicU32, Ordering::SeqCst};
use std::thread::{scope, yield_now};
use std::time::Duration;

const CLIENTS: usize = 8;
const SETS: u32 = 6;
const AFTER: Duration = Duration::from_millis(20);
const ROUNDS: u32 = 200;
const NAMES: u32 = 400;

fn script(nodes: usize) -> String {
    let sets: String = (0..SETS).map(|set| format!("set s{set}\n")).collect();
    let clients: String = (0..CLIENTS).map(|k| format!("client c{k} at {}\n", k % nodes)).collect();
    format!("nodes {nodes}\n{sets}{clients}")
}

fn opened(nodes: usize, after: Duration) -> (Nodes, Vec<Session>) {
    Opening::new(&script(nodes)).victims(after).open().expect("they open")
}

fn held(lock: Result<Guard<'_>, Error>) {
    std::mem::forget(lock.expect("it is granted"));
}

// Three have a set each, and ask for that of the next one: the last one is the victim, though it is in no call.
fn youngest(nodes: usize) {
    let (_nodes, mut sessions) = opened(nodes, AFTER);
    for (set, session) in (0..3).zip(&mut sessions) {
        held(session.lock(set, Mode::Write));
    }
    for (set, session) in (0..3).zip(&mut sessions) {
        assert_eq!(session.ask((set + 1) % 3, Mode::Read, Duration::ZERO).err(), Some(Error::StillWaits));
    }
    assert_eq!(sessions[0].wait(5 * AFTER).err(), Some(Error::StillWaits));
    assert_eq!(sessions[2].wait(Duration::MAX).err(), Some(Error::Victim));
    assert_eq!(sessions[2].abort(), Ok(1));
    held(sessions[1].wait(Duration::MAX));
    assert_eq!(sessions[1].abort(), Ok(2));
    held(sessions[0].wait(Duration::MAX));
}

// Without a ring nobody gives up; nor without the policy.
fn nobody() {
    let (nodes, mut sessions) = opened(2, AFTER);
    held(sessions[0].lock(0, Mode::Write));
    held(sessions[1].lock(1, Mode::Write));
    assert_eq!(sessions[0].ask(1, Mode::Read, 10 * AFTER).err(), Some(Error::StillWaits));
    drop((nodes, sessions));
    let (_nodes, mut sessions) = Opening::new(&script(1)).open().expect("they open");
    for session in &mut sessions[..2] {
        held(session.lock(0, Mode::Read));
    }
    assert_eq!(sessions[0].ask(0, Mode::Write, Duration::ZERO).err(), Some(Error::StillWaits));
    assert_eq!(sessions[1].lock_within(0, Mode::Write, 10 * AFTER).err(), Some(Error::Withdrawn));
    let old = format!("version 2\n{}", script(1));
    assert_eq!(Opening::new(&old).victims(AFTER).open().err(), Some(Error::BadArgument));
}

// Both want to change what both read: the one that asks last gives up, and has what it had.
fn changes(nodes: usize) {
    let (_nodes, mut sessions) = opened(nodes, AFTER);
    let mut locks: Vec<_> = sessions[..2].iter_mut().map(|session| session.lock(0, Mode::Read).unwrap()).collect();
    let victims = AtomicU32::new(0);
    scope(|scope| {
        for mut lock in locks.drain(..) {
            scope.spawn(|| match lock.change(Mode::Write) {
                Err(Error::Victim) => {
                    assert_eq!(lock.mode(), Mode::Read);
                    victims.fetch_add(1, SeqCst);
                    drop(lock);
                }
                changed => changed.expect("it is changed"),
            });
        }
    });
    assert_eq!(victims.load(SeqCst), 1);
}

struct Stray<'s> {
    session: &'s mut Session,
    seed: u32,
}

impl Stray<'_> {
    fn below(&mut self, bound: u32) -> u32 {
        self.seed = self.seed.wrapping_mul(1_103_515_245).wrapping_add(12345);
        (self.seed >> 8) % bound
    }

    // Locks three sets in any order, as a thread or as a task, and then drops all: whether it was no victim.
    fn run(&mut self) -> bool {
        let mut is_done = true;
        for _ in 0..3 {
            let (set, mode) = (self.below(SETS), [Mode::Read, Mode::Write][self.below(2) as usize]);
            let locked = match self.below(2) {
                0 => self.session.lock(set, mode).map(std::mem::forget),
                _ => block_on(self.session.lock_async(set, mode)).map(std::mem::forget),
            };
            if locked.is_err() {
                assert_eq!(locked, Err(Error::Victim));
                is_done = false;
                break;
            }
            yield_now();
        }
        self.session.abort().expect("all is dropped");
        is_done
    }
}

fn strays(nodes: usize) -> u32 {
    let (nodes, mut sessions) = opened(nodes, Duration::from_millis(1));
    let victims = AtomicU32::new(0);
    scope(|scope| {
        for (seed, session) in (17..).step_by(31).zip(&mut sessions) {
            let (mut stray, victims) = (Stray { session, seed }, &victims);
            scope.spawn(move || {
                for _ in 0..ROUNDS {
                    victims.fetch_add(u32::from(!stray.run()), SeqCst);
                }
            });
        }
    });
    assert_eq!(nodes.finish(sessions).err(), Some(Error::Forgotten));
    victims.into_inner()
}

// Tasks alone: a thread of the library looks for them.
fn tasks() {
    let (_nodes, mut sessions) = opened(2, AFTER);
    held(sessions[0].lock(0, Mode::Write));
    held(sessions[1].lock(1, Mode::Write));
    let ended = AtomicU32::new(0);
    scope(|scope| {
        for (set, session) in [1, 0].into_iter().zip(&mut sessions) {
            let ended = &ended;
            scope.spawn(move || {
                if block_on(session.lock_async(set, Mode::Write)).map(drop) == Err(Error::Victim) {
                    ended.fetch_add(1, SeqCst);
                }
                session.abort().expect("all is dropped");
            });
        }
    });
    assert_eq!(ended.into_inner(), 1);
}

// All threads have the same sets for the same names, no two names have one, and no key has it.
fn names() {
    let nodes = Opening::new(&script(2)).keys(10, 5).names(NAMES / 4).open_pool().expect("they open");
    let name = |number: u32| nodes.name_under(format!("parent {}", number / 4), format!("name {number}"));
    let of_thread = |start: u32| {
        let mut sets: Vec<(u32, u32)> =
            (0..NAMES).map(|k| (start + k) % NAMES).map(|k| (k, name(k).unwrap())).collect();
        sets.sort_unstable();
        sets
    };
    let all: Vec<Vec<(u32, u32)>> = scope(|scope| {
        let threads: Vec<_> = (0..8).map(|k| scope.spawn(move || of_thread(k * NAMES / 8))).collect();
        threads.into_iter().map(|thread| thread.join().unwrap()).collect()
    });
    assert!(all.iter().all(|sets| *sets == all[0]));
    let mut sets: Vec<u32> = all[0].iter().map(|&(_, set)| set).collect();
    sets.sort_unstable();
    sets.dedup();
    assert_eq!(sets.len(), NAMES as usize);
    assert!(sets[0] > SETS + 50);
    assert!((0..1000_u32).all(|key| nodes.key(key.to_le_bytes()).unwrap() < SETS + 50));
    assert_eq!(nodes.name("one more"), Err(Error::NamesFull));
    assert_eq!(nodes.name_under("parent 0", "one more"), Err(Error::NamesFull));
    let begin = SETS + 50;
    assert_eq!(nodes.name("parent 0"), Ok((name(0).unwrap() - begin) / 5 * 5 + begin));
    assert_eq!(nodes.name_of(name(7).unwrap()), Some(b"name 7".to_vec()));
    let flat = Opening::new(&script(1)).open_pool().expect("they open");
    assert_eq!(flat.name("a name"), Err(Error::BadArgument));
    let flat = Opening::new(&script(1)).names(3).open_pool().expect("they open");
    assert_eq!((flat.name("a name"), flat.name_under("a name", "another")), (Ok(SETS), Err(Error::BadArgument)));
    assert_eq!(Opening::new(&script(1)).names(u32::MAX).open_pool().err(), Some(Error::TooMany));
}

// Who waits is no work; what is dropped is.
fn rests() {
    let (nodes, mut sessions) = Opening::new(&script(2)).open().expect("they open");
    assert!(nodes.rests() && nodes.node_rests(1) && !nodes.node_rests(2));
    held(sessions[0].lock(0, Mode::Write));
    assert_eq!(sessions[1].ask(0, Mode::Write, Duration::ZERO).err(), Some(Error::StillWaits));
    while !nodes.rests() {}
    assert!(nodes.rests());
    sessions[0].unlock(0, Mode::Write).expect("it is unlocked");
    assert!(!nodes.rests());
    while !nodes.rests() {}
    held(sessions[1].wait(Duration::ZERO));
}

fn main() {
    let mut victims = 0;
    for nodes in 1..4 {
        youngest(nodes);
        changes(nodes);
        victims += strays(nodes);
    }
    nobody();
    tasks();
    names();
    rests();
    println!("{victims} victims of {} rounds", 3 * ROUNDS * CLIENTS as u32);
    assert!(victims > 0);
}
