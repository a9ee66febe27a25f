//! All forms of locks: at once, within a time, for ever, and for tasks, on one node and on four; what a future that is dropped
//! leaves behind; a pool of clients; keys; and errors with their reasons.
use lockrun::{
    block_on, open, open_sets, BadSet, Client, Error, Fault, Guard, Holds, Locks, Mode, NewSet, Nodes, Opening,
    Session, Waits, WhySet,
};
use std::future::Future;
use std::pin::Pin;
use std::sync::atomic::{AtomicUsize, Ordering::SeqCst};
use std::sync::Arc;
use std::task::{Context, Poll, Wake, Waker};
use std::thread::{scope, sleep};
use std::time::{Duration, Instant};

const AT_ONCE: Duration = Duration::ZERO;
const SHORT: Duration = Duration::from_millis(50);
const LONG: Duration = Duration::from_secs(60);

fn goes_to_threads<T: Send>() {}
fn is_shared<T: Sync>() {}

/// Counts how often a task is woken.
struct Woken(AtomicUsize);

impl Wake for Woken {
    fn wake(self: Arc<Self>) {
        self.0.fetch_add(1, SeqCst);
    }
}

// One look at a future, and how often it was woken by now.
fn poll_once<F: Future>(future: &mut Pin<Box<F>>, woken: &Arc<Woken>) -> Poll<F::Output> {
    let waker = Waker::from(woken.clone());
    future.as_mut().poll(&mut Context::from_waker(&waker))
}

fn two(nodes: usize) -> (Nodes, Session, Session) {
    let script = format!("nodes {nodes}\nset a\nset b\nclient ann at 0\nclient ben at {}\n", nodes - 1);
    let (nodes, mut sessions) = open(&script, 1 << 30).expect("no fault");
    let (ben, ann) = (sessions.remove(1), sessions.remove(0));
    (nodes, ann, ben)
}

// What is free is granted in no time, on any node; what isn't is refused, and then nothing is asked for.
fn at_once(count: usize) -> Result<(), Error> {
    let (_nodes, mut ann, mut ben) = two(count);
    for _ in 0..100 {
        drop(ann.lock_within(0, Mode::Write, AT_ONCE)?);
        let mut held = ben.lock_within(0, Mode::Write, AT_ONCE)?;
        assert_eq!(ann.lock_within(0, Mode::Read, AT_ONCE).err(), Some(Error::Withdrawn));
        assert!(ann.try_lock(0, Mode::Read)?.is_none());
        assert!(held.change_try(Mode::Read)?);
        let mut other = ann.lock_within(0, Mode::Read, SHORT)?;
        assert!(!held.change_try(Mode::Write)?);
        // Over several nodes what was given up here would still be in the way of the change.
        assert!(count > 1 || !other.go_on_try(0, Mode::Write)?);
        assert_eq!((other.set(), other.mode()), (0, Mode::Read));
        other.go_on_within(1, Mode::Write, SHORT)?;
        assert_eq!((other.set(), other.mode()), (1, Mode::Write));
        held.change_within(Mode::Write, SHORT)?;
        assert!(held.and_try(1, Mode::Read)?.is_none());
        drop(other);
        drop(held.and_within(1, Mode::Read, SHORT)?);
        held.go_on(1, Mode::Upgrade)?;
        held.change(Mode::Write)?;
        drop(held.and(0, Mode::Write)?);
    }
    Ok(())
}

// A task is woken once the lock is its; one that is dropped asks for nothing.
fn tasks(count: usize) -> Result<(), Error> {
    let (_nodes, mut ann, mut ben) = two(count);
    let woken = Arc::new(Woken(AtomicUsize::new(0)));
    let held = ann.lock(0, Mode::Write)?;
    let mut waits = Box::pin(ben.lock_async(0, Mode::Write));
    assert!(poll_once(&mut waits, &woken).is_pending());
    assert!(poll_once(&mut waits, &woken).is_pending());
    drop(held);
    assert!(woken.0.load(SeqCst) > 0);
    let Poll::Ready(granted) = poll_once(&mut waits, &woken) else { panic!("it was woken for nothing") };
    drop(waits);
    let held = granted?;
    drop(Box::pin(ann.lock_async(0, Mode::Read)));
    let mut waits = Box::pin(ann.lock_async(0, Mode::Read));
    assert!(poll_once(&mut waits, &woken).is_pending());
    drop(waits);
    drop(held);
    // Granted in the meantime, and dropped before it was looked at.
    let held = ann.lock(0, Mode::Write)?;
    let mut waits = Box::pin(ben.lock_async(0, Mode::Write));
    assert!(poll_once(&mut waits, &woken).is_pending());
    drop(held);
    drop(waits);
    drop(ann.lock_within(0, Mode::Write, LONG)?);
    Ok(())
}

// A change, or a step to another set, that is dropped leaves the lock as it was.
fn dropped_changes(count: usize) -> Result<(), Error> {
    let (_nodes, mut ann, mut ben) = two(count);
    let woken = Arc::new(Woken(AtomicUsize::new(0)));
    let mut held = ben.lock(0, Mode::Upgrade)?;
    let mut reads = block_on(ann.lock_async(0, Mode::Read))?;
    let mut waits = Box::pin(held.change_async(Mode::Write));
    assert!(poll_once(&mut waits, &woken).is_pending());
    drop(waits);
    assert_eq!(held.mode(), Mode::Upgrade);
    let mut waits = Box::pin(held.go_on_async(0, Mode::Write));
    assert!(poll_once(&mut waits, &woken).is_pending());
    drop(waits);
    assert_eq!((held.mode(), held.set()), (Mode::Upgrade, 0));
    block_on(reads.go_on_async(1, Mode::Read))?;
    // As above.
    if count == 1 {
        block_on(held.change_async(Mode::Write))?;
    }
    drop(block_on(held.and_async(1, Mode::Read))?);
    drop(reads);
    drop(held);
    drop(ann.lock_within(0, Mode::Write, LONG)?);
    drop(ann.lock_within(1, Mode::Write, LONG)?);
    Ok(())
}

// Those who wait for ever are woken, whoever makes it so: each lets the next one in.
fn in_turn(count: usize) -> Result<(), Error> {
    let clients: String = (0..16).map(|k| format!("client c{k} at {}\n", k % count)).collect();
    let nodes = Opening::new(&format!("nodes {count}\nset a\n{clients}")).open_pool()?;
    let sum = AtomicUsize::new(0);
    let held = AtomicUsize::new(0);
    scope(|scope| {
        for thread in 0..32 {
            let (nodes, sum, held) = (&nodes, &sum, &held);
            scope.spawn(move || {
                for _ in 0..100 {
                    let mut client = nodes.client_within(LONG).expect("others give theirs back");
                    let _lock = if thread % 2 == 0 {
                        client.lock(0, Mode::Write).expect("it is granted")
                    } else {
                        block_on(client.lock_async(0, Mode::Write)).expect("it is granted")
                    };
                    assert_eq!(held.fetch_add(1, SeqCst), 0);
                    sum.fetch_add(1, SeqCst);
                    held.fetch_sub(1, SeqCst);
                }
            });
        }
    });
    assert_eq!(sum.load(SeqCst), 3200);
    Ok(())
}

// A client that is let go asks and holds nothing, whatever became of its guards; then another one has the session.
fn pool() -> Result<(), Error> {
    let nodes = Opening::new("nodes 2\nset a\nset b\nclient ann at 0\nclient ben at 1\n").open_pool()?;
    for _ in 0..10 {
        let mut ann = nodes.client()?;
        let mut ben = nodes.client()?;
        assert_eq!(nodes.client_within(SHORT).err(), Some(Error::NoClient));
        std::mem::forget(ann.lock(0, Mode::Write)?);
        std::mem::forget(ben.lock(1, Mode::Read)?);
        assert_eq!(ben.ask(0, Mode::Read, SHORT).err(), Some(Error::StillWaits));
        drop(ben);
        drop(ann);
        let mut other = nodes.client_within(LONG)?;
        let mut lock = other.lock_within(0, Mode::Write, AT_ONCE)?;
        drop(lock.and_within(1, Mode::Write, AT_ONCE)?);
    }
    let begin = Instant::now();
    let all: Vec<Client> = (0..2).map(|_| nodes.client().expect("it is there")).collect();
    scope(|scope| {
        let waits = scope.spawn(|| nodes.client_within(LONG).map(drop));
        let awaits = scope.spawn(|| block_on(nodes.client_async()).map(drop));
        sleep(SHORT);
        drop(all);
        assert_eq!(waits.join().expect("no panic"), Ok(()));
        assert_eq!(awaits.join().expect("no panic"), Ok(()));
    });
    assert!(begin.elapsed() < LONG);
    let (nodes, _sessions) = open("nodes 1\nset a\nclient ann at 0\n", 1 << 20)?;
    assert_eq!(nodes.client().err(), Some(Error::NoClient));
    Ok(())
}

// A key has one set, on any thread and in any process, and those under another key are in its family.
fn keys() -> Result<(), Error> {
    let nodes = Opening::new("nodes 1\nset named\nclient ann at 0\nclient ben at 0\n").keys(1000, 60).open_pool()?;
    let root = nodes.key("users")?;
    assert_eq!((root, (root - 1) % 60), (nodes.key(b"users")?, 0));
    let child = nodes.key_under("users", "user 17")?;
    assert!(root < child && child < root + 60);
    let sets: std::collections::HashSet<u32> = (0..5000).map(|k| nodes.key(format!("{k}")).expect("a set")).collect();
    assert!(sets.len() > 950);
    let mut ann = nodes.client()?;
    std::mem::forget(ann.lock(root, Mode::IntentionWrite)?);
    std::mem::forget(ann.lock(child, Mode::Write)?);
    let whose = ann.client();
    assert_eq!(nodes.client()?.drop_locks(root, whose)?, 2);
    assert_eq!(Opening::new("nodes 1\nclient ann at 0\n").keys(1 << 16, 2).open_pool().err(), Some(Error::TooMany));
    let taken = Opening::new("nodes 1\nset key.00000\nclient ann at 0\n").keys(2, 2).open_pool();
    assert_eq!(taken.err(), Some(Error::BadSet(BadSet { place: 0, why: WhySet::NameAgain })));
    let (none, _sessions) = open("nodes 1\nset a\nclient ann at 0\n", 1 << 20)?;
    assert_eq!(none.key("users"), Err(Error::BadArgument));
    Ok(())
}

fn reasons() -> Result<(), Error> {
    let Some(Error::BadScript(fault)) = open("nodes 1\nset a\nset 9s\n", 1 << 20).err() else { panic!("a fault") };
    assert_eq!(fault, Fault { line: 3, number: 6 });
    assert_eq!(Fault { line: 3, number: 6 }.to_string(), "line 3 of the script declares a word that is no name (S6)");
    let script = "nodes 1\nset a\nclient ann at 0\n";
    let refused = |name, parent| {
        open_sets(script, &[NewSet { name: "b", parent: Some("a") }, NewSet { name, parent }], 1 << 20).err()
    };
    assert_eq!(refused("a", None), Some(Error::BadSet(BadSet { place: 1, why: WhySet::NameAgain })));
    assert_eq!(refused("ann", None), Some(Error::BadSet(BadSet { place: 1, why: WhySet::NameAgain })));
    assert_eq!(refused("9", None), Some(Error::BadSet(BadSet { place: 1, why: WhySet::NoName })));
    assert_eq!(refused("c", Some("d")), Some(Error::BadSet(BadSet { place: 1, why: WhySet::NoParent })));
    // Nothing is given up in version 2, so that no task asks.
    let (_nodes, mut sessions) = open("version 2\nnodes 1\nset a\nclient ann at 0\n", 1 << 20)?;
    assert_eq!(block_on(sessions[0].lock_async(0, Mode::Write)).err(), Some(Error::BadArgument));
    drop(sessions[0].lock(0, Mode::Write)?);
    // A node that made all its moves says so to each that waits.
    let (_nodes, mut sessions) = Opening::new("nodes 1\nset a\nclient ann at 0\n").limit(3).open()?;
    drop(sessions[0].lock_within(0, Mode::Write, Duration::MAX)?);
    std::mem::forget(sessions[0].lock(0, Mode::Write)?);
    assert_eq!(sessions[0].lock(0, Mode::Write).err(), Some(Error::LogFull));
    Ok(())
}

// Who holds what, and who waits, of two nodes.
fn view() -> Result<(), Error> {
    let (nodes, mut ann, mut ben) = two(2);
    let mut held = ann.lock(1, Mode::Read)?;
    std::mem::forget(held.and(1, Mode::Read)?);
    assert_eq!(ben.ask(1, Mode::Write, SHORT).err(), Some(Error::StillWaits));
    let locks = nodes.locks();
    assert_eq!(locks.held, [Holds { client: 0, set: 1, mode: Mode::Read, count: 2 }]);
    assert_eq!(locks.waiting, [Waits { client: 1, set: 1, mode: Mode::Write }]);
    drop(held);
    assert_eq!(nodes.locks().held, [Holds { client: 0, set: 1, mode: Mode::Read, count: 1 }]);
    assert_eq!(ann.abort()?, 1);
    drop(ben.wait(LONG)?);
    assert_eq!(nodes.locks(), Locks::default());
    Ok(())
}

fn main() -> Result<(), Error> {
    goes_to_threads::<(Guard, Session, Client, Nodes)>();
    is_shared::<Nodes>();
    for count in [1, 2, 4] {
        at_once(count)?;
        tasks(count)?;
        dropped_changes(count)?;
        in_turn(count)?;
    }
    pool()?;
    keys()?;
    reasons()?;
    view()?;
    println!("forms: it is as it should be");
    Ok(())
}
