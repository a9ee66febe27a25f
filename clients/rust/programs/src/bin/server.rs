//! A server's clients: threads and tasks that come and go over a few sessions and 100,000 keys, with times and cancels. Each moves
//! an amount from key to key under two locks, so that the sum stays; memory stays flat; and who waits takes no processor. Those that
//! all want have exact names; and some lock in any order and without a time, so that of those who wait in a ring one gives up.
//!
//! usage: server; LOCKRUN_SECONDS says how long, and else it is 5 seconds.
use lockrun::{Error, Mode, Nodes, Opening, Session};
use std::cell::UnsafeCell;
use std::future::Future;
use std::pin::Pin;
use std::sync::atomic::{AtomicU64, Ordering::SeqCst};
use std::task::{Context, Poll};
use std::thread::{scope, sleep, yield_now};
use std::time::{Duration, Instant};

const SESSIONS: usize = 20;
const THREADS: u32 = 32;
const TASKS: u32 = 32;
const KEYS: usize = 100_000;
const SETS: u32 = 65_000;

/// So many keys are asked for more often than the others.
const BUSY: u32 = 20;

/// Who waits for longer looks for a ring.
const AFTER: Duration = Duration::from_millis(20);

/// The time of a whole test goes half to moves; then so long all wait for one lock.
const WAIT: Duration = Duration::from_millis(1500);

/// So much memory more at the end than after a third, in KiB; a set that is touched for the first time takes some.
const GROWTH: u64 = 150_000;

/// Plain words: nothing but the locks keeps threads apart.
struct Amounts(Vec<UnsafeCell<i64>>);

// SAFETY: an amount is reached by the one who has the lock of its key.
unsafe impl Sync for Amounts {}

#[derive(Default)]
struct Counts {
    moved: AtomicU64,
    gave_up: AtomicU64,
    cancelled: AtomicU64,
    victims: AtomicU64,
}

struct Server {
    nodes: Nodes,
    amounts: Amounts,
    counts: Counts,
    end: Instant,
}

/// Numbers that look random.
struct Random(u64);

impl Random {
    fn below(&mut self, bound: u32) -> u32 {
        self.0 = self.0.wrapping_mul(6_364_136_223_846_793_005).wrapping_add(1_442_695_040_888_963_407);
        (self.0 >> 33) as u32 % bound
    }

    // Half of them are of the few that all want.
    fn key(&mut self) -> usize {
        let bound = if self.below(2) == 0 { BUSY } else { KEYS as u32 };
        self.below(bound) as usize
    }

    fn time(&mut self) -> Duration {
        Duration::from_micros(u64::from(self.below(3000)))
    }
}

/// A future that is dropped if it isn't ready after so many looks.
struct Looks<F> {
    future: Option<Pin<Box<F>>>,
    left: u32,
}

impl<F: Future> Looks<F> {
    fn new(future: F, left: u32) -> Looks<F> {
        Looks { future: Some(Box::pin(future)), left }
    }
}

impl<F: Future> Future for Looks<F> {
    type Output = Option<F::Output>;

    fn poll(mut self: Pin<&mut Self>, context: &mut Context<'_>) -> Poll<Self::Output> {
        let Some(future) = &mut self.future else { return Poll::Ready(None) };
        if let Poll::Ready(output) = future.as_mut().poll(context) {
            return Poll::Ready(Some(output));
        }
        if self.left == 0 {
            self.future = None;
            return Poll::Ready(None);
        }
        self.left -= 1;
        context.waker().wake_by_ref();
        Poll::Pending
    }
}

impl Server {
    fn set(&self, key: usize) -> Result<u32, Error> {
        if key < BUSY as usize {
            self.nodes.name(key.to_le_bytes())
        } else {
            self.nodes.key(key.to_le_bytes())
        }
    }

    // The sets of two keys, the lesser one first: so none waits for another one in a ring.
    fn sets(&self, from: usize, to: usize) -> Result<(u32, u32), Error> {
        let (from, to) = (self.set(from)?, self.set(to)?);
        Ok((from.min(to), from.max(to)))
    }

    // The caller has the locks of both keys.
    fn transfer(&self, from: usize, to: usize) {
        // SAFETY: as above.
        unsafe { *self.amounts.0[from].get() -= 1 };
        // SAFETY: as above.
        unsafe { *self.amounts.0[to].get() += 1 };
        self.counts.moved.fetch_add(1, SeqCst);
    }

    fn move_one(&self, session: &mut Session, random: &mut Random) -> Result<(), Error> {
        let (from, to) = (random.key(), random.key());
        let (first, second) = self.sets(from, to)?;
        let mut lock = session.lock_within(first, Mode::Write, random.time())?;
        if first == second {
            self.transfer(from, to);
            return Ok(());
        }
        let _second = lock.and_within(second, Mode::Write, random.time())?;
        self.transfer(from, to);
        Ok(())
    }

    // The same in any order, without a time.
    fn move_any(&self, session: &mut Session, random: &mut Random) -> Result<(), Error> {
        let (from, to) = (random.key(), random.key());
        let (first, second) = (self.set(from)?, self.set(to)?);
        let mut lock = session.lock(first, Mode::Write)?;
        yield_now();
        let second = if first == second { None } else { Some(lock.and(second, Mode::Write)?) };
        self.transfer(from, to);
        drop(second);
        Ok(())
    }

    // A thread that comes, does a little, and goes.
    fn visit(&self, random: &mut Random) -> Result<(), Error> {
        let mut client = match self.nodes.client_within(random.time()) {
            Err(Error::NoClient) => return Ok(()),
            client => client?,
        };
        for _ in 0..random.below(8) {
            let moved = match random.below(2) {
                0 => self.move_one(&mut client, random),
                _ => self.move_any(&mut client, random),
            };
            match moved {
                Err(Error::Withdrawn) => self.counts.gave_up.fetch_add(1, SeqCst),
                Err(Error::Victim) => self.counts.victims.fetch_add(1, SeqCst),
                moved => moved.map(|()| 0)?,
            };
        }
        Ok(())
    }

    async fn move_soon(&self, random: &mut Random) -> Result<(), Error> {
        let (from, to) = (random.key(), random.key());
        let (first, second) = self.sets(from, to)?;
        let mut client = self.nodes.client_async().await?;
        let mut lock = client.lock_async(first, Mode::Write).await?;
        if first == second {
            self.transfer(from, to);
            return Ok(());
        }
        let _second = lock.and_async(second, Mode::Write).await?;
        self.transfer(from, to);
        Ok(())
    }

    // A task that comes and goes; some are cancelled.
    fn run_task(&self, random: &mut Random) -> Result<(), Error> {
        let looks = if random.below(4) == 0 { random.below(20) } else { u32::MAX };
        let moved = match looks {
            u32::MAX => Some(lockrun::block_on(self.move_soon(random))),
            looks => lockrun::block_on(Looks::new(self.move_soon(random), looks)),
        };
        match moved {
            None => self.counts.cancelled.fetch_add(1, SeqCst),
            Some(Err(Error::Victim)) => self.counts.victims.fetch_add(1, SeqCst),
            Some(moved) => moved.map(|()| 0)?,
        };
        Ok(())
    }

    fn serve(&self, number: u32) -> Result<(), Error> {
        let mut random = Random(u64::from(number) + 7);
        while Instant::now() < self.end {
            if number < THREADS {
                self.visit(&mut random)?;
            } else {
                self.run_task(&mut random)?;
            }
        }
        Ok(())
    }

    fn sum(&self) -> i64 {
        // SAFETY: all who move amounts have ended.
        self.amounts.0.iter().map(|amount| unsafe { *amount.get() }).sum()
    }

    // All wait for one lock, or for a session: how much processor they took of the time.
    fn wait_all(&self) -> Result<f64, Error> {
        let mut holder = self.nodes.client()?;
        let lock = holder.lock(0, Mode::Write)?;
        scope(|scope| {
            for number in 0..THREADS + TASKS {
                scope.spawn(move || {
                    let mut client = self.nodes.client().expect("one comes");
                    let lock = match number % 2 {
                        0 => client.lock(0, Mode::Read),
                        _ => lockrun::block_on(client.lock_async(0, Mode::Read)),
                    };
                    drop(lock.expect("it is granted"));
                });
            }
            sleep(WAIT / 3);
            let before = processor_time();
            sleep(WAIT);
            let taken = processor_time() - before;
            drop(lock);
            Ok(taken.as_secs_f64() / WAIT.as_secs_f64())
        })
    }
}

// That of all threads.
fn processor_time() -> Duration {
    let tasks = std::fs::read_dir("/proc/self/task").expect("Linux has it");
    let times = tasks.filter_map(|task| std::fs::read_to_string(task.ok()?.path().join("schedstat")).ok());
    let nanoseconds = |line: String| line.split_whitespace().next().and_then(|word| word.parse::<u64>().ok());
    Duration::from_nanos(times.filter_map(nanoseconds).sum())
}

fn memory() -> u64 {
    let status = std::fs::read_to_string("/proc/self/status").expect("Linux has it");
    let line = status.lines().find(|line| line.starts_with("VmRSS:")).expect("a line of it");
    line.split_whitespace().nth(1).and_then(|size| size.parse().ok()).expect("a number")
}

fn open(time: Duration) -> Result<Server, Error> {
    let clients: String = (0..SESSIONS).map(|k| format!("client c{k} at {}\n", k % 2)).collect();
    let nodes = Opening::new(&format!("nodes 2\n{clients}")).keys(SETS, 1).names(BUSY).victims(AFTER).open_pool()?;
    let amounts = Amounts((0..KEYS).map(|_| UnsafeCell::new(0)).collect());
    Ok(Server { nodes, amounts, counts: Counts::default(), end: Instant::now() + time })
}

fn main() -> Result<(), Error> {
    let seconds = std::env::var("LOCKRUN_SECONDS").ok().and_then(|word| word.parse().ok()).unwrap_or(5);
    let time = Duration::from_secs(seconds).saturating_sub(2 * WAIT).max(Duration::from_secs(1));
    let server = open(time)?;
    let before = scope(|scope| {
        let server = &server;
        let all: Vec<_> = (0..THREADS + TASKS).map(|number| scope.spawn(move || server.serve(number))).collect();
        sleep(time / 3);
        let before = memory();
        all.into_iter().try_for_each(|thread| thread.join().expect("no panic")).map(|()| before)
    })?;
    let Counts { moved, gave_up, cancelled, victims } = &server.counts;
    println!(
        "moved {moved:?}, gave up {gave_up:?}, victims {victims:?}, cancelled {cancelled:?}; {before} KiB, and at the end {}",
        memory()
    );
    assert_eq!(server.sum(), 0);
    assert!(memory() < before + GROWTH);
    assert!(moved.load(SeqCst) > 0 && victims.load(SeqCst) > 0);
    let taken = server.wait_all()?;
    println!("who waits takes {:.3}% of a processor", 100.0 * taken);
    assert!(taken < 0.01);
    Ok(())
}
