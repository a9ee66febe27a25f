//! Where one client waits for a reply: a thread that sleeps, or a task that is polled again.
use std::hint::spin_loop;
use std::sync::atomic::{AtomicBool, AtomicU64, AtomicUsize, Ordering::SeqCst};
use std::sync::{Mutex, MutexGuard, PoisonError};
use std::task::Waker;
use std::thread::{current, park, park_timeout, Thread};
use std::time::{Duration, Instant};

/// How often a thread looks, before it sleeps, whether it was told something.
const SPINS: u32 = 200;

/// Who is to be woken.
enum Sleeper {
    Thread(Thread),
    Task(Waker),
}

/// The seat of a client, in lines of the caches that no other one is in.
#[repr(align(128))]
pub(crate) struct Seat {
    pub client: u32,
    // Whether something was told since the client looked last, and whether somebody is to be woken then.
    told: AtomicBool,
    sleeps: AtomicBool,
    sleeper: Mutex<Option<Sleeper>>,
    home: AtomicUsize,
    // The number of what it asks, where asks are numbered; and of what was chosen to be given up.
    ask: AtomicU64,
    victim: AtomicU64,
    // One more than the set in which it asks again and again for what is withheld, or 0.
    withheld: AtomicU64,
}

impl Seat {
    pub fn new(client: u32) -> Seat {
        Seat {
            client,
            told: AtomicBool::new(false),
            sleeps: AtomicBool::new(false),
            sleeper: Mutex::new(None),
            home: AtomicUsize::new(0),
            ask: AtomicU64::new(0),
            victim: AtomicU64::new(0),
            withheld: AtomicU64::new(0),
        }
    }

    /// The client's node.
    pub fn home(&self) -> usize {
        self.home.load(SeqCst)
    }

    pub fn set_home(&self, home: usize) {
        self.home.store(home, SeqCst);
    }

    /// The number of what it asks, or asked last.
    pub fn ask(&self) -> u64 {
        self.ask.load(SeqCst)
    }

    pub fn set_ask(&self, ask: u64) {
        self.ask.store(ask, SeqCst);
    }

    /// Whether what it asked last was chosen to be given up.
    pub fn is_victim(&self) -> bool {
        let victim = self.victim.load(SeqCst);
        victim > 0 && victim == self.ask()
    }

    /// It is chosen, or it can't give up.
    pub fn choose(&self) {
        self.victim.store(self.ask(), SeqCst);
    }

    pub fn spare(&self) {
        self.victim.store(0, SeqCst);
    }

    /// The set in which it asks again and again.
    pub fn withheld(&self) -> Option<u32> {
        self.withheld.load(SeqCst).checked_sub(1).map(|set| set as u32)
    }

    /// From now on it is this one: what it was.
    pub fn set_withheld(&self, set: Option<u32>) -> Option<u32> {
        let before = self.withheld.swap(set.map_or(0, |set| u64::from(set) + 1), SeqCst);
        before.checked_sub(1).map(|set| set as u32)
    }

    /// Tells the client to look.
    pub fn tell(&self) {
        self.told.store(true, SeqCst);
        if self.sleeps.load(SeqCst) {
            self.wake();
        }
    }

    #[cold]
    fn wake(&self) {
        let sleeper = self.sleeper().take();
        match sleeper {
            Some(Sleeper::Thread(thread)) => thread.unpark(),
            Some(Sleeper::Task(waker)) => waker.wake(),
            None => {}
        }
    }

    /// This thread is woken from now on. It looks once more before it sleeps: what was told before woke nobody.
    pub fn begin_sleep(&self) {
        self.put(Sleeper::Thread(current()));
    }

    /// The same for a task.
    pub fn begin_wait(&self, waker: &Waker) {
        self.put(Sleeper::Task(waker.clone()));
    }

    fn put(&self, sleeper: Sleeper) {
        *self.sleeper() = Some(sleeper);
        self.sleeps.store(true, SeqCst);
    }

    /// Nobody is woken any more.
    pub fn end(&self) {
        self.sleeps.store(false, SeqCst);
        drop(self.sleeper().take());
    }

    /// Waits for a short time without sleep, until the client is told something.
    pub fn spin(&self) {
        for _ in 0..SPINS {
            if self.told.load(SeqCst) {
                break;
            }
            spin_loop();
        }
        self.told.swap(false, SeqCst);
    }

    /// Sleeps until the client is told something, or until the time is over; it may end before.
    pub fn sleep(&self, end: Option<Instant>) {
        if self.told.swap(false, SeqCst) {
            return;
        }
        match end.map(|end| end.saturating_duration_since(Instant::now())) {
            None => park(),
            Some(Duration::ZERO) => {}
            Some(left) => park_timeout(left),
        }
    }

    fn sleeper(&self) -> MutexGuard<'_, Option<Sleeper>> {
        self.sleeper.lock().unwrap_or_else(PoisonError::into_inner)
    }
}
