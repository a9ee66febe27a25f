//! A run on threads: workers share the nodes.
use crate::closing::close;
use crate::letter::{Letter, Stamp, stamp};
use crate::mail::{Line, Mail, Rings};
use crate::node::Node;
use crate::out::{Out, Post, Words};
use crate::outlook::Outlook;
use crate::script::{self, Script};
use crate::text::Text;
use std::cell::UnsafeCell;
use std::sync::atomic::{AtomicBool, Ordering};
use std::thread;

// The most workers, those among few nodes, and for how many nodes there is one more.
const WORKERS: u32 = 8;
const FEW_WORKERS: u32 = 3;
const NODES_PER_WORKER: u32 = 32;

// A move in a node's text: where it ends.
pub struct Moved {
    pub stamp: Stamp,
    pub end: usize,
}

struct Runner<'a> {
    node: Node<'a>,
    out: Out<'a, Mail<'a>>,
    moves: Vec<Moved>,
}

impl Runner<'_> {
    // Makes a move, where there is one; it may be that of a letter alone.
    fn turn(&mut self, by_mail: bool) -> bool {
        self.out.post.flush();
        self.out.answered.clear();
        if let Some((from, letter)) = self.out.post.take() {
            self.node.take(from, letter, &mut self.out);
        } else if !by_mail && self.node.ready != 0 {
            self.node.act(self.node.ready.trailing_zeros() as u8, &mut self.out);
        } else {
            return false;
        }
        self.moves.push(Moved { stamp: stamp(self.node.clock, self.node.me), end: self.out.text.len() });
        true
    }

    // Makes moves until there is none, or a letter was sent; the nodes that letters went to.
    fn visit(&mut self, by_mail: bool) -> u64 {
        self.out.post.reached = 0;
        while self.out.post.reached == 0 && self.turn(by_mail) {}
        self.out.post.flush();
        self.out.post.reached
    }
}

// A runner, and whether a worker has it.
struct Slot<'a> {
    taken: Line<AtomicBool>,
    runner: UnsafeCell<Runner<'a>>,
}

// Only the worker that set `taken` looks at the runner.
unsafe impl Sync for Slot<'_> {}

/// What workers came to.
#[derive(Default)]
struct Counts {
    visits: usize,
    vain: usize,
    refused: usize,
}

// Visits one node after the other until it has tried often enough.
fn work(slots: &[Slot<'_>], at: u32) -> Counts {
    let mut outlook = Outlook::new(at, slots.len() as u32);
    let mut counts = Counts::default();
    while !outlook.is_over() {
        let node = outlook.next();
        let slot = &slots[node as usize];
        if slot.taken.0.compare_exchange(false, true, Ordering::Acquire, Ordering::Relaxed).is_err() {
            counts.refused += 1;
            outlook.note_refusal(node);
            thread::yield_now();
            continue;
        }
        let runner = unsafe { &mut *slot.runner.get() };
        let before = runner.moves.len();
        let reached = runner.visit(outlook.by_mail);
        let moves = runner.moves.len() - before;
        slot.taken.0.store(false, Ordering::Release);
        counts.visits += 1;
        counts.vain += usize::from(moves == 0);
        outlook.note_visit(node, moves, reached);
    }
    counts
}

// Workers share the nodes, each on a thread but for the first.
fn share(slots: &[Slot<'_>]) -> Counts {
    let count = slots.len() as u32;
    let workers = WORKERS.min(count).min(FEW_WORKERS + count / NODES_PER_WORKER);
    thread::scope(|scope| {
        let others: Vec<_> = (1..workers).map(|at| scope.spawn(move || work(slots, at))).collect();
        let mut all = work(slots, 0);
        for counts in others.into_iter().filter_map(|other| other.join().ok()) {
            all.visits += counts.visits;
            all.vain += counts.vain;
            all.refused += counts.refused;
        }
        all
    })
}

fn start<'a>(script: &'a Script<'a>, words: &'a Words, rings: &'a Rings) -> Vec<Slot<'a>> {
    let (room, _) = crate::begin(script);
    let slot = |me: u8| {
        let post = Mail::new(rings, usize::from(me));
        let out = Out { words, text: Text::new(room / usize::from(script.nodes)), post, answered: Vec::new() };
        let moves = Vec::with_capacity(room / 48 / usize::from(script.nodes));
        let runner = UnsafeCell::new(Runner { node: Node::new(script, me), out, moves });
        Slot { taken: Line::default(), runner }
    };
    (0..script.nodes).map(slot).collect()
}

/// The journal of a run on threads; none if the script has a fault.
pub fn run(text: &[u8], tells: bool) -> Option<Vec<u8>> {
    let script = script::read(text)?;
    let words = Words::new(&script);
    let rings = Rings::new(usize::from(script.nodes));
    let mut slots = start(&script, &words, &rings);
    let mut rounds = 0;
    loop {
        rounds += 1;
        let counts = share(&slots);
        if tells {
            let Counts { visits, vain, refused } = counts;
            eprintln!("round {rounds}: {visits} visits, {vain} of them in vain, {refused} claims refused");
        }
        for slot in &mut slots {
            slot.runner.get_mut().visit(false);
        }
        if !slots.iter_mut().any(|slot| slot.runner.get_mut().turn(false)) {
            break;
        }
    }
    let runners: Vec<Runner> = slots.into_iter().map(|slot| slot.runner.into_inner()).collect();
    let moved: Vec<_> = runners.iter().map(|runner| (&runner.moves[..], &runner.out.text)).collect();
    let nodes: Vec<&Node> = runners.iter().map(|runner| &runner.node).collect();
    Some(journal(&script, &words, &moved, &nodes))
}

// No letter is sent at the end.
struct Nowhere;

impl Post for Nowhere {
    fn send(&mut self, _to: u8, _letter: Letter) {}
}

/// The lines of all moves in order of their stamps, and those of the end. Each node has its moves and their text.
pub fn journal(script: &Script<'_>, words: &Words, moved: &[(&[Moved], &Text)], nodes: &[&Node<'_>]) -> Vec<u8> {
    let mut moves = Vec::with_capacity(moved.iter().map(|(moves, _)| moves.len()).sum());
    for (own, _) in moved {
        let mut start = 0;
        for moved in *own {
            moves.push((moved.stamp, start, moved.end));
            start = moved.end;
        }
    }
    moves.sort_by_key(|moved| moved.0);
    let (_, first) = crate::begin(script);
    let room = moved.iter().map(|(_, text)| text.len()).sum();
    let mut out = Out { words, text: Text::new(room), post: Nowhere, answered: Vec::new() };
    out.text.add(first);
    for (stamp, start, end) in &moves {
        let node = (stamp & 63) as usize;
        out.text.add(&moved[node].1.bytes()[*start..*end]);
    }
    close(script, nodes, moves.len(), &mut out);
    out.text.into_bytes()
}
