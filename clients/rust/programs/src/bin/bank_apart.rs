//! A bank of which each node lies in a process of its own, as clients/c/bank_apart.c, by TCP.
//!
//! usage: bank_apart FOLDER START TRANSFERS NODE PORT..: the ports of all nodes, on this machine. START is a number that differs
//! from that of each earlier time in this folder. It writes the script of what was asked at its node and the lines of the node's
//! moves into FOLDER/part.NODE.
use lockrun::{Apart, Mode, Place, Tcp};
use std::fs::{write, File, OpenOptions};
use std::net::{Ipv4Addr, SocketAddr};
use std::os::unix::fs::FileExt;
use std::thread::yield_now;
use std::time::Duration;

const ACCOUNTS: u64 = 4;
const FIRST: i64 = 1000;
const AMOUNT: i64 = 5;
const MOST_NODES: u64 = 16;
const KEY: &[u8] = b"a key that the nodes of this bank share";
const MOMENT: Duration = Duration::from_millis(1);

/// The set that stands for the whole bank. An account's set has the number after the account's.
const BANK: u32 = 0;

type Fault = Box<dyn std::error::Error>;

/// What each process tells the others of itself, beside the money.
#[derive(Clone, Copy)]
enum Told {
    There,
    Done,
    Sent,
    Received,
}

/// Words in a file, which all processes see. Nothing but the locks keeps callers from each other's money; every other word is
/// written by one process.
struct Seen(File);

impl Seen {
    fn open(folder: &str) -> std::io::Result<Seen> {
        let file =
            OpenOptions::new().read(true).write(true).create(true).truncate(false).open(format!("{folder}/money"))?;
        file.set_len(8 * (ACCOUNTS + 4 * MOST_NODES))?;
        Ok(Seen(file))
    }

    fn get(&self, place: u64) -> std::io::Result<i64> {
        let mut word = [0; 8];
        self.0.read_exact_at(&mut word, 8 * place)?;
        Ok(i64::from_le_bytes(word))
    }

    fn set(&self, place: u64, value: i64) -> std::io::Result<()> {
        self.0.write_all_at(&value.to_le_bytes(), 8 * place)
    }

    fn tell(&self, told: Told, node: u64, value: i64) -> std::io::Result<()> {
        self.set(ACCOUNTS + told as u64 * MOST_NODES + node, value)
    }

    fn told(&self, told: Told, nodes: u64) -> std::io::Result<Vec<i64>> {
        (0..nodes).map(|node| self.get(ACCOUNTS + told as u64 * MOST_NODES + node)).collect()
    }
}

fn script(nodes: u64) -> String {
    let accounts = (0..ACCOUNTS).map(|k| format!("set account{k} with bank\n"));
    let clients = (0..nodes).map(|k| format!("client caller{k} at {k}\n"));
    format!("nodes {nodes}\nset bank\n") + &accounts.chain(clients).collect::<String>()
}

/// The caller at this node.
struct Caller {
    apart: Apart<Tcp>,
    seen: Seen,
    me: u64,
    nodes: u64,
}

impl Caller {
    // Locks the accounts in order, so that no callers wait for each other in a ring.
    fn transfer(&mut self, from: u64, to: u64) -> Result<(), Fault> {
        let (lesser, greater) = (1 + from.min(to) as u32, 1 + from.max(to) as u32);
        self.apart.lock(0, BANK, Mode::IntentionWrite)?;
        self.apart.lock(0, lesser, Mode::Write)?;
        self.apart.lock(0, greater, Mode::Write)?;
        let (in_from, in_to) = (self.seen.get(from)?, self.seen.get(to)?);
        yield_now();
        self.seen.set(from, in_from - AMOUNT)?;
        self.seen.set(to, in_to + AMOUNT)?;
        self.apart.unlock(0, greater, Mode::Write)?;
        self.apart.unlock(0, lesser, Mode::Write)?;
        self.apart.unlock(0, BANK, Mode::IntentionWrite)?;
        Ok(())
    }

    // No intention to write goes with a read of the whole bank.
    fn audit(&mut self) -> Result<i64, Fault> {
        self.apart.lock(0, BANK, Mode::Read)?;
        let money = (0..ACCOUNTS).map(|account| self.seen.get(account)).collect::<Result<Vec<_>, _>>()?;
        self.apart.unlock(0, BANK, Mode::Read)?;
        Ok(money.into_iter().sum())
    }

    // Serves the others until all nodes are in this phase, and all came that was sent: the former is looked at later, and only
    // grows.
    fn serve(&mut self, phase: i64) -> Result<(), Fault> {
        self.seen.tell(Told::Done, self.me, phase)?;
        loop {
            self.apart.serve(MOMENT)?;
            self.seen.tell(Told::Sent, self.me, self.apart.sent as i64)?;
            self.seen.tell(Told::Received, self.me, self.apart.received as i64)?;
            let done = self.seen.told(Told::Done, self.nodes)?.into_iter().all(|done| done >= phase);
            let received: i64 = self.seen.told(Told::Received, self.nodes)?.into_iter().sum();
            if done && received == self.seen.told(Told::Sent, self.nodes)?.into_iter().sum() {
                return Ok(());
            }
        }
    }
}

fn main() -> Result<(), Fault> {
    let words: Vec<String> = std::env::args().collect();
    let [_, folder, start, transfers, me, ports @ ..] = words.as_slice() else {
        return Err("usage: bank_apart FOLDER START TRANSFERS NODE PORT..".into());
    };
    let (start, transfers, me): (u64, u64, u32) = (start.parse()?, transfers.parse()?, me.parse()?);
    let ports = ports.iter().map(|port| port.parse()).collect::<Result<Vec<u16>, _>>()?;
    let nodes: Vec<SocketAddr> = ports.iter().map(|&port| (Ipv4Addr::LOCALHOST, port).into()).collect();
    let seen = Seen::open(folder)?;
    let place = Place { me, nodes: nodes.len() as u32, key: KEY, start };
    let apart = Apart::open(&script(nodes.len() as u64), place, 1 << 40, Tcp::begin(me, &nodes)?)?;
    let mut caller = Caller { apart, seen, me: me.into(), nodes: nodes.len() as u64 };
    if me == 0 {
        (0..ACCOUNTS).try_for_each(|account| caller.seen.set(account, FIRST))?;
    }
    caller.seen.tell(Told::There, me.into(), 1)?;
    while caller.seen.told(Told::There, caller.nodes)?.contains(&0) {
        caller.apart.serve(MOMENT)?;
    }
    for k in 0..transfers {
        let from = (u64::from(me) + k) % ACCOUNTS;
        caller.transfer(from, (from + 1 + k % (ACCOUNTS - 1)) % ACCOUNTS)?;
    }
    caller.serve(1)?;
    let sum = if me == 0 { caller.audit()? } else { ACCOUNTS as i64 * FIRST };
    caller.serve(2)?;
    let journal = caller.apart.finish()?;
    write(format!("{folder}/part.{me}"), [&journal.script[..], b"journal\n", &journal.text[..]].concat())?;
    if me == 0 {
        println!("all together: {sum}");
    }
    if sum != ACCOUNTS as i64 * FIRST || journal.held > 0 || journal.waiting > 0 {
        return Err("the sum is another, or something is held or waits at the end".into());
    }
    Ok(())
}
