//! A bank: callers on threads move money from account to account under locks, and one adds up all accounts.
//!
//! usage: bank CALLERS NODES TRANSFERS SCRIPT JOURNAL: it writes the script of what was asked, and the journal, into these
//! files.
use lockrun::{Error, Mode, Nodes, Opening, Served, Session};
use std::cell::UnsafeCell;
use std::fs::write;
use std::ops::Range;
use std::thread::{scope, yield_now};
use std::time::Duration;

const ACCOUNTS: usize = 4;
const FIRST: i64 = 1000;
const AMOUNT: i64 = 5;

/// How many transfers all callers make together before it is asked what they were served; and the commands of a transfer.
const BETWEEN: usize = 100;
const COMMANDS: usize = 6;

/// The set that stands for the whole bank. An account's set has the number after the account's.
const BANK: u32 = 0;

/// Plain words: nothing but the locks keeps callers apart.
struct Money([UnsafeCell<i64>; ACCOUNTS]);

// SAFETY: an account is read and written only by the caller that holds its lock by `write`, and read only by one that holds
// the bank's by `read`.
unsafe impl Sync for Money {}

impl Money {
    fn get(&self, account: usize) -> i64 {
        // SAFETY: as above.
        unsafe { *self.0[account].get() }
    }

    fn set(&self, account: usize, amount: i64) {
        // SAFETY: as above.
        unsafe { *self.0[account].get() = amount }
    }
}

fn script(callers: usize, nodes: usize) -> String {
    let accounts = (0..ACCOUNTS).map(|k| format!("set account{k} with bank\n"));
    let clients = (0..callers).map(|k| format!("client caller{k} at {}\n", k % nodes));
    format!("nodes {nodes}\nset bank\n") + &accounts.chain(clients).collect::<String>()
}

// Locks the accounts in order, so that no callers wait for each other in a ring.
fn transfer(session: &mut Session, money: &Money, from: usize, to: usize) -> Result<(), Error> {
    let mut bank = session.lock(BANK, Mode::IntentionWrite)?;
    let mut lesser = bank.and(1 + from.min(to) as u32, Mode::Write)?;
    let _greater = lesser.and(1 + from.max(to) as u32, Mode::Write)?;
    let (in_from, in_to) = (money.get(from), money.get(to));
    yield_now();
    money.set(from, in_from - AMOUNT);
    money.set(to, in_to + AMOUNT);
    Ok(())
}

fn call(session: &mut Session, money: &Money, transfers: Range<usize>) -> Result<(), Error> {
    let number = session.client() as usize;
    for k in transfers {
        let from = (number + k) % ACCOUNTS;
        transfer(session, money, from, (from + 1 + k % (ACCOUNTS - 1)) % ACCOUNTS)?;
    }
    Ok(())
}

// All callers make these transfers, each on a thread.
fn make_round(sessions: &mut [Session], money: &Money, transfers: &Range<usize>) -> Result<(), Error> {
    scope(|scope| {
        let threads: Vec<_> =
            sessions.iter_mut().map(|session| scope.spawn(|| call(session, money, transfers.clone()))).collect();
        threads.into_iter().try_for_each(|thread| thread.join().expect("no caller panics"))
    })
}

// Each command was answered, and the reply was polled.
fn compare(nodes: &mut Nodes, sessions: &mut [Session], commands: usize) -> Result<(), Box<dyn std::error::Error>> {
    let served = nodes.served(sessions)?;
    if served != (Served { submitted: commands, polled: commands }) {
        return Err(format!("{served:?}, and callers were told {commands}").into());
    }
    Ok(())
}

// No intention to write goes with a read of the whole bank. It is asked for with little patience, and waited for.
fn audit(session: &mut Session, money: &Money) -> Result<i64, Error> {
    match session.ask(BANK, Mode::Read, Duration::ZERO) {
        Ok(_bank) => return Ok(add_up(money)),
        Err(Error::StillWaits) => {}
        Err(error) => return Err(error),
    }
    let _bank = session.wait(Duration::from_secs(60))?;
    Ok(add_up(money))
}

fn add_up(money: &Money) -> i64 {
    for account in 0..ACCOUNTS {
        println!("account{account}: {}", money.get(account));
    }
    (0..ACCOUNTS).map(|account| money.get(account)).sum()
}

fn main() -> Result<(), Box<dyn std::error::Error>> {
    let words: Vec<String> = std::env::args().collect();
    let [_, callers, nodes, transfers, script_file, journal_file] = words.as_slice() else {
        return Err("usage: bank CALLERS NODES TRANSFERS SCRIPT JOURNAL".into());
    };
    let (callers, nodes, transfers): (usize, usize, usize) = (callers.parse()?, nodes.parse()?, transfers.parse()?);
    let money = Money(std::array::from_fn(|_| UnsafeCell::new(FIRST)));
    let (mut nodes, mut sessions) = Opening::new(&script(callers, nodes)).keep_journal().open()?;
    compare(&mut nodes, &mut sessions, 0)?;
    let each = BETWEEN.div_ceil(callers);
    for first in (0..transfers).step_by(each) {
        let last = transfers.min(first + each);
        make_round(&mut sessions, &money, &(first..last))?;
        compare(&mut nodes, &mut sessions, last * callers * COMMANDS)?;
    }
    let sum = audit(&mut sessions[0], &money)?;
    compare(&mut nodes, &mut sessions, transfers * callers * COMMANDS + 2)?;
    let journal = nodes.finish(sessions)?;
    write(script_file, &journal.script)?;
    write(journal_file, &journal.text)?;
    println!("all together: {sum}");
    if sum != ACCOUNTS as i64 * FIRST || journal.held > 0 || journal.waiting > 0 {
        return Err("the sum is another, or something is held or waits at the end".into());
    }
    Ok(())
}
