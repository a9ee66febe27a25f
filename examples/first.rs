use lockrun::{open, Error, Mode};
use std::time::Duration;

fn main() -> Result<(), Error> {
    let (_nodes, mut sessions) = open("nodes 1\nset counter\nclient ann at 0\nclient ben at 0\n", 1 << 40)?;
    let (mut ben, mut ann) = (sessions.remove(1), sessions.remove(0));
    let (lock, patience) = (ann.lock(0, Mode::Write)?, Duration::from_millis(100));
    if ben.lock_within(0, Mode::Write, patience).err() == Some(Error::Withdrawn) {
        println!("ben gave up after 100 ms");
    }
    drop(lock);
    let _lock = ben.lock_within(0, Mode::Write, patience)?;
    println!("ben has the lock");
    Ok(())
}
