//! Memory stays flat: so many pairs of a lock and an unlock, by a caller alone and by one whose locks go to and fro.
//!
//! usage: memory [PAIRS]
use lockrun::{open, Error, Mode};

/// So much more at the end than after a fifth, in KiB, is as good as nothing.
const GROWTH: u64 = 1024;

fn memory() -> u64 {
    let status = std::fs::read_to_string("/proc/self/status").expect("Linux has it");
    let line = status.lines().find(|line| line.starts_with("VmRSS:")).expect("a line of it");
    line.split_whitespace().nth(1).and_then(|size| size.parse().ok()).expect("a number")
}

fn run(script: &str, pairs: u64) -> Result<(), Error> {
    let (_nodes, mut sessions) = open(script, 1 << 50)?;
    let (mut before, count) = (0, sessions.len());
    for k in 0..pairs {
        if k == pairs / 5 {
            before = memory();
        }
        let session = &mut sessions[k as usize % count];
        drop(session.lock((k % 3) as u32, Mode::Write)?);
    }
    let after = memory();
    println!("{pairs} pairs of {count} callers: {before} KiB, and at the end {after}");
    assert!(after <= before + GROWTH);
    Ok(())
}

fn main() -> Result<(), Box<dyn std::error::Error>> {
    let pairs = std::env::args().nth(1).map_or(Ok(200_000), |word| word.parse())?;
    run("nodes 1\nset a\nset b\nset c\nclient ann at 0\n", pairs)?;
    run("nodes 2\nset a\nset b\nset c\nclient ann at 0\nclient ben at 1\n", pairs / 4)?;
    Ok(())
}
