//! A server's threads that come and go: each takes a client of the pool, and locks a key that nobody declared.
use lockrun::{Error, Mode, Nodes, Opening};
use std::thread::scope;
use std::time::Duration;

fn visit(nodes: &Nodes, visitor: usize) -> Result<(), Error> {
    let mut client = nodes.client_within(Duration::from_secs(10))?;
    let key = nodes.key(format!("page {}", visitor % 3))?;
    let _lock = client.lock_within(key, Mode::Write, Duration::from_secs(10))?;
    Ok(())
}

fn main() -> Result<(), Error> {
    let script = "nodes 1\nclient one at 0\nclient two at 0\n";
    let nodes = Opening::new(script).keys(1 << 16, 1).open_pool()?;
    scope(|scope| {
        let nodes = &nodes;
        let visits: Vec<_> = (0..8)
            .map(|visitor| scope.spawn(move || visit(nodes, visitor)))
            .collect();
        visits
            .into_iter()
            .try_for_each(|visit| visit.join().expect("no visitor panics"))
    })?;
    println!("8 visitors came and went");
    Ok(())
}
