//! What sessions were served so far: before anything, while a client waits, and at the end; and of other sessions than all
//! nothing is told. Nodes that forget in the middle go on, and have no journal; so do those of 65,536 sets.
use lockrun::{open, open_sets, BadSet, Error, Mode, NewSet, Opening, Served, WhySet};
use std::time::Duration;

fn forgetful(script: &str) -> Result<(), Error> {
    let (mut nodes, mut sessions) = Opening::new(script).keep_journal().open()?;
    std::mem::forget(sessions[0].lock(0, Mode::Read)?);
    assert_eq!(sessions[1].ask(0, Mode::Write, Duration::ZERO).err(), Some(Error::StillWaits));
    nodes.forget()?;
    assert_eq!(nodes.served(&mut sessions)?, Served { submitted: 2, polled: 1 });
    assert_eq!(sessions[0].drop_locks(0, 0)?, 1);
    drop(sessions[1].wait(Duration::from_secs(60))?);
    nodes.forget()?;
    assert_eq!(nodes.served(&mut sessions)?, Served { submitted: 4, polled: 4 });
    assert_eq!(nodes.finish(sessions).err(), Some(Error::Forgotten));
    Ok(())
}

fn many_sets() -> Result<(), Error> {
    let script = "nodes 1\nset a\nclient ann at 0\n";
    let names: Vec<String> = (1..65_536).map(|k| format!("s{k}")).collect();
    let mut sets: Vec<NewSet> = names.iter().map(|name| NewSet { name, parent: None }).collect();
    sets[1].parent = Some("s1");
    let (nodes, mut sessions) = Opening::new(script).sets(&sets).keep_journal().open()?;
    assert_eq!(sessions[0].set("b"), None);
    assert_eq!(sessions[0].set("s65535"), Some(65_535));
    std::mem::forget(sessions[0].lock(2, Mode::Write)?);
    drop(sessions[0].lock(65_535, Mode::Write)?);
    assert_eq!(sessions[0].drop_locks(1, 0)?, 1);
    assert_eq!(nodes.finish(sessions).err(), Some(Error::TooMany));
    sets.push(NewSet { name: "b", parent: None });
    assert_eq!(open_sets(script, &sets, 1 << 20).err(), Some(Error::TooMany));
    let again = Error::BadSet(BadSet { place: 0, why: WhySet::NameAgain });
    assert_eq!(open_sets(script, &[NewSet { name: "a", parent: None }], 1 << 20).err(), Some(again));
    Ok(())
}

fn main() -> Result<(), Error> {
    let script = "nodes 2\nset a\nclient ann at 0\nclient ben at 1\n";
    let (mut nodes, mut sessions) = Opening::new(script).keep_journal().open()?;
    let (_, mut others) = open(script, 1 << 20)?;
    assert_eq!(nodes.served(&mut sessions)?, Served { submitted: 0, polled: 0 });
    assert_eq!(nodes.served(&mut sessions[..1]), Err(Error::OtherSessions));
    assert_eq!(nodes.served(&mut others), Err(Error::OtherSessions));
    let [ann, ben] = sessions.as_mut_slice() else { unreachable!("two clients") };
    std::mem::forget(ann.lock(0, Mode::Read)?);
    assert_eq!(ben.ask(0, Mode::Write, Duration::ZERO).err(), Some(Error::StillWaits));
    sessions.reverse();
    assert_eq!(nodes.served(&mut sessions)?, Served { submitted: 2, polled: 1 });
    assert_eq!(sessions[1].drop_locks(0, 0)?, 1);
    drop(sessions[0].wait(Duration::from_secs(60))?);
    assert_eq!(nodes.served(&mut sessions)?, Served { submitted: 4, polled: 4 });
    nodes.finish(sessions)?;
    let (nodes, sessions) = open(script, 1 << 20)?;
    assert_eq!(nodes.finish(sessions).err(), Some(Error::Forgotten));
    forgetful(script)?;
    many_sets()?;
    println!("served: it is as it should be");
    Ok(())
}
