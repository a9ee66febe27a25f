//! Scripts, and how they are read.
use crate::modes::{self, Mode};

pub const MODES: [&[u8]; modes::COUNT] =
    [b"intention_read", b"read", b"upgrade", b"intention_write", b"read_intention_write", b"write"];

const MAX_LINE: usize = 200;
const MAX_WORDS: usize = 6;

#[derive(Clone, Copy)]
pub enum Command {
    Lock(u8, Mode),
    Try(u8, Mode),
    Unlock(u8, Mode),
    Change(u8, Mode, Mode),
    Drop(u16, u8),
}

pub struct Set<'a> {
    pub name: &'a [u8],
    /// The first set of its family.
    pub family: u8,
}

pub struct Client<'a> {
    pub name: &'a [u8],
    pub node: u8,
    /// Its place among the clients of its node.
    pub slot: u8,
    pub commands: Vec<Command>,
}

#[derive(Default)]
pub struct Script<'a> {
    pub version: u8,
    pub nodes: u8,
    pub sets: Vec<Set<'a>>,
    pub clients: Vec<Client<'a>>,
    /// The clients of each node.
    pub of_node: Vec<Vec<u16>>,
    pub names: Names<'a>,
}

/// Numbers of names, in a table by a hash: of a client as it is, of a set with 256 more.
#[derive(Default)]
pub struct Names<'a> {
    places: Vec<(&'a [u8], u16)>,
}

const PLACES: usize = 1024;
const SET: u16 = 256;
const FREE: u16 = u16::MAX;

// The function of Fowler, Noll and Vo, with a last step.
fn hash(name: &[u8]) -> usize {
    let hash = name.iter().fold(0x811c_9dc5_u32, |hash, byte| (hash ^ u32::from(*byte)).wrapping_mul(0x0100_0193));
    (hash ^ hash >> 15) as usize % PLACES
}

impl<'a> Names<'a> {
    fn add(&mut self, name: &'a [u8], number: u16) -> Option<()> {
        if self.places.is_empty() {
            self.places = vec![(&[], FREE); PLACES];
        }
        let mut place = hash(name);
        while self.places[place].1 != FREE {
            if self.places[place].0 == name {
                return None;
            }
            place = (place + 1) % PLACES;
        }
        self.places[place] = (name, number);
        Some(())
    }

    fn number(&self, name: &[u8]) -> Option<u16> {
        if self.places.is_empty() {
            return None;
        }
        let mut place = hash(name);
        loop {
            let (other, number) = self.places[place];
            if number == FREE {
                return None;
            }
            if other == name {
                return Some(number);
            }
            place = (place + 1) % PLACES;
        }
    }

    /// The client of this name.
    pub fn client(&self, name: &[u8]) -> Option<u16> {
        self.number(name).filter(|number| *number < SET)
    }

    fn set(&self, name: &[u8]) -> Option<u8> {
        self.number(name)?.checked_sub(SET).map(|number| number as u8)
    }
}

/// Reads a script; `None` if a line has a fault. Limits aren't looked at.
pub fn read(text: &[u8]) -> Option<Script<'_>> {
    let mut script = Script { version: 1, ..Script::default() };
    let mut rest = text;
    while !rest.is_empty() {
        let mut words = [&rest[..0]; MAX_WORDS];
        let found = split(&mut rest, &mut words)?;
        if found > 0 {
            read_line(&mut script, &words[..found])?;
        }
    }
    Some(script)
}

// The words of the first line, and how many there are; none of a comment. The line goes.
fn split<'a>(rest: &mut &'a [u8], words: &mut [&'a [u8]; MAX_WORDS]) -> Option<usize> {
    let text = *rest;
    let (mut found, mut k) = (0, 0);
    loop {
        while k < text.len() && matches!(text[k], b' ' | b'\t') {
            k += 1;
        }
        let first = k;
        while k < text.len() && matches!(text[k], b'!'..=b'~') {
            k += 1;
        }
        if k > first {
            if found == 0 && text[first] == b'#' {
                k += text[k..].iter().position(|byte| *byte == b'\n').unwrap_or(text.len() - k);
            } else {
                *words.get_mut(found)? = &text[first..k];
                found += 1;
            }
        }
        if k == text.len() || text[k] == b'\n' {
            *rest = &text[(k + 1).min(text.len())..];
            return (found == 0 || k <= MAX_LINE).then_some(found);
        }
        if !matches!(text[k], b' ' | b'\t') {
            return None;
        }
    }
}

fn read_line<'a>(script: &mut Script<'a>, words: &[&'a [u8]]) -> Option<()> {
    match *words {
        [b"version", b"2"] => script.version = 2,
        [b"nodes", nodes] => {
            script.nodes = number(nodes)?;
            script.of_node = vec![Vec::new(); usize::from(script.nodes)];
        }
        [b"set", name] => add_set(script, name, script.sets.len() as u8)?,
        [b"set", name, b"with", other] => {
            let family = script.sets[usize::from(script.names.set(other)?)].family;
            add_set(script, name, family)?;
        }
        [b"client", name, b"at", node] => {
            let client = script.clients.len() as u16;
            let node: u8 = number(node)?;
            script.names.add(name, client)?;
            let others = script.of_node.get_mut(usize::from(node))?;
            script.clients.push(Client { name, node, slot: others.len() as u8, commands: Vec::new() });
            others.push(client);
        }
        [client, verb, ref rest @ ..] => {
            let client = script.names.client(client)?;
            let command = command_of(&script.names, verb, rest)?;
            script.clients[usize::from(client)].commands.push(command);
        }
        _ => return None,
    }
    Some(())
}

fn number(word: &[u8]) -> Option<u8> {
    str::from_utf8(word).ok()?.parse().ok()
}

fn add_set<'a>(script: &mut Script<'a>, name: &'a [u8], family: u8) -> Option<()> {
    script.names.add(name, script.sets.len() as u16 + SET)?;
    script.sets.push(Set { name, family });
    Some(())
}

fn command_of(names: &Names<'_>, verb: &[u8], rest: &[&[u8]]) -> Option<Command> {
    Some(match (verb, rest) {
        (b"lock", [set, mode]) => Command::Lock(names.set(set)?, mode_of(mode)?),
        (b"try", [set, mode]) => Command::Try(names.set(set)?, mode_of(mode)?),
        (b"unlock", [set, mode]) => Command::Unlock(names.set(set)?, mode_of(mode)?),
        (b"change", [set, from, to]) => Command::Change(names.set(set)?, mode_of(from)?, mode_of(to)?),
        (b"drop", [client, set]) => Command::Drop(names.client(client)?, names.set(set)?),
        _ => return None,
    })
}

// No two modes have names of the same length.
fn mode_of(word: &[u8]) -> Option<Mode> {
    let mode = match word.len() {
        14 => 0,
        4 => 1,
        7 => 2,
        15 => 3,
        20 => 4,
        5 => 5,
        _ => return None,
    };
    (MODES[usize::from(mode)] == word).then_some(mode)
}
