//! Whether a journal is one of its script.
use crate::out::Words;
use crate::script::{self, Names};
use crate::world::{Step, World};

const BETWEEN: &[u8] = b"\njournal\n";

/// How many moves the journal has, as a line; or the first line that is wrong.
pub fn check(text: &[u8]) -> Result<Vec<u8>, String> {
    let end = place_of_journal(text).ok_or("no journal")?;
    let (script, journal) = (&text[..end + 1], &text[end + BETWEEN.len()..]);
    let script = script::read(script).ok_or("the script has a fault")?;
    let words = Words::new(&script);
    let mut world = World::new(&script, &words, 4096);
    let fault = |rest: &[u8]| {
        let before = &text[..text.len() - rest.len()];
        format!("line {}", 1 + before.iter().filter(|byte| **byte == b'\n').count())
    };
    let mut rest = journal;
    if script.version == 2 {
        rest = after(rest, b"version 2\n").map_err(fault)?;
    }
    while rest.starts_with(b"move ") {
        let (node, step) = step_of(&script.names, rest).ok_or_else(|| fault(rest))?;
        if !world.is_enabled(node, step) {
            return Err(fault(rest));
        }
        world.out.text.clear();
        world.step(node, step);
        rest = after(rest, world.out.text.bytes()).map_err(fault)?;
    }
    world.out.text.clear();
    let moves = world.close();
    rest = after(rest, world.out.text.bytes()).map_err(fault)?;
    if rest.is_empty() { Ok(format!("ok {moves}\n").into_bytes()) } else { Err(fault(rest)) }
}

// Where the line before the journal's begins; that is looked for line by line.
fn place_of_journal(text: &[u8]) -> Option<usize> {
    let mut start = 0;
    loop {
        let end = start + text[start..].iter().position(|byte| *byte == b'\n')?;
        if text[end..].starts_with(BETWEEN) {
            return Some(end);
        }
        start = end + 1;
    }
}

// What follows the expected lines; or where the first other line begins.
fn after<'a>(rest: &'a [u8], expected: &[u8]) -> Result<&'a [u8], &'a [u8]> {
    if let Some(rest) = rest.strip_prefix(expected) {
        return Ok(rest);
    }
    let same = rest.iter().zip(expected).take_while(|(a, b)| a == b).count();
    let line = rest[..same].iter().rposition(|byte| *byte == b'\n').map_or(0, |k| k + 1);
    Err(&rest[line..])
}

// The node and the step of the line that begins here with `move `. Its other words needn't be right: it is compared.
fn step_of(names: &Names<'_>, rest: &[u8]) -> Option<(u8, Step)> {
    let mut at = 5;
    while *rest.get(at)? != b' ' {
        at += 1;
    }
    at += 1;
    let node = number(rest, &mut at, b' ')?;
    let step = match rest.get(at..at + 5)? {
        b"take " => Step::Take(number(rest, &mut (at + 5), b'\n')?),
        [b'a', b'c', b't', b' ', _] => {
            let name = &rest[at + 4..];
            Step::Act(names.client(&name[..name.iter().position(|byte| *byte == b'\n')?])?)
        }
        _ => return None,
    };
    Some((node, step))
}

// The number below 64 at this place, which ends with this byte.
fn number(rest: &[u8], at: &mut usize, end: u8) -> Option<u8> {
    let mut number = 0;
    while *rest.get(*at)? != end {
        number = 10 * number + rest[*at].wrapping_sub(b'0');
        if number > 63 {
            return None;
        }
        *at += 1;
    }
    *at += 1;
    Some(number)
}
