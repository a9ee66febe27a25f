//! A plain Rust program of the same rules, to measure the proved one against: it proves nothing and checks little. It
//! takes scripts without faults of both versions from standard input. With the word `run` it runs them on threads, as
//! the proved one does, and writes the journal; with the words `run counts` it writes to standard error what the
//! workers came to. With the word `live` callers submit the commands and poll for replies, over channels of std, and
//! with `live counts` it writes to standard error how many replies there were. With the word `check` it reads a script and a journal, and writes how many moves the journal has,
//! or it fails with the first line that is wrong. With any other word, or none, it writes the journal of the first run.
mod check;
mod closing;
mod core;
mod crew;
mod desk;
mod letter;
mod live;
mod mail;
mod modes;
mod node;
mod out;
mod outlook;
mod script;
mod text;
mod world;

use std::io::{self, Read, Write, stdin, stdout};

fn main() -> io::Result<()> {
    let mut text = Vec::new();
    stdin().lock().read_to_end(&mut text)?;
    let words: Vec<String> = std::env::args().skip(1).collect();
    let fault = || String::from("the script has a fault");
    let answer = match words.first().map(String::as_str) {
        Some("check") => check::check(&text),
        Some("run") => crew::run(&text, words.len() > 1).ok_or_else(fault),
        Some("live") => live::run(&text, words.len() > 1).ok_or_else(fault),
        _ => first_run(&text).ok_or_else(fault),
    };
    stdout().write_all(&answer.map_err(io::Error::other)?)
}

/// A text for all lines of a run of the script, which begins with its version.
fn begin(script: &script::Script<'_>) -> (usize, &'static [u8]) {
    let commands: usize = script.clients.iter().map(|client| client.commands.len()).sum();
    let first: &[u8] = if script.version == 2 { b"version 2\n" } else { b"" };
    (96 * commands, first)
}

// The journal of the first run; none if the script has a fault.
fn first_run(text: &[u8]) -> Option<Vec<u8>> {
    let script = script::read(text)?;
    let words = out::Words::new(&script);
    let (room, first) = begin(&script);
    let mut world = world::World::new(&script, &words, room);
    world.out.text.add(first);
    while let Some((node, step)) = world.pick() {
        world.step(node, step);
    }
    world.close();
    Some(world.out.text.into_bytes())
}
