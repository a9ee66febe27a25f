//! A plain Rust program of the rules of nested transactions, to measure `locknest` against: it proves nothing and
//! checks little. With no word it reads lines without faults from standard input and writes their answers to standard
//! output. With the name of a shape it makes 65,535 transactions of that shape, more than lines can have, and tells
//! what came of them.
mod lines;
mod nest;
mod shapes;

use std::io::{Read, Write, stdin, stdout};

fn main() -> std::io::Result<()> {
    let text = match std::env::args().nth(1) {
        Some(shape) => shapes::figures(&shape).ok_or_else(|| std::io::Error::other("no such shape"))?,
        None => {
            let mut text = String::new();
            stdin().read_to_string(&mut text)?;
            lines::answers(&text).ok_or_else(|| std::io::Error::other("a line has a fault"))?
        }
    };
    stdout().write_all(text.as_bytes())
}
