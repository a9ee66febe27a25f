//! Lines of nested transactions, and what is written of them.

use crate::nest::{Asked, Ended, Mode, Nest};
use std::collections::HashMap;
use std::fmt::Write;

const MODES: [&str; 6] = ["intention_read", "read", "upgrade", "intention_write", "read_intention_write", "write"];

struct Play<'a> {
    nest: Nest,
    sets: Vec<&'a str>,
    // The name of each transaction, and its number in the nest if it was begun.
    names: Vec<&'a str>,
    numbers: Vec<Option<u16>>,
    // The place of each name among the sets or the transactions.
    places: HashMap<&'a str, usize>,
    // The name of each transaction of the nest.
    begun: Vec<&'a str>,
}

pub fn answers(text: &str) -> Option<String> {
    let lines: Vec<Vec<&str>> = text
        .lines()
        .map(|line| line.split([' ', '\t']).filter(|word| !word.is_empty()).collect::<Vec<_>>())
        .filter(|words| words.first().is_some_and(|word| !word.starts_with('#')))
        .collect();
    let sets = lines.iter().filter(|words| words[0] == "set").count();
    let mut play = Play {
        nest: Nest::new(sets),
        sets: Vec::new(),
        names: Vec::new(),
        numbers: Vec::new(),
        places: HashMap::new(),
        begun: Vec::new(),
    };
    let mut out = String::new();
    for words in &lines {
        play.line(words, &mut out)?;
    }
    play.close(&mut out);
    writeln!(out, "end {}", lines.len()).ok()?;
    Some(out)
}

impl<'a> Play<'a> {
    fn line(&mut self, words: &[&'a str], out: &mut String) -> Option<()> {
        match *words {
            ["set", name] => {
                self.places.insert(name, self.sets.len());
                self.sets.push(name);
                return Some(());
            }
            [t, "begin"] => self.begin(t, None, out),
            [t, "begin", "in", p] => self.begin(t, Some(p), out),
            [t, verb @ ("lock" | "try"), s, m] => self.ask(t, verb, s, m, out)?,
            [t, verb @ ("commit" | "abort")] => self.end(t, verb, out)?,
            _ => return None,
        }
        while let Some((x, set, mode)) = self.nest.grants.pop_front() {
            writeln!(out, "grant {} {} {}", self.begun[x as usize], self.sets[set], MODES[mode]).ok()?;
        }
        Some(())
    }

    fn begin(&mut self, name: &'a str, parent: Option<&'a str>, out: &mut String) {
        let number = match parent {
            None => self.nest.begin(None),
            Some(p) => self.numbers[self.places[p]].and_then(|x| self.nest.begin(Some(x))),
        };
        self.places.insert(name, self.names.len());
        self.names.push(name);
        self.numbers.push(number);
        match number {
            Some(_) => self.begun.push(name),
            None => return out.push_str(&format!("not_open {}\n", parent.unwrap_or_default())),
        }
        out.push_str(&format!("begin {name}\n"));
    }

    fn number(&self, name: &str) -> Option<u16> {
        Some(self.numbers[*self.places.get(name)?].unwrap_or(u16::MAX))
    }

    fn ask(&mut self, t: &str, verb: &str, s: &str, m: &str, out: &mut String) -> Option<()> {
        let mode: Mode = MODES.iter().position(|word| *word == m)?;
        let (x, set) = (self.number(t)?, *self.places.get(s)?);
        match self.nest.ask(x, set, mode, verb == "lock") {
            Asked::NotOpen => writeln!(out, "not_open {t}"),
            Asked::Busy => writeln!(out, "busy {t}"),
            Asked::Granted if verb == "lock" => writeln!(out, "grant {t} {s} {m}"),
            Asked::Waits => writeln!(out, "wait {t} {s} {m}"),
            answer => writeln!(out, "try {t} {s} {m} {}", answer == Asked::Granted),
        }
        .ok()
    }

    fn end(&mut self, t: &str, verb: &str, out: &mut String) -> Option<()> {
        let x = self.number(t)?;
        let answer = if verb == "commit" { self.nest.commit(x) } else { self.nest.abort(x) };
        match answer {
            Ended::Done => writeln!(out, "{verb} {t}"),
            Ended::NotOpen => writeln!(out, "not_open {t}"),
            Ended::Busy => writeln!(out, "busy {t}"),
            Ended::HasChildren => writeln!(out, "children {t}"),
        }
        .ok()
    }

    fn close(&self, out: &mut String) {
        for (name, number) in self.names.iter().zip(&self.numbers) {
            for (set, word) in self.sets.iter().enumerate() {
                for (mode, of) in MODES.iter().enumerate() {
                    match number.map_or(0, |x| self.nest.held(x, set, mode)) {
                        0 => {}
                        count => out.push_str(&format!("held {name} {word} {of} {count}\n")),
                    }
                }
            }
        }
        for (name, number) in self.names.iter().zip(&self.numbers) {
            if let Some((set, mode)) = number.and_then(|x| self.nest.waiting(x)) {
                out.push_str(&format!("waiting {name} {} {}\n", self.sets[set], MODES[mode]));
            }
        }
    }
}
