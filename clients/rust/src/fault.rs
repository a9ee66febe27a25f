//! Why a script, or a further set, is refused.
use crate::calls;
use crate::opening::NewSet;
use std::collections::HashSet;
use std::fmt;

/// What a line has with a fault of this number, from 1 on; docs/use/FORMATS.md has examples.
const WORDS: [&str; 11] = [
    "has a byte that is neither a tab nor printable ASCII",
    "is longer than 200 bytes",
    "has none of the forms of a line",
    "has a number that isn't 1 to 9 digits, no nodes, or a node that isn't there",
    "stands in the wrong place: first the version, then the nodes, each once",
    "declares a word that is no name",
    "declares a name that was declared before",
    "names a set or a client that wasn't declared before",
    "is one node, set, client or command more than its version allows",
    "has a word that is no mode of its version",
    "drops or withdraws for a client of another node",
];

/// The words with a meaning of their own, which are no names.
const NO_NAMES: [&str; 5] = ["nodes", "set", "client", "journal", "version"];
const LONGEST_NAME: usize = 32;

/// The first fault of a script.
#[derive(Clone, Copy, Debug, PartialEq, Eq)]
pub struct Fault {
    /// Its line in the script, from 1 on.
    pub line: u64,
    /// Its number: 6 for S6.
    pub number: u32,
}

impl Fault {
    pub(crate) const NONE: Fault = Fault { line: 0, number: 0 };

    /// The fault of a script that was refused, so many lines of which were put before that of the program.
    pub(crate) fn of(script: &str, before: u64) -> Fault {
        let found = calls::fault(script).map(|(line, number)| Fault { line: line.saturating_sub(before), number });
        found.unwrap_or(Fault::NONE)
    }

    /// What the line has, in words.
    ///
    /// ```
    /// let fault = lockrun::Fault { line: 2, number: 6 };
    /// assert_eq!(fault.words(), "declares a word that is no name");
    /// assert_eq!(fault.to_string(), "line 2 of the script declares a word that is no name (S6)");
    /// ```
    pub fn words(&self) -> &'static str {
        let place = (self.number as usize).checked_sub(1);
        place.and_then(|place| WORDS.get(place)).copied().unwrap_or("has a fault")
    }
}

impl fmt::Display for Fault {
    fn fmt(&self, out: &mut fmt::Formatter<'_>) -> fmt::Result {
        write!(out, "line {} of the script {} (S{})", self.line, self.words(), self.number)
    }
}

/// A further set that was refused: its place among those that were given, from 0 on, and why.
#[derive(Clone, Copy, Debug, PartialEq, Eq)]
pub struct BadSet {
    pub place: usize,
    pub why: WhySet,
}

#[derive(Clone, Copy, Debug, PartialEq, Eq)]
pub enum WhySet {
    /// Its name is none: 1 to 32 letters, digits, `_`, `-` and `.`, a letter first, and no word of scripts.
    NoName,
    /// Its name stands for a set or a client before it.
    NameAgain,
    /// Its parent is no set before it.
    NoParent,
}

impl BadSet {
    pub(crate) const NONE: BadSet = BadSet { place: 0, why: WhySet::NoName };

    /// The first of these sets that can't follow the script.
    pub(crate) fn of(script: &str, sets: &[NewSet<'_>]) -> BadSet {
        let mut names = names_of(script, "set");
        let clients = names_of(script, "client");
        for (place, set) in sets.iter().enumerate() {
            if let Some(why) = refused(set, &names, &clients) {
                return BadSet { place, why };
            }
            names.insert(set.name);
        }
        // The names of keys' sets are the library's own.
        BadSet { why: WhySet::NameAgain, ..BadSet::NONE }
    }
}

impl fmt::Display for BadSet {
    fn fmt(&self, out: &mut fmt::Formatter<'_>) -> fmt::Result {
        let why = match self.why {
            WhySet::NoName => "has a name that is none",
            WhySet::NameAgain => "has the name of a set or a client before it",
            WhySet::NoParent => "has a parent that is no set before it",
        };
        write!(out, "further set {} {why}", self.place)
    }
}

// What a script's lines of this kind declare.
fn names_of<'s>(script: &'s str, kind: &str) -> HashSet<&'s str> {
    let words = script.lines().map(str::split_whitespace);
    words.filter_map(|mut words| words.next().filter(|&first| first == kind).and_then(|_| words.next())).collect()
}

fn refused(set: &NewSet<'_>, sets: &HashSet<&str>, clients: &HashSet<&str>) -> Option<WhySet> {
    if !is_name(set.name) {
        return Some(WhySet::NoName);
    }
    if sets.contains(set.name) || clients.contains(set.name) {
        return Some(WhySet::NameAgain);
    }
    set.parent.filter(|parent| !sets.contains(parent)).map(|_| WhySet::NoParent)
}

fn is_name(word: &str) -> bool {
    let is_part = |byte: u8| byte.is_ascii_alphanumeric() || b"_-.".contains(&byte);
    word.len() <= LONGEST_NAME
        && word.as_bytes().first().map_or(false, u8::is_ascii_alphabetic)
        && word.bytes().all(is_part)
        && !NO_NAMES.contains(&word)
}
