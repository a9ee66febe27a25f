use crate::exports;
use crate::fault::{BadSet, Fault};
use std::fmt;

/// Why a call didn't do what was asked.
///
/// ```
/// let error = lockrun::open("nodes 1\nset a\nset 9s\n", 1 << 20).err().unwrap();
/// println!("{error}");
/// ```
#[derive(Clone, Copy, Debug, PartialEq, Eq)]
pub enum Error {
    NoMemory,
    /// A number out of range, or a command that names what the script doesn't have.
    BadArgument,
    /// The script has this fault.
    BadScript(Fault),
    /// The session's share of commands is used up.
    Spent,
    /// A node made as many moves as it may.
    LogFull,
    /// A node has forgotten moves or commands.
    Forgotten,
    /// More than 4,096 commands or 8 sets: no text of a script has as many; or more than 65,536 sets.
    TooMany,
    /// This one of the further sets has no new name, or its parent is no set before it.
    BadSet(BadSet),
    /// The client didn't hold the mode that it gives up.
    NotHeld,
    /// The client whose locks should be dropped waits.
    Busy,
    /// The wait was given up, since its time is over or another client gave it up. The session asks for nothing, and holds what it
    /// held.
    Withdrawn,
    /// The wait was in a ring of waits, and the session, which asked last of them, gave up by the policy
    /// ([`victims`](crate::Opening::victims)). It asks for nothing, and holds what it held.
    Victim,
    /// What the session gave up before in this set still stands at another node: `Session::ask` again later.
    Withheld,
    /// The time is over, and the lock is still asked for: `Session::wait` goes on waiting, and `Session::give_up` gives it up.
    StillWaits,
    /// Nothing is asked for.
    NothingAsked,
    /// All clients of the pool are out, and none was given back in this time.
    NoClient,
    /// All sets for names, or all of the parent's family, are in use.
    NamesFull,
    /// These are not all sessions that were opened with the nodes.
    OtherSessions,
    /// A frame is of another version of the format.
    OtherVersion,
    /// A frame is of another service: of another script, or of another start.
    OtherService,
    /// A frame is of another node, or for another one.
    OtherNode,
    /// Frames before this one are missing.
    Missing,
    /// A frame was received before.
    Again,
    /// A letter has more bytes than one may have.
    TooLong,
    /// A frame was damaged, or made by one who doesn't have the key.
    BadSeal,
    /// A frame has no letter.
    NoLetter,
    /// A letter fits no node that was opened with this script.
    Misfit,
    /// The transport is broken.
    NoCarrier,
}

impl Error {
    pub(crate) fn of(code: u32) -> Error {
        match code {
            exports::NO_MEMORY => Error::NoMemory,
            exports::BAD_SCRIPT => Error::BadScript(Fault::NONE),
            exports::SPENT => Error::Spent,
            exports::LOG_FULL => Error::LogFull,
            exports::FORGOTTEN => Error::Forgotten,
            exports::TOO_MANY => Error::TooMany,
            exports::BAD_SET => Error::BadSet(BadSet::NONE),
            exports::NOT_HELD => Error::NotHeld,
            exports::BUSY => Error::Busy,
            exports::WITHDRAWN => Error::Withdrawn,
            exports::WITHHELD => Error::Withheld,
            exports::OTHER_VERSION => Error::OtherVersion,
            exports::OTHER_SERVICE => Error::OtherService,
            exports::OTHER_NODE => Error::OtherNode,
            exports::MISSING => Error::Missing,
            exports::AGAIN => Error::Again,
            exports::TOO_LONG => Error::TooLong,
            exports::BAD_SEAL => Error::BadSeal,
            exports::NO_LETTER => Error::NoLetter,
            exports::MISFIT => Error::Misfit,
            _ => Error::BadArgument,
        }
    }
}

impl fmt::Display for Error {
    fn fmt(&self, out: &mut fmt::Formatter<'_>) -> fmt::Result {
        out.write_str(match self {
            Error::BadScript(fault) => return fault.fmt(out),
            Error::BadSet(set) => return set.fmt(out),
            Error::NoMemory => "out of memory",
            Error::BadArgument => "a number out of range, or the script has no such set, mode or client",
            Error::Spent => "the session's share of commands is used up",
            Error::LogFull => "a node made as many moves as it may",
            Error::Forgotten => "a node has forgotten moves or commands",
            Error::TooMany => "more than 65,536 sets; or more than 8 sets or 4,096 commands, and so no journal",
            Error::NotHeld => "the client doesn't hold this mode",
            Error::Busy => "the client whose locks should be dropped waits",
            Error::Withdrawn => "the wait was given up",
            Error::Victim => "the wait was in a ring of waits, and was given up as the youngest",
            Error::Withheld => "what the client gave up in this set still stands",
            Error::StillWaits => "the client still waits",
            Error::NothingAsked => "the client asked for nothing",
            Error::NoClient => "no client of the pool is free",
            Error::NamesFull => "all sets for names are in use",
            Error::OtherSessions => "these are not all sessions of the nodes",
            Error::OtherVersion => "a frame is of another version of the format",
            Error::OtherService => "a frame is of another service: of another script, or of another start",
            Error::OtherNode => "a frame is of another node, or for another one",
            Error::Missing => "frames before this one are missing",
            Error::Again => "a frame was received before",
            Error::TooLong => "a letter has more bytes than one may have",
            Error::BadSeal => "a frame was damaged, or made by one who doesn't have the key",
            Error::NoLetter => "a frame has no letter",
            Error::Misfit => "a letter fits no node that was opened with this script",
            Error::NoCarrier => "the transport is broken",
        })
    }
}

impl std::error::Error for Error {}

pub(crate) fn check(code: u32) -> Result<(), Error> {
    if code == exports::OK {
        Ok(())
    } else {
        Err(Error::of(code))
    }
}
