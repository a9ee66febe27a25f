//! Each call that tells what a turn did, or reads what a key or a script stands for, behind one function.
use crate::error::{check, Error};
use crate::exports::{self, Clients, Handle};
use crate::waiting::Asked;

/// What turns of a node did: the nodes that they sent letters to, and the clients to whom they gave a reply.
#[derive(Clone, Copy, Default)]
pub(crate) struct Heard {
    pub sent: u64,
    pub told: Clients,
}

impl Heard {
    /// Whether nobody was told anything.
    pub fn is_nothing(&self) -> bool {
        self.sent == 0 && self.told.bits.iter().all(|&bits| bits == 0)
    }

    fn add(&mut self, sent: u64, told: &Clients) {
        self.sent |= sent;
        self.told.bits.iter_mut().zip(&told.bits).for_each(|(all, some)| *all |= some);
    }
}

/// The places of the bits that are set, from the least one.
pub(crate) fn bits_of(mut bits: u64) -> impl Iterator<Item = usize> {
    std::iter::from_fn(move || {
        let place = bits.trailing_zeros() as usize;
        bits &= bits.wrapping_sub(1);
        (place < 64).then_some(place)
    })
}

/// A turn of a station.
pub(crate) fn turn(station: &mut Handle, heard: &mut Heard) -> u32 {
    let (mut sent, mut told) = (0, Clients::default());
    // SAFETY: the handle stands for something, and `&mut` gives it to one call at a time.
    let code = unsafe { exports::lockrun_turn_telling(station, &mut sent, &mut told) };
    heard.add(sent, &told);
    code
}

/// Submits a command, turns the station while it makes moves and no reply is known, and polls: the reply and its count, or what
/// else the call answers. Nothing was heard before.
pub(crate) fn submit_and_turn(
    station: &mut Handle,
    session: &mut Handle,
    asked: Asked,
    heard: &mut Heard,
) -> (u32, u64) {
    let mut count = 0;
    let Asked { kind, set, first, second } = asked;
    let (sent, told) = (&mut heard.sent, &mut heard.told);
    // SAFETY: two handles, each of which stands for something, and `&mut` gives them to one call at a time.
    let code = unsafe { exports::lockrun_do(station, session, kind, set, first, second, &mut count, sent, told) };
    (code, count)
}

/// The line and the number of the first fault of a script, if it has one.
pub(crate) fn fault(script: &str) -> Option<(u64, u32)> {
    let (mut line, mut number) = (0, 0);
    // SAFETY: the text is borrowed for the call.
    let code = unsafe { exports::lockrun_fault(script.as_ptr(), script.len(), &mut line, &mut number) };
    (code == exports::BAD_SCRIPT).then_some((line, number))
}

/// The set of a key, among families that begin at the set `first`; a parent of no bytes is none.
pub(crate) fn key(first: u32, families: u32, members: u32, parent: &[u8], key: &[u8]) -> Result<u32, Error> {
    let mut set = 0;
    let (above, above_length, bytes, length) = (parent.as_ptr(), parent.len(), key.as_ptr(), key.len());
    // SAFETY: the bytes are borrowed for the call, which has no handle.
    check(unsafe { exports::lockrun_key(first, families, members, above, above_length, bytes, length, &mut set) })?;
    Ok(set)
}

/// The first set from this one on in which a client of the station's node holds locks, and how many of each mode.
pub(crate) fn held(station: &mut Handle, client: u32, from: u32) -> Option<(u32, [u64; 6])> {
    let mut set = 0;
    // SAFETY: the handle stands for something, and `&mut` gives it to one call at a time.
    let code = unsafe { exports::lockrun_held(station, client, from, &mut set) };
    // SAFETY: as above.
    let counts = [0, 1, 2, 3, 4, 5].map(|mode| unsafe { exports::lockrun_locks(station, client, set, mode) });
    (code == exports::OK).then_some((set, counts))
}

/// How many locks of a mode a client of the station's node holds in a set.
pub(crate) fn locks(station: &mut Handle, client: u32, set: u32, mode: u32) -> u64 {
    // SAFETY: as above.
    unsafe { exports::lockrun_locks(station, client, set, mode) }
}

/// Whether in the queue of a set at the station's node an ask of the client stands behind one of the other one.
pub(crate) fn behind(station: &mut Handle, set: u32, client: u32, other: u32) -> bool {
    // SAFETY: as above.
    unsafe { exports::lockrun_behind(station, set, client, other) == exports::OK }
}

/// The set and the mode that a client of the station's node waits for.
pub(crate) fn asked(station: &mut Handle, client: u32) -> Option<(u32, u32)> {
    let (mut set, mut mode) = (0, 0);
    // SAFETY: as above.
    let code = unsafe { exports::lockrun_asked(station, client, &mut set, &mut mode) };
    (code == exports::OK).then_some((set, mode))
}
