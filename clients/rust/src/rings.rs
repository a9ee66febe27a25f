//! Clients that wait for one another in a ring, by what their nodes have.
//!
//! On several nodes an ask that was given up may stand for a while, and others behind it, and it isn't told for which mode. An ask may
//! also lie at a node on its way to the queue, behind an older one. Whose ask has no other reason to wait counts as one who waits for
//! each client that has a lock in the set, also for itself, or asks for one there; and so does who asks again and again for what is
//! withheld from it, since what it gave up before in the set still stands, though no node knows of that wait. So a ring of these may be
//! none: then somebody gives up who needn't. In a service with many nodes and clients such asks are not looked for.
use crate::calls;
use crate::seat::Seat;
use crate::session::Mode;
use crate::station::Claim;

/// In a service in which clients times clients times nodes are more, hidden reasons are not looked for.
const MOST_PAIRS: usize = 1 << 20;

/// The modes that conflict with each mode, a bit for each.
const CONFLICTS: [u8; 6] = [0x20, 0x38, 0x3C, 0x36, 0x3E, 0x3F];

/// What a client asks for.
#[derive(Clone, Copy)]
struct Ask {
    set: u32,
    mode: u32,
    // Whether its node knows that it asks; and whether it waits for a reason that isn't seen.
    is_known: bool,
    is_hidden: bool,
}

/// All nodes, which this thread has and which rest, and what their clients ask for, as far as it counts.
pub(crate) struct Rings<'r, 's> {
    claims: &'r mut [Claim<'s>],
    seats: &'r [Seat],
    asks: Vec<Option<Ask>>,
}

impl<'r, 's> Rings<'r, 's> {
    pub fn new(claims: &'r mut [Claim<'s>], seats: &'r [Seat]) -> Rings<'r, 's> {
        let asks = seats.iter().map(|seat| ask_of(claims, seat)).collect();
        let mut rings = Rings { claims, seats, asks };
        let hidden: Vec<usize> = (0..seats.len()).filter(|&client| rings.is_hidden(client)).collect();
        for client in hidden {
            let hide = |ask| Ask { is_hidden: true, mode: Mode::Write as u32, ..ask };
            rings.asks[client] = rings.asks[client].map(hide);
        }
        rings
    }

    /// The clients of a ring: each waits for the next one, and the last one for the first.
    pub fn find(&mut self) -> Option<Vec<usize>> {
        let mut looked = vec![0; self.asks.len()];
        (0..self.asks.len()).find_map(|start| self.walk(start, &mut looked))
    }

    // Goes from client to client for which it waits, until it comes to one a second time. Of each client it is noted how many others
    // were looked at; who is left again doesn't count any more.
    fn walk(&mut self, start: usize, looked: &mut [usize]) -> Option<Vec<usize>> {
        let mut walk: Vec<usize> = self.asks[start].iter().map(|_| start).collect();
        while let Some(&last) = walk.last() {
            match (looked[last]..self.asks.len()).find(|&other| self.waits_for(last, other)) {
                Some(other) => {
                    looked[last] = other + 1;
                    if let Some(first) = walk.iter().position(|&client| client == other) {
                        return Some(walk.split_off(first));
                    }
                    walk.push(other);
                }
                None => {
                    self.asks[last] = None;
                    walk.pop();
                }
            }
        }
        None
    }

    fn waits_for(&mut self, client: usize, other: usize) -> bool {
        let (ask, others) = match (self.asks[client], self.asks[other]) {
            (Some(ask), Some(others)) if client != other || ask.is_hidden || !ask.is_known => (ask, others),
            _ => return false,
        };
        let is_beside = client != other && others.is_known && others.set == ask.set;
        self.holds_against(other, ask) || is_beside && (ask.is_hidden || self.stands_behind(ask.set, client, other))
    }

    // Whether a client has a lock that is in the way of this ask.
    fn holds_against(&mut self, client: usize, ask: Ask) -> bool {
        let seat = &self.seats[client];
        let station = &mut self.claims[seat.home()].handle;
        (0..6).any(|mode| {
            CONFLICTS[ask.mode as usize] >> mode & 1 == 1 && calls::locks(station, seat.client, ask.set, mode) > 0
        })
    }

    // Whether in the queue of a set an ask of the client stands behind one of the other one.
    fn stands_behind(&mut self, set: u32, client: usize, other: usize) -> bool {
        self.claims.iter_mut().any(|claim| calls::behind(&mut claim.handle, set, client as u32, other as u32))
    }

    fn is_hidden(&mut self, client: usize) -> bool {
        let (nodes, clients) = (self.claims.len(), self.seats.len());
        let ask = match self.asks[client] {
            Some(ask) if ask.is_known && nodes > 1 && clients * clients * nodes <= MOST_PAIRS => ask,
            _ => return false,
        };
        let mut is_seen = false;
        for other in (0..clients).filter(|&other| other != client) {
            let asks_too = self.asks[other].map_or(false, |others| others.is_known && others.set == ask.set);
            let is_behind = self.stands_behind(ask.set, client, other);
            if is_behind && !asks_too {
                return true;
            }
            is_seen |= is_behind || self.holds_against(other, ask);
        }
        !is_seen
    }
}

fn ask_of(claims: &mut [Claim<'_>], seat: &Seat) -> Option<Ask> {
    match calls::asked(&mut claims[seat.home()].handle, seat.client) {
        Some((set, mode)) => Some(Ask { set, mode, is_known: true, is_hidden: false }),
        // A mode that conflicts with all.
        None => seat.withheld().map(|set| Ask { set, mode: Mode::Write as u32, is_known: false, is_hidden: false }),
    }
}
