//! A run whose commands callers submit, and whose replies they poll, over channels of std.
use crate::crew::{self, Moved};
use crate::letter::{Letter, stamp};
use crate::mail::{Mail, Rings};
use crate::node::Node;
use crate::out::{Out, Post, Reply, Words};
use crate::script::{self, Command, Script};
use crate::text::Text;
use std::sync::mpsc::{Receiver, Sender, channel};
use std::thread;

// How often a caller, and a station, does something before all come together; and on how many threads callers are,
// and stations.
const TRIES: u32 = 64;
const THREADS: usize = 8;

// A client's ends: its commands, and the replies that it polled.
struct Caller {
    commands: std::vec::IntoIter<Command>,
    submits: Sender<Command>,
    replies: Receiver<Reply>,
    polled: Vec<Reply>,
}

impl Caller {
    fn submit(&mut self) -> bool {
        self.commands.next().is_some_and(|command| self.submits.send(command).is_ok())
    }

    fn poll(&mut self) -> bool {
        let reply = self.replies.try_recv();
        self.polled.extend(reply);
        reply.is_ok()
    }

    fn call(&mut self) {
        for _ in 0..TRIES {
            self.submit();
            self.poll();
        }
    }
}

// Letters go by rings, and replies by the channels of the node's clients.
struct Ends<'a> {
    mail: Mail<'a>,
    replies: Vec<Option<Sender<Reply>>>,
}

impl Post for Ends<'_> {
    fn send(&mut self, to: u8, letter: Letter) {
        self.mail.send(to, letter);
    }

    fn reply(&mut self, client: u16, reply: Reply) {
        if let Some(sender) = &self.replies[usize::from(client)] {
            // A caller is there until all has ended.
            let _ = sender.send(reply);
        }
    }
}

struct Station<'a> {
    node: Node<'a>,
    out: Out<'a, Ends<'a>>,
    moves: Vec<Moved>,
    commands: Vec<Receiver<Command>>,
}

impl Station<'_> {
    // Takes at most one command of each client, and makes a move, where there is one.
    fn turn(&mut self) -> bool {
        for (slot, receiver) in self.commands.iter().enumerate() {
            if let Ok(command) = receiver.try_recv() {
                self.node.append(slot as u8, command);
            }
        }
        let mail = &mut self.out.post.mail;
        mail.flush();
        self.out.answered.clear();
        if let Some((from, letter)) = mail.take() {
            self.node.take(from, letter, &mut self.out);
        } else if self.node.ready != 0 {
            self.node.act(self.node.ready.trailing_zeros() as u8, &mut self.out);
        } else {
            return false;
        }
        self.moves.push(Moved { stamp: stamp(self.node.clock, self.node.me), end: self.out.text.len() });
        true
    }

    fn turns(&mut self) {
        for _ in 0..TRIES {
            self.turn();
        }
    }

    // Makes moves until there is none, and whether there was one.
    fn work(&mut self) -> bool {
        let moved = self.turn();
        while self.turn() {}
        moved
    }
}

// Callers and stations at work beside each other.
fn round(callers: &mut [Caller], stations: &mut [Station<'_>]) {
    let chunk = |count: usize| count.div_ceil(THREADS).max(1);
    thread::scope(|scope| {
        let count = callers.len();
        for part in callers.chunks_mut(chunk(count)) {
            scope.spawn(move || part.iter_mut().for_each(Caller::call));
        }
        let count = stations.len();
        for part in stations.chunks_mut(chunk(count)) {
            scope.spawn(move || part.iter_mut().for_each(Station::turns));
        }
    });
}

// The ends of all clients, in order; at the stations the ends of the commands go by nodes.
fn open<'a>(
    script: &'a Script<'a>,
    words: &'a Words,
    rings: &'a Rings,
    lists: Vec<Vec<Command>>,
) -> (Vec<Caller>, Vec<Station<'a>>) {
    let room = 96 * lists.iter().map(Vec::len).sum::<usize>() / usize::from(script.nodes);
    let mut stations: Vec<Station> = (0..script.nodes)
        .map(|me| {
            let replies = script.clients.iter().map(|_| None).collect();
            let post = Ends { mail: Mail::new(rings, usize::from(me)), replies };
            let out = Out { words, text: Text::new(room), post, answered: Vec::new() };
            Station { node: Node::new(script, me), out, moves: Vec::with_capacity(room / 48), commands: Vec::new() }
        })
        .collect();
    let callers = lists
        .into_iter()
        .enumerate()
        .map(|(client, list)| {
            let station = &mut stations[usize::from(script.clients[client].node)];
            let (submits, commands) = channel();
            let (sender, replies) = channel();
            station.commands.push(commands);
            station.out.post.replies[client] = Some(sender);
            Caller { polled: Vec::with_capacity(list.len()), commands: list.into_iter(), submits, replies }
        })
        .collect();
    (callers, stations)
}

/// The journal of a run whose commands were submitted; none if the script has a fault. With `tells` it writes to standard
/// error how many replies were polled.
pub fn run(text: &[u8], tells: bool) -> Option<Vec<u8>> {
    let mut script = script::read(text)?;
    let lists: Vec<Vec<Command>> =
        script.clients.iter_mut().map(|client| std::mem::take(&mut client.commands)).collect();
    let words = Words::new(&script);
    let rings = Rings::new(usize::from(script.nodes));
    let (mut callers, mut stations) = open(&script, &words, &rings, lists);
    while callers.iter_mut().any(Caller::submit) {
        round(&mut callers, &mut stations);
    }
    while stations.iter_mut().fold(false, |moved, station| station.work() || moved) {}
    callers.iter_mut().for_each(|caller| while caller.poll() {});
    if tells {
        eprintln!("{} replies", callers.iter().map(|caller| caller.polled.len()).sum::<usize>());
    }
    let moved: Vec<_> = stations.iter().map(|station| (&station.moves[..], &station.out.text)).collect();
    let nodes: Vec<&Node> = stations.iter().map(|station| &station.node).collect();
    Some(crew::journal(&script, &words, &moved, &nodes))
}
