//! The lines of the end.
use crate::modes;
use crate::node::Node;
use crate::out::{END, HELD, OWNER, Out, Post, WAITING};
use crate::script::Script;

/// Adds the lines of the end, from what the nodes are at rest.
pub fn close<P: Post>(script: &Script<'_>, nodes: &[&Node<'_>], moves: usize, out: &mut Out<P>) {
    for (number, client) in script.clients.iter().enumerate() {
        for (set, core) in nodes[usize::from(client.node)].cores.iter().enumerate() {
            let counts = &core.counts[usize::from(client.slot)];
            for mode in (0..modes::COUNT).filter(|mode| counts[*mode] > 0) {
                out.lock_words(&HELD, number as u16, set as u8, mode as u8);
                out.text.number(u32::from(counts[mode]));
                out.text.end_line();
            }
        }
    }
    for (number, client) in script.clients.iter().enumerate() {
        let node = nodes[usize::from(client.node)];
        if node.waits >> client.slot & 1 == 1 {
            for (set, core) in node.cores.iter().enumerate() {
                for ask in core.pending.iter().filter(|ask| usize::from(ask.client) == number) {
                    out.lock_line(&WAITING, ask.client, set as u8, ask.mode);
                }
            }
        }
    }
    for set in 0..script.sets.len() {
        let owner = nodes.iter().find_map(|node| Some((node.me, node.cores[set].desk.as_ref()?.epoch)));
        let (node, epoch) = owner.unwrap_or((0, 0));
        out.epoch_line(&OWNER, set as u8, node, epoch);
    }
    out.text.word(&END);
    out.text.number(moves as u32);
    out.text.end_line();
}
