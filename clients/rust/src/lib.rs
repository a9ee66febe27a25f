//! Sessions of the lock service for Rust. Each duty of a caller of lockrun.h is met here by a type: a handle is never
//! copied, `&mut` gives it to one call at a time, and `Nodes::served` and `Nodes::finish` test that they have all sessions of
//! their own.
//!
//! No thread runs the nodes: whoever makes work for a node turns it, one thread at a time for each node, and who waits sleeps until
//! it is told.
#![doc = include_str!("../README.md")]
#![deny(unsafe_op_in_unsafe_fn)]

mod apart;
mod asking;
mod calls;
mod error;
mod exports;
mod fault;
mod futures;
mod guard;
mod held;
mod journal;
mod keys;
mod names;
mod nodes;
mod opening;
mod pool;
mod rings;
mod seat;
mod session;
mod station;
mod stations;
mod tcp;
mod victims;
mod view;
mod waiting;
mod yielding;

pub use apart::{Apart, Carrier, Place};
pub use error::Error;
pub use fault::{BadSet, Fault, WhySet};
pub use futures::{block_on, Changing, Locking};
pub use guard::Guard;
pub use journal::{Journal, Served};
pub use nodes::Nodes;
pub use opening::{open, open_sets, NewSet, Opening};
pub use pool::{Client, Coming};
pub use session::{Mode, Session};
pub use tcp::Tcp;
pub use view::{Holds, Locks, Waits};
