//! What nodes did.
use crate::error::{check, Error};
use crate::exports::{self, Handle};

/// What the nodes did: the text of the script with all commands, and the journal of their run.
pub struct Journal {
    pub script: Vec<u8>,
    pub text: Vec<u8>,
    /// How many lines of the journal say what is held at the end, and how many say who waits.
    pub held: usize,
    pub waiting: usize,
}

/// What all sessions were served so far.
#[derive(Clone, Copy, Debug, PartialEq, Eq)]
pub struct Served {
    /// How many commands they submitted.
    pub submitted: usize,
    /// How many replies they polled.
    pub polled: usize,
}

pub(crate) fn read_journal(mut journal: Handle) -> Result<Journal, Error> {
    let (mut held, mut waiting) = (0, 0);
    // SAFETY: the journal stands for something.
    check(unsafe { exports::lockrun_end(&mut journal, &mut held, &mut waiting) })?;
    let script = text(&mut journal, exports::lockrun_script);
    let text = text(&mut journal, exports::lockrun_copy);
    Ok(Journal { script, text, held, waiting })
}

fn text(journal: &mut Handle, copy: unsafe extern "C" fn(*mut Handle, usize, *mut u8, usize) -> usize) -> Vec<u8> {
    let (mut whole, mut part) = (Vec::new(), [0; 4096]);
    loop {
        // SAFETY: the journal stands for something, and the part has so many bytes.
        match unsafe { copy(journal, whole.len(), part.as_mut_ptr(), part.len()) } {
            0 => return whole,
            count => whole.extend_from_slice(&part[..count]),
        }
    }
}
