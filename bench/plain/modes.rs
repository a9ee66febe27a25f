//! Modes, sets of them as bits, and how often each is there.

pub type Mode = u8;

pub const COUNT: usize = 6;

/// The modes that conflict with each mode, as bits.
const BARS: [u8; COUNT] = [32, 56, 60, 54, 62, 63];

const ALL: u8 = 63;

// Of each set of modes, those that conflict with one of them.
const BARRED: [u8; 64] = {
    let mut all = [0; 64];
    let mut modes = 1;
    while modes < 64 {
        let lowest = (modes as u32).trailing_zeros() as usize;
        all[modes] = all[modes & (modes - 1)] | BARS[lowest];
        modes += 1;
    }
    all
};

pub fn bars(modes: u8) -> u8 {
    BARRED[usize::from(modes & ALL)]
}

pub fn bars_all(modes: u8) -> bool {
    bars(modes) == ALL
}

pub fn barred(modes: u8, mode: Mode) -> bool {
    BARS[usize::from(mode)] & modes != 0
}

pub fn covers(modes: u8, mode: Mode) -> bool {
    BARS[usize::from(mode)] & !bars(modes) == 0
}

pub fn excludes_itself(mode: Mode) -> bool {
    barred(1 << mode, mode)
}

/// How often each mode is there, and which are there once at least and twice at least.
#[derive(Clone, Copy, Default)]
pub struct Tally {
    counts: [u8; COUNT],
    pub one: u8,
    two: u8,
}

impl Tally {
    pub fn add(&mut self, mode: Mode) {
        let count = &mut self.counts[usize::from(mode)];
        *count += 1;
        self.two |= self.one & 1 << mode;
        self.one |= 1 << mode;
    }

    pub fn remove(&mut self, mode: Mode) {
        let count = &mut self.counts[usize::from(mode)];
        *count -= 1;
        if *count == 0 {
            self.one &= !(1 << mode);
        } else if *count == 1 {
            self.two &= !(1 << mode);
        }
    }

    /// One set of modes takes the place of another.
    pub fn exchange(&mut self, old: u8, new: u8) {
        each(old & !new, |mode| self.remove(mode));
        each(new & !old, |mode| self.add(mode));
    }

    /// The modes that are there without this set of them.
    pub fn others(&self, own: u8) -> u8 {
        self.two | self.one & !own
    }
}

/// Calls this for each of the modes.
pub fn each(mut modes: u8, mut call: impl FnMut(Mode)) {
    while modes != 0 {
        call(modes.trailing_zeros() as Mode);
        modes &= modes - 1;
    }
}
