//! Shapes of 65,535 transactions and 65,536 asks.

use crate::nest::{Asked, Ended, Mode, Nest};

const READ: Mode = 1;
const WRITE: Mode = 5;

/// What the calls of a shape come to.
#[derive(Default)]
struct Figures {
    begun: u32,
    granted: u32,
    waited: u32,
    busy: u32,
    done: u32,
}

struct Made {
    nest: Nest,
    figures: Figures,
}

pub fn figures(shape: &str) -> Option<String> {
    let mut made = Made { nest: Nest::new(255), figures: Figures::default() };
    match shape {
        "families" => made.families(),
        "queue" => made.queue(),
        "readers" => made.readers(),
        "chain" => made.chain(),
        _ => return None,
    }
    let Figures { begun, granted, waited, busy, done } = made.figures;
    Some(format!("{begun} begun, {granted} granted, {waited} waited, {busy} busy, {done} done\n"))
}

impl Made {
    fn begin(&mut self, parent: Option<u16>) {
        self.figures.begun += u32::from(self.nest.begin(parent).is_some());
    }

    fn lock(&mut self, x: u16, set: usize, mode: Mode) {
        match self.nest.ask(x, set, mode, true) {
            Asked::Granted => self.figures.granted += 1,
            Asked::Waits => self.figures.waited += 1,
            _ => self.figures.busy += 1,
        }
    }

    fn commit(&mut self, x: u16) {
        self.figures.done += u32::from(self.nest.commit(x) == Ended::Done);
        while self.nest.grants.pop_front().is_some() {
            self.figures.granted += 1;
        }
    }

    /// Families of a parent and four children, of which up to 64 are open at a time, two in each of 32 sets: the
    /// parent asks for `write`, two children for `read` and two for `write`. So the second family of a set waits for
    /// the first.
    fn families(&mut self) {
        for family in 0..13_107 + 64 {
            if family < 13_107 {
                let (parent, set) = (family * 5, usize::from(family % 32));
                self.begin(None);
                self.lock(parent, set, WRITE);
                for child in 1..5 {
                    self.begin(Some(parent));
                    let mode = if child < 3 { READ } else { WRITE };
                    self.lock(parent + child, set, mode);
                }
            }
            if family >= 64 {
                for x in [1, 2, 3, 4, 0] {
                    self.commit((family - 64) * 5 + x);
                }
            }
        }
        self.lock(0, 0, READ);
    }

    /// All ask for `write` in one set, and each commits once it has it.
    fn queue(&mut self) {
        for x in 0..65_535 {
            self.begin(None);
            self.lock(x, 0, WRITE);
        }
        for x in 0..65_535 {
            self.commit(x);
        }
        self.lock(0, 0, READ);
    }

    /// All read one set at once, and then commit.
    fn readers(&mut self) {
        for x in 0..65_535 {
            self.begin(None);
            self.lock(x, 0, READ);
        }
        for x in 0..65_535 {
            self.commit(x);
        }
        self.lock(0, 0, READ);
    }

    /// Each is under the one before and asks for `write` in one of 255 sets; then all commit from the last one on.
    fn chain(&mut self) {
        for x in 0..65_535_u16 {
            self.begin(x.checked_sub(1));
            self.lock(x, usize::from(x % 255), WRITE);
        }
        for x in (0..65_535).rev() {
            self.commit(x);
        }
        self.lock(0, 0, READ);
    }
}
