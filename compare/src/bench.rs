//! The bench: a marking that transitions are fired on, and back.

use crate::net::{Arc, Mode, Net, CELLS};

/// The most tokens that a cell of the bench holds.
const MAX_COUNT: i64 = 65_535;

/// A call that the bench turned down; the place is a cell or 0.
#[derive(Clone, Copy, Debug, PartialEq, Eq)]
pub struct Refusal {
    pub number: u8,
    pub place: usize,
}

fn refuse<T>(number: u8, place: usize) -> Result<T, Refusal> {
    Err(Refusal { number, place })
}

pub struct Bench<'a> {
    net: &'a Net,
    counts: Vec<i64>,
    trail: Vec<(usize, Mode)>,
    trail_length: usize,
}

impl<'a> Bench<'a> {
    pub fn begin(net: &'a Net, trail_length: usize) -> Self {
        Bench {
            net,
            counts: net.initial.clone(),
            trail: Vec::new(),
            trail_length,
        }
    }

    /// The marking now, one count per cell number.
    pub fn counts(&self) -> &[i64] {
        &self.counts
    }

    /// How many firings a back could undo.
    pub fn trail_used(&self) -> usize {
        self.trail.len()
    }

    pub fn fire(&mut self, number: usize, mode: Mode) -> Result<(), Refusal> {
        let Some(transition) = self.net.transitions.get(number) else {
            return refuse(17, 0);
        };
        if !transition.has_mode(&mode) {
            return refuse(18, 0);
        }
        if !transition.guard_holds(self.net, &mode) {
            return refuse(19, 0);
        }
        let taken = moved(self.net, &transition.takes, &mode);
        let put = moved(self.net, &transition.puts, &mode);
        if let Some(cell) = (0..CELLS).find(|&cell| self.counts[cell] < taken[cell]) {
            return refuse(20, cell);
        }
        let full = |&cell: &usize| self.counts[cell] - taken[cell] + put[cell] > MAX_COUNT;
        if let Some(cell) = (0..CELLS).find(full) {
            return refuse(21, cell);
        }
        if self.trail.len() == self.trail_length {
            return refuse(22, 0);
        }
        self.trade(&taken, &put);
        self.trail.push((number, mode));
        Ok(())
    }

    pub fn back(&mut self) -> Result<(), Refusal> {
        let Some((number, mode)) = self.trail.pop() else {
            return refuse(23, 0);
        };
        let transition = &self.net.transitions[number];
        let taken = moved(self.net, &transition.takes, &mode);
        let put = moved(self.net, &transition.puts, &mode);
        self.trade(&put, &taken);
        Ok(())
    }

    pub fn restart(&mut self) {
        self.counts.copy_from_slice(&self.net.initial);
        self.trail.clear();
    }

    fn trade(&mut self, off: &[i64; CELLS], on: &[i64; CELLS]) {
        for (count, (off, on)) in self.counts.iter_mut().zip(off.iter().zip(on)) {
            *count += on - off;
        }
    }
}

/// t- or t+: what the arcs move in a mode, one count per cell number.
pub fn moved(net: &Net, arcs: &[Arc], mode: &Mode) -> [i64; CELLS] {
    let mut counts = [0; CELLS];
    for arc in arcs {
        arc.bag.add_to(net, mode, &mut counts[arc.cells()]);
    }
    counts
}
