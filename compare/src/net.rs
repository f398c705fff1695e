//! A net and its claims, as they stand in memory after reading.

use crate::term::{Bag, Term};

/// Cell numbers: 16 places of 64 elements each.
pub const CELLS: usize = 1024;

/// Cell numbers of one place.
pub const PLACE_CELLS: usize = 64;

/// The longest file, for nets and traces alike.
pub const MAX_FILE: usize = 65_536;

/// The most modes that a transition may have.
pub const MAX_MODES: usize = 65_536;

/// An element for each of a transition's variables; unused ones are 0.
pub type Mode = [u8; 4];

#[derive(Debug)]
pub struct Net {
    /// The size of each sort; sort 0, the truth values, is always there.
    pub sorts: Vec<usize>,
    pub operations: Vec<Operation>,
    pub bag_operations: Vec<BagOperation>,
    /// The sort of each place.
    pub places: Vec<usize>,
    /// The initial marking, one count per cell number.
    pub initial: Vec<i64>,
    pub transitions: Vec<Transition>,
    pub claims: Vec<Claim>,
}

impl Default for Net {
    fn default() -> Self {
        Net {
            sorts: vec![2],
            operations: Vec::new(),
            bag_operations: Vec::new(),
            places: Vec::new(),
            initial: vec![0; CELLS],
            transitions: Vec::new(),
            claims: Vec::new(),
        }
    }
}

impl Net {
    /// The number of elements that a place can hold.
    pub fn place_size(&self, place: usize) -> usize {
        self.sorts[self.places[place]]
    }
}

#[derive(Debug)]
pub struct Operation {
    /// The sorts of the arguments, none to two.
    pub arguments: Vec<usize>,
    pub result: usize,
    /// The size of the last argument's sort, the width of a table row.
    pub width: usize,
    pub table: Vec<u8>,
}

#[derive(Debug)]
pub struct BagOperation {
    pub argument: usize,
    pub result: usize,
    /// The size of the result sort, the width of a table row.
    pub width: usize,
    pub table: Vec<u8>,
}

impl BagOperation {
    /// The counts of the bag for one argument.
    pub fn row(&self, argument: usize) -> &[u8] {
        &self.table[argument * self.width..][..self.width]
    }
}

#[derive(Debug)]
pub struct Transition {
    /// The sorts of the variables, none to four.
    pub variables: Vec<usize>,
    /// The sizes of those sorts.
    pub sizes: Vec<usize>,
    pub guard: Option<Term>,
    pub takes: Vec<Arc>,
    pub puts: Vec<Arc>,
}

impl Transition {
    /// All modes, the first variable slowest.
    pub fn modes(&self) -> Modes<'_> {
        Modes {
            sizes: &self.sizes,
            next: Some([0; 4]),
        }
    }

    /// Whether the guard holds in a mode.
    pub fn guard_holds(&self, net: &Net, mode: &Mode) -> bool {
        match &self.guard {
            Some(guard) => guard.value(net, mode) == 1,
            None => true,
        }
    }

    /// Whether four mode numbers name a mode of this transition.
    pub fn has_mode(&self, mode: &Mode) -> bool {
        mode.iter().enumerate().all(|(variable, &number)| {
            let size = self.sizes.get(variable).copied().unwrap_or(1);
            usize::from(number) < size
        })
    }
}

/// The modes of a transition in their order.
pub struct Modes<'a> {
    sizes: &'a [usize],
    next: Option<Mode>,
}

impl Iterator for Modes<'_> {
    type Item = Mode;

    fn next(&mut self) -> Option<Mode> {
        let mode = self.next?;
        self.next = following(mode, self.sizes);
        Some(mode)
    }
}

/// Counts one further, the last variable fastest.
fn following(mut mode: Mode, sizes: &[usize]) -> Option<Mode> {
    for (number, &size) in mode.iter_mut().zip(sizes).rev() {
        if usize::from(*number) + 1 < size {
            *number += 1;
            return Some(mode);
        }
        *number = 0;
    }
    None
}

#[derive(Debug)]
pub struct Arc {
    pub place: usize,
    pub bag: Bag,
}

impl Arc {
    /// The cell numbers of the arc's place.
    pub fn cells(&self) -> std::ops::Range<usize> {
        let first = self.place * PLACE_CELLS;
        first..first + PLACE_CELLS
    }
}

#[derive(Debug)]
pub struct Claim {
    pub kind: Kind,
    /// One weight per cell number; 0 where no command names the cell.
    pub weights: Vec<i64>,
}

#[derive(Clone, Copy, Debug, PartialEq, Eq)]
pub enum Kind {
    Equal,
    NeverRises,
    NeverFalls,
    Modulo(i64),
    Trap,
    Siphon,
}

impl Kind {
    /// The kind with this number and modulus, if they fit together.
    pub fn new(number: usize, modulus: usize) -> Option<Kind> {
        match (number, modulus) {
            (1, 0) => Some(Kind::Equal),
            (2, 0) => Some(Kind::NeverRises),
            (3, 0) => Some(Kind::NeverFalls),
            (4, 2..=65_535) => Some(Kind::Modulo(modulus as i64)),
            (5, 0) => Some(Kind::Trap),
            (6, 0) => Some(Kind::Siphon),
            _ => None,
        }
    }

    /// Whether a code is a weight of this kind.
    pub fn is_weight(self, code: i64) -> bool {
        match self {
            Kind::Equal | Kind::NeverRises | Kind::NeverFalls => code.abs() <= 1_000_000,
            Kind::Modulo(modulus) => (0..modulus).contains(&code),
            Kind::Trap | Kind::Siphon => code == 0 || code == 1,
        }
    }
}
