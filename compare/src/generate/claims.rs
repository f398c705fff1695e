//! Claims that are often true of a net: their weights are worked out from
//! what the transitions move.

use super::draft::Draft;
use super::random::Random;
use crate::bench::moved;
use crate::net::{Net, PLACE_CELLS};
use crate::reader::read_net;

/// Above these numbers the weights are chosen without looking at all modes.
const MOST_MODES: usize = 1_500;
const MOST_CELLS: usize = 120;

/// A prime with room for all whole-number weights.
const PRIME: i64 = 2_147_483_647;

/// Adds claims behind a net that has none so far.
pub fn add_claims(random: &mut Random, draft: &mut Draft, number: usize) {
    let Ok(net) = read_net(&draft.bytes()) else {
        return add_blind_claims(random, draft, number);
    };
    let facts = Facts::new(&net);
    for _ in 0..number {
        let mut claim = facts.claim(random);
        if random.percent(25) {
            claim.spoil(random);
        }
        claim.write(random, draft, &net);
    }
}

/// Claims without any thought, for a net that has a fault.
fn add_blind_claims(random: &mut Random, draft: &mut Draft, number: usize) {
    for _ in 0..number {
        let kind = random.range(1, 6);
        draft.claim(kind, if kind == 4 { random.range(2, 9) } else { 0 });
        for _ in 0..random.below(4) {
            let (place, element) = (random.below(3), random.below(3));
            if random.percent(50) {
                draft.weigh_place(place, random.below(2) as i64);
            } else {
                draft.weigh_element(place, element, random.below(2) as i64);
            }
        }
    }
}

/// A claim with one weight for each cell of the net.
struct Guess {
    kind: usize,
    modulus: i64,
    weights: Vec<i64>,
}

impl Guess {
    fn range(&self) -> (i64, i64) {
        match self.kind {
            4 => (0, self.modulus - 1),
            5 | 6 => (0, 1),
            _ => (-1_000_000, 1_000_000),
        }
    }

    /// Changes one weight.
    fn spoil(&mut self, random: &mut Random) {
        if self.weights.is_empty() {
            return;
        }
        let (low, high) = self.range();
        let cell = random.below(self.weights.len());
        let change = random.pick(&[1, -1, 2, 1000]);
        self.weights[cell] = (self.weights[cell] + change).clamp(low, high);
    }

    /// Writes the claim, some of its weights more than once.
    fn write(&self, random: &mut Random, draft: &mut Draft, net: &Net) {
        draft.claim(self.kind, self.modulus as usize);
        let (low, high) = self.range();
        let places = net.places.len();
        let replaced = places > 0 && random.percent(25);
        if replaced {
            for _ in 0..random.range(1, 3) {
                let place = random.below(places);
                let code = random.pick(&[low, high, 0, 1]);
                draft.weigh_place(place, code);
            }
        }
        let terse = draft.length() > 40_000;
        let all = replaced || random.percent(30);
        let mut cells = self.weights.iter().copied();
        for place in 0..places {
            let weights: Vec<i64> = cells.by_ref().take(net.place_size(place)).collect();
            let common = random.pick(&weights);
            let uniform = weights.iter().all(|&weight| weight == common);
            let by_place = uniform || terse || random.percent(50);
            if by_place && (all || common != 0 || !uniform) {
                draft.weigh_place(place, common);
            }
            if terse || (uniform && by_place && random.percent(90)) {
                continue;
            }
            let mut elements: Vec<usize> = (0..weights.len()).collect();
            if random.percent(30) {
                random.shuffle(&mut elements);
            }
            for element in elements {
                let weight = weights[element];
                if all || weight != if by_place { common } else { 0 } {
                    if random.percent(5) {
                        draft.weigh_element(place, element, random.pick(&[low, high]));
                    }
                    draft.weigh_element(place, element, weight);
                }
            }
        }
    }
}

/// What is known of a net: its cells, and what is taken and put in each mode
/// in which the guard holds.
struct Facts {
    /// For each cell, the place it is of.
    places: Vec<usize>,
    /// Empty where the net is too large.
    moves: Vec<(Vec<i64>, Vec<i64>)>,
    /// Put minus taken, each once.
    changes: Vec<Vec<i64>>,
}

impl Facts {
    fn new(net: &Net) -> Self {
        let cells: Vec<usize> = (0..net.places.len())
            .flat_map(|place| (0..net.place_size(place)).map(move |e| place * PLACE_CELLS + e))
            .collect();
        let places = cells.iter().map(|cell| cell / PLACE_CELLS).collect();
        let modes: usize = net
            .transitions
            .iter()
            .map(|t| t.sizes.iter().product::<usize>())
            .sum();
        let mut moves = Vec::new();
        if modes <= MOST_MODES && cells.len() <= MOST_CELLS {
            for transition in &net.transitions {
                for mode in transition.modes() {
                    if transition.guard_holds(net, &mode) {
                        let taken = moved(net, &transition.takes, &mode);
                        let put = moved(net, &transition.puts, &mode);
                        let of_net =
                            |all: &[i64]| cells.iter().map(|&cell| all[cell]).collect::<Vec<_>>();
                        moves.push((of_net(&taken), of_net(&put)));
                    }
                }
            }
        }
        let mut changes: Vec<Vec<i64>> = moves
            .iter()
            .map(|(taken, put)| {
                put.iter()
                    .zip(taken)
                    .map(|(put, taken)| put - taken)
                    .collect()
            })
            .collect();
        changes.sort();
        changes.dedup();
        Facts {
            places,
            moves,
            changes,
        }
    }

    fn cells(&self) -> usize {
        self.places.len()
    }

    fn claim(&self, random: &mut Random) -> Guess {
        match random.share(&[5, 14, 34, 16, 20, 11]) {
            0 => self.zero(random),
            1 => self.uniform(random),
            2 => self.linear(random),
            3 => self.modular(random),
            4 => self.marked(random),
            _ => self.arbitrary(random),
        }
    }

    /// All weights zero: always accepted.
    fn zero(&self, random: &mut Random) -> Guess {
        let kind = random.range(1, 6);
        Guess {
            kind,
            modulus: if kind == 4 { modulus(random) } else { 0 },
            weights: vec![0; self.cells()],
        }
    }

    /// One weight for all cells.
    fn uniform(&self, random: &mut Random) -> Guess {
        let mut guess = self.zero(random);
        let (low, high) = guess.range();
        let weight = random.pick(&[low, high, high, 1, 1]);
        guess.weights.fill(weight);
        guess
    }

    /// Small weights without any thought, many of them zero.
    fn arbitrary(&self, random: &mut Random) -> Guess {
        let mut guess = self.zero(random);
        let (low, high) = guess.range();
        for weight in &mut guess.weights {
            *weight = random
                .pick(&[0, 0, 0, 1, 2, 3, -1, low, high])
                .clamp(low, high);
        }
        guess
    }

    /// Weights of kinds 1 to 3 that do not change in all or in some modes.
    fn linear(&self, random: &mut Random) -> Guess {
        let all = random.percent(60);
        let changes: Vec<Vec<i64>> = self
            .changes
            .iter()
            .filter(|_| all || random.percent(80))
            .cloned()
            .collect();
        let basis: Vec<Vec<i64>> = null_space(&changes, self.cells(), PRIME)
            .iter()
            .filter_map(|vector| lift(vector))
            .collect();
        let mut weights = combination(random, &basis, self.cells());
        if random.percent(20) {
            // Cells that only ever lose or only ever gain tilt the balance.
            let sign = random.pick(&[1, -1]);
            for (cell, weight) in weights.iter_mut().enumerate() {
                if random.percent(60) && self.changes.iter().all(|c| c[cell] * sign <= 0) {
                    *weight += sign * random.range(1, 5) as i64;
                }
            }
        }
        let largest = weights.iter().map(|weight| weight.abs()).max().unwrap_or(0);
        if largest > 1_000_000 {
            weights.fill(0);
        } else if largest > 0 && random.percent(20) {
            weights.iter_mut().for_each(|w| *w *= 1_000_000 / largest);
        }
        let product =
            |change: &Vec<i64>| -> i64 { change.iter().zip(&weights).map(|(c, w)| c * w).sum() };
        let rises = self.changes.iter().any(|change| product(change) > 0);
        let falls = self.changes.iter().any(|change| product(change) < 0);
        let kind = match (rises, falls) {
            _ if random.percent(15) => random.range(1, 3),
            (false, false) => random.pick(&[1, 1, 2, 3]),
            (false, true) => 2,
            (true, false) => 3,
            (true, true) => random.range(1, 3),
        };
        Guess {
            kind,
            modulus: 0,
            weights,
        }
    }

    /// Weights of kind 4 that do not change under a modulus.
    fn modular(&self, random: &mut Random) -> Guess {
        let prime = random.pick(&[2, 2, 3, 5, 7, 13, 251, 65_521]);
        let basis = null_space(&self.changes, self.cells(), prime);
        let mut weights = combination(random, &basis, self.cells());
        let mut modulus = prime;
        if random.percent(25) {
            // The same weights, and the modulus, taken times a number.
            let factor = random.range(2, 9) as i64;
            if modulus * factor <= 65_535 {
                modulus *= factor;
                weights.iter_mut().for_each(|weight| *weight *= factor);
            }
        }
        for weight in &mut weights {
            *weight = weight.rem_euclid(modulus);
        }
        Guess {
            kind: 4,
            modulus,
            weights,
        }
    }

    /// The largest siphon or trap among some cells.
    fn marked(&self, random: &mut Random) -> Guess {
        let kind = random.pick(&[5, 6]);
        let density = random.pick(&[40, 70, 90, 100]);
        let mut inside: Vec<bool> = (0..self.cells()).map(|_| random.percent(density)).collect();
        let marks = |bag: &[i64], inside: &[bool]| {
            bag.iter()
                .zip(inside)
                .any(|(&count, &inside)| count > 0 && inside)
        };
        let mut changed = true;
        while changed {
            changed = false;
            for (taken, put) in &self.moves {
                let (cause, effect) = match kind {
                    5 => (taken, put),
                    _ => (put, taken),
                };
                if marks(cause, &inside) && !marks(effect, &inside) {
                    for (inside, &count) in inside.iter_mut().zip(cause) {
                        *inside &= count == 0;
                    }
                    changed = true;
                }
            }
        }
        Guess {
            kind,
            modulus: 0,
            weights: inside.into_iter().map(i64::from).collect(),
        }
    }
}

fn modulus(random: &mut Random) -> i64 {
    random.pick(&[2, 3, 4, 6, 10, 256, 1000, 65_534, 65_535])
}

/// A combination of the basis with small factors.
fn combination(random: &mut Random, basis: &[Vec<i64>], cells: usize) -> Vec<i64> {
    let mut weights = vec![0; cells];
    let density = random.pick(&[20, 50, 100]);
    for vector in basis {
        if random.percent(density) {
            let factor = random.pick(&[1, 1, 1, 2, 3, -1, -2]);
            for (weight, entry) in weights.iter_mut().zip(vector) {
                *weight += factor * entry;
            }
        }
    }
    weights
}

/// A basis of all vectors whose product with every row is 0 modulo a prime.
fn null_space(rows: &[Vec<i64>], columns: usize, prime: i64) -> Vec<Vec<i64>> {
    // Reduced rows, each with its leading column.
    let mut reduced: Vec<(usize, Vec<i64>)> = Vec::new();
    for row in rows {
        let mut row: Vec<i64> = row.iter().map(|entry| entry.rem_euclid(prime)).collect();
        for (lead, other) in &reduced {
            subtract(&mut row, other, *lead, prime);
        }
        let Some(lead) = row.iter().position(|&entry| entry != 0) else {
            continue;
        };
        let inverse = power(row[lead], prime - 2, prime);
        row.iter_mut()
            .for_each(|entry| *entry = *entry * inverse % prime);
        for (_, other) in &mut reduced {
            subtract(other, &row, lead, prime);
        }
        reduced.push((lead, row));
    }
    (0..columns)
        .filter(|&free| reduced.iter().all(|&(lead, _)| lead != free))
        .map(|free| {
            let mut vector = vec![0; columns];
            vector[free] = 1;
            for (lead, row) in &reduced {
                vector[*lead] = (prime - row[free]) % prime;
            }
            vector
        })
        .collect()
}

/// Clears the column of `row` with a multiple of `other`, which has 1 there.
fn subtract(row: &mut [i64], other: &[i64], column: usize, prime: i64) {
    let factor = row[column];
    if factor != 0 {
        for (entry, other) in row.iter_mut().zip(other) {
            *entry = (*entry - factor * other % prime).rem_euclid(prime);
        }
    }
}

fn power(mut base: i64, mut exponent: i64, prime: i64) -> i64 {
    let mut result = 1;
    while exponent > 0 {
        if exponent & 1 == 1 {
            result = result * base % prime;
        }
        base = base * base % prime;
        exponent >>= 1;
    }
    result
}

/// A vector modulo [`PRIME`] as whole numbers, if a small multiple of it is
/// one of small numbers.
fn lift(vector: &[i64]) -> Option<Vec<i64>> {
    (1..=12).find_map(|factor| {
        let entries = vector.iter().map(|entry| {
            let entry = entry * factor % PRIME;
            let entry = if entry > PRIME / 2 {
                entry - PRIME
            } else {
                entry
            };
            (entry.abs() <= 5_000).then_some(entry)
        });
        entries.collect()
    })
}
