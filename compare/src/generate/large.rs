//! Four large cases for measuring time and memory. All their claims are
//! accepted, and the trace is done.

use super::draft::{self, Draft, BACK, END, RESTART};
use super::random::Random;
use super::Case;
use crate::bench::Bench;
use crate::net::MAX_FILE;
use crate::reader::read_net;
use crate::report::TRAIL;

/// The cases by name.
pub fn cases() -> [(&'static str, Case); 4] {
    [
        ("modes", modes()),
        ("wide", wide()),
        ("deep", deep()),
        ("trace", trace()),
    ]
}

/// A net with an empty trace.
fn without_trace(draft: &Draft) -> Case {
    Case {
        net: Some(draft.bytes()),
        trace: Some(vec![END]),
    }
}

/// The table of an operation with two arguments.
fn table(rows: usize, width: usize, entry: impl Fn(usize, usize) -> usize) -> Vec<u8> {
    (0..rows * width)
        .map(|number| entry(number / width, number % width) as u8)
        .collect()
}

/// Kinds and moduli for 16 claims.
const KINDS: [(usize, usize); 16] = [
    (1, 0),
    (2, 0),
    (3, 0),
    (4, 65_535),
    (5, 0),
    (6, 0),
    (1, 0),
    (4, 2),
    (1, 0),
    (2, 0),
    (3, 0),
    (4, 1_000),
    (5, 0),
    (6, 0),
    (1, 0),
    (4, 7),
];

/// A weight of the claim's kind, in its upper range.
fn weight(random: &mut Random, (kind, modulus): (usize, usize)) -> i64 {
    match kind {
        4 => random.below(modulus) as i64,
        5 | 6 => random.below(2) as i64,
        _ => random.below(1_000_001) as i64,
    }
}

/// Eight transitions with 65,536 modes each. Every transition moves tokens
/// between places, written with other terms of the same value, and the
/// weights of a claim are the same for all places.
fn modes() -> Case {
    const SIZE: usize = 16;
    let random = &mut Random::new(1, 0);
    let mut draft = Draft::default();
    draft.sort(SIZE);
    draft.operation(&[1, 1], 1, &table(SIZE, SIZE, |x, y| (x + y) % SIZE));
    draft.operation(&[1, 1], 1, &table(SIZE, SIZE, |x, y| x ^ y));
    draft.operation(&[1], 1, &table(1, SIZE, |_, x| SIZE - 1 - x));
    for place in 0..16 {
        draft.place(1);
        draft.tokens(place, place, 2);
    }
    let x: Vec<Vec<u8>> = (0..4).map(draft::variable).collect();
    for number in 0..8 {
        draft.transition(&[1; 4]);
        // False where both equalities hold, in 256 of 65,536 modes.
        draft.guard(&draft::not(&draft::and(
            &draft::equal(1, &x[number % 4], &x[(number + 1) % 4]),
            &draft::equal(1, &x[(number + 2) % 4], &x[(number + 3) % 4]),
        )));
        let place = |offset: usize| (2 * number + offset) % 16;
        let twice_turned = draft::apply(2, &[draft::apply(2, &[x[2].clone()])]);
        let first = draft::apply(0, &[x[0].clone(), x[1].clone()]);
        let first_again = draft::apply(0, &[x[1].clone(), x[0].clone()]);
        let second = draft::apply(1, &[twice_turned, x[3].clone()]);
        let second_again = draft::apply(1, &[x[3].clone(), x[2].clone()]);
        draft.take(place(0), &draft::token(&first));
        draft.take(place(1), &draft::token(&second));
        draft.put(place(2), &draft::token(&second_again));
        draft.put(place(3), &draft::token(&first_again));
    }
    for kind in KINDS {
        draft.claim(kind.0, kind.1);
        let weights: Vec<i64> = (0..SIZE).map(|_| weight(random, kind)).collect();
        for place in 0..16 {
            for (element, &weight) in weights.iter().enumerate() {
                draft.weigh_element(place, element, weight);
            }
        }
    }
    without_trace(&draft)
}

/// 128 arcs, each with four bag operations of 64 rows by 64 counts.
fn wide() -> Case {
    const SIZE: usize = 64;
    const SHIFTS: usize = 32;
    let random = &mut Random::new(2, 0);
    let mut draft = Draft::default();
    draft.sort(SIZE);
    draft.sort(SHIFTS);
    let shift = table(SIZE, SHIFTS, |x, y| (x + 2 * y) % SIZE);
    draft.operation(&[1, 2], 1, &shift);
    draft.operation(&[1, 2], 1, &shift);
    for _ in 0..8 {
        // Every row has the same sum.
        let mut rows = Vec::new();
        for _ in 0..SIZE {
            let half: Vec<u8> = (0..SIZE / 2).map(|_| random.byte()).collect();
            let mut row = half.clone();
            row.extend(half.iter().map(|count| 255 - count));
            random.shuffle(&mut row);
            rows.extend(row);
        }
        draft.bag_operation(1, 1, &rows);
    }
    for place in 0..16 {
        draft.place(1);
        draft.tokens(place, place, 60_000);
    }
    for number in 0..16 {
        draft.transition(&[1, 2]);
        // What is taken is put again four places on.
        for arc in 0..4 {
            let bag = |shift: usize| {
                let terms: Vec<Vec<u8>> = (0..4)
                    .map(|part| {
                        let x = draft::variable(0);
                        let shifted = draft::apply(shift, &[x.clone(), draft::variable(1)]);
                        let argument = if part % 2 == 0 { shifted } else { x };
                        draft::flexible((number + 3 * arc + part) % 8, &argument)
                    })
                    .collect();
                draft::sum_all(&terms)
            };
            draft.take((number + arc) % 16, &bag(0));
            draft.put((number + arc + 4) % 16, &bag(1));
        }
    }
    for (number, kind) in KINDS.into_iter().enumerate() {
        draft.claim(kind.0, kind.1);
        // A few claims with a weight of its own for each element.
        if number < 3 {
            let weights: Vec<i64> = (0..SIZE).map(|_| weight(random, kind)).collect();
            for place in 0..16 {
                for (element, &weight) in weights.iter().enumerate() {
                    draft.weigh_element(place, element, weight);
                }
            }
        } else {
            let weight = weight(random, kind).max(1);
            for place in 0..16 {
                draft.weigh_place(place, weight);
            }
        }
    }
    without_trace(&draft)
}

/// Terms of depth 16 in a file of 65,536 bytes.
fn deep() -> Case {
    const SIZES: [usize; 3] = [2, 16, 8];
    const TRANSITIONS: usize = 16;
    const ARCS: usize = 8;
    let random = &mut Random::new(3, 0);
    let mut draft = Draft::default();
    draft.sort(SIZES[1]);
    draft.sort(SIZES[2]);
    let operations: [(&[usize], usize); 8] = [
        (&[1, 1], 1),
        (&[1, 1], 1),
        (&[1], 1),
        (&[0, 1], 1),
        (&[2, 1], 1),
        (&[1, 1], 0),
        (&[2, 2], 2),
        (&[1, 2], 2),
    ];
    for (arguments, result) in operations {
        let length: usize = arguments.iter().map(|&sort| SIZES[sort]).product();
        let table: Vec<u8> = (0..length)
            .map(|_| random.below(SIZES[result]) as u8)
            .collect();
        draft.operation(arguments, result, &table);
    }
    for place in 0..16 {
        draft.place(1);
        draft.tokens(place, 0, 9);
    }
    let mut claims = Draft::default();
    for kind in KINDS {
        claims.claim(kind.0, kind.1);
        // Even places have one weight, odd places another.
        let weights = [weight(random, kind).max(1), weight(random, kind)];
        for place in 0..16 {
            claims.weigh_place(place, weights[place % 2]);
        }
    }
    let terms = Terms {
        operations: &operations,
        variables: &[1, 2, 0, 0],
    };
    for number in 0..TRANSITIONS {
        draft.transition(terms.variables);
        for arc in 0..ARCS {
            let left = MAX_FILE - draft.length() - claims.length();
            let arcs_left = (TRANSITIONS - number) * ARCS - arc;
            // The command itself and the transitions to come take some bytes.
            let budget = left / arcs_left - 5;
            let term = terms.grow(random, 1, 15, budget);
            let place = (number + arc / 2 * 5) % 16;
            if arc % 2 == 0 {
                draft.take(place, &draft::token(&term));
            } else {
                draft.put((place + 2 * arc) % 16, &draft::token(&term));
            }
        }
    }
    draft.commands.append(&mut claims.commands);
    let code = last_code_of_place_0(&draft);
    draft.pad(MAX_FILE, code);
    without_trace(&draft)
}

/// The weight that the last claim has for place 0.
fn last_code_of_place_0(draft: &Draft) -> i64 {
    draft
        .commands
        .iter()
        .rev()
        .find(|command| command[..2] == [0x0B, 0])
        .map_or(0, |c| {
            i64::from(i32::from_be_bytes([c[2], c[3], c[4], c[5]]))
        })
}

/// Large terms over some operations and variables.
struct Terms<'a> {
    operations: &'a [(&'a [usize], usize)],
    variables: &'a [usize],
}

impl Terms<'_> {
    /// A term of exactly the given depth and of about as many bytes as given.
    fn grow(&self, random: &mut Random, sort: usize, depth: usize, budget: usize) -> Vec<u8> {
        if depth == 1 {
            let variables: Vec<usize> = (0..self.variables.len())
                .filter(|&variable| self.variables[variable] == sort)
                .collect();
            return draft::variable(random.pick(&variables));
        }
        let (code, sorts) = self.choose(random, sort, budget);
        let mut term = code;
        let deep = random.below(sorts.len());
        // The least that the deep part takes.
        let least = (3 * depth).min(budget);
        let extra = match sorts.len() {
            1 => 0,
            _ => random.range(0, (budget - least) / 2),
        };
        for (part, &sort) in sorts.iter().enumerate() {
            if part == deep {
                term.extend(self.grow(random, sort, depth - 1, budget.saturating_sub(extra + 2)));
            } else {
                // As deep as the bytes suggest, and no deeper than allowed.
                let depth = (extra / 6 + 1).min(depth - 1);
                term.extend(self.grow(random, sort, depth, extra));
            }
        }
        term
    }

    /// The first bytes of a term with parts, and the sorts of the parts.
    fn choose(&self, random: &mut Random, sort: usize, budget: usize) -> (Vec<u8>, Vec<usize>) {
        if sort == 0 && random.percent(70) {
            return match random.below(3) {
                0 if budget < 60 => (vec![0x24], vec![0]),
                1 => {
                    let sort = random.range(1, 2);
                    (vec![0x23, sort as u8], vec![sort; 2])
                }
                _ => (vec![0x25], vec![0; 2]),
            };
        }
        let fitting: Vec<usize> = (0..self.operations.len())
            .filter(|&number| self.operations[number].1 == sort)
            .collect();
        let number = random.pick(&fitting);
        (vec![0x22, number as u8], self.operations[number].0.to_vec())
    }
}

/// A trace of 65,536 bytes, nearly all of it fires that succeed.
fn trace() -> Case {
    const SIZE: usize = 64;
    const PARTS: usize = 320;
    let random = &mut Random::new(4, 0);
    let mut draft = Draft::default();
    draft.sort(SIZE);
    for _ in 0..2 {
        let rows: Vec<u8> = (0..SIZE * SIZE).map(|_| random.below(2) as u8).collect();
        draft.bag_operation(1, 1, &rows);
    }
    for place in 0..16 {
        draft.place(1);
        for element in 0..SIZE {
            draft.tokens(place, element, 30_000);
        }
    }
    for number in 0..16 {
        draft.transition(&[1]);
        let bags: Vec<Vec<u8>> = (0..PARTS)
            .map(|_| draft::flexible(random.below(2), &draft::variable(0)))
            .collect();
        let bag = draft::sum_all(&bags);
        draft.take(number, &bag);
        draft.put((number + 1) % 16, &bag);
    }
    draft.claim(1, 0);
    for place in 0..16 {
        draft.weigh_place(place, 1);
    }
    let bytes = draft.bytes();
    let net = read_net(&bytes).expect("a good net");
    let mut bench = Bench::begin(&net, TRAIL);
    let mut trace = Vec::with_capacity(MAX_FILE);
    let mut restarted = false;
    while trace.len() + 6 < MAX_FILE {
        if !restarted && trace.len() > MAX_FILE / 2 {
            restarted = true;
            bench.restart();
            trace.push(RESTART);
        } else if random.percent(10) && bench.back().is_ok() {
            trace.push(BACK);
        } else {
            let transition = random.below(16);
            let mode = [random.below(SIZE) as u8, 0, 0, 0];
            if bench.fire(transition, mode).is_ok() {
                trace.extend(draft::fire(transition, mode));
            }
        }
    }
    trace.resize(MAX_FILE - 1, BACK);
    trace.push(END);
    Case {
        net: Some(bytes),
        trace: Some(trace),
    }
}
