//! Nets with faults, and nets just inside or just outside a limit.

use super::draft::{self, Draft};
use super::random::Random;
use crate::net::MAX_FILE;

/// Bytes that mean something somewhere.
const TELLING: [u8; 32] = [
    0x00, 0x01, 0x02, 0x03, 0x04, 0x05, 0x06, 0x07, 0x08, 0x09, 0x0A, 0x0B, 0x0C, 0x0D, 0x0E, 0x0F,
    0x10, 0x20, 0x21, 0x22, 0x23, 0x24, 0x25, 0x26, 0x30, 0x31, 0x32, 0x33, 0x34, 0x40, 0x80, 0xFF,
];

/// Changes, inserts or removes a few bytes.
pub fn bytes(random: &mut Random, draft: &Draft) -> Vec<u8> {
    let mut bytes = draft.bytes();
    for _ in 0..random.pick(&[1, 1, 1, 1, 2, 3]) {
        let at = position(random, draft).min(bytes.len().saturating_sub(1));
        let byte = match random.below(4) {
            0 => random.byte(),
            1 => random.below(6) as u8,
            _ => random.pick(&TELLING),
        };
        match random.share(&[40, 15, 8, 12, 12, 8, 5]) {
            _ if bytes.is_empty() => bytes.push(byte),
            0 => bytes[at] = byte,
            1 => bytes[at] = bytes[at].wrapping_add(random.pick(&[1, 255])),
            2 => bytes[at] ^= 1 << random.below(8),
            3 => bytes.insert(at, byte),
            4 => {
                bytes.remove(at);
            }
            5 => bytes.truncate(at),
            _ => bytes.push(byte),
        }
    }
    bytes
}

/// A byte of the file, seldom one inside a table.
fn position(random: &mut Random, draft: &Draft) -> usize {
    if draft.commands.is_empty() {
        return 0;
    }
    let mut chosen = random.below(draft.commands.len());
    if random.percent(40) {
        // Rather a command with a term, if there is one further on.
        let further = draft.commands[chosen..].iter();
        chosen += further
            .take_while(|command| !(0x07..=0x09).contains(&command[0]))
            .count();
        chosen = chosen.min(draft.commands.len() - 1);
    }
    let start: usize = draft.commands[..chosen].iter().map(Vec::len).sum();
    let command = &draft.commands[chosen];
    let length = match command[0] {
        0x02 | 0x03 if random.percent(80) => command.len().min(7),
        _ => command.len(),
    };
    start + random.below(length + 1)
}

/// Moves, repeats, removes or inserts whole commands.
pub fn commands(random: &mut Random, draft: &mut Draft) {
    for _ in 0..random.pick(&[1, 1, 1, 2]) {
        let length = draft.commands.len();
        let at = random.below(length + 1);
        let from = random.below(length.max(1));
        match random.below(5) {
            0 if length > 0 => {
                let command = draft.commands[from].clone();
                draft.commands.insert(at, command);
            }
            1 if length > 0 => {
                draft.commands.remove(from);
            }
            2 if length > 0 => draft.commands.swap(from, at % length),
            3 => draft.commands.insert(at, vec![random.pick(&TELLING)]),
            _ => draft.commands.insert(at, plain_command(random)),
        }
    }
}

/// A short command that is often good in itself.
fn plain_command(random: &mut Random) -> Vec<u8> {
    let commands: [&[u8]; 16] = [
        &[0x01, 0x02],
        &[0x02, 0x00, 0x00, 0x00, 0x00, 0x01],
        &[0x02, 0x01, 0x00, 0x00, 0x00, 0x01, 0x00],
        &[0x03, 0x00, 0x00, 0x01, 0x00, 0x00, 0x01],
        &[0x04, 0x00],
        &[0x05, 0x00, 0x00, 0x00, 0x02],
        &[0x06, 0x00, 0x00, 0x00, 0x00, 0x00],
        &[0x06, 0x01, 0x00, 0x00, 0x00, 0x00],
        &[0x07, 0x21, 0x00, 0x01],
        &[0x07, 0x20, 0x00],
        &[0x08, 0x00, 0x30],
        &[0x09, 0x00, 0x31, 0x20, 0x00],
        &[0x0A, 0x01, 0x00, 0x00],
        &[0x0A, 0x04, 0x00, 0x02],
        &[0x0B, 0x00, 0x00, 0x00, 0x00, 0x01],
        &[0x0C, 0x00, 0x00, 0x00, 0x00, 0x00, 0x01],
    ];
    random.pick(&commands).to_vec()
}

/// Fills one kind of command up to its limit, or one beyond it.
pub fn limit(random: &mut Random, draft: &mut Draft) -> Vec<u8> {
    let (limit, last, command) = match random.below(7) {
        0 => (7, 0x01, vec![0x01, random.range(1, 3) as u8]),
        1 => (32, 0x03, vec![0x02, 0, 0, 0, 0, random.below(2) as u8]),
        2 => (8, 0x03, vec![0x03, 0, 0, 1, 0, 0, random.byte()]),
        3 => (16, 0x05, vec![0x04, 0]),
        4 => (32, 0x09, vec![0x06, 0, 0, 0, 0, 0]),
        5 => (128, 0x09, vec![random.pick(&[0x08, 0x09]), 0, 0x30]),
        _ => (16, 0x0C, vec![0x0A, random.pick(&[1, 2, 3, 5, 6]), 0, 0]),
    };
    let code = command[0];
    let is_arc = code == 0x08 || code == 0x09;
    let is_same = |other: u8| other == code || (is_arc && (other == 0x08 || other == 0x09));
    if is_arc {
        // Arcs need a place and a transition.
        insert_behind(draft, 0x05, vec![0x04, 0]);
        insert_behind(draft, 0x09, vec![0x06, 0, 0, 0, 0, 0]);
    }
    let present = draft.commands.iter().filter(|c| is_same(c[0])).count();
    let wanted = limit + random.pick(&[0, 1, 1]);
    for _ in present..wanted {
        insert_behind(draft, last, command.clone());
    }
    if random.percent(15) {
        // One more where it is out of order.
        draft.commands.push(command.clone());
    }
    let mut bytes = draft.bytes();
    if random.percent(20) {
        // Cut off somewhere in the last such command.
        let end = draft.commands.iter().rposition(|c| is_same(c[0]));
        let start: usize = draft.commands[..end.unwrap_or(0)]
            .iter()
            .map(Vec::len)
            .sum();
        bytes.truncate(start + random.range(1, command.len()));
    }
    bytes
}

/// Inserts a command behind all those with a code up to `last`.
fn insert_behind(draft: &mut Draft, last: u8, command: Vec<u8>) {
    let at = draft.commands.iter().rposition(|c| c[0] <= last);
    draft.commands.insert(at.map_or(0, |at| at + 1), command);
}

/// A term or bag term of depth 15 to 18, at times with an odd byte where it
/// is deepest.
pub fn depth(random: &mut Random) -> Vec<u8> {
    let mut draft = Draft::default();
    draft.sort(2);
    draft.operation(&[0], 0, &[1, 0]);
    draft.operation(&[1], 1, &[1, 0]);
    draft.operation(&[1, 0], 1, &[0, 1, 1, 0]);
    draft.operation(&[], 0, &[1]);
    draft.bag_operation(1, 1, &[1, 0, 2, 1]);
    draft.place(1);
    draft.tokens(0, 0, 5);
    draft.tokens(0, 1, 5);
    draft.transition(&[1, 0]);
    let depth = random.pick(&[15, 16, 16, 17, 17, 17, 18]);
    let before = draft.length();
    if random.percent(40) {
        let term = deep_term(random, depth, 0);
        draft.guard(&term);
    } else {
        let bag = deep_bag(random, depth);
        if random.percent(50) {
            draft.take(0, &bag);
        } else {
            draft.put(0, &bag);
        }
    }
    let after = draft.length();
    draft.claim(1, 0);
    draft.weigh_element(0, 1, 1);
    let mut bytes = draft.bytes();
    if random.percent(15) {
        bytes.truncate(random.range(before, after));
    }
    bytes
}

/// The deepest part of a term or bag term: the one given, or an odd one.
fn deepest(random: &mut Random, usual: Vec<u8>) -> Vec<u8> {
    let odd = [
        0x1F, 0x20, 0x21, 0x22, 0x23, 0x23, 0x24, 0x24, 0x25, 0x25, 0x26, 0x2F, 0x30, 0x31, 0x32,
        0x33, 0x34, 0x08,
    ];
    match random.below(3) {
        0 => vec![random.pick(&odd), random.below(2) as u8, 0],
        _ => usual,
    }
}

/// A variable, a constant or an operation in the net of [`depth`].
fn leaf(random: &mut Random, sort: usize) -> Vec<u8> {
    match random.below(3) {
        0 if sort == 0 => draft::apply(3, &[]),
        1 => draft::constant(sort, random.below(2)),
        _ => draft::variable(1 - sort),
    }
}

/// A term of exactly the given depth in the net of [`depth`], written from
/// the inside.
fn deep_term(random: &mut Random, depth: usize, sort: usize) -> Vec<u8> {
    let mut sorts = vec![sort];
    sorts.resize_with(depth, || random.below(2));
    let innermost = leaf(random, sorts[depth - 1]);
    let mut term = deepest(random, innermost);
    for pair in sorts.windows(2).rev() {
        let other = leaf(random, pair[1]);
        term = match (pair[0], pair[1], random.below(4)) {
            (1, 1, 0 | 1) => draft::apply(1, &[term]),
            (1, 1, _) => draft::apply(2, &[term, leaf(random, 0)]),
            (1, _, _) => draft::apply(2, &[leaf(random, 1), term]),
            (_, sort, 0) => draft::equal(sort, &term, &other),
            (_, 1, _) => draft::equal(1, &other, &term),
            (_, _, 1) if random.percent(50) => draft::apply(0, &[term]),
            (_, _, 1) => draft::not(&term),
            (_, _, 2) => draft::and(&term, &other),
            _ => draft::and(&other, &term),
        };
    }
    term
}

/// A bag term of exactly the given depth in the net of [`depth`].
fn deep_bag(random: &mut Random, depth: usize) -> Vec<u8> {
    let sums = match random.percent(20) {
        true => depth - 1,
        false => random.below(depth),
    };
    let below = depth - sums;
    let mut bag = match random.below(2) {
        _ if below == 1 => deepest(random, draft::empty()),
        0 => draft::token(&deep_term(random, below - 1, 1)),
        _ => draft::flexible(0, &deep_term(random, below - 1, 1)),
    };
    for _ in 0..sums {
        bag = match random.below(2) {
            0 => draft::sum(&bag, &draft::empty()),
            _ => draft::sum(&draft::empty(), &bag),
        };
    }
    bag
}

/// A transition with about as many modes as there may be.
pub fn modes(random: &mut Random) -> Vec<u8> {
    let lists: [&[usize]; 12] = [
        &[64, 64, 16],
        &[16, 16, 16, 16],
        &[64, 64, 17],
        &[40, 40, 41],
        &[64, 1, 32, 33],
        &[16, 16, 16, 17],
        &[63, 64, 64],
        &[64, 64, 64, 64],
        &[2, 64, 8, 64],
        &[2, 64, 8, 65],
        &[41, 1, 39, 41],
        &[31, 33, 64],
    ];
    let mut sizes = random.pick(&lists).to_vec();
    random.shuffle(&mut sizes);
    let mut draft = Draft::default();
    for &size in &sizes {
        draft.sort(size);
    }
    draft.place(1);
    draft.tokens(0, 0, 3);
    let variables: Vec<usize> = (1..=sizes.len()).collect();
    draft.transition(&variables);
    if random.percent(50) {
        let last = random.below(sizes[0]);
        draft.guard(&draft::equal(
            1,
            &draft::variable(0),
            &draft::constant(1, last),
        ));
    }
    draft.take(0, &draft::token(&draft::variable(0)));
    draft.put(0, &draft::token(&draft::variable(0)));
    draft.claim(random.pick(&[1, 2, 3]), 0);
    draft.weigh_element(0, 0, 7);
    let mut bytes = draft.bytes();
    if random.percent(20) {
        // A bad, a missing or an unused sort byte comes first.
        let at = draft.commands.iter().position(|c| c[0] == 0x06);
        let start: usize = draft.commands[..at.unwrap_or(0)].iter().map(Vec::len).sum();
        if random.percent(60) {
            bytes[start + random.range(1, 5)] = random.pick(&[0, 1, 3, 5, 8, 255]);
        } else {
            bytes.truncate(start + random.range(2, 6));
        }
    }
    bytes
}

/// A small net with one operand at the edge of its range, or beyond it.
pub fn operand(random: &mut Random, draft: &mut Draft) -> Vec<u8> {
    let edge = random.below(10);
    if edge < 2 {
        let size = random.pick(&[0, 1, 63, 64, 65, 128, 255]);
        insert_behind(draft, 0x01, vec![0x01, size]);
    } else if edge == 2 {
        let mut command = vec![0x02, random.below(5) as u8];
        command.extend([0; 9].map(|_| random.below(3) as u8));
        insert_behind(draft, 0x03, command);
    } else if edge == 3 {
        let mut command = vec![0x06, random.below(7) as u8];
        command.extend([0; 4].map(|_| random.below(3) as u8));
        insert_behind(draft, 0x09, command);
    } else {
        let kind = random.pick(&[0, 1, 2, 3, 4, 4, 4, 4, 5, 6, 7, 255]);
        let moduli = [0, 1, 2, 3, 255, 256, 65_535];
        let modulus = match kind {
            4 => random.pick(&moduli),
            _ if random.percent(15) => random.pick(&moduli),
            _ => 0,
        };
        let edges = [
            0,
            1,
            2,
            -1,
            modulus as i64 - 1,
            modulus as i64,
            1_000_000,
            1_000_001,
            -1_000_000,
            -1_000_001,
            65_534,
            65_535,
            65_536,
            i64::from(i32::MIN),
            i64::from(i32::MAX),
        ];
        insert_behind(draft, 0x05, vec![0x04, 0]);
        draft.claim(kind, modulus);
        for _ in 0..random.range(1, 3) {
            if random.percent(50) {
                draft.weigh_place(random.below(2), random.pick(&edges));
            } else {
                let (place, element) = (random.below(2), random.below(3));
                draft.weigh_element(place, element, random.pick(&edges));
            }
        }
    }
    let mut bytes = draft.bytes();
    if random.percent(15) {
        bytes.truncate(bytes.len() - random.below(bytes.len().min(12)));
    }
    bytes
}

/// Bytes that mostly mean something, in no order at all.
pub fn noise(random: &mut Random) -> Vec<u8> {
    let all = random.percent(30);
    (0..random.below(40))
        .map(|_| match all {
            true => random.byte(),
            false => random.pick(&TELLING),
        })
        .collect()
}

/// A file of exactly as many bytes as there may be, or about so.
pub fn length(random: &mut Random, draft: &mut Draft) -> Vec<u8> {
    if draft.commands.iter().all(|command| command[0] != 0x0A) {
        draft.claim(3, 0);
    }
    insert_behind(draft, 0x05, vec![0x04, 0]);
    draft.pad(MAX_FILE, random.below(2) as i64);
    let mut bytes = draft.bytes();
    match random.below(8) {
        0 => bytes.push(random.byte()),
        1 => bytes.truncate(MAX_FILE - random.range(1, 8)),
        2 => bytes.extend(vec![0; random.range(1, 5_000)]),
        3 => bytes = vec![random.pick(&TELLING); MAX_FILE + random.below(2)],
        4 => {
            // The end and then more bytes, up to the limit or beyond it.
            bytes = vec![0x0F; MAX_FILE + random.below(2)];
        }
        5 => {
            let at = random.below(bytes.len());
            bytes[at] = random.byte();
        }
        _ => {}
    }
    bytes
}
