//! Cases for measuring how the cost grows: in each group one number grows and
//! the others stay. All claims are accepted, and the traces are done.

use super::draft::{self, Draft, BACK, END};
use super::Case;
use crate::net::MAX_FILE;

/// A case, how often it is run to be measured, and its numbers.
pub struct Measured {
    pub group: &'static str,
    pub name: String,
    pub runs: usize,
    pub numbers: Vec<(&'static str, usize)>,
    pub case: Case,
}

/// All cases, group by group.
pub fn cases() -> Vec<Measured> {
    let mut cases = Vec::new();
    for more in [1, 4, 16] {
        cases.push(judged("modes", more, 3, 2, 16, 1));
    }
    for depth in 1..=5 {
        cases.push(judged("bytes", 16, depth, 2, 4, 1));
    }
    for arcs in [1, 2, 4, 8] {
        cases.push(judged("arcs", 16, 2, arcs, 4, 1));
    }
    for claims in [1, 2, 4, 8, 16] {
        cases.push(judged("claims", 16, 3, 2, claims, 1));
    }
    for places in [1, 4, 16] {
        cases.push(judged("cells", 16, 3, 2, 4, places));
    }
    for elements in [1, 4, 16, 64] {
        cases.push(rows(elements));
    }
    cases.push(read("start", &Draft::default()));
    for length in [4_096, 16_384, 65_536] {
        cases.push(tokens_read(length));
    }
    for length in [4_096, 16_384, 65_536] {
        cases.push(terms_read(length));
    }
    for pairs in [585, 2_340, 9_362] {
        cases.push(replayed(pairs));
    }
    cases
}

/// The largest size of a sort.
const LARGEST: usize = 64;

/// A term with 2^`depth` variables as its parts, over an operation with two
/// arguments. `turned` names the variables in another order.
fn tree(depth: usize, turned: usize) -> Vec<u8> {
    if depth == 0 {
        return draft::variable(turned % 2);
    }
    let parts = [tree(depth - 1, turned), tree(depth - 1, turned + 1)];
    draft::apply(0, &parts)
}

/// Transitions with 4,096 × `more` modes, each with so many arcs each way
/// whose terms have 2^`depth` variables, so many claims, and so many places of
/// 64 elements. What is taken is put again: the operation is commutative.
fn judged(
    group: &'static str,
    more: usize,
    depth: usize,
    arcs: usize,
    claims: usize,
    places: usize,
) -> Measured {
    const TRANSITIONS: usize = 4;
    let mut draft = Draft::default();
    draft.sort(LARGEST);
    draft.sort(more);
    let sums = (0..LARGEST * LARGEST).map(|at| ((at / LARGEST + at % LARGEST) % LARGEST) as u8);
    draft.operation(&[1, 1], 1, &sums.collect::<Vec<u8>>());
    for _ in 0..places {
        draft.place(1);
    }
    let mut bytes = 0;
    for number in 0..TRANSITIONS {
        draft.transition(&[1, 1, 2]);
        bytes = 0;
        for arc in 0..arcs {
            let bags = [0, 1].map(|turned| draft::token(&tree(depth, turned)));
            bytes += bags[0].len() + bags[1].len();
            draft.take((number + arc) % places, &bags[0]);
            draft.put((number + arc) % places, &bags[1]);
        }
    }
    for _ in 0..claims {
        draft.claim(1, 0);
        for place in 0..places {
            draft.weigh_place(place, 1_000);
        }
    }
    let modes = LARGEST * LARGEST * more;
    Measured {
        group,
        name: format!("{group}-{more}-{depth}-{arcs}-{claims}-{places}"),
        runs: 1,
        numbers: vec![
            ("modes", modes),
            ("bytes", bytes),
            ("claims", claims),
            ("cells", LARGEST * places),
        ],
        case: without_trace(&draft),
    }
}

/// Transitions with 65,536 modes that take and put a bag operation's row of so
/// many elements.
fn rows(elements: usize) -> Measured {
    const TRANSITIONS: usize = 4;
    const CLAIMS: usize = 4;
    let mut draft = Draft::default();
    draft.sort(LARGEST);
    draft.sort(16);
    draft.sort(elements);
    draft.bag_operation(1, 3, &vec![1; LARGEST * elements]);
    draft.place(3);
    let bag = draft::flexible(0, &draft::variable(0));
    for _ in 0..TRANSITIONS {
        draft.transition(&[1, 1, 2]);
        draft.take(0, &bag);
        draft.put(0, &bag);
    }
    for _ in 0..CLAIMS {
        draft.claim(1, 0);
        draft.weigh_place(0, 1_000);
    }
    Measured {
        group: "rows",
        name: format!("rows-{elements}"),
        runs: 1,
        numbers: vec![
            ("modes", 65_536),
            ("bytes", 2 * bag.len()),
            ("claims", CLAIMS),
            ("row", elements),
        ],
        case: without_trace(&draft),
    }
}

/// A file of so many bytes, nearly all of them initial tokens.
fn tokens_read(length: usize) -> Measured {
    let mut draft = Draft::default();
    draft.sort(LARGEST);
    draft.place(1);
    let tokens = (length - draft.length()) / 5;
    for number in 0..tokens {
        draft.tokens(0, number % LARGEST, 0);
    }
    read("reading-tokens", &draft)
}

/// A file of so many bytes, nearly all of them terms.
fn terms_read(length: usize) -> Measured {
    let mut draft = Draft::default();
    draft.sort(2);
    draft.operation(&[1, 1], 1, &[0, 1, 1, 0]);
    draft.place(1);
    // 128 arcs at most: a term of 127 variables and a bag has 511 bytes.
    let bag = draft::token(&tree(7, 0));
    let mut arcs = 0;
    while draft.length() + 6 + 2 + bag.len() <= length {
        if arcs % 4 == 0 {
            draft.transition(&[1, 1]);
        }
        draft.take(0, &bag);
        arcs += 1;
    }
    read("reading-terms", &draft)
}

/// A case in which reading is all that costs.
fn read(group: &'static str, draft: &Draft) -> Measured {
    Measured {
        group,
        name: format!("{group}-{}", draft.length()),
        runs: 1000,
        numbers: vec![("bytes", draft.length())],
        case: without_trace(draft),
    }
}

/// A trace of so many fires, each undone at once.
fn replayed(pairs: usize) -> Measured {
    let mut draft = Draft::default();
    draft.place(0);
    draft.place(0);
    draft.tokens(0, 0, 1);
    draft.transition(&[]);
    draft.take(0, &draft::token(&draft::constant(0, 0)));
    draft.put(1, &draft::token(&draft::constant(0, 0)));
    let mut trace = Vec::with_capacity(MAX_FILE);
    for _ in 0..pairs {
        trace.extend(draft::fire(0, [0; 4]));
        trace.push(BACK);
    }
    trace.push(END);
    Measured {
        group: "trace",
        name: format!("trace-{pairs}"),
        runs: 20,
        numbers: vec![("commands", 2 * pairs), ("bytes", trace.len())],
        case: Case {
            net: Some(draft.bytes()),
            trace: Some(trace),
        },
    }
}

/// A net with an empty trace.
fn without_trace(draft: &Draft) -> Case {
    Case {
        net: Some(draft.bytes()),
        trace: Some(vec![END]),
    }
}
