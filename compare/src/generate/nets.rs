//! Random nets that use every feature of the file.

use super::claims::add_claims;
use super::draft::{self, Draft};
use super::random::Random;

/// How large a net is to become. Counts are chosen up to these numbers.
#[derive(Clone, Copy)]
pub struct Shape {
    pub sorts: usize,
    pub size: usize,
    pub operations: usize,
    pub bag_operations: usize,
    pub places: usize,
    pub transitions: usize,
    pub arcs: usize,
    pub claims: usize,
    /// The usual depth of terms.
    pub depth: usize,
    /// Modes over all transitions.
    pub modes: usize,
    /// Whether the counts are exactly the numbers above.
    pub exact: bool,
    /// How many operands in 1,000 are chosen without care.
    pub slips: usize,
}

const TINY: Shape = Shape {
    sorts: 1,
    size: 3,
    operations: 1,
    bag_operations: 1,
    places: 2,
    transitions: 2,
    arcs: 4,
    claims: 3,
    depth: 2,
    modes: 40,
    exact: false,
    slips: 0,
};

const SMALL: Shape = Shape {
    sorts: 3,
    size: 4,
    operations: 4,
    bag_operations: 2,
    places: 5,
    transitions: 4,
    arcs: 12,
    claims: 5,
    depth: 3,
    modes: 150,
    ..TINY
};

const MEDIUM: Shape = Shape {
    sorts: 5,
    size: 8,
    operations: 8,
    bag_operations: 4,
    places: 8,
    transitions: 8,
    arcs: 32,
    claims: 8,
    depth: 4,
    modes: 500,
    ..TINY
};

const FULL: Shape = Shape {
    sorts: 7,
    size: 6,
    operations: 32,
    bag_operations: 8,
    places: 16,
    transitions: 32,
    arcs: 128,
    claims: 16,
    depth: 4,
    modes: 1_000,
    exact: true,
    slips: 0,
};

const WIDE: Shape = Shape {
    sorts: 4,
    size: 64,
    modes: 4_000,
    ..MEDIUM
};

const MANY_MODES: Shape = Shape {
    sorts: 4,
    size: 20,
    transitions: 3,
    modes: 100_000,
    claims: 4,
    ..SMALL
};

/// One of the shapes, the smaller ones more often.
pub fn shape(random: &mut Random) -> Shape {
    let shapes = [TINY, SMALL, MEDIUM, FULL, WIDE, MANY_MODES];
    shapes[random.share(&[200, 560, 200, 20, 17, 3])]
}

/// A small shape.
pub fn small_shape(random: &mut Random) -> Shape {
    random.pick(&[TINY, SMALL, SMALL])
}

/// A random net; valid if the shape has no slips.
pub fn net(random: &mut Random, shape: &Shape) -> Draft {
    let heavy = random.percent(6);
    let mut builder = Builder {
        random,
        shape: *shape,
        draft: Draft::default(),
        sorts: vec![2],
        operations: Vec::new(),
        bag_operations: Vec::new(),
        places: Vec::new(),
        variables: Vec::new(),
        modes: shape.modes,
        heavy,
    };
    builder.declare_sorts();
    builder.declare_operations();
    builder.declare_places();
    builder.declare_transitions();
    let mut draft = builder.draft;
    let claims = match shape.exact {
        true => shape.claims,
        false => random.range(0, shape.claims),
    };
    add_claims(random, &mut draft, claims);
    draft
}

struct Builder<'a> {
    random: &'a mut Random,
    shape: Shape,
    draft: Draft,
    /// The sizes of the sorts.
    sorts: Vec<usize>,
    /// The argument sorts and the result sort.
    operations: Vec<(Vec<usize>, usize)>,
    bag_operations: Vec<(usize, usize)>,
    places: Vec<usize>,
    /// The sorts of the last transition's variables.
    variables: Vec<usize>,
    /// Modes that may still be spent.
    modes: usize,
    /// Whether very many tokens are moved.
    heavy: bool,
}

impl Builder<'_> {
    fn count(&mut self, most: usize) -> usize {
        if self.shape.exact {
            most
        } else if self.random.percent(85) {
            self.random.range(most.div_ceil(3), most)
        } else {
            self.random.range(0, most)
        }
    }

    /// The number itself, or with the shape's slips some other.
    fn slip(&mut self, number: usize) -> usize {
        if self.random.below(1000) >= self.shape.slips {
            return number;
        }
        match self.random.below(4) {
            0 => number + 1,
            1 => self.random.below(8),
            2 => number.wrapping_sub(1) & 255,
            _ => self.random.below(256),
        }
    }

    /// The sort itself, or with the shape's slips any sort.
    fn slip_sort(&mut self, sort: usize) -> usize {
        if self.random.below(1000) >= self.shape.slips {
            return sort;
        }
        self.sort()
    }

    fn sort(&mut self) -> usize {
        self.random.below(self.sorts.len())
    }

    fn declare_sorts(&mut self) {
        for _ in 0..self.count(self.shape.sorts) {
            let size = match self.random.below(20) {
                0 => 1,
                1 => self.shape.size,
                2 if self.shape.size >= 8 => 64,
                _ => self.random.range(1, self.shape.size),
            };
            self.sorts.push(size);
            let size = self.slip(size);
            self.draft.sort(size);
        }
    }

    fn declare_operations(&mut self) {
        let operations = self.count(self.shape.operations);
        let bag_operations = self.count(self.shape.bag_operations);
        let mut order = vec![false; operations];
        order.resize(operations + bag_operations, true);
        self.random.shuffle(&mut order);
        for is_bag_operation in order {
            if is_bag_operation {
                self.declare_bag_operation();
            } else {
                self.declare_operation();
            }
        }
    }

    fn declare_operation(&mut self) {
        let number = self.random.share(&[15, 45, 40]);
        let mut arguments: Vec<usize> = (0..number).map(|_| self.sort()).collect();
        let mut length: usize = arguments.iter().map(|&s| self.sorts[s]).product();
        if self.draft.length() + length > 16_000 {
            arguments.clear();
            length = 1;
        }
        let result = match arguments.first() {
            Some(&sort) if self.random.percent(50) => sort,
            _ => self.sort(),
        };
        let size = self.sorts[result];
        let shift = self.random.below(size);
        let style = self.random.below(4);
        let table: Vec<u8> = (0..length)
            .map(|entry| {
                let element = match style {
                    0 => (entry + shift) % size,
                    1 => (entry / size + entry % size + shift) % size,
                    _ => self.random.below(size),
                };
                self.slip(element) as u8
            })
            .collect();
        let written: Vec<usize> = arguments.iter().map(|&sort| self.slip(sort)).collect();
        let written_result = self.slip(result);
        self.draft.operation(&written, written_result, &table);
        self.operations.push((arguments, result));
    }

    fn declare_bag_operation(&mut self) {
        let (mut argument, mut result) = (self.sort(), self.sort());
        if self.draft.length() + self.sorts[argument] * self.sorts[result] > 24_000 {
            (argument, result) = (0, 0);
        }
        let (rows, width) = (self.sorts[argument], self.sorts[result]);
        let style = self.random.below(6);
        let table: Vec<u8> = (0..rows * width)
            .map(|entry| {
                let (row, element) = (entry / width, entry % width);
                match style {
                    _ if self.heavy => 255 - self.random.below(64) as u8,
                    0 => u8::from(row % width == element),
                    1 => u8::from(element.abs_diff(row) == 1),
                    2 => 1,
                    3 if self.random.percent(10) => self.random.byte(),
                    _ => [0, 0, 0, 1, 1, 2, 3][self.random.below(7)],
                }
            })
            .collect();
        let written = (self.slip(argument), self.slip(result));
        self.draft.bag_operation(written.0, written.1, &table);
        self.bag_operations.push((argument, result));
    }

    fn declare_places(&mut self) {
        let places = self.count(self.shape.places);
        let at_once = self.random.percent(60);
        for place in 0..places {
            let sort = match self.places.first() {
                Some(&sort) if self.random.percent(40) => sort,
                _ => self.sort(),
            };
            self.places.push(sort);
            let written = self.slip(sort);
            self.draft.place(written);
            if at_once {
                self.initial_tokens(place);
            }
        }
        if !at_once {
            for _ in 0..places {
                let place = self.random.below(places);
                self.initial_tokens(place);
            }
        }
    }

    fn initial_tokens(&mut self, place: usize) {
        let size = self.sorts[self.places[place]];
        for _ in 0..self.random.below(size.min(10) + 2) {
            let element = self.random.below(size);
            let count = match self.random.share(&[55, 20, 5, 13, 7]) {
                0 => self.random.range(1, 4),
                1 => self.random.range(5, 400),
                2 => 0,
                3 => 65_535 - self.random.below(6),
                _ => self.random.below(65_536),
            };
            let (place, element) = (self.slip(place), self.slip(element));
            self.draft.tokens(place, element, count);
        }
    }

    fn declare_transitions(&mut self) {
        let transitions = self.count(self.shape.transitions);
        let mut arcs = self.count(self.shape.arcs);
        for number in 0..transitions {
            self.declare_transition(transitions - number);
            if self.random.percent(45) {
                self.guard();
            }
            let share = match number + 1 == transitions {
                true => arcs,
                false => self.random.below(2 * arcs / (transitions - number) + 1),
            };
            let share = share.min(arcs);
            if !self.places.is_empty() {
                arcs -= share;
                self.arcs(share);
            }
        }
    }

    /// A transition with variables that leave modes for the `left` ones.
    fn declare_transition(&mut self, left: usize) {
        let most = (self.modes / left * 2).clamp(1, 65_536).min(self.modes);
        let wanted = self.random.share(&[12, 35, 30, 13, 10]);
        let mut product = 1;
        self.variables.clear();
        for _ in 0..wanted {
            // Rather a sort that some place has.
            let sort = match self.places.len() {
                0 => self.sort(),
                places if self.random.percent(80) => self.places[self.random.below(places)],
                _ => self.sort(),
            };
            if product * self.sorts[sort] <= most {
                product *= self.sorts[sort];
                self.variables.push(sort);
            }
        }
        self.modes = self.modes.saturating_sub(product);
        let written: Vec<usize> = (0..self.variables.len())
            .map(|variable| self.slip(self.variables[variable]))
            .collect();
        self.draft.transition(&written);
    }

    fn guard(&mut self) {
        let term = match self.random.below(4) {
            0 if self.random.percent(20) => self.deep_term(0, 16),
            0 => draft::not(&self.term(0, self.shape.depth)),
            1 => self.comparison(),
            2 => draft::not(&self.comparison()),
            _ => self.term(0, self.shape.depth + 1),
        };
        self.draft.guard(&term);
    }

    /// An equality of a variable, if there is one.
    fn comparison(&mut self) -> Vec<u8> {
        if self.variables.is_empty() {
            return self.term(0, 2);
        }
        let variable = self.random.below(self.variables.len());
        let sort = self.variables[variable];
        let other = self.term(sort, 2);
        draft::equal(sort, &draft::variable(variable), &other)
    }

    /// Arcs of the last transition. Many move what they take to another
    /// place, so that something stays the same.
    fn arcs(&mut self, number: usize) {
        let moving = self.random.percent(70);
        let takes = self.random.pick(&[0, 50, 50, 50, 50, 50, 100]);
        let mut left = number;
        while left > 0 {
            let place = self.random.below(self.places.len());
            let bag = self.any_bag(self.places[place]);
            if moving && left >= 2 && self.random.percent(85) {
                let target = self.place_like(place);
                let (place, target) = (self.slip(place), self.slip(target));
                if self.random.percent(50) {
                    self.draft.take(place, &bag);
                    self.draft.put(target, &bag);
                } else {
                    self.draft.put(target, &bag);
                    self.draft.take(place, &bag);
                }
                left -= 2;
            } else {
                let place = self.slip(place);
                if self.random.percent(takes) {
                    self.draft.take(place, &bag);
                } else {
                    self.draft.put(place, &bag);
                }
                left -= 1;
            }
        }
    }

    /// A place of the same sort, which may be the same place.
    fn place_like(&mut self, place: usize) -> usize {
        let alike: Vec<usize> = (0..self.places.len())
            .filter(|&other| self.places[other] == self.places[place])
            .collect();
        self.random.pick(&alike)
    }

    fn any_bag(&mut self, sort: usize) -> Vec<u8> {
        if self.random.percent(3) {
            let depth = self.random.range(14, 16);
            self.deep_bag(sort, depth)
        } else {
            self.bag(sort, self.shape.depth + 1)
        }
    }

    /// A bag term of at most the given depth.
    fn bag(&mut self, sort: usize, depth: usize) -> Vec<u8> {
        let sort = self.slip_sort(sort);
        if depth == 1 {
            return draft::empty();
        }
        let shares = match self.heavy {
            true => [2, 18, 40, 40],
            false => [4, 60, 16, 20],
        };
        match self.random.share(&shares) {
            0 => draft::empty(),
            1 => draft::token(&self.term(sort, depth - 1)),
            2 => draft::sum(&self.bag(sort, depth - 1), &self.bag(sort, depth - 1)),
            _ => self.flexible(sort, depth, false),
        }
    }

    /// A bag term of exactly the given depth, where that can be had.
    fn deep_bag(&mut self, sort: usize, depth: usize) -> Vec<u8> {
        match self.random.below(4) {
            _ if depth == 1 => draft::empty(),
            0 => draft::token(&self.deep_term(sort, depth - 1)),
            1 => self.flexible(sort, depth, true),
            _ => {
                let deep = self.deep_bag(sort, depth - 1);
                let flat = self.bag(sort, 2.min(depth - 1));
                if self.random.percent(50) {
                    draft::sum(&deep, &flat)
                } else {
                    draft::sum(&flat, &deep)
                }
            }
        }
    }

    /// A flexible arc, or a token where no bag operation has that sort.
    fn flexible(&mut self, sort: usize, depth: usize, deep: bool) -> Vec<u8> {
        let fitting: Vec<usize> = (0..self.bag_operations.len())
            .filter(|&number| self.bag_operations[number].1 == sort)
            .collect();
        let number = match fitting.is_empty() {
            true => None,
            false => Some(self.random.pick(&fitting)),
        };
        let argument = number.map_or(sort, |number| self.bag_operations[number].0);
        let term = match deep {
            true => self.deep_term(argument, depth - 1),
            false => self.term(argument, depth - 1),
        };
        match number {
            Some(number) => draft::flexible(self.slip(number), &term),
            None => draft::token(&term),
        }
    }

    /// A term of at most the given depth.
    fn term(&mut self, sort: usize, depth: usize) -> Vec<u8> {
        let sort = self.slip_sort(sort);
        if depth <= 1 || self.random.percent(40) {
            self.leaf(sort)
        } else {
            self.branch(sort, depth, false)
        }
    }

    /// A term of exactly the given depth, where that can be had.
    fn deep_term(&mut self, sort: usize, depth: usize) -> Vec<u8> {
        if depth <= 1 {
            self.leaf(sort)
        } else {
            self.branch(sort, depth, true)
        }
    }

    /// A variable, a constant or an operation without arguments.
    fn leaf(&mut self, sort: usize) -> Vec<u8> {
        let variables: Vec<usize> = (0..self.variables.len())
            .filter(|&variable| self.variables[variable] == sort)
            .collect();
        let operations = self.operations_for(sort, true);
        if !variables.is_empty() && self.random.percent(75) {
            let variable = self.random.pick(&variables);
            draft::variable(self.slip(variable))
        } else if !operations.is_empty() && self.random.percent(40) {
            let operation = self.random.pick(&operations);
            draft::apply(self.slip(operation), &[])
        } else {
            let element = self.random.below(self.sorts[sort]);
            draft::constant(self.slip(sort), self.slip(element))
        }
    }

    /// A term with parts, or a leaf where there is none of that sort.
    fn branch(&mut self, sort: usize, depth: usize, deep: bool) -> Vec<u8> {
        let operations = self.operations_for(sort, false);
        let logic = sort == 0 && (operations.is_empty() || self.random.percent(60));
        if logic {
            let choice = match deep {
                true => self.random.below(5),
                false => self.random.below(3),
            };
            return match choice {
                0 => {
                    let sort = self.sort();
                    let parts = self.parts(&[sort, sort], depth, deep);
                    draft::equal(self.slip(sort), &parts[0], &parts[1])
                }
                1 | 3 => draft::not(&self.parts(&[0], depth, deep)[0]),
                _ => {
                    let parts = self.parts(&[0, 0], depth, deep);
                    draft::and(&parts[0], &parts[1])
                }
            };
        }
        if operations.is_empty() {
            return self.leaf(sort);
        }
        let operation = self.random.pick(&operations);
        let arguments = self.operations[operation].0.clone();
        let parts = self.parts(&arguments, depth, deep);
        draft::apply(self.slip(operation), &parts)
    }

    /// The parts of a term of the given depth; if deep, one of them goes all
    /// the way down.
    fn parts(&mut self, sorts: &[usize], depth: usize, deep: bool) -> Vec<Vec<u8>> {
        let chosen = self.random.below(sorts.len());
        sorts
            .iter()
            .enumerate()
            .map(|(part, &sort)| match deep {
                true if part == chosen => self.deep_term(sort, depth - 1),
                true => self.term(sort, 2.min(depth - 1)),
                false => self.term(sort, depth - 1),
            })
            .collect()
    }

    fn operations_for(&self, sort: usize, constants: bool) -> Vec<usize> {
        (0..self.operations.len())
            .filter(|&number| {
                let (arguments, result) = &self.operations[number];
                *result == sort && arguments.is_empty() == constants
            })
            .collect()
    }
}

/// A net whose one transition takes and puts about as many tokens of one cell
/// as it can hold, or more.
pub fn flood(random: &mut Random) -> Draft {
    let mut net = Draft::default();
    net.bag_operation(0, 0, &[255, 0, 255, 255]);
    net.place(0);
    net.place(0);
    for cell in 0..4 {
        let count = random.pick(&[65_535, 65_535, 65_535, 65_534, 65_280, 1, 0]);
        net.tokens(cell / 2, cell % 2, count);
    }
    net.transition(&[0]);
    for put in [false, true] {
        for _ in 0..random.below(3) {
            // 257 times 255 is 65,535.
            let parts = random.pick(&[256, 257, 257, 257, 258, 514, 1]);
            let mut bags = vec![draft::flexible(0, &draft::variable(0)); parts];
            let single = random.below(2);
            bags.resize(
                parts + random.below(3),
                draft::token(&draft::constant(0, single)),
            );
            let place = random.below(2);
            if put {
                net.put(place, &draft::sum_all(&bags));
            } else {
                net.take(place, &draft::sum_all(&bags));
            }
        }
    }
    for _ in 0..random.range(1, 4) {
        let kind = random.pick(&[1, 2, 2, 3, 3, 4, 5, 6]);
        net.claim(kind, if kind == 4 { 65_535 } else { 0 });
        for place in 0..2 {
            let weight = match kind {
                4 => random.pick(&[65_534, 65_533, 1, 0]),
                5 | 6 => random.below(2) as i64,
                _ => random.pick(&[1_000_000, 1_000_000, 999_999, -1_000_000, 0]),
            };
            net.weigh_place(place, weight);
        }
    }
    net
}
