//! Terms and bag terms: what they are worth in a mode.

use crate::net::{Mode, Net};

/// A term whose sorts have been checked. The value is an element of its sort.
#[derive(Debug)]
pub enum Term {
    Variable(usize),
    /// A constant, or an operation without arguments.
    Constant(usize),
    Unary(usize, Box<Term>),
    Binary(usize, Box<[Term; 2]>),
    Equal(Box<[Term; 2]>),
    Not(Box<Term>),
    And(Box<[Term; 2]>),
}

impl Term {
    pub fn value(&self, net: &Net, mode: &Mode) -> usize {
        match self {
            Term::Variable(number) => usize::from(mode[*number]),
            Term::Constant(element) => *element,
            Term::Unary(operation, argument) => {
                let x = argument.value(net, mode);
                usize::from(net.operations[*operation].table[x])
            }
            Term::Binary(operation, arguments) => {
                let operation = &net.operations[*operation];
                let x = arguments[0].value(net, mode);
                let y = arguments[1].value(net, mode);
                usize::from(operation.table[x * operation.width + y])
            }
            Term::Equal(sides) => {
                usize::from(sides[0].value(net, mode) == sides[1].value(net, mode))
            }
            Term::Not(part) => 1 - part.value(net, mode),
            Term::And(parts) => parts[0].value(net, mode) & parts[1].value(net, mode),
        }
    }
}

/// A bag term whose sorts have been checked.
#[derive(Debug)]
pub enum Bag {
    Empty,
    Token(Term),
    Sum(Box<[Bag; 2]>),
    Flexible(usize, Term),
}

impl Bag {
    /// The sum of the bag's weights, with one weight per element.
    pub fn weigh(&self, net: &Net, mode: &Mode, weights: &[i64]) -> i64 {
        match self {
            Bag::Empty => 0,
            Bag::Token(term) => weights[term.value(net, mode)],
            Bag::Sum(parts) => {
                parts[0].weigh(net, mode, weights) + parts[1].weigh(net, mode, weights)
            }
            Bag::Flexible(operation, term) => {
                let row = net.bag_operations[*operation].row(term.value(net, mode));
                row.iter()
                    .zip(weights)
                    .map(|(&count, weight)| i64::from(count) * weight)
                    .sum()
            }
        }
    }

    /// Adds the bag to counts, one per element.
    pub fn add_to(&self, net: &Net, mode: &Mode, counts: &mut [i64]) {
        match self {
            Bag::Empty => {}
            Bag::Token(term) => counts[term.value(net, mode)] += 1,
            Bag::Sum(parts) => {
                parts[0].add_to(net, mode, counts);
                parts[1].add_to(net, mode, counts);
            }
            Bag::Flexible(operation, term) => {
                let row = net.bag_operations[*operation].row(term.value(net, mode));
                for (sum, &count) in counts.iter_mut().zip(row) {
                    *sum += i64::from(count);
                }
            }
        }
    }
}
