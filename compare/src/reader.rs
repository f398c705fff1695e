//! Reading a net file: every check in byte order, the first that fails is the
//! answer.

use std::fmt;

use crate::net::{
    Arc, BagOperation, Claim, Kind, Net, Operation, Transition, CELLS, MAX_FILE, MAX_MODES,
    PLACE_CELLS,
};
use crate::term::{Bag, Term};

const MAX_SORTS: usize = 7;
const MAX_OPERATIONS: usize = 32;
const MAX_BAG_OPERATIONS: usize = 8;
const MAX_PLACES: usize = 16;
const MAX_TRANSITIONS: usize = 32;
const MAX_ARCS: usize = 128;
const MAX_CLAIMS: usize = 16;
const MAX_DEPTH: usize = 16;

#[derive(Clone, Copy, Debug, PartialEq, Eq)]
pub enum Stage {
    File,
    Command,
    Term,
}

impl fmt::Display for Stage {
    fn fmt(&self, f: &mut fmt::Formatter<'_>) -> fmt::Result {
        f.write_str(match self {
            Stage::File => "file",
            Stage::Command => "command",
            Stage::Term => "term",
        })
    }
}

/// Why a net file cannot be read.
#[derive(Clone, Copy, Debug, PartialEq, Eq)]
pub struct Fault {
    pub number: u8,
    pub place: usize,
    pub stage: Stage,
}

/// Reads a whole net file.
pub fn read_net(bytes: &[u8]) -> Result<Net, Fault> {
    if bytes.len() > MAX_FILE {
        return Err(Fault {
            number: 1,
            place: MAX_FILE,
            stage: Stage::File,
        });
    }
    let mut reader = Reader {
        bytes,
        at: 0,
        stage: Stage::Command,
        section: 1,
        guard_allowed: false,
        arcs: 0,
        net: Net::default(),
    };
    while reader.command()? {}
    Ok(reader.net)
}

struct Reader<'a> {
    bytes: &'a [u8],
    /// The next byte to be read.
    at: usize,
    stage: Stage,
    /// The open section, 1 to 5.
    section: usize,
    /// Whether the command before was a transition.
    guard_allowed: bool,
    /// Arcs of the whole file so far.
    arcs: usize,
    net: Net,
}

impl Reader<'_> {
    /// The next byte; fault 2 if there is none.
    fn byte(&mut self) -> Result<usize, Fault> {
        match self.bytes.get(self.at) {
            Some(&byte) => {
                self.at += 1;
                Ok(usize::from(byte))
            }
            None => Err(Fault {
                number: 2,
                place: self.bytes.len(),
                stage: self.stage,
            }),
        }
    }

    /// The fault `number` at the byte read last, unless the condition holds.
    fn require(&self, condition: bool, number: u8) -> Result<(), Fault> {
        if condition {
            Ok(())
        } else {
            Err(Fault {
                number,
                place: self.at - 1,
                stage: self.stage,
            })
        }
    }

    /// A byte that has to be below `end`; else fault 6.
    fn below(&mut self, end: usize) -> Result<usize, Fault> {
        let byte = self.byte()?;
        self.require(byte < end, 6)?;
        Ok(byte)
    }

    fn sort(&mut self) -> Result<usize, Fault> {
        self.below(self.net.sorts.len())
    }

    fn place(&mut self) -> Result<usize, Fault> {
        self.below(self.net.places.len())
    }

    /// A number of two bytes, the high byte first.
    fn two_bytes(&mut self) -> Result<usize, Fault> {
        let high = self.byte()?;
        let low = self.byte()?;
        Ok(high << 8 | low)
    }

    /// `used` declared sorts and `unused` bytes that are 0.
    fn sorts(&mut self, used: usize, unused: usize) -> Result<Vec<usize>, Fault> {
        let sorts = (0..used).map(|_| self.sort()).collect::<Result<_, _>>()?;
        for _ in 0..unused {
            self.below(1)?;
        }
        Ok(sorts)
    }

    /// Reads one command; false after the end.
    fn command(&mut self) -> Result<bool, Fault> {
        self.stage = Stage::Command;
        let code = self.byte()?;
        self.require(matches!(code, 0x01..=0x0C | 0x0F), 3)?;
        if code == 0x0F {
            return self.end();
        }
        self.require(self.in_order(code), 4)?;
        self.require(self.within_limit(code), 5)?;
        self.section = section(code);
        self.guard_allowed = code == 0x06;
        match code {
            0x01 => self.declare_sort()?,
            0x02 => self.declare_operation()?,
            0x03 => self.declare_bag_operation()?,
            0x04 => {
                let sort = self.sort()?;
                self.net.places.push(sort);
            }
            0x05 => self.initial_tokens()?,
            0x06 => self.declare_transition()?,
            0x07 => {
                let guard = self.guard()?;
                self.last_transition().guard = Some(guard);
            }
            0x08 => {
                let arc = self.arc()?;
                self.last_transition().takes.push(arc);
            }
            0x09 => {
                let arc = self.arc()?;
                self.last_transition().puts.push(arc);
            }
            0x0A => self.declare_claim()?,
            0x0B => self.weight_of_place()?,
            _ => self.weight_of_element()?,
        }
        Ok(true)
    }

    /// The end: nothing may follow, and no further command is read.
    fn end(&self) -> Result<bool, Fault> {
        if self.at == self.bytes.len() {
            Ok(false)
        } else {
            Err(Fault {
                number: 10,
                place: self.at,
                stage: Stage::File,
            })
        }
    }

    fn in_order(&self, code: usize) -> bool {
        section(code) >= self.section
            && match code {
                0x07 => self.guard_allowed,
                0x08 | 0x09 => !self.net.transitions.is_empty(),
                0x0B | 0x0C => !self.net.claims.is_empty(),
                _ => true,
            }
    }

    fn within_limit(&self, code: usize) -> bool {
        match code {
            0x01 => self.net.sorts.len() - 1 < MAX_SORTS,
            0x02 => self.net.operations.len() < MAX_OPERATIONS,
            0x03 => self.net.bag_operations.len() < MAX_BAG_OPERATIONS,
            0x04 => self.net.places.len() < MAX_PLACES,
            0x06 => self.net.transitions.len() < MAX_TRANSITIONS,
            0x08 | 0x09 => self.arcs < MAX_ARCS,
            0x0A => self.net.claims.len() < MAX_CLAIMS,
            _ => true,
        }
    }

    fn declare_sort(&mut self) -> Result<(), Fault> {
        let size = self.byte()?;
        self.require((1..=64).contains(&size), 6)?;
        self.net.sorts.push(size);
        Ok(())
    }

    fn declare_operation(&mut self) -> Result<(), Fault> {
        let count = self.below(3)?;
        let arguments = self.sorts(count, 2 - count)?;
        let result = self.sort()?;
        let sizes: Vec<usize> = arguments.iter().map(|&s| self.net.sorts[s]).collect();
        let length = sizes.iter().product();
        let width = sizes.last().copied().unwrap_or(1);
        let mut table = Vec::with_capacity(length);
        for _ in 0..length {
            table.push(self.below(self.net.sorts[result])? as u8);
        }
        self.net.operations.push(Operation {
            arguments,
            result,
            width,
            table,
        });
        Ok(())
    }

    fn declare_bag_operation(&mut self) -> Result<(), Fault> {
        let argument = self.sort()?;
        let result = self.sort()?;
        let width = self.net.sorts[result];
        let length = self.net.sorts[argument] * width;
        let mut table = Vec::with_capacity(length);
        for _ in 0..length {
            table.push(self.byte()? as u8);
        }
        self.net.bag_operations.push(BagOperation {
            argument,
            result,
            width,
            table,
        });
        Ok(())
    }

    fn initial_tokens(&mut self) -> Result<(), Fault> {
        let place = self.place()?;
        let element = self.below(self.net.place_size(place))?;
        let count = self.two_bytes()?;
        self.net.initial[place * PLACE_CELLS + element] = count as i64;
        Ok(())
    }

    fn declare_transition(&mut self) -> Result<(), Fault> {
        let count = self.below(5)?;
        let variables = self.sorts(count, 4 - count)?;
        let sizes: Vec<usize> = variables.iter().map(|&s| self.net.sorts[s]).collect();
        self.require(sizes.iter().product::<usize>() <= MAX_MODES, 9)?;
        self.net.transitions.push(Transition {
            variables,
            sizes,
            guard: None,
            takes: Vec::new(),
            puts: Vec::new(),
        });
        Ok(())
    }

    /// The transition that guards and arcs belong to. There is one, since
    /// they are out of order before the first.
    fn last_transition(&mut self) -> &mut Transition {
        self.net.transitions.last_mut().expect("a transition")
    }

    /// The claim that weights belong to. There is one, since weights are out
    /// of order before the first.
    fn last_claim(&mut self) -> &mut Claim {
        self.net.claims.last_mut().expect("a claim")
    }

    fn guard(&mut self) -> Result<Term, Fault> {
        self.stage = Stage::Term;
        self.term(0, 1)
    }

    fn arc(&mut self) -> Result<Arc, Fault> {
        let place = self.place()?;
        self.stage = Stage::Term;
        let bag = self.bag(self.net.places[place], 1)?;
        self.arcs += 1;
        Ok(Arc { place, bag })
    }

    fn declare_claim(&mut self) -> Result<(), Fault> {
        let number = self.byte()?;
        self.require((1..=6).contains(&number), 6)?;
        let modulus = self.two_bytes()?;
        let kind = Kind::new(number, modulus);
        self.require(kind.is_some(), 6)?;
        self.net.claims.extend(kind.map(|kind| Claim {
            kind,
            weights: vec![0; CELLS],
        }));
        Ok(())
    }

    fn weight_of_place(&mut self) -> Result<(), Fault> {
        let place = self.place()?;
        let weight = self.weight()?;
        let first = place * PLACE_CELLS;
        let size = self.net.place_size(place);
        self.last_claim().weights[first..first + size].fill(weight);
        Ok(())
    }

    fn weight_of_element(&mut self) -> Result<(), Fault> {
        let place = self.place()?;
        let element = self.below(self.net.place_size(place))?;
        let weight = self.weight()?;
        self.last_claim().weights[place * PLACE_CELLS + element] = weight;
        Ok(())
    }

    /// A signed number of four bytes that is a weight of the last claim.
    fn weight(&mut self) -> Result<i64, Fault> {
        let high = self.two_bytes()?;
        let low = self.two_bytes()?;
        let code = i64::from((high << 16 | low) as u32 as i32);
        let kind = self.last_claim().kind;
        self.require(kind.is_weight(code), 6)?;
        Ok(code)
    }

    /// A term of the wanted sort, its code on the given level.
    fn term(&mut self, wanted: usize, level: usize) -> Result<Term, Fault> {
        let code = self.byte()?;
        self.require(matches!(code, 0x20..=0x25), 3)?;
        self.require(level <= MAX_DEPTH, 7)?;
        self.require(code < 0x23 || wanted == 0, 8)?;
        match code {
            0x20 => self.variable(wanted),
            0x21 => self.constant(wanted),
            0x22 => self.application(wanted, level),
            0x23 => {
                let sort = self.sort()?;
                Ok(Term::Equal(self.pair(sort, level)?))
            }
            0x24 => Ok(Term::Not(Box::new(self.term(0, level + 1)?))),
            _ => Ok(Term::And(self.pair(0, level)?)),
        }
    }

    fn variable(&mut self, wanted: usize) -> Result<Term, Fault> {
        let number = self.byte()?;
        let sort = self.last_transition().variables.get(number).copied();
        self.require(sort.is_some(), 6)?;
        self.require(sort == Some(wanted), 8)?;
        Ok(Term::Variable(number))
    }

    fn constant(&mut self, wanted: usize) -> Result<Term, Fault> {
        let sort = self.sort()?;
        self.require(sort == wanted, 8)?;
        Ok(Term::Constant(self.below(self.net.sorts[sort])?))
    }

    fn application(&mut self, wanted: usize, level: usize) -> Result<Term, Fault> {
        let number = self.below(self.net.operations.len())?;
        let operation = &self.net.operations[number];
        self.require(operation.result == wanted, 8)?;
        match operation.arguments[..] {
            [] => Ok(Term::Constant(usize::from(operation.table[0]))),
            [sort] => Ok(Term::Unary(number, Box::new(self.term(sort, level + 1)?))),
            [first, second, ..] => {
                let x = self.term(first, level + 1)?;
                let y = self.term(second, level + 1)?;
                Ok(Term::Binary(number, Box::new([x, y])))
            }
        }
    }

    /// Two parts of one sort, below a term on the given level.
    fn pair(&mut self, sort: usize, level: usize) -> Result<Box<[Term; 2]>, Fault> {
        let first = self.term(sort, level + 1)?;
        let second = self.term(sort, level + 1)?;
        Ok(Box::new([first, second]))
    }

    /// A bag term of the wanted sort, its code on the given level.
    fn bag(&mut self, wanted: usize, level: usize) -> Result<Bag, Fault> {
        let code = self.byte()?;
        self.require(matches!(code, 0x30..=0x33), 3)?;
        self.require(level <= MAX_DEPTH, 7)?;
        match code {
            0x30 => Ok(Bag::Empty),
            0x31 => Ok(Bag::Token(self.term(wanted, level + 1)?)),
            0x32 => {
                let first = self.bag(wanted, level + 1)?;
                let second = self.bag(wanted, level + 1)?;
                Ok(Bag::Sum(Box::new([first, second])))
            }
            _ => {
                let number = self.below(self.net.bag_operations.len())?;
                let operation = &self.net.bag_operations[number];
                self.require(operation.result == wanted, 8)?;
                let argument = self.term(operation.argument, level + 1)?;
                Ok(Bag::Flexible(number, argument))
            }
        }
    }
}

/// The section that a command stands in.
fn section(code: usize) -> usize {
    match code {
        0x01 => 1,
        0x02 | 0x03 => 2,
        0x04 | 0x05 => 3,
        0x06..=0x09 => 4,
        _ => 5,
    }
}
