//! Writing net files and traces: commands and terms as bytes, unchecked.

/// A net file in the making: its commands without the end, each as its bytes.
#[derive(Clone, Default)]
pub struct Draft {
    pub commands: Vec<Vec<u8>>,
}

impl Draft {
    pub fn sort(&mut self, size: usize) {
        self.commands.push(vec![0x01, size as u8]);
    }

    pub fn operation(&mut self, arguments: &[usize], result: usize, table: &[u8]) {
        let mut command = vec![0x02, arguments.len() as u8, 0, 0, result as u8];
        for (byte, &sort) in command[2..4].iter_mut().zip(arguments) {
            *byte = sort as u8;
        }
        command.extend(table);
        self.commands.push(command);
    }

    pub fn bag_operation(&mut self, argument: usize, result: usize, table: &[u8]) {
        let mut command = vec![0x03, argument as u8, result as u8];
        command.extend(table);
        self.commands.push(command);
    }

    pub fn place(&mut self, sort: usize) {
        self.commands.push(vec![0x04, sort as u8]);
    }

    pub fn tokens(&mut self, place: usize, element: usize, count: usize) {
        let mut command = vec![0x05, place as u8, element as u8];
        command.extend((count as u16).to_be_bytes());
        self.commands.push(command);
    }

    pub fn transition(&mut self, variables: &[usize]) {
        let mut command = vec![0x06, variables.len() as u8, 0, 0, 0, 0];
        for (byte, &sort) in command[2..].iter_mut().zip(variables) {
            *byte = sort as u8;
        }
        self.commands.push(command);
    }

    pub fn guard(&mut self, term: &[u8]) {
        self.commands.push([&[0x07], term].concat());
    }

    pub fn take(&mut self, place: usize, bag: &[u8]) {
        self.commands.push([&[0x08, place as u8], bag].concat());
    }

    pub fn put(&mut self, place: usize, bag: &[u8]) {
        self.commands.push([&[0x09, place as u8], bag].concat());
    }

    pub fn claim(&mut self, kind: usize, modulus: usize) {
        let mut command = vec![0x0A, kind as u8];
        command.extend((modulus as u16).to_be_bytes());
        self.commands.push(command);
    }

    pub fn weigh_place(&mut self, place: usize, code: i64) {
        let mut command = vec![0x0B, place as u8];
        command.extend((code as i32).to_be_bytes());
        self.commands.push(command);
    }

    pub fn weigh_element(&mut self, place: usize, element: usize, code: i64) {
        let mut command = vec![0x0C, place as u8, element as u8];
        command.extend((code as i32).to_be_bytes());
        self.commands.push(command);
    }

    /// Fills the file up to a length with weights of place 0's element 0 or
    /// of all its elements, all with one code.
    pub fn pad(&mut self, length: usize, code: i64) {
        let left = length.saturating_sub(self.length());
        // So many commands of seven bytes that the others have six each.
        let longer = left % 6;
        for number in 0..left / 6 {
            if number < longer {
                self.weigh_element(0, 0, code);
            } else {
                self.weigh_place(0, code);
            }
        }
    }

    /// The length of the file, its end included.
    pub fn length(&self) -> usize {
        self.commands.iter().map(Vec::len).sum::<usize>() + 1
    }

    /// The file, its end included.
    pub fn bytes(&self) -> Vec<u8> {
        let mut bytes = self.commands.concat();
        bytes.push(0x0F);
        bytes
    }
}

pub fn variable(number: usize) -> Vec<u8> {
    vec![0x20, number as u8]
}

pub fn constant(sort: usize, element: usize) -> Vec<u8> {
    vec![0x21, sort as u8, element as u8]
}

pub fn apply(operation: usize, arguments: &[Vec<u8>]) -> Vec<u8> {
    [&[0x22, operation as u8], &arguments.concat()[..]].concat()
}

pub fn equal(sort: usize, first: &[u8], second: &[u8]) -> Vec<u8> {
    [&[0x23, sort as u8], first, second].concat()
}

pub fn not(part: &[u8]) -> Vec<u8> {
    [&[0x24], part].concat()
}

pub fn and(first: &[u8], second: &[u8]) -> Vec<u8> {
    [&[0x25], first, second].concat()
}

pub fn empty() -> Vec<u8> {
    vec![0x30]
}

pub fn token(term: &[u8]) -> Vec<u8> {
    [&[0x31], term].concat()
}

pub fn sum(first: &[u8], second: &[u8]) -> Vec<u8> {
    [&[0x32], first, second].concat()
}

pub fn flexible(operation: usize, term: &[u8]) -> Vec<u8> {
    [&[0x33, operation as u8], term].concat()
}

/// The sum of any number of bags, as flat as can be.
pub fn sum_all(bags: &[Vec<u8>]) -> Vec<u8> {
    match bags {
        [] => empty(),
        [bag] => bag.clone(),
        _ => {
            let (first, second) = bags.split_at(bags.len() / 2);
            sum(&sum_all(first), &sum_all(second))
        }
    }
}

/// The bytes of a fire in a trace.
pub fn fire(transition: usize, mode: [u8; 4]) -> [u8; 6] {
    [0x40, transition as u8, mode[0], mode[1], mode[2], mode[3]]
}

pub const BACK: u8 = 0x41;
pub const RESTART: u8 = 0x42;
pub const END: u8 = 0x4F;
