//! Nets and traces to compare on, all of them reproducible from a seed.

pub mod claims;
pub mod cost;
pub mod damage;
pub mod draft;
pub mod large;
pub mod nets;
pub mod random;
pub mod traces;

use std::fs;
use std::io;
use std::path::Path;

use crate::net::MAX_FILE;
use crate::reader::read_net;
use draft::Draft;
use random::Random;

/// A pair of files; a missing one is not written at all.
pub struct Case {
    pub net: Option<Vec<u8>>,
    pub trace: Option<Vec<u8>>,
}

impl Case {
    /// Writes the files into a folder, which is made if need be.
    pub fn write(&self, folder: &Path) -> io::Result<()> {
        fs::create_dir_all(folder)?;
        if let Some(net) = &self.net {
            fs::write(folder.join("net.bin"), net)?;
        }
        if let Some(trace) = &self.trace {
            fs::write(folder.join("trace.bin"), trace)?;
        }
        Ok(())
    }
}

/// The name of a case's folder.
pub fn folder_name(number: u64) -> String {
    format!("{number:06}")
}

/// The case with this number under a seed. It depends on nothing else.
pub fn case(seed: u64, number: u64) -> Case {
    let mut random = Random::new(seed, number);
    let mut case = match random.share(&[550, 180, 75, 60, 35, 25, 6, 45, 10, 8, 3, 3, 5]) {
        0 => valid(&mut random),
        1 => {
            let shape = nets::shape(&mut random);
            let draft = nets::net(&mut random, &shape);
            let net = damage::bytes(&mut random, &draft);
            damaged(&mut random, net, Some(draft))
        }
        2 => {
            let draft = small(&mut random);
            let mut other = draft.clone();
            damage::commands(&mut random, &mut other);
            damaged(&mut random, other.bytes(), Some(draft))
        }
        3 => {
            let mut shape = nets::small_shape(&mut random);
            shape.slips = random.pick(&[2, 5, 20, 80]);
            let net = nets::net(&mut random, &shape).bytes();
            damaged(&mut random, net, None)
        }
        4 => {
            let mut draft = small(&mut random);
            let net = damage::limit(&mut random, &mut draft);
            damaged(&mut random, net, None)
        }
        5 => {
            let net = damage::depth(&mut random);
            damaged(&mut random, net, None)
        }
        6 => {
            let net = damage::modes(&mut random);
            damaged(&mut random, net, None)
        }
        7 => {
            let mut draft = small(&mut random);
            let net = damage::operand(&mut random, &mut draft);
            damaged(&mut random, net, None)
        }
        8 => {
            let net = damage::noise(&mut random);
            damaged(&mut random, net, None)
        }
        9 => scarce(&mut random),
        10 => {
            let mut draft = small(&mut random);
            let net = damage::length(&mut random, &mut draft);
            damaged(&mut random, net, None)
        }
        11 => traces::long_case(&mut random),
        _ => {
            let net = nets::flood(&mut random).bytes();
            damaged(&mut random, net, None)
        }
    };
    if random.percent(6) {
        spoil_trace(&mut random, &mut case);
    }
    case
}

fn small(random: &mut Random) -> Draft {
    let shape = nets::small_shape(random);
    nets::net(random, &shape)
}

fn valid(random: &mut Random) -> Case {
    let shape = nets::shape(random);
    let net = nets::net(random, &shape).bytes();
    damaged(random, net, None)
}

/// A net file, with a trace for it where it can be read. If not, the trace is
/// for the net that it was made from, or for the empty net.
fn damaged(random: &mut Random, bytes: Vec<u8>, origin: Option<Draft>) -> Case {
    let net = read_net(&bytes)
        .ok()
        .or_else(|| origin.and_then(|draft| read_net(&draft.bytes()).ok()))
        .unwrap_or_default();
    Case {
        trace: Some(traces::trace(random, &net)),
        net: Some(bytes),
    }
}

/// Files that are empty or missing.
fn scarce(random: &mut Random) -> Case {
    let mut case = valid(random);
    let shape = random.below(6);
    if shape < 3 {
        case.trace = random.percent(60).then(Vec::new);
    } else if shape < 5 {
        case.net = random.percent(50).then(Vec::new);
    }
    if shape == 5 {
        case.net = Some(vec![0x0F]);
        case.trace = random.percent(50).then(Vec::new);
    }
    case
}

/// Changes, inserts, removes or adds bytes of the trace.
fn spoil_trace(random: &mut Random, case: &mut Case) {
    let Some(trace) = case.trace.as_mut().filter(|trace| !trace.is_empty()) else {
        return;
    };
    let at = random.below(trace.len());
    let byte = random.pick(&[0, 1, 0x3F, 0x40, 0x41, 0x42, 0x43, 0x4F, 0xFF]);
    match random.share(&[40, 20, 20, 15, 5]) {
        0 => trace[at] = byte,
        1 => trace.insert(at, byte),
        2 => {
            trace.remove(at);
        }
        3 => trace.truncate(at),
        _ => trace.resize(MAX_FILE + random.below(3), byte),
    }
}
