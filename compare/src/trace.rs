//! Replaying a trace on a bench.

use crate::bench::{Bench, Refusal};
use crate::net::MAX_FILE;

/// How a replay ended.
#[derive(Clone, Copy, Debug, PartialEq, Eq)]
pub struct Replay {
    /// Fires, backs and restarts that were carried out.
    pub carried: usize,
    /// The fault and its place, or nothing where the replay is done.
    pub stopped: Option<Refusal>,
}

/// Replays a trace on a bench just begun.
pub fn replay(bench: &mut Bench, bytes: &[u8]) -> Replay {
    let mut carried = 0;
    let stopped = run(bench, bytes, &mut carried).err();
    Replay { carried, stopped }
}

fn run(bench: &mut Bench, bytes: &[u8], carried: &mut usize) -> Result<(), Refusal> {
    let stop = |number, place| Err(Refusal { number, place });
    if bytes.len() > MAX_FILE {
        return stop(1, MAX_FILE);
    }
    let mut at = 0;
    loop {
        match bytes[at..] {
            [] => return stop(2, bytes.len()),
            [0x40, transition, a, b, c, d, ..] => {
                bench.fire(usize::from(transition), [a, b, c, d])?;
                at += 6;
            }
            [0x40, ..] => return stop(2, bytes.len()),
            [0x41, ..] => {
                bench.back()?;
                at += 1;
            }
            [0x42, ..] => {
                bench.restart();
                at += 1;
            }
            [0x4F] => return Ok(()),
            [0x4F, ..] => return stop(10, at + 1),
            _ => return stop(3, at),
        }
        *carried += 1;
    }
}
