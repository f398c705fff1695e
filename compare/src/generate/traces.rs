//! Random traces, most of them of fires that succeed.

use super::draft::{self, Draft, BACK, END, RESTART};
use super::random::Random;
use super::Case;
use crate::bench::Bench;
use crate::net::{Mode, Net, MAX_FILE};
use crate::report::TRAIL;

/// A trace for a net.
pub fn trace(random: &mut Random, net: &Net) -> Vec<u8> {
    let mut bench = Bench::begin(net, TRAIL);
    let mut trace = Vec::new();
    let steps = match random.share(&[10, 60, 26, 4]) {
        0 => 0,
        1 => random.range(1, 12),
        2 => random.range(10, 40),
        _ => random.range(40, 200),
    };
    for _ in 0..steps {
        match random.share(&[80, 12, 5, 1]) {
            0 => match enabled(random, net, &mut bench) {
                Some(fire) => trace.extend(fire),
                None if random.percent(40) => break,
                None => {}
            },
            1 if bench.trail_used() > 0 && bench.back().is_ok() => trace.push(BACK),
            2 => {
                bench.restart();
                trace.push(RESTART);
            }
            3 => trace.extend(any_fire(random, net)),
            _ => {}
        }
    }
    if random.percent(20) {
        until_refused(random, net, &mut bench, &mut trace);
    }
    finish(random, net, &bench, &mut trace);
    trace
}

/// Fires of a few modes in turn until one of them lacks tokens or finds a
/// cell full.
fn until_refused(random: &mut Random, net: &Net, bench: &mut Bench, trace: &mut Vec<u8>) {
    let modes: Vec<_> = (0..random.range(1, 3))
        .filter_map(|_| some_mode(random, net))
        .collect();
    for &(transition, mode) in modes.iter().cycle().take(60) {
        match bench.fire(transition, mode) {
            Ok(()) => trace.extend(draft::fire(transition, mode)),
            Err(refusal) if refusal.number < 20 => {}
            Err(_) => return trace.extend(draft::fire(transition, mode)),
        }
    }
}

/// A fire that the bench has just carried out, if a few tries find one.
fn enabled(random: &mut Random, net: &Net, bench: &mut Bench) -> Option<[u8; 6]> {
    (0..25).find_map(|_| {
        let (transition, mode) = some_mode(random, net)?;
        bench.fire(transition, mode).ok()?;
        Some(draft::fire(transition, mode))
    })
}

/// A transition and one of its modes.
fn some_mode(random: &mut Random, net: &Net) -> Option<(usize, Mode)> {
    if net.transitions.is_empty() {
        return None;
    }
    let number = random.below(net.transitions.len());
    let mut mode = [0; 4];
    for (number, &size) in mode.iter_mut().zip(&net.transitions[number].sizes) {
        *number = random.below(size) as u8;
    }
    Some((number, mode))
}

/// A fire of any mode, also of one that is none.
fn any_fire(random: &mut Random, net: &Net) -> [u8; 6] {
    let (mut transition, mut mode) = some_mode(random, net).unwrap_or_default();
    match random.below(10) {
        0 => transition = net.transitions.len() + random.pick(&[0, 0, 1, 200]),
        1 => mode[random.below(4)] = random.byte(),
        2 => {
            let variable = random.below(4);
            let sizes = net.transitions.get(transition).map(|t| &t.sizes);
            let size = sizes.and_then(|sizes| sizes.get(variable));
            mode[variable] = size.map_or(1, |&size| size as u8);
        }
        _ => {}
    }
    draft::fire(transition.min(255), mode)
}

/// The end of a trace, often not as it should be.
fn finish(random: &mut Random, net: &Net, bench: &Bench, trace: &mut Vec<u8>) {
    match random.share(&[55, 8, 6, 6, 6, 14, 5]) {
        0 => {}
        1 => return,
        2 => {
            let fire = any_fire(random, net);
            trace.extend(&fire[..random.range(1, 5)]);
            return;
        }
        3 => {
            trace.push(END);
            for _ in 0..random.range(1, 3) {
                let byte = random.byte();
                trace.push(random.pick(&[byte, END, BACK, 0]));
            }
            return;
        }
        4 => {
            let byte = random.byte();
            trace.push(random.pick(&[byte, 0x43, 0x3F, 0x4E, 0x50, 0x0F, 0]));
        }
        5 => {
            for _ in 0..random.range(1, 4) {
                trace.extend(any_fire(random, net));
            }
        }
        _ => trace.extend(vec![BACK; bench.trail_used() + random.below(2)]),
    }
    trace.push(END);
}

/// A net and a trace that goes to the limits of the trail or of the file.
pub fn long_case(random: &mut Random) -> Case {
    let mut net = Draft::default();
    let ring = random.percent(50);
    if ring {
        // A token goes around between two places; mode 0 has none.
        net.place(0);
        net.place(0);
        net.tokens(0, 1, 1);
        for place in 0..2 {
            net.transition(&[0]);
            net.take(place, &draft::token(&draft::variable(0)));
            net.put(1 - place, &draft::token(&draft::variable(0)));
        }
    } else {
        // Nothing is needed but the guard.
        for _ in 0..2 {
            net.transition(&[0]);
            net.guard(&draft::variable(0));
        }
    }
    let mut trace = Vec::new();
    let mut next = 0;
    let mut fires = |trace: &mut Vec<u8>, number: usize| {
        for _ in 0..number {
            trace.extend(draft::fire(next, [1, 0, 0, 0]));
            next = 1 - next;
        }
    };
    match random.below(8) {
        0 => fires(&mut trace, TRAIL),
        1 => fires(&mut trace, TRAIL + 1),
        2 => {
            fires(&mut trace, TRAIL);
            let backs = 2 * random.range(1, 100);
            trace.extend(vec![BACK; backs]);
            fires(&mut trace, backs + random.below(2));
        }
        3 => {
            fires(&mut trace, TRAIL);
            trace.extend(vec![BACK; TRAIL + random.below(2)]);
        }
        4 => {
            fires(&mut trace, TRAIL);
            trace.push(RESTART);
            fires(&mut trace, random.pick(&[1, 1000, 2000]));
        }
        5 => {
            // Refused for another reason, also with a full trail.
            fires(&mut trace, TRAIL);
            let transition = random.below(3);
            let mode = [random.pick(&[0, 0, 2]), 0, 0, random.pick(&[0, 0, 1])];
            trace.extend(draft::fire(transition, mode));
        }
        6 => {
            fires(&mut trace, TRAIL);
            trace.push(RESTART);
            while trace.len() + 6 < MAX_FILE {
                fires(&mut trace, 1);
            }
            trace.resize(MAX_FILE - 1, RESTART);
        }
        _ => {
            trace.resize(MAX_FILE - 1, RESTART);
        }
    }
    match random.below(6) {
        0 if trace.len() == MAX_FILE - 1 => trace.extend([END, END]),
        0 => {}
        1 if trace.len() == MAX_FILE - 1 => trace.extend(vec![RESTART; random.range(1, 3)]),
        _ => trace.push(END),
    }
    Case {
        net: Some(net.bytes()),
        trace: Some(trace),
    }
}
