//! The report on a net file and a trace.

use std::fmt::Write as _;
use std::fs::File;
use std::io::Read as _;
use std::path::Path;

use crate::bench::Bench;
use crate::judge::{judge, Verdict};
use crate::net::{Net, MAX_FILE};
use crate::reader::read_net;
use crate::trace::replay;

/// Firings that the trail of the bench holds.
pub const TRAIL: usize = 8_192;

/// The report on the files `net.bin` and `trace.bin` of a folder.
pub fn report_folder(folder: &Path) -> String {
    report(
        &read_file(&folder.join("net.bin")),
        &read_file(&folder.join("trace.bin")),
    )
}

/// The bytes of a file, but no more than it takes to see that it is too long.
/// A file that cannot be read counts as empty.
fn read_file(path: &Path) -> Vec<u8> {
    let mut bytes = Vec::new();
    let length =
        File::open(path).and_then(|file| file.take(MAX_FILE as u64 + 1).read_to_end(&mut bytes));
    if length.is_err() {
        bytes.clear();
    }
    bytes
}

/// The report on the bytes of a net file and of a trace.
pub fn report(net: &[u8], trace: &[u8]) -> String {
    let mut lines = String::new();
    match read_net(net) {
        Ok(net) => write_report(&mut lines, &net, trace),
        Err(fault) => writeln!(
            lines,
            "net fault {} {} {}",
            fault.number, fault.place, fault.stage
        ),
    }
    .expect("a string takes every line");
    lines
}

fn write_report(lines: &mut String, net: &Net, trace: &[u8]) -> std::fmt::Result {
    for (number, claim) in net.claims.iter().enumerate() {
        match judge(net, claim) {
            Verdict::Accepted(modes) => writeln!(lines, "claim {number} accepted {modes}")?,
            Verdict::Broken(transition, [a, b, c, d]) => {
                writeln!(lines, "claim {number} broken {transition} {a} {b} {c} {d}")?
            }
        }
    }
    let mut bench = Bench::begin(net, TRAIL);
    let end = replay(&mut bench, trace);
    match end.stopped {
        None => writeln!(lines, "replay {} done", end.carried)?,
        Some(fault) => writeln!(
            lines,
            "replay {} stopped {} {}",
            end.carried, fault.number, fault.place
        )?,
    }
    for (cell, &count) in bench.counts().iter().enumerate() {
        if count != 0 {
            writeln!(lines, "cell {cell} {count}")?;
        }
    }
    Ok(())
}
