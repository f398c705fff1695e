//! `relaydrive PROGRAM SEED COUNT DIR [FIRST]`: makes COUNT cases of a seed,
//! from FIRST (else 0) on, each in a folder of its own below DIR, runs PROGRAM
//! in it, and compares what it prints with the report made here. Folders
//! without a difference are removed again. Fails if there is a difference.

use std::env;
use std::error::Error;
use std::fs;
use std::path::{Path, PathBuf};
use std::process::{Command, ExitCode, Output, Stdio};

use relayref::generate::{case, folder_name};
use relayref::report::report;

/// Differing folders that are listed.
const LISTED: u64 = 10;

fn main() -> ExitCode {
    let arguments: Vec<String> = env::args().skip(1).collect();
    let words: Vec<&str> = arguments.iter().map(String::as_str).collect();
    let result = match words[..] {
        [program, seed, count, folder] => drive(program, seed, count, folder, "0"),
        [program, seed, count, folder, first] => drive(program, seed, count, folder, first),
        _ => Err("usage: relaydrive PROGRAM SEED COUNT DIR [FIRST]".into()),
    };
    match result {
        Ok(0) => ExitCode::SUCCESS,
        Ok(_) => ExitCode::FAILURE,
        Err(error) => {
            eprintln!("relaydrive: {error}");
            ExitCode::FAILURE
        }
    }
}

/// Runs all cases and gives the number of differences.
fn drive(
    program: &str,
    seed: &str,
    count: &str,
    folder: &str,
    first: &str,
) -> Result<u64, Box<dyn Error>> {
    // The program is started in other folders than this one.
    let program = fs::canonicalize(program).map_err(|error| format!("{program}: {error}"))?;
    let (seed, count, first): (u64, u64, u64) = (seed.parse()?, count.parse()?, first.parse()?);
    let mut differences = 0;
    for number in first..first + count {
        let case = case(seed, number);
        let folder = Path::new(folder).join(folder_name(number));
        case.write(&folder)?;
        let bytes = |file: &Option<Vec<u8>>| file.clone().unwrap_or_default();
        let expected = report(&bytes(&case.net), &bytes(&case.trace));
        let output = run(&program, &folder)?;
        if output.status.success() && output.stdout == expected.as_bytes() {
            fs::remove_dir_all(&folder)?;
            continue;
        }
        differences += 1;
        fs::write(folder.join("expected.txt"), &expected)?;
        fs::write(folder.join("printed.txt"), &output.stdout)?;
        if differences <= LISTED {
            println!("seed {seed} number {number} differs: {}", folder.display());
            explain(&expected, &output);
        }
    }
    println!("runs {count} differences {differences}");
    Ok(differences)
}

fn run(program: &PathBuf, folder: &Path) -> Result<Output, Box<dyn Error>> {
    let output = Command::new(program)
        .current_dir(folder)
        .stdin(Stdio::null())
        .stderr(Stdio::inherit())
        .output();
    output.map_err(|error| format!("{}: {error}", program.display()).into())
}

/// Shows the exit status if it is not 0, and the first line that differs.
fn explain(expected: &str, output: &Output) {
    if !output.status.success() {
        println!("  {}", output.status);
    }
    let printed = String::from_utf8_lossy(&output.stdout);
    let mut printed = printed.lines();
    let mut expected = expected.lines();
    loop {
        match (expected.next(), printed.next()) {
            (None, None) => return,
            (wanted, found) if wanted == found => {}
            (wanted, found) => {
                println!("  expected: {}", wanted.unwrap_or("no further line"));
                println!("  printed:  {}", found.unwrap_or("no further line"));
                return;
            }
        }
    }
}
