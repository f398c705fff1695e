//! `relaygen SEED COUNT OUTDIR [FIRST]`: writes COUNT cases of a seed, each
//! into a folder with its number, from FIRST (else 0) on.
//! `relaygen --bench OUTDIR`: writes the large cases for measuring.
//! `relaygen --cost OUTDIR`: writes the cases that show how the cost grows,
//! and prints a line for each: its folder, how often it is to be run, its
//! group, and its numbers.

use std::env;
use std::error::Error;
use std::path::Path;
use std::process::ExitCode;

use relayref::generate::{case, cost, folder_name, large};

fn main() -> ExitCode {
    let arguments: Vec<String> = env::args().skip(1).collect();
    let words: Vec<&str> = arguments.iter().map(String::as_str).collect();
    let result = match words[..] {
        ["--bench", folder] => write_large(Path::new(folder)),
        ["--cost", folder] => write_cost(Path::new(folder)),
        [seed, count, folder] => write_cases(seed, count, Path::new(folder), "0"),
        [seed, count, folder, first] => write_cases(seed, count, Path::new(folder), first),
        _ => Err("usage: relaygen SEED COUNT OUTDIR [FIRST] | relaygen --bench OUTDIR | relaygen --cost OUTDIR".into()),
    };
    match result {
        Ok(()) => ExitCode::SUCCESS,
        Err(error) => {
            eprintln!("relaygen: {error}");
            ExitCode::FAILURE
        }
    }
}

fn write_cases(seed: &str, count: &str, folder: &Path, first: &str) -> Result<(), Box<dyn Error>> {
    let (seed, count, first): (u64, u64, u64) = (seed.parse()?, count.parse()?, first.parse()?);
    for number in first..first + count {
        case(seed, number).write(&folder.join(folder_name(number)))?;
    }
    Ok(())
}

fn write_large(folder: &Path) -> Result<(), Box<dyn Error>> {
    for (name, case) in large::cases() {
        case.write(&folder.join(name))?;
    }
    Ok(())
}

fn write_cost(folder: &Path) -> Result<(), Box<dyn Error>> {
    for measured in cost::cases() {
        measured.case.write(&folder.join(&measured.name))?;
        let numbers: Vec<String> = measured
            .numbers
            .iter()
            .map(|(word, number)| format!("{word}={number}"))
            .collect();
        println!(
            "{} {} {} {}",
            measured.name,
            measured.runs,
            measured.group,
            numbers.join(" ")
        );
    }
    Ok(())
}
