//! `relayref`: the report on net.bin and trace.bin of the current folder.
//! `relayref --batch DIR`: the reports on all sub-folders of DIR.

use std::error::Error;
use std::io::{self, BufWriter, Write};
use std::path::{Path, PathBuf};
use std::process::ExitCode;
use std::{env, fs};

use relayref::report::report_folder;

fn main() -> ExitCode {
    let arguments: Vec<String> = env::args().skip(1).collect();
    let words: Vec<&str> = arguments.iter().map(String::as_str).collect();
    let result = match words[..] {
        [] => single(),
        ["--batch", folder] => batch(Path::new(folder)),
        _ => Err("usage: relayref [--batch DIR]".into()),
    };
    match result {
        Ok(()) => ExitCode::SUCCESS,
        Err(error) => {
            eprintln!("relayref: {error}");
            ExitCode::FAILURE
        }
    }
}

fn single() -> Result<(), Box<dyn Error>> {
    io::stdout().write_all(report_folder(Path::new("")).as_bytes())?;
    Ok(())
}

fn batch(folder: &Path) -> Result<(), Box<dyn Error>> {
    let mut folders: Vec<PathBuf> = fs::read_dir(folder)?
        .map(|entry| entry.map(|entry| entry.path()))
        .collect::<Result<_, _>>()?;
    folders.retain(|path| path.is_dir());
    folders.sort();
    let mut out = BufWriter::new(io::stdout().lock());
    for path in folders {
        let name = path.file_name().unwrap_or_default().to_string_lossy();
        write!(out, "== {name}\n{}", report_folder(&path))?;
    }
    out.flush()?;
    Ok(())
}
