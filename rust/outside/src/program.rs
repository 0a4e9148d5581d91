//! The listing program, run as its users run it, against the reference's listing.

use crate::cases::{case, first_of, KINDS};
use crate::compare::same_text;
use crate::dressing::Labels;
use crate::networks::{LONGEST_FILE, MOST_VERTICES};
use crate::seeded::Seeded;
use crate::{root, shapes, sound};
use std::fs::{self, File};
use std::io::Seek;
use std::process::Command;

const LAUNCH: &str = "tools/launch";
const PROGRAM: &str = "target/bin/listing";
const EXAMPLES: &str = "examples";

/// Where a file is put that the program is to read, or that failed.
pub const FOLDER: &str = "target/outside";

/// The program reads this much of its input at most.
const READ: usize = LONGEST_FILE + 1;

/// Compares what the program prints for files of all kinds and for the repository's examples. Gives their number.
pub fn check(seed: u64) -> Result<usize, String> {
    let mut files = inputs(seed);
    files.extend(examples()?);
    for (name, file) in &files {
        compare(file).map_err(|why| format!("{PROGRAM}, {name}: {why}"))?;
    }
    Ok(files.len())
}

/// Two files of each kind, and files as long as the program reads, and longer.
fn inputs(seed: u64) -> Vec<(String, Vec<u8>)> {
    let mut files = vec![("no byte".to_string(), Vec::new())];
    for (kind, place) in (0..KINDS.len()).flat_map(|kind| [(kind, 0), (kind, 1)]) {
        let number = (first_of(kind) + place).min(first_of(kind + 1) - 1);
        files.push((format!("case {number}"), case(seed, number).file));
    }
    let mut seeded = Seeded::new(seed, &[4]);
    let links = shapes::all_linked(MOST_VERTICES);
    let longest = sound::full(&mut seeded, links, Labels::TwoCoils).encode();
    for length in [LONGEST_FILE, READ, READ + 1, 10_000] {
        let mut file = longest.clone();
        file.resize(length, 0);
        files.push((format!("{length} bytes"), file));
    }
    let mut short = sound::any(&mut seeded).encode();
    short.resize(10_000, 1);
    files.push(("10000 bytes, a short network in front".to_string(), short));
    files
}

/// The repository's example files, in the order of their names.
fn examples() -> Result<Vec<(String, Vec<u8>)>, String> {
    let folder = root().join(EXAMPLES);
    if !folder.is_dir() {
        return Ok(Vec::new());
    }
    let unreadable = |why| format!("{EXAMPLES}: {why}");
    let mut files = Vec::new();
    for entry in fs::read_dir(folder).map_err(unreadable)? {
        let path = entry.map_err(unreadable)?.path();
        if path.extension().is_some_and(|extension| extension == "net") {
            files.push((
                path.display().to_string(),
                fs::read(&path).map_err(unreadable)?,
            ));
        }
    }
    files.sort();
    Ok(files)
}

/// Compares what the program prints for one file.
fn compare(file: &[u8]) -> Result<(), String> {
    let read = &file[..file.len().min(READ)];
    same_text(&listed(file)?, &reference::listing(read))
}

/// What the program prints for a file, of which it must read no more and no less than it is said to.
pub fn listed(file: &[u8]) -> Result<String, String> {
    let path = root().join(FOLDER).join("listing.net");
    let failed = |why: std::io::Error| format!("{}: {why}", path.display());
    fs::create_dir_all(root().join(FOLDER)).map_err(failed)?;
    fs::write(&path, file).map_err(failed)?;
    let mut input = File::open(&path).map_err(failed)?;
    let output = Command::new(root().join(LAUNCH))
        .arg(PROGRAM)
        .current_dir(root())
        .stdin(input.try_clone().map_err(failed)?)
        .output()
        .map_err(|why| format!("{LAUNCH}: {why}"))?;
    if !output.status.success() {
        let message = String::from_utf8_lossy(&output.stderr);
        return Err(format!("{}: {message}", output.status));
    }
    let read = input.stream_position().map_err(failed)? as usize;
    let expected = file.len().min(READ);
    if read != expected {
        return Err(format!("it has read {read} bytes, not {expected}"));
    }
    Ok(String::from_utf8_lossy(&output.stdout).into_owned())
}
