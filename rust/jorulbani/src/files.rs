//! Networks read, and results written whole or not at all.

use std::ffi::OsStr;
use std::fs::{self, File};
use std::io::{self, Read, Write};
use std::path::{Path, PathBuf};
use std::process;

/// How many bytes of a network are read. The sections together never have over 6,656 bytes, so in a longer file no count and no entry is
/// cut, whatever the reader tests stands in the first 6,656 bytes, and the first byte after the switches is among the first 6,657: any
/// file of over 6,656 bytes is refused, and with the number and the place that its first 6,657 bytes are refused with.
const READ_LIMIT: u64 = 6_657;

/// Reads a network, from standard input where its name is `-`.
pub fn read_network(name: &OsStr) -> io::Result<Vec<u8>> {
    let mut bytes = Vec::new();
    if name == "-" {
        io::stdin().take(READ_LIMIT).read_to_end(&mut bytes)?;
    } else {
        File::open(name)?.take(READ_LIMIT).read_to_end(&mut bytes)?;
    }
    Ok(bytes)
}

/// Writes a file whole or not at all: under a temporary name in the same folder, which is then renamed. On an error a file that stood
/// there is left as it was. Only a regular file is replaced: renaming would put one in the place of a device.
pub fn write_whole(path: &Path, bytes: &[u8]) -> io::Result<()> {
    if fs::metadata(path).is_ok_and(|found| !found.is_file()) {
        return Err(io::Error::other(
            "it is there already and is not a regular file",
        ));
    }
    let folder = match path.parent() {
        Some(folder) if folder != Path::new("") => folder,
        _ => Path::new("."),
    };
    let (temporary, file) = create_temporary(folder)?;
    let written = fill(file, bytes).and_then(|()| fs::rename(&temporary, path));
    if written.is_err() {
        // What went wrong first is what is told.
        let _ = fs::remove_file(&temporary);
    }
    written
}

/// A new file in the folder. A name that is taken, by a run that was cut off, is passed over.
fn create_temporary(folder: &Path) -> io::Result<(PathBuf, File)> {
    let mut counter = 0;
    loop {
        let path = folder.join(format!(".jorulbani-{}-{counter}", process::id()));
        match File::create_new(&path) {
            Err(error) if error.kind() == io::ErrorKind::AlreadyExists => counter += 1,
            created => return created.map(|file| (path, file)),
        }
    }
}

fn fill(mut file: File, bytes: &[u8]) -> io::Result<()> {
    file.write_all(bytes)?;
    file.sync_all()
}

#[cfg(test)]
mod tests {
    use super::*;

    #[test]
    fn a_temporary_name_that_is_taken_is_passed_over() {
        let folder = std::env::temp_dir().join(format!("jorulbani-test-{}", process::id()));
        fs::create_dir(&folder).unwrap();
        let (taken, _) = create_temporary(&folder).unwrap();
        write_whole(&folder.join("result"), b"whole").unwrap();

        assert_eq!(fs::read(folder.join("result")).unwrap(), b"whole");
        assert_eq!(fs::read(taken).unwrap(), b"");
        assert_eq!(fs::read_dir(&folder).unwrap().count(), 2);
        fs::remove_dir_all(&folder).unwrap();
    }
}
