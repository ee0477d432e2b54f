//! Sets as files, and the lister's text for them.

use std::fs;
use std::io;
use std::path::{Path, PathBuf};
use std::process::Command;

use crate::draft::Draft;
use crate::fault::Fault;
use crate::lister::{list, list_super};
use crate::random::Random;
use crate::runs::any_set;

/// "Bench set S."
const BENCH_SET: [u8; 63] = [
    0x3f, 0, 2, 0, 1, 0, 0, 0, 0x14, 0, 0x12, 0, 2, 0, 0, 0, 0x26, 0, 0x19, 0, 0x12, 1, 0, 2, 0xff, 0, 0, 8, 0x34,
    0x12, 0x78, 0x56, 0, 1, 0, 0, 0, 1, 9, 2, 0x19, 0, 1, 1, 0, 0x80, 0x32, 9, 4, 0, 0, 1, 0xff, 0, 0, 0, 7, 5, 0x81,
    3, 8, 0, 10,
];

/// "A file that can't be opened counts as empty."
pub fn list_files(set: &str, serial: &str, fault: Fault) -> String {
    let read = |path: &str| fs::read(path).unwrap_or_default();
    list(&read(set), &read(serial), fault)
}

/// The same of a SuperSpeed set.
pub fn list_super_files(set: &str, serial: &str) -> String {
    let read = |path: &str| fs::read(path).unwrap_or_default();
    list_super(&read(set), &read(serial), Fault::None)
}

pub fn generate(directory: &Path, count: usize, seed: u64) -> io::Result<()> {
    let mut random = Random::new(seed);
    fs::create_dir_all(directory)?;
    for at in 0..count {
        let (set, serial) = any_set(&mut random);
        fs::write(directory.join(format!("set-{at:04}.bin")), set)?;
        fs::write(directory.join(format!("unit-{at:04}.bin")), serial)?;
    }
    Ok(())
}

/// The bench set S, and valid sets of exactly 16,384 bytes: what the stack is measured on.
pub fn write_samples(directory: &Path, seed: u64) -> io::Result<()> {
    let mut random = Random::new(seed);
    fs::create_dir_all(directory)?;
    fs::write(directory.join("set-bench.bin"), BENCH_SET)?;
    fs::write(directory.join("unit-bench.bin"), [])?;
    for at in 0..4 {
        let draft = Draft::longest(&mut random);
        fs::write(directory.join(format!("set-longest-{at}.bin")), draft.set())?;
        fs::write(directory.join(format!("unit-longest-{at}.bin")), draft.serial)?;
    }
    Ok(())
}

/// Runs a lister in a directory with set.bin and unit.bin, set by set; how many sets until its text differs.
pub fn compare_lister(
    program: &str,
    directory: &Path,
    sets: usize,
    seed: u64,
    fault: Fault,
) -> io::Result<Option<usize>> {
    let mut random = Random::new(seed);
    // the program runs in another directory
    let absolute = |word: &str| fs::canonicalize(word).unwrap_or(word.into());
    let words: Vec<PathBuf> = program.split_whitespace().map(absolute).collect();
    let command = words.first().ok_or(io::ErrorKind::InvalidInput)?;
    fs::create_dir_all(directory)?;
    for at in 1..=sets {
        let (set, serial) = any_set(&mut random);
        write_or_leave_out(&directory.join("set.bin"), &set)?;
        write_or_leave_out(&directory.join("unit.bin"), &serial)?;
        let output = Command::new(command).args(&words[1..]).current_dir(directory).output()?;
        if output.stdout != list(&set, &serial, fault).as_bytes() {
            return Ok(Some(at));
        }
    }
    Ok(None)
}

/// An empty block is a file that is not there.
fn write_or_leave_out(path: &Path, block: &[u8]) -> io::Result<()> {
    if !block.is_empty() {
        return fs::write(path, block);
    }
    match fs::remove_file(path) {
        Err(error) if error.kind() != io::ErrorKind::NotFound => Err(error),
        _ => Ok(()),
    }
}
