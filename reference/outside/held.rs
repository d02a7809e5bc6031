//! The library held against the reference, seed by seed.

use std::fs;
use std::io;
use std::ops::Range;
use std::path::Path;

const SHOWN_FAILURES: u64 = 10;

/// A seed for which the two differ.
pub struct Failure {
    /// What was run, in words.
    pub what: String,
    pub difference: String,
    /// What its files are called, and each file's ending with what is in it.
    pub name: String,
    pub files: Vec<(&'static str, Vec<u8>)>,
    /// The arguments that run it again.
    pub again: String,
}

impl Failure {
    fn show(&self) {
        println!("{}: the reference, then the library: {}", self.what, self.difference);
        match self.write() {
            Ok(files) => println!("  {files}\n  again by: reference/compare {}", self.again),
            Err(error) => println!("  its files cannot be written: {error}"),
        }
    }

    fn write(&self) -> io::Result<String> {
        let folder = Path::new(env!("CARGO_MANIFEST_DIR")).join("target/failed");
        fs::create_dir_all(&folder)?;
        let path = folder.join(&self.name);
        for (ending, contents) in &self.files {
            fs::write(path.with_extension(ending), contents)?;
        }
        let endings: Vec<String> = self.files.iter().map(|(ending, _)| format!(".{ending}")).collect();
        Ok(format!("{}: {}", path.display(), endings.join(" ")))
    }
}

/// Runs these seeds, and tells how many fail; `fails` runs one.
pub fn hold(name: &str, seeds: Range<u64>, mut fails: impl FnMut(u64) -> Option<Failure>) -> u64 {
    let mut failed = 0;
    for (seed, run) in seeds.clone().zip(1_u64..) {
        if let Some(failure) = fails(seed) {
            failed += 1;
            if failed <= SHOWN_FAILURES {
                failure.show();
            }
        }
        if run.is_multiple_of(50_000) || seed + 1 == seeds.end {
            println!("{run} {name}");
        }
    }
    failed
}

/// Tells what came up too seldom, each of it as one failure.
pub fn tell(lacks: Vec<String>) -> u64 {
    for lack in &lacks {
        println!("too seldom: {lack}");
    }
    lacks.len() as u64
}
