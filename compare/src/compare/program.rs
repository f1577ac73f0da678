//! The engine's programs that answer lines, each held against the model.

use super::Progress;
use crate::random::Random;
use std::io::Write;
use std::path::PathBuf;
use std::process::{Command, Stdio};
use std::thread;

/// A program in the repository's `target/bin`, by its name.
pub struct Program(pub &'static str);

impl Program {
    fn path(&self) -> PathBuf {
        [env!("CARGO_MANIFEST_DIR"), "../target/bin", self.0].iter().collect()
    }

    /// Whether the program is there; says so where it is missing.
    pub fn is_made(&self) -> bool {
        let made = self.path().exists();
        if !made {
            println!("the program target/bin/{0} is missing", self.0);
            println!("make it first: run `./build {0}` in the repository's root", self.0);
        }
        made
    }

    /// Compares `count` answers, called what `of` says; true where all were equal. A batch of them is played by one process: it gets
    /// the random numbers and how many answers are still to come, and gives how many it had.
    pub fn compare(
        &self,
        seed: u64,
        count: u64,
        of: &str,
        mut batch: impl FnMut(&mut Random, u64) -> Result<u64, String>,
    ) -> bool {
        if !self.is_made() {
            return false;
        }
        println!("comparing {count} {of}, seed {seed}");
        let mut progress = Progress::new();
        let mut seeds = Random::new(seed);
        let mut compared = 0;
        while compared < count {
            match batch(&mut seeds, count - compared) {
                Ok(more) => compared += more,
                Err(difference) => {
                    println!("{difference}");
                    return false;
                }
            }
            progress.tell(compared, of);
        }
        true
    }

    /// What the program prints for lines, and how it ended where it failed.
    pub fn printed(&self, lines: &str) -> Result<String, String> {
        self.run(lines).map_err(|error| format!("the program {} cannot be run: {error}", self.0))
    }

    /// The lines are written while what it prints is read, so that neither pipe fills up.
    fn run(&self, lines: &str) -> std::io::Result<String> {
        let mut process = Command::new(self.path()).stdin(Stdio::piped()).stdout(Stdio::piped()).spawn()?;
        let mut input = process.stdin.take().expect("a pipe was asked for");
        let output = thread::scope(|scope| {
            // a program that ends too early answers too few of them
            scope.spawn(move || input.write_all(lines.as_bytes()));
            process.wait_with_output()
        })?;
        let mut printed = String::from_utf8_lossy(&output.stdout).into_owned();
        if !output.status.success() {
            printed += &output.status.to_string();
        }
        Ok(printed)
    }
}
