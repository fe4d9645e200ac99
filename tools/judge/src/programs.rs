//! The unit's programs: where they are, and what they print.

use std::env;
use std::path::{Path, PathBuf};
use std::process::Command;

use crate::failure::Failure;
use crate::options::Settings;
use crate::tell;
use unit::program::{ask, ask_lines, ProgramError};
use unit::repository;

/// Judges one pair.
pub const VERDICT: &str = "verdict";
/// Makes the calls of a script.
pub const REPLAY: &str = "replay";

/// A program to be run: the one given, or that of the repository, built from its sources.
pub struct Program {
    path: PathBuf,
}

impl Program {
    pub fn find(name: &str, settings: &Settings) -> Result<Program, Failure> {
        if let Some(path) = &settings.program {
            return Ok(Program { path: path.clone() });
        }
        let root = match &settings.repository {
            Some(root) => Some(root.clone()),
            None => env::current_dir()
                .ok()
                .and_then(|here| repository::find(&here)),
        };
        let root = root.ok_or_else(|| {
            Failure::program(
                "no repository is here or above: give --program PATH or --repository PATH"
                    .to_string(),
            )
        })?;
        let path = repository::program(&root, name, &mut |line| tell(line));
        path.map(|path| Program { path }).map_err(Failure::program)
    }

    /// The one line that it prints for an input.
    pub fn line(&self, input: &[u8]) -> Result<String, Failure> {
        ask(&mut self.command(), input).map_err(|error| self.failure(error))
    }

    /// All lines that it prints for an input.
    pub fn lines(&self, input: &[u8]) -> Result<String, Failure> {
        ask_lines(&mut self.command(), input).map_err(|error| self.failure(error))
    }

    /// A path of one name is a file here, not a command to be searched for.
    fn command(&self) -> Command {
        Command::new(Path::new(".").join(&self.path))
    }

    fn failure(&self, error: ProgramError) -> Failure {
        Failure::program(format!("{} {error}", self.path.display()))
    }
}
