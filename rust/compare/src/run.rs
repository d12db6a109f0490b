//! Running the other program on a file.

use std::fs::File;
use std::io::Write;
use std::path::{Path, PathBuf};
use std::process::{Command, Stdio};

/// A program with its arguments.
pub struct Program {
    path: PathBuf,
    arguments: Vec<String>,
}

impl Program {
    /// A path, or else a path and arguments with spaces between them.
    pub fn named(text: &str) -> Program {
        if Path::new(text).is_file() {
            return Program {
                path: PathBuf::from(text),
                arguments: Vec::new(),
            };
        }
        let mut words = text.split_whitespace();
        Program {
            path: PathBuf::from(words.next().unwrap_or("")),
            arguments: words.map(str::to_string).collect(),
        }
    }

    /// What it prints for the file, with further words. `in_pieces` hands the file
    /// over through a pipe in odd pieces, else it is opened from the disk.
    pub fn output(
        &self,
        words: &[String],
        file: &[u8],
        place: &Path,
        in_pieces: bool,
    ) -> Result<Vec<u8>, String> {
        let mut command = Command::new(&self.path);
        command
            .args(&self.arguments)
            .args(words)
            .stdout(Stdio::piped())
            .stderr(Stdio::null());
        let told = |error: std::io::Error| format!("{}: {error}", self.path.display());
        let output = if in_pieces {
            let mut child = command.stdin(Stdio::piped()).spawn().map_err(told)?;
            let pipe = child.stdin.take();
            std::thread::scope(|scope| {
                scope.spawn(move || {
                    let mut pipe = pipe.expect("asked for above");
                    for piece in file.chunks(4_093) {
                        // A program may end before it has read everything.
                        if pipe.write_all(piece).is_err() {
                            break;
                        }
                    }
                });
                child.wait_with_output()
            })
            .map_err(told)?
        } else {
            std::fs::write(place, file).map_err(told)?;
            let opened = File::open(place).map_err(told)?;
            command.stdin(Stdio::from(opened)).output().map_err(told)?
        };
        let mut printed = output.stdout;
        if output.status.code().is_none() {
            // A crash is no answer, whatever was printed before it.
            printed.extend(format!("(ended by {})\n", output.status).into_bytes());
        }
        Ok(printed)
    }
}
