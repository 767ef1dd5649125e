//! The program `bench`: a script goes in, and a line for each call comes out.

use super::figures::Figures;
use std::io::{Read, Write};
use std::process::{Command, Stdio};

/// The lines of `bench` for a script.
pub struct Lines(Vec<String>);

/// A call with its answer in short.
pub struct Timed {
    pub answer: String,
    pub figures: Figures,
}

impl Lines {
    /// Has a script timed.
    pub fn of(program: &str, turns: Option<usize>, script: String) -> Result<Lines, String> {
        let told = |error: std::io::Error| format!("{program}: {error}");
        let mut child = Command::new(program)
            .args(turns.map(|turns| turns.to_string()))
            .stdin(Stdio::piped())
            .stdout(Stdio::piped())
            .spawn()
            .map_err(told)?;
        let (Some(mut stdin), Some(mut stdout)) = (child.stdin.take(), child.stdout.take()) else {
            return Err(format!("{program}: its streams are not there"));
        };
        let writer = std::thread::spawn(move || stdin.write_all(script.as_bytes()));
        let mut text = String::new();
        stdout.read_to_string(&mut text).map_err(told)?;
        let status = child.wait().map_err(told)?;
        match writer.join() {
            Ok(Ok(())) if status.success() => Ok(Lines(text.lines().map(str::to_string).collect())),
            _ => Err(format!("{program} ended with {status}")),
        }
    }

    /// What is said of a call by the words of its line.
    pub fn call(&self, words: &str) -> Result<Timed, String> {
        let all = self.0.iter();
        let mut found = all.filter_map(|line| line.strip_prefix(words)?.strip_prefix(": "));
        found
            .next()
            .and_then(read)
            .ok_or(format!("bench does not time: {words}"))
    }
}

// An answer, and the figures behind it.
fn read(text: &str) -> Option<Timed> {
    let (answer, figures) = text.split_once(", ")?;
    Some(Timed {
        answer: answer.to_string(),
        figures: Figures::read(figures)?,
    })
}
