//! The planner as a process: a script goes in, and the answers come out line by line.

use crate::judge::Course;
use crate::layout::Layout;
use std::io::{BufRead, BufReader, Lines, Read, Write};
use std::process::{Child, ChildStderr, ChildStdin, ChildStdout, Command, Stdio};
use std::thread::JoinHandle;

/// A running planner.
pub struct Planner {
    child: Child,
    lines: Lines<BufReader<ChildStdout>>,
    writer: JoinHandle<()>,
    complaints: JoinHandle<String>,
}

impl Planner {
    /// Starts a planner, and hands it the scripts of all layouts from a thread of its own.
    pub fn start(
        program: &str,
        layouts: impl Iterator<Item = Layout> + Send + 'static,
    ) -> Result<Planner, String> {
        let mut child = Command::new(program)
            .stdin(Stdio::piped())
            .stdout(Stdio::piped())
            .stderr(Stdio::piped())
            .spawn()
            .map_err(|error| format!("{program}: {error}"))?;
        let streams = (child.stdin.take(), child.stdout.take(), child.stderr.take());
        let (Some(stdin), Some(stdout), Some(stderr)) = streams else {
            return Err(format!("{program}: its streams are not there"));
        };
        Ok(Planner {
            child,
            lines: BufReader::new(stdout).lines(),
            writer: std::thread::spawn(move || write_all(stdin, layouts)),
            complaints: std::thread::spawn(move || read_all(stderr)),
        })
    }

    /// Waits for its end: what it complained of, if it did not end well.
    pub fn end(mut self) -> Result<(), String> {
        drop(self.lines);
        let status = self.child.wait().map_err(|error| error.to_string())?;
        let complaints = self.complaints.join().unwrap_or_default();
        // A planner that ended early took no more of the script.
        let _ = self.writer.join();
        if status.success() && complaints.is_empty() {
            Ok(())
        } else {
            Err(format!(
                "the planner ended with {status}: {}",
                complaints.trim()
            ))
        }
    }
}

impl Iterator for Planner {
    type Item = String;

    fn next(&mut self) -> Option<String> {
        self.lines.next()?.ok()
    }
}

fn write_all(mut stdin: ChildStdin, layouts: impl Iterator<Item = Layout>) {
    for layout in layouts {
        if stdin.write_all(layout.script().as_bytes()).is_err() {
            return;
        }
    }
}

fn read_all(mut stderr: ChildStderr) -> String {
    let mut text = String::new();
    // What is no text says nothing.
    let _ = stderr.read_to_string(&mut text);
    text
}

/// The line with which a planner answers that a book was opened.
pub fn opened(layout: &Layout) -> String {
    format!("opened {}", layout.tables.len())
}

/// What a planner would answer to a layout, line by line.
pub fn answers(layout: &Layout) -> Vec<String> {
    let mut course = Course::new(layout);
    let mut lines = vec![opened(layout)];
    for question in &layout.questions {
        lines.push(course.put(question).expected.line(&layout.tables));
    }
    lines
}
