//! The calls of a book, which the original has not.

use super::layouts::{Keys, STORE};
use super::ours::Lines;
use super::table::{both, head, row};
use super::{Bench, MOST};
use crate::judge::Course;
use crate::layout::{Key, Layout, Table};
use std::fmt::Write;

/// A script that makes each call once, and the words of the lines.
struct Script {
    text: String,
    calls: Vec<String>,
}

// A table that is to come in, as the script says it.
fn fresh(number: u64, min: &Key, max: &Key, size: u64) -> String {
    format!("{number} {min} {max} {size} 0 0")
}

impl Script {
    fn new(layout: &Layout) -> Script {
        Script {
            text: layout.opening(),
            calls: vec![],
        }
    }

    // A line of which nothing is timed.
    fn say(&mut self, line: &str) {
        writeln!(self.text, "{line}").expect("a string takes all");
    }

    fn call(&mut self, line: String) {
        self.say(&line);
        self.calls.push(line);
    }
}

// A merge is proposed, looked past, booked and given up, booked again and closed with one output; then a table lands.
fn script(layout: &Layout) -> Script {
    let question = &layout.questions[0];
    let asked = format!("{} {}", question.clock, question.strategy);
    let mut script = Script::new(layout);
    let mut course = Course::new(layout);
    let choice = course.put(question);
    let named: Vec<&Table> = choice
        .ours
        .places()
        .iter()
        .map(|place| &layout.tables[*place])
        .collect();
    let ticket = named.iter().map(|t| t.number).min().unwrap_or_default();
    let bytes = named.iter().map(|t| t.size).sum();
    let ends = named
        .iter()
        .map(|t| &t.min)
        .min()
        .zip(named.iter().map(|t| &t.max).max());
    for word in ["propose", "look-ahead", "book"] {
        script.call(format!("{word} {asked}"));
    }
    script.call(format!("give-up {ticket}"));
    script.say(&format!("book {asked}"));
    if let Some((min, max)) = ends {
        script.say(&format!("output {}", fresh(1 << 33, min, max, bytes)));
        script.call(format!("close {ticket}"));
        script.call(format!("land {}", fresh(1 << 32, min, max, 1 << 26)));
    }
    script
}

/// Prints what each call takes on a full sheet.
pub fn print(bench: &Bench<'_>) -> Result<(), String> {
    let all = [Keys::Bytes, Keys::Stops].map(|keys| {
        let script = script(&(STORE.layout)(MOST, keys));
        let calls = script.calls.clone();
        Lines::of(bench.bench, bench.turns, script.text).map(|lines| (calls, lines))
    });
    let [bytes, stops] = all;
    let ((words, bytes), (stop_words, stops)) = (bytes?, stops?);
    head(&["Call", "Answer", "Byte keys", "Stop keys"], 2);
    for (words, stop_words) in words.iter().zip(&stop_words) {
        let (one, other) = (bytes.call(words)?, stops.call(stop_words)?);
        let name = words.split(' ').next().unwrap_or_default();
        row(&[
            format!("`{name}`"),
            one.answer,
            both(one.figures),
            both(other.figures),
        ]);
    }
    println!();
    Ok(())
}
