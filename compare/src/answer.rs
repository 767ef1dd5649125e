//! What is answered to a question, and the planner's line of it.

use crate::layout::Table;
use std::fmt::Write;

/// What a move or a merge says. Tables are said by their places in the sheet, in order.
#[derive(Clone, Debug, PartialEq, Eq)]
pub struct Input {
    pub places: Vec<usize>,
    pub destination: u8,
    pub canonical: u8,
    pub target: u64,
}

/// A refusal by its number, layer and place.
#[derive(Clone, Copy, Debug, PartialEq, Eq)]
pub struct Refusal {
    pub number: u8,
    pub layer: char,
    pub place: usize,
}

impl Refusal {
    // What the planner says of it.
    fn words(self) -> &'static str {
        match self.number {
            7 => "level 0 has more than one run",
            8 => "a table of level 0 is hidden",
            10 => "the choice names no table",
            11 => "a table of the choice is hidden",
            12 => "a running job to the same level meets the span",
            13 => "no job is free or too many tables would be hidden",
            _ => "this is not asked for",
        }
    }
}

/// The answer to a question.
#[derive(Clone, Debug, PartialEq, Eq)]
pub enum Answer {
    Nothing,
    Move(Input),
    Merge(Input),
    Drop(Vec<usize>),
    Refused(Refusal),
    /// The original stops at an assert.
    Stopped,
}

/// A line of the planner: an answer, with the ticket where it was booked.
#[derive(Clone, Debug, PartialEq, Eq)]
pub struct Reply {
    pub ticket: Option<u64>,
    pub answer: Answer,
}

impl Answer {
    /// The places of the tables that it names.
    pub fn places(&self) -> &[usize] {
        match self {
            Answer::Move(input) | Answer::Merge(input) => &input.places,
            Answer::Drop(places) => places,
            Answer::Nothing | Answer::Refused(_) | Answer::Stopped => &[],
        }
    }

    /// What kind of answer it is.
    pub fn kind(&self) -> &'static str {
        match self {
            Answer::Nothing => "nothing",
            Answer::Move(_) => "move",
            Answer::Merge(_) => "merge",
            Answer::Drop(_) => "drop",
            Answer::Refused(Refusal { number: 7, .. }) => "refused 7",
            Answer::Refused(Refusal { number: 8, .. }) => "refused 8",
            Answer::Refused(_) => "refused",
            Answer::Stopped => "stopped",
        }
    }

    /// The planner's line of it.
    pub fn line(&self, tables: &[Table]) -> String {
        let head = match self {
            Answer::Nothing => return "nothing".to_string(),
            Answer::Stopped => return "stopped".to_string(),
            Answer::Refused(it) => {
                return format!(
                    "refused {} {} {} {}",
                    it.number,
                    it.layer,
                    it.place,
                    it.words()
                )
            }
            Answer::Drop(_) => "drop".to_string(),
            Answer::Move(input) | Answer::Merge(input) => format!(
                "{} to {} canonical {} target {}",
                self.kind(),
                input.destination,
                input.canonical,
                input.target
            ),
        };
        let bytes: u64 = self.places().iter().map(|place| tables[*place].size).sum();
        let mut line = format!("{head} bytes {bytes}:");
        for place in self.places() {
            write!(line, " {}", tables[*place].number).expect("a string takes all");
        }
        line
    }
}

impl Reply {
    /// An answer that nothing was booked for.
    pub fn plain(answer: Answer) -> Reply {
        Reply {
            ticket: None,
            answer,
        }
    }

    /// With another answer.
    pub fn with(&self, answer: Answer) -> Reply {
        Reply { answer, ..*self }
    }

    /// The planner's line of it.
    pub fn line(&self, tables: &[Table]) -> String {
        let line = self.answer.line(tables);
        match self.ticket {
            Some(ticket) => format!("booked {ticket} {line}"),
            None => line,
        }
    }

    /// Reads a line of the planner. It must be what would be written for what it says.
    pub fn read(line: &str, tables: &[Table]) -> Result<Reply, String> {
        let mut words = line.split(' ');
        let reply = read_reply(&mut words, tables).ok_or("the line is malformed")?;
        let again = reply.line(tables);
        if line == again {
            Ok(reply)
        } else {
            Err(format!("the line is not spelt as: {again}"))
        }
    }
}

fn read_reply<'a>(words: &mut impl Iterator<Item = &'a str>, tables: &[Table]) -> Option<Reply> {
    match words.next()? {
        "booked" => {
            let ticket = words.next()?.parse().ok()?;
            let kind = words.next()?;
            let answer = read_answer(kind, words, tables)?;
            Some(Reply {
                ticket: Some(ticket),
                answer,
            })
        }
        kind => Some(Reply::plain(read_answer(kind, words, tables)?)),
    }
}

fn read_answer<'a>(
    kind: &str,
    words: &mut impl Iterator<Item = &'a str>,
    tables: &[Table],
) -> Option<Answer> {
    match kind {
        "nothing" => Some(Answer::Nothing),
        "refused" => {
            let number = words.next()?.parse().ok()?;
            let layer = words.next()?.parse().ok()?;
            let place = words.next()?.parse().ok()?;
            Some(Answer::Refused(Refusal {
                number,
                layer,
                place,
            }))
        }
        "drop" => Some(Answer::Drop(read_places(words, tables)?)),
        "move" => Some(Answer::Move(read_input(words, tables)?)),
        "merge" => Some(Answer::Merge(read_input(words, tables)?)),
        _ => None,
    }
}

fn read_input<'a>(words: &mut impl Iterator<Item = &'a str>, tables: &[Table]) -> Option<Input> {
    let destination = read_named("to", words)?;
    let canonical = read_named("canonical", words)?;
    let target = read_named("target", words)?;
    let places = read_places(words, tables)?;
    Some(Input {
        places,
        destination: u8::try_from(destination).ok()?,
        canonical: u8::try_from(canonical).ok()?,
        target,
    })
}

// A number behind its name.
fn read_named<'a>(name: &str, words: &mut impl Iterator<Item = &'a str>) -> Option<u64> {
    (words.next()? == name).then_some(())?;
    words.next()?.parse().ok()
}

// The tables of an answer, behind their bytes, which are compared when the answer is written again.
fn read_places<'a>(
    words: &mut impl Iterator<Item = &'a str>,
    tables: &[Table],
) -> Option<Vec<usize>> {
    (words.next()? == "bytes").then_some(())?;
    words.next()?.strip_suffix(':')?;
    let mut places = words
        .map(|word| {
            let number: u64 = word.parse().ok()?;
            tables.iter().position(|table| table.number == number)
        })
        .collect::<Option<Vec<usize>>>()?;
    places.sort_unstable();
    Some(places)
}
