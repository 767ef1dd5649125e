//! Errors that can be planted in a right answer. One that does not fit an answer gives none.

use crate::answer::{Answer, Input, Refusal};
use crate::judge::Choice;
use crate::layout::Table;

type AnswerError = (&'static str, fn(&Answer, &Choice<'_>) -> Option<Answer>);
type LineError = (&'static str, fn(&str, &Choice<'_>) -> Option<String>);
type StreamError = (&'static str, fn(&[String]) -> Option<Vec<String>>);

/// How many of the errors in an answer fit a choice; the others are of refusals.
pub const CHOICES: usize = 9;

/// Errors in an answer.
pub const ANSWERS: [AnswerError; 13] = [
    ("nothing", |answer, _| {
        (*answer != Answer::Nothing).then_some(Answer::Nothing)
    }),
    ("another kind", |answer, _| Some(other_kind(answer))),
    ("a table more", table_more),
    ("a table less", table_less),
    ("another table", other_table),
    ("a higher destination", |answer, _| {
        with_input(answer, |input| input.destination += 1)
    }),
    ("a lower destination", |answer, _| {
        with_input(answer, |input| input.destination -= 1)
    }),
    ("another canonical level", |answer, _| {
        with_input(answer, |input| input.canonical += 1)
    }),
    ("another target size", |answer, _| {
        with_input(answer, |input| input.target ^= 1)
    }),
    ("another refusal", |answer, _| {
        with_refusal(answer, |it| it.number += 1)
    }),
    ("another layer", |answer, _| {
        with_refusal(answer, |it| it.layer = 'T')
    }),
    ("another place", |answer, _| {
        with_refusal(answer, |it| it.place += 1)
    }),
    ("as the original has it", as_original),
];

/// Errors in a line.
pub const LINES: [LineError; 8] = [
    ("other bytes", other_bytes),
    ("another order", other_order),
    ("a table twice", |line, _| {
        Some(format!("{line} {}", numbers(line)?.last()?))
    }),
    ("a table that does not stand", |line, choice| {
        numbers(line)?;
        Some(format!("{line} {}", free_number(&choice.layout.tables)))
    }),
    ("another ticket", |line, _| {
        let (ticket, rest) = line.strip_prefix("booked ")?.split_once(' ')?;
        Some(format!("booked {} {rest}", ticket.parse::<u64>().ok()? ^ 1))
    }),
    ("no ticket", |line, _| {
        Some(line.strip_prefix("booked ")?.split_once(' ')?.1.to_string())
    }),
    ("a ticket for no job", |line, _| {
        (!line.starts_with("booked")).then(|| format!("booked 1 {line}"))
    }),
    ("a word more", |line, _| Some(format!("{line} so"))),
];

/// Errors in the order of the lines.
pub const STREAMS: [StreamError; 6] = [
    ("the last line is missing", |lines| {
        Some(lines[..lines.len() - 1].to_vec())
    }),
    ("a line is missing", |lines| {
        let mut lines = lines.to_vec();
        lines.remove(lines.len() / 2);
        Some(lines)
    }),
    ("a line stands twice", |lines| {
        let mut lines = lines.to_vec();
        lines.insert(lines.len() / 2, lines[lines.len() / 2].clone());
        Some(lines)
    }),
    ("a line more at the end", |lines| {
        Some([lines, &["nothing".to_string()]].concat())
    }),
    ("two lines change places", |lines| {
        let at = (1..lines.len()).find(|at| lines[at - 1] != lines[*at])?;
        let mut lines = lines.to_vec();
        lines.swap(at - 1, at);
        Some(lines)
    }),
    ("no line", |_| Some(vec![])),
];

fn other_kind(answer: &Answer) -> Answer {
    match answer {
        Answer::Nothing | Answer::Refused(_) | Answer::Stopped => Answer::Drop(vec![]),
        Answer::Move(input) => Answer::Merge(input.clone()),
        Answer::Merge(input) => Answer::Move(input.clone()),
        Answer::Drop(places) => Answer::Merge(Input {
            places: places.clone(),
            destination: 6,
            canonical: 6,
            target: 1,
        }),
    }
}

// The answer with other tables.
fn with_places(answer: &Answer, mut places: Vec<usize>) -> Answer {
    places.sort_unstable();
    match answer {
        Answer::Move(input) => Answer::Move(Input {
            places,
            ..input.clone()
        }),
        Answer::Merge(input) => Answer::Merge(Input {
            places,
            ..input.clone()
        }),
        _ => Answer::Drop(places),
    }
}

fn names_tables(answer: &Answer) -> bool {
    matches!(answer, Answer::Move(_) | Answer::Merge(_) | Answer::Drop(_))
}

// The first place that is not named.
fn unnamed(answer: &Answer, choice: &Choice<'_>) -> Option<usize> {
    (0..choice.layout.tables.len()).find(|place| !answer.places().contains(place))
}

fn table_more(answer: &Answer, choice: &Choice<'_>) -> Option<Answer> {
    let more = unnamed(answer, choice).filter(|_| names_tables(answer))?;
    Some(with_places(answer, [answer.places(), &[more]].concat()))
}

fn table_less(answer: &Answer, _: &Choice<'_>) -> Option<Answer> {
    let (_, others) = answer.places().split_last()?;
    Some(with_places(answer, others.to_vec()))
}

fn other_table(answer: &Answer, choice: &Choice<'_>) -> Option<Answer> {
    let (_, others) = answer.places().split_first()?;
    Some(with_places(
        answer,
        [others, &[unnamed(answer, choice)?]].concat(),
    ))
}

fn with_input(answer: &Answer, change: impl Fn(&mut Input)) -> Option<Answer> {
    let mut answer = answer.clone();
    match &mut answer {
        Answer::Move(input) | Answer::Merge(input) => change(input),
        _ => return None,
    }
    Some(answer)
}

fn with_refusal(answer: &Answer, change: impl Fn(&mut Refusal)) -> Option<Answer> {
    let mut answer = answer.clone();
    match &mut answer {
        Answer::Refused(refusal) => change(refusal),
        _ => return None,
    }
    Some(answer)
}

// Where the original differs, what it chooses. Where it stops, nothing.
fn as_original(answer: &Answer, choice: &Choice<'_>) -> Option<Answer> {
    let original = choice
        .original
        .clone()
        .filter(|original| original != answer)?;
    Some(if original == Answer::Stopped {
        Answer::Nothing
    } else {
        original
    })
}

// The numbers of the tables that a line names, if it is of a kind that names any.
fn numbers(line: &str) -> Option<Vec<&str>> {
    let (_, numbers) = line.split_once(':')?;
    Some(numbers.split_whitespace().collect())
}

fn other_bytes(line: &str, _: &Choice<'_>) -> Option<String> {
    let (head, numbers) = line.split_once(':')?;
    let (head, bytes) = head.rsplit_once(' ')?;
    Some(format!(
        "{head} {}:{numbers}",
        bytes.parse::<u64>().ok()? ^ 1
    ))
}

fn other_order(line: &str, _: &Choice<'_>) -> Option<String> {
    let (head, rest) = line.rsplit_once(' ')?;
    let (head, other) = head
        .rsplit_once(' ')
        .filter(|(_, other)| !other.ends_with(':'))?;
    numbers(line)?;
    Some(format!("{head} {rest} {other}"))
}

// A number that no table has.
fn free_number(tables: &[Table]) -> u64 {
    (0..)
        .find(|n| tables.iter().all(|table| table.number != *n))
        .unwrap_or_default()
}
