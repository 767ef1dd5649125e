//! What booking does, as docs/RULES.md has it: which tables are hidden when a question is put.

use crate::answer::{Answer, Refusal};
use crate::layout::Table;

const MOST_JOBS: usize = 8;
const MOST_HIDDEN: usize = 256;

/// The hidden tables and the running jobs.
pub struct Book {
    /// Whether the table at each place is hidden.
    pub hidden: Vec<bool>,
    jobs: Vec<Answer>,
}

fn refusal(number: u8, place: usize) -> Refusal {
    Refusal {
        number,
        layer: 'J',
        place,
    }
}

impl Book {
    /// A book over so many tables, with no job.
    pub fn new(tables: usize) -> Book {
        Book {
            hidden: vec![false; tables],
            jobs: vec![],
        }
    }

    /// What is hidden for a look ahead: the tables of the present answer too.
    pub fn ahead(&self, first: &Answer) -> Vec<bool> {
        let mut hidden = self.hidden.clone();
        for place in first.places() {
            hidden[*place] = true;
        }
        hidden
    }

    /// Books an answer, or refuses it. The ticket's number is returned.
    pub fn book(&mut self, answer: &Answer, tables: &[Table]) -> Result<u64, Refusal> {
        let places = answer.places();
        let ticket = places
            .iter()
            .map(|place| tables[*place].number)
            .min()
            .ok_or(refusal(10, 0))?;
        if let Some(place) = places.iter().find(|place| self.hidden[**place]) {
            return Err(refusal(11, *place));
        }
        if self.jobs.iter().any(|job| cross(job, answer, tables)) {
            return Err(refusal(12, 0));
        }
        let hidden = self.hidden.iter().filter(|it| **it).count() + places.len();
        if self.jobs.len() >= MOST_JOBS || hidden > MOST_HIDDEN {
            return Err(refusal(13, 0));
        }
        self.hidden = self.ahead(answer);
        self.jobs.push(answer.clone());
        Ok(ticket)
    }
}

// Whether two answers are moves or merges to one level whose spans meet.
fn cross(one: &Answer, other: &Answer, tables: &[Table]) -> bool {
    let (Answer::Move(one) | Answer::Merge(one)) = one else {
        return false;
    };
    let (Answer::Move(other) | Answer::Merge(other)) = other else {
        return false;
    };
    let min = |places: &[usize]| places.iter().map(|place| &tables[*place].min).min();
    let max = |places: &[usize]| places.iter().map(|place| &tables[*place].max).max();
    one.destination == other.destination
        && min(&one.places) <= max(&other.places)
        && min(&other.places) <= max(&one.places)
}
