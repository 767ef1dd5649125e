//! The smallest input that shows a difference.

mod smaller;

use crate::answer::Answer;
use crate::judge::{class_of, Choice};
use crate::layout::{Layout, Question, Word};
use crate::rules::class::{Class, Rules};
use crate::rules::{choose, Sheet};
use crate::side::Original;
use std::time::{Duration, Instant};

/// How long the smallest input of a difference is sought.
const TIME: Duration = Duration::from_secs(10);

/// A question with the hidden tables, on its own.
#[derive(Clone)]
pub struct Small {
    layout: Layout,
    hidden: Vec<bool>,
}

/// What kind of answer both sides give, and the rule that parts them.
#[derive(Clone, Copy, PartialEq, Eq, PartialOrd, Ord)]
pub struct Difference {
    /// None where no one rule says why.
    pub class: Option<Class>,
    pub ours: &'static str,
    pub original: &'static str,
}

impl Small {
    /// A choice on its own.
    pub fn new(choice: &Choice<'_>) -> Small {
        let question = Question {
            word: Word::Propose,
            ..choice.question.clone()
        };
        let layout = Layout {
            questions: vec![question],
            ..choice.layout.clone()
        };
        Small {
            layout,
            hidden: choice.hidden.clone(),
        }
    }

    /// How large it is: fewer tables, then fewer hidden ones, then fewer characters.
    pub fn size(&self) -> (usize, usize, usize) {
        let hidden = self.hidden.iter().filter(|it| **it).count();
        (self.layout.tables.len(), hidden, self.layout.script().len())
    }

    fn question(&self) -> &Question {
        &self.layout.questions[0]
    }

    fn answers(&self) -> (Answer, Answer) {
        let question = self.question();
        let sheet = self.sheet();
        let ours = choose(Rules::OURS, sheet, &question.strategy);
        let original =
            Original::new(&self.layout).choose(&self.hidden, question.clock, &question.strategy);
        (ours, original)
    }

    fn sheet(&self) -> Sheet<'_> {
        Sheet {
            tables: &self.layout.tables,
            hidden: &self.hidden,
            blobs: self.layout.blobs,
            clock: self.question().clock,
        }
    }

    /// The difference that it shows, if it shows one.
    pub fn difference(&self) -> Option<Difference> {
        let (ours, original) = self.answers();
        if ours == original {
            return None;
        }
        let class = class_of(self.sheet(), &self.question().strategy, &original);
        Some(Difference {
            class,
            ours: ours.kind(),
            original: original.kind(),
        })
    }

    /// The script of it, and both answers, line by line.
    pub fn text(&self) -> String {
        let (ours, original) = self.answers();
        let tables = &self.layout.tables;
        let hidden = tables.iter().zip(&self.hidden).filter(|(_, it)| **it);
        let hidden: String = hidden
            .map(|(table, _)| format!(" {}", table.number))
            .collect();
        let hidden = if hidden.is_empty() {
            hidden
        } else {
            format!("# hidden:{hidden}\n")
        };
        let (opening, question) = (self.layout.opening(), self.question());
        format!(
            "{opening}{hidden}{question}\n# here: {}\n# the original: {}\n",
            ours.line(tables),
            original.line(tables)
        )
    }
}

/// The smallest that is found from some on, in a short time, and shows the same difference.
pub fn smallest(starts: &[Small], difference: Difference) -> Option<Small> {
    let end = Instant::now() + TIME;
    let small = starts.iter().map(|start| shrunk(start, difference, end));
    small.min_by_key(Small::size)
}

// Made smaller as long as the difference stays.
fn shrunk(start: &Small, difference: Difference, end: Instant) -> Small {
    let mut best = start.clone();
    loop {
        let size = best.size();
        let next = best
            .smaller()
            .take_while(|_| Instant::now() < end)
            .find(|it| it.size() < size && it.difference() == Some(difference));
        match next {
            Some(next) => best = next,
            None => return best,
        }
    }
}
