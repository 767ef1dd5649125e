//! Whether the planner's answer to a question is the original's, or differs by a rule that docs/DIFFERENCES.md names.

use crate::answer::{Answer, Reply};
use crate::book::Book;
use crate::layout::{Layout, Question, Strategy, Word};
use crate::rules::class::{Class, Rules, CLASSES};
use crate::rules::{choose, Sheet};
use crate::side::Original;

/// A question with what both sides choose.
pub struct Choice<'a> {
    pub layout: &'a Layout,
    pub question: &'a Question,
    /// Whether the table at each place is hidden, as the strategy sees it.
    pub hidden: Vec<bool>,
    /// What docs/RULES.md has.
    pub ours: Answer,
    /// What the original chooses. None where no strategy is asked to the end.
    pub original: Option<Answer>,
    /// What the planner has to answer.
    pub expected: Reply,
}

/// How an answer compares.
#[derive(Debug, PartialEq, Eq)]
pub enum Verdict {
    /// It is the original's.
    Agrees,
    /// It differs by this rule alone, which docs/DIFFERENCES.md names.
    Differs(Class),
    /// It differs by a rule that is not named there, or no one rule says why.
    Unnamed(Option<Class>),
    /// It is a refusal of the book's, as it has to be.
    Refused,
    /// The planner's line is wrong.
    Wrong(String),
}

impl Verdict {
    /// Whether it lets a run fail.
    pub fn is_fault(&self) -> bool {
        matches!(self, Verdict::Unnamed(_) | Verdict::Wrong(_))
    }
}

/// The differences that docs/DIFFERENCES.md names.
#[derive(Clone)]
pub struct Known(Vec<Class>);

impl Known {
    /// Those whose words stand in a text.
    pub fn read(differences: &str) -> Known {
        Known(
            CLASSES
                .into_iter()
                .filter(|class| differences.contains(class.words()))
                .collect(),
        )
    }

    /// Whether a difference is one of them.
    pub fn names(&self, class: Class) -> bool {
        self.0.contains(&class)
    }

    /// All but one.
    pub fn without(&self, class: Class) -> Known {
        Known(self.0.iter().copied().filter(|it| *it != class).collect())
    }
}

/// One layout, whose questions are put in turn.
pub struct Course<'a> {
    layout: &'a Layout,
    original: Original,
    book: Book,
}

impl<'a> Course<'a> {
    /// Before the first question.
    pub fn new(layout: &'a Layout) -> Course<'a> {
        Course {
            layout,
            original: Original::new(layout),
            book: Book::new(layout.tables.len()),
        }
    }

    /// Puts a question to both sides, and books what is to be booked.
    pub fn put(&mut self, question: &'a Question) -> Choice<'a> {
        let mut hidden = self.book.hidden.clone();
        let mut ours = choose(
            Rules::OURS,
            sheet(self.layout, &hidden, question.clock),
            &question.strategy,
        );
        if question.word == Word::LookAhead && !matches!(ours, Answer::Refused(_)) {
            hidden = self.book.ahead(&ours);
            ours = choose(
                Rules::OURS,
                sheet(self.layout, &hidden, question.clock),
                &question.strategy,
            );
        }
        let expected = match question.word {
            Word::Propose | Word::LookAhead => Reply::plain(ours.clone()),
            Word::Book => self.book(&ours),
        };
        let is_answered =
            matches!(ours, Answer::Refused(_)) || !matches!(expected.answer, Answer::Refused(_));
        let original = is_answered.then(|| {
            self.original
                .choose(&hidden, question.clock, &question.strategy)
        });
        Choice {
            layout: self.layout,
            question,
            hidden,
            ours,
            original,
            expected,
        }
    }

    fn book(&mut self, ours: &Answer) -> Reply {
        if matches!(ours, Answer::Refused(_)) {
            return Reply::plain(ours.clone());
        }
        match self.book.book(ours, &self.layout.tables) {
            Ok(ticket) => Reply {
                ticket: Some(ticket),
                answer: ours.clone(),
            },
            Err(refusal) => Reply::plain(Answer::Refused(refusal)),
        }
    }
}

fn sheet<'a>(layout: &'a Layout, hidden: &'a [bool], clock: u64) -> Sheet<'a> {
    Sheet {
        tables: &layout.tables,
        hidden,
        blobs: layout.blobs,
        clock,
    }
}

/// The one rule of the original by which it differs, if one explains it.
pub fn class_of(sheet: Sheet<'_>, strategy: &Strategy, original: &Answer) -> Option<Class> {
    CLASSES
        .into_iter()
        .find(|class| choose(Rules::but_for(*class), sheet, strategy) == *original)
}

impl Choice<'_> {
    /// What the strategy is asked about.
    pub fn sheet(&self) -> Sheet<'_> {
        sheet(self.layout, &self.hidden, self.question.clock)
    }

    /// Whether the rules with all those of the original in place of ours give what it chooses.
    pub fn model_holds(&self) -> bool {
        let model = choose(Rules::ORIGINAL, self.sheet(), &self.question.strategy);
        self.original
            .as_ref()
            .map_or(true, |original| *original == model)
    }

    /// Compares the planner's line with both.
    pub fn judge(&self, line: &str, known: &Known) -> Verdict {
        match Reply::read(line, &self.layout.tables) {
            Err(why) => Verdict::Wrong(why),
            Ok(reply) => self.compare(&reply, known),
        }
    }

    fn compare(&self, reply: &Reply, known: &Known) -> Verdict {
        let Some(original) = &self.original else {
            return if *reply == self.expected {
                Verdict::Refused
            } else {
                Verdict::Wrong("the book does not answer as docs/RULES.md has it".to_string())
            };
        };
        if *reply != self.expected {
            return Verdict::Wrong(
                "the planner does not answer as docs/RULES.md has it".to_string(),
            );
        }
        if reply.answer == *original {
            return Verdict::Agrees;
        }
        match class_of(self.sheet(), &self.question.strategy, original) {
            Some(class) if known.names(class) => Verdict::Differs(class),
            class => Verdict::Unnamed(class),
        }
    }
}
