//! What a run finds.

use crate::answer::Answer;
use crate::families::{Family, FAMILIES};
use crate::judge::{Choice, Course, Known, Verdict};
use crate::layout::{Kind, Layout, Strategy};
use crate::planner::opened;
use crate::rules::class::Rules;
use crate::rules::{steps, Step};
use crate::small::{smallest, Difference, Small};
use std::collections::BTreeMap;

/// How many wrong lines end a run, and how many of them are printed.
const MOST_FAULTS: usize = 50;
const PRINTED: usize = 3;

/// How many inputs of a difference are kept, so that the smallest can be sought from them.
const KEPT: usize = 20;

/// How often each kind of answer was compared.
#[derive(Default)]
struct Kinds(BTreeMap<&'static str, u64>);

impl Kinds {
    fn add(&mut self, kind: &'static str) {
        *self.0.entry(kind).or_default() += 1;
    }

    fn total(&self) -> u64 {
        self.0.values().sum()
    }

    fn text(&self) -> String {
        let parts: Vec<String> = self
            .0
            .iter()
            .map(|(kind, count)| format!("{kind} {count}"))
            .collect();
        parts.join(", ")
    }
}

/// What a run found.
pub struct Report {
    known: Known,
    layouts: u64,
    tables: usize,
    families: BTreeMap<Family, Kinds>,
    strategies: BTreeMap<Kind, Kinds>,
    steps: BTreeMap<Step, Kinds>,
    /// Choices with a hidden table.
    hidden: u64,
    /// Refusals of the book's, by their numbers.
    refused: BTreeMap<u8, u64>,
    differences: BTreeMap<Difference, Shown>,
    /// Whether each of them is named.
    are_named: bool,
    faults: Vec<String>,
}

/// How often a difference was seen, and the smallest inputs of it.
#[derive(Default)]
struct Shown {
    count: u64,
    inputs: Vec<Small>,
}

impl Report {
    /// Of nothing yet.
    pub fn new(known: Known) -> Report {
        Report {
            known,
            layouts: 0,
            tables: 0,
            families: BTreeMap::new(),
            strategies: BTreeMap::new(),
            steps: BTreeMap::new(),
            hidden: 0,
            refused: BTreeMap::new(),
            differences: BTreeMap::new(),
            are_named: true,
            faults: vec![],
        }
    }

    /// Compares what a planner answers to some layouts, to its last line.
    pub fn compare(
        &mut self,
        layouts: impl Iterator<Item = Layout>,
        lines: &mut impl Iterator<Item = String>,
    ) {
        for layout in layouts {
            self.compare_layout(&layout, lines);
            if self.faults.len() >= MOST_FAULTS {
                return;
            }
        }
        if let Some(line) = lines.next() {
            self.faults
                .push(format!("the planner answers more than was asked: {line}"));
        }
    }

    fn compare_layout(&mut self, layout: &Layout, lines: &mut impl Iterator<Item = String>) {
        self.layouts += 1;
        self.tables = self.tables.max(layout.tables.len());
        let first = lines.next();
        if first.as_ref() != Some(&opened(layout)) {
            self.faults.push(format!(
                "{}\nthe book was not opened: {first:?}",
                layout.opening()
            ));
            return;
        }
        let mut course = Course::new(layout);
        for question in &layout.questions {
            let choice = course.put(question);
            match lines.next() {
                Some(line) => self.compare_choice(&choice, &line),
                None => self.fault(&choice, "", "the planner answers no more"),
            }
        }
    }

    fn compare_choice(&mut self, choice: &Choice<'_>, line: &str) {
        match choice.judge(line, &self.known) {
            Verdict::Agrees => self.count(choice),
            Verdict::Differs(_) => {
                self.count(choice);
                self.differ(choice);
            }
            Verdict::Unnamed(_) => {
                self.are_named = false;
                self.differ(choice);
            }
            Verdict::Refused => {
                if let Answer::Refused(refusal) = choice.expected.answer {
                    *self.refused.entry(refusal.number).or_default() += 1;
                }
            }
            Verdict::Wrong(why) => self.fault(choice, line, &why),
        }
        if !choice.model_holds() {
            self.fault(
                choice,
                line,
                "the rules with all those of the original do not give what it chooses",
            );
        }
    }

    fn differ(&mut self, choice: &Choice<'_>) {
        let small = Small::new(choice);
        if let Some(difference) = small.difference() {
            let shown = self.differences.entry(difference).or_default();
            shown.count += 1;
            shown.inputs.push(small);
            shown.inputs.sort_by_key(Small::size);
            shown.inputs.truncate(KEPT);
        }
    }

    fn fault(&mut self, choice: &Choice<'_>, line: &str, why: &str) {
        let tables = &choice.layout.tables;
        let original = choice
            .original
            .as_ref()
            .map_or("not asked".to_string(), |it| it.line(tables));
        self.faults.push(format!(
            "{}at: {}\nthe planner: {line}\nthe rules: {}\nthe original: {original}\n{why}",
            choice.layout.script(),
            choice.question,
            choice.expected.line(tables),
        ));
    }

    // Counts an answer that was compared.
    fn count(&mut self, choice: &Choice<'_>) {
        let kind = choice.ours.kind();
        self.families
            .entry(choice.layout.family)
            .or_default()
            .add(kind);
        self.strategies
            .entry(choice.question.strategy.kind())
            .or_default()
            .add(kind);
        if let Strategy::Leveled(settings) = &choice.question.strategy {
            let (step, answer) = steps(Rules::OURS, choice.sheet(), settings);
            self.steps.entry(step).or_default().add(answer.kind());
        }
        if choice.hidden.contains(&true) {
            self.hidden += 1;
        }
    }

    /// Whether nothing was found but what docs/DIFFERENCES.md names.
    pub fn is_well(&self) -> bool {
        self.faults.is_empty() && self.are_named
    }

    /// How many choices were compared.
    pub fn total(&self) -> u64 {
        self.strategies.values().map(Kinds::total).sum()
    }

    /// Prints what was found.
    pub fn print(&self) {
        println!(
            "{} choices compared on {} layouts of up to {} tables; {} with hidden tables",
            self.total(),
            self.layouts,
            self.tables,
            self.hidden
        );
        for (number, count) in &self.refused {
            println!("  bookings refused with {number}: {count}");
        }
        for (kind, kinds) in &self.strategies {
            println!("  {}: {} ({})", kind.name(), kinds.total(), kinds.text());
        }
        for (step, kinds) in &self.steps {
            println!(
                "  leveled, {}: {} ({})",
                step.words(),
                kinds.total(),
                kinds.text()
            );
        }
        for (family, name) in FAMILIES {
            if let Some(kinds) = self.families.get(&family) {
                println!("  {name}: {} ({})", kinds.total(), kinds.text());
            }
        }
        self.print_differences();
        let mut faults: Vec<&String> = self.faults.iter().collect();
        faults.sort_by_key(|fault| fault.len());
        for fault in faults.iter().take(PRINTED) {
            println!("WRONG\n{fault}\n");
        }
        println!(
            "{} wrong answers{}",
            faults.len(),
            if faults.len() < MOST_FAULTS {
                ""
            } else {
                ", and no more was looked at"
            }
        );
    }

    fn print_differences(&self) {
        println!();
        for (difference, shown) in &self.differences {
            let Difference {
                class,
                ours,
                original,
            } = difference;
            let words = class.map_or("NO RULE SAYS WHY", |class| class.words());
            let named = if class.map_or(true, |class| self.known.names(class)) {
                ""
            } else {
                ", WHICH docs/DIFFERENCES.md DOES NOT NAME"
            };
            println!(
                "{words}{named}: {} times {ours} here and {original} there. The smallest:",
                shown.count
            );
            if let Some(small) = smallest(&shown.inputs, *difference) {
                println!("{}", small.text());
            }
        }
    }
}
