//! The comparison itself is tested: errors are planted in right answers, and each has to be noticed.

mod errors;

use crate::judge::{Choice, Course, Known, Verdict};
use crate::layout::Layout;
use crate::planner::{answers, Planner};
use crate::report::Report;
use crate::rules::class::CLASSES;
use crate::Options;
use errors::{ANSWERS, LINES, STREAMS};
use std::collections::BTreeMap;

/// How many layouts a stream has, in which an error is planted.
const STREAM: usize = 20;

/// How often each error was planted, and how often it was noticed.
struct Tally {
    title: &'static str,
    counts: BTreeMap<&'static str, (u64, u64)>,
}

impl Tally {
    fn new(title: &'static str, names: impl Iterator<Item = &'static str>) -> Tally {
        Tally {
            title,
            counts: names.map(|name| (name, (0, 0))).collect(),
        }
    }

    fn add(&mut self, name: &'static str, is_noticed: bool) {
        let (planted, noticed) = self.counts.entry(name).or_default();
        *planted += 1;
        *noticed += u64::from(is_noticed);
    }

    // Prints it, and returns whether every error was noticed, and each was planted where everything is asked.
    fn print(&self, asks_all: bool) -> bool {
        println!("{}", self.title);
        let mut is_well = true;
        for (name, (planted, noticed)) in &self.counts {
            let is_missed = planted > noticed || (asks_all && *planted == 0);
            println!(
                "  {name}: {planted} planted, {noticed} noticed{}",
                if is_missed { ": FAULT" } else { "" }
            );
            is_well &= !is_missed;
        }
        is_well
    }
}

/// Plants errors in the planner's answers and in the original's, and leaves each difference out of those that are named.
struct Plants {
    known: Known,
    planner: Tally,
    original: Tally,
    unnamed: Tally,
    streams: Tally,
}

/// Runs the test, and returns whether all was noticed.
pub fn run(options: &Options) -> Result<bool, String> {
    let layouts: Vec<Layout> = options.layouts().collect();
    let lines = lines_of(options, &layouts)?;
    let mut plants = Plants {
        known: Known::read(&options.differences),
        planner: Tally::new(
            "Errors in the planner's lines:",
            ANSWERS
                .iter()
                .map(|it| it.0)
                .chain(LINES.iter().map(|it| it.0)),
        ),
        original: Tally::new(
            "Errors in what the original chooses:",
            ANSWERS[..errors::CHOICES].iter().map(|it| it.0),
        ),
        unnamed: Tally::new(
            "Differences that are not named:",
            CLASSES.iter().map(|class| class.words()),
        ),
        streams: Tally::new(
            "Errors in the order of the lines:",
            STREAMS.iter().map(|it| it.0),
        ),
    };
    for (layout, lines) in layouts.iter().zip(&lines) {
        plants.plant_in_layout(layout, &lines[1..])?;
    }
    for (layouts, lines) in layouts.chunks(STREAM).zip(lines.chunks(STREAM)) {
        plants.plant_in_stream(layouts, &lines.concat());
    }
    let tallies = [
        &plants.planner,
        &plants.original,
        &plants.unnamed,
        &plants.streams,
    ];
    let asks_all = options.allowed.asks_all();
    Ok(tallies
        .map(|tally| tally.print(asks_all))
        .iter()
        .all(|is_well| *is_well))
}

// The planner's lines for each layout, or the rules' own where there is no planner.
fn lines_of(options: &Options, layouts: &[Layout]) -> Result<Vec<Vec<String>>, String> {
    let Some(program) = &options.planner else {
        return Ok(layouts.iter().map(answers).collect());
    };
    let mut planner = Planner::start(program, options.layouts())?;
    let lines = layouts
        .iter()
        .map(|layout| planner.by_ref().take(layout.questions.len() + 1).collect())
        .collect();
    planner.end().map(|()| lines)
}

impl Plants {
    fn plant_in_layout(&mut self, layout: &Layout, lines: &[String]) -> Result<(), String> {
        let mut course = Course::new(layout);
        for (question, line) in layout.questions.iter().zip(lines) {
            let choice = course.put(question);
            let verdict = choice.judge(line, &self.known);
            if verdict.is_fault() {
                return Err(format!(
                    "{}{line}\nan answer is at fault before anything is planted: {verdict:?}",
                    layout.script()
                ));
            }
            self.plant_in_line(&choice, line);
            self.plant_in_original(choice, line);
        }
        Ok(())
    }

    fn plant_in_line(&mut self, choice: &Choice<'_>, line: &str) {
        let is_noticed = |line: &str| choice.judge(line, &self.known).is_fault();
        for (name, error) in ANSWERS {
            let answer = error(&choice.expected.answer, choice);
            if let Some(reply) = answer.map(|answer| choice.expected.with(answer)) {
                let is_noticed = is_noticed(&reply.line(&choice.layout.tables));
                self.planner.add(name, is_noticed);
            }
        }
        for (name, error) in LINES {
            if let Some(planted) = error(line, choice) {
                let is_noticed = is_noticed(&planted);
                self.planner.add(name, is_noticed);
            }
        }
        if let Verdict::Differs(class) = choice.judge(line, &self.known) {
            self.unnamed.add(
                class.words(),
                choice.judge(line, &self.known.without(class)).is_fault(),
            );
        }
    }

    // What the original would choose with an error, unless that is what we answer.
    fn plant_in_original(&mut self, choice: Choice<'_>, line: &str) {
        let Some(original) = choice.original.clone() else {
            return;
        };
        let mut choice = choice;
        for (name, error) in &ANSWERS[..errors::CHOICES] {
            if let Some(planted) = error(&original, &choice).filter(|it| *it != choice.ours) {
                choice.original = Some(planted);
                self.original
                    .add(name, choice.judge(line, &self.known).is_fault());
            }
        }
    }

    fn plant_in_stream(&mut self, layouts: &[Layout], lines: &[String]) {
        for (name, error) in STREAMS {
            if let Some(planted) = error(lines) {
                let mut report = Report::new(self.known.clone());
                report.compare(layouts.iter().cloned(), &mut planted.into_iter());
                self.streams.add(name, !report.is_well());
            }
        }
    }
}
