//! A run beside the original: random layouts are put to the planner and to the original, and the answers are compared.

mod answer;
mod book;
mod families;
mod judge;
mod layout;
mod planner;
mod plants;
mod report;
mod rng;
mod rules;
mod sample;
mod side;
mod small;
mod speed;

use families::{layout, Allowed};
use judge::Known;
use layout::{Kind, Layout, KINDS};
use planner::{answers, Planner};
use report::Report;
use std::process::ExitCode;

/// What is to be done.
struct Options {
    command: String,
    count: u64,
    seed: u64,
    /// The planner's program. Without one the rules answer in its place.
    planner: Option<String>,
    /// The program that times our calls.
    bench: Option<String>,
    /// The text of docs/DIFFERENCES.md.
    differences: String,
    /// Where a sample is written to.
    to: String,
    allowed: Allowed,
}

fn read_options() -> Result<Options, String> {
    let mut words = std::env::args().skip(1);
    let mut options = Options {
        command: words
            .next()
            .ok_or("a command is wanted: run, self-test, sample or speed")?,
        count: 0,
        seed: 1,
        planner: None,
        bench: None,
        differences: String::new(),
        to: String::new(),
        allowed: Allowed {
            strategies: KINDS.to_vec(),
            hidden: true,
        },
    };
    while let Some(word) = words.next() {
        if word == "--no-hidden" {
            options.allowed.hidden = false;
            continue;
        }
        let value = words.next().ok_or(format!("{word} wants a value"))?;
        let number = || {
            value
                .parse::<u64>()
                .map_err(|_| format!("{word} wants a number"))
        };
        match word.as_str() {
            "--count" => options.count = number()?,
            "--seed" => options.seed = number()?,
            "--planner" => options.planner = Some(value),
            "--bench" => options.bench = Some(value),
            "--to" => options.to = value,
            "--strategies" => options.allowed.strategies = read_strategies(&value)?,
            "--differences" => {
                options.differences =
                    std::fs::read_to_string(&value).map_err(|error| format!("{value}: {error}"))?;
            }
            _ => return Err(format!("{word} is not known")),
        }
    }
    Ok(options)
}

fn read_strategies(names: &str) -> Result<Vec<Kind>, String> {
    let kind = |name: &str| {
        let found = KINDS.into_iter().find(|kind| kind.name() == name);
        found.ok_or(format!("{name} is no strategy"))
    };
    names.split(',').map(kind).collect()
}

impl Options {
    fn layouts(&self) -> impl Iterator<Item = Layout> + Send + 'static {
        self.all_layouts().take(self.count as usize)
    }

    // Without an end.
    fn all_layouts(&self) -> impl Iterator<Item = Layout> + Send + 'static {
        let (seed, allowed) = (self.seed, self.allowed.clone());
        (0..).map(move |place| layout(seed, place, &allowed))
    }

    // Compares all layouts.
    fn run(&self) -> Result<bool, String> {
        let mut report = Report::new(Known::read(&self.differences));
        let ended = match &self.planner {
            Some(program) => {
                let mut planner = Planner::start(program, self.layouts())?;
                report.compare(self.layouts(), &mut planner);
                planner.end()
            }
            None => {
                report.compare(
                    self.layouts(),
                    &mut self.layouts().flat_map(|layout| answers(&layout)),
                );
                Ok(())
            }
        };
        report.print();
        if let Err(why) = &ended {
            println!("{why}");
        }
        Ok(ended.is_ok() && report.is_well())
    }
}

fn main() -> ExitCode {
    // An assert of the original is an answer here, and says nothing.
    std::panic::set_hook(Box::new(|info| {
        if info
            .location()
            .is_some_and(|at| !at.file().contains("original/"))
        {
            eprintln!("{info}");
        }
    }));
    let done = read_options().and_then(|options| match options.command.as_str() {
        "run" => options.run(),
        "self-test" => plants::run(&options),
        "sample" => sample::write(&options),
        "speed" => speed::run(&options),
        other => Err(format!("{other} is no command")),
    });
    match done {
        Ok(true) => ExitCode::SUCCESS,
        Ok(false) => ExitCode::FAILURE,
        Err(why) => {
            eprintln!("compare: {why}");
            ExitCode::from(2)
        }
    }
}
