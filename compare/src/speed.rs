//! Times both sides on the same layouts.

mod calls;
mod figures;
mod layouts;
mod ours;
mod table;

use crate::answer::Answer;
use crate::judge::{Choice, Course, Known, Verdict};
use crate::layout::Layout;
use crate::planner::{opened, Planner};
use crate::side::Original;
use crate::Options;
use figures::{time, Figures};
use layouts::{Keys, Shape, SHAPES};
use ours::Lines;
use table::{both, head, micros, ratio, row, short, thousands};

/// How many tables a full sheet has.
const MOST: usize = 1024;

/// The sizes at which growth is seen.
const SIZES: [usize; 5] = [64, 128, 256, 512, MOST];

/// The programs, and how many turns they are asked for.
struct Bench<'a> {
    planner: &'a str,
    bench: &'a str,
    turns: Option<usize>,
}

/// The figures of a layout's last question.
struct Figured {
    answer: String,
    original: Figures,
    /// The strategy alone.
    alone: Figures,
    /// The test of book and sheet alone.
    test: Figures,
    /// The call on the book, which does both.
    call: Figures,
}

/// Prints tables of figures, and returns whether both sides answer the same everywhere.
pub fn run(options: &Options) -> Result<bool, String> {
    let wanted = |program: &'_ Option<String>, name: &str| {
        program.clone().ok_or(format!("{name} wants a program"))
    };
    let (planner, bench) = (
        wanted(&options.planner, "--planner")?,
        wanted(&options.bench, "--bench")?,
    );
    let bench = Bench {
        planner: &planner,
        bench: &bench,
        turns: Some(options.count as usize).filter(|turns| *turns > 0),
    };
    for (keys, name) in [(Keys::Bytes, "byte keys"), (Keys::Stops, "stop keys")] {
        println!("### {} tables, {name}\n", thousands(MOST as u64));
        bench.print_full(keys)?;
    }
    println!("### Growth, byte keys\n");
    bench.print_growth()?;
    println!(
        "### The calls of a book on {} tables\n",
        thousands(MOST as u64)
    );
    calls::print(&bench)?;
    Ok(true)
}

impl Bench<'_> {
    // All shapes on a full sheet.
    fn print_full(&self, keys: Keys) -> Result<(), String> {
        let titles = [
            "Question",
            "Answer",
            "Rust",
            "Ours",
            "Ours / Rust",
            "Test",
            "Call",
            "Call / Rust",
        ];
        head(&titles, 2);
        for shape in SHAPES {
            let it = self.figures(shape, MOST, keys)?;
            row(&[
                shape.name.to_string(),
                it.answer,
                both(it.original),
                both(it.alone),
                ratio(it.alone, it.original),
                both(it.test),
                both(it.call),
                ratio(it.call, it.original),
            ]);
        }
        println!();
        Ok(())
    }

    // Each shape at each size.
    fn print_growth(&self) -> Result<(), String> {
        let sizes = SIZES.map(|n| thousands(n as u64));
        let mut titles = vec!["Question", "Side"];
        titles.extend(sizes.iter().map(String::as_str));
        titles.push("Doubled");
        head(&titles, 2);
        let mut tests = None;
        for shape in SHAPES.into_iter().filter(|shape| shape.grows) {
            let all = SIZES
                .iter()
                .map(|n| self.figures(shape, *n, Keys::Bytes))
                .collect::<Result<Vec<Figured>, String>>()?;
            print_side(shape.name, "Rust", all.iter().map(|it| it.original));
            print_side("", "ours", all.iter().map(|it| it.alone));
            print_side("", "call", all.iter().map(|it| it.call));
            tests.get_or_insert(all);
        }
        let tests = tests.into_iter().flatten().map(|it| it.test);
        print_side("test of book and sheet", "ours", tests);
        println!();
        Ok(())
    }

    // The figures of a shape at a size.
    fn figures(&self, shape: Shape, n: usize, keys: Keys) -> Result<Figured, String> {
        self.compare(&(shape.layout)(n, keys))
            .map_err(|why| format!("{}, {n} tables: {why}", shape.name))
    }

    // Compares the answers to a layout's questions, and times the last on both sides.
    fn compare(&self, layout: &Layout) -> Result<Figured, String> {
        let mut planner = Planner::start(self.planner, std::iter::once(layout.clone()))?;
        if planner.next() != Some(opened(layout)) {
            return Err("the planner does not open the book".to_string());
        }
        let mut course = Course::new(layout);
        let mut last = None;
        for question in &layout.questions {
            let line = planner.next().unwrap_or_default();
            let choice = course.put(question);
            match choice.judge(&line, &Known::read("")) {
                Verdict::Agrees => last = Some(choice),
                verdict => return Err(format!("{question}: {verdict:?}")),
            }
        }
        planner.end()?;
        self.time(layout, &last.ok_or("there is no question")?)
    }

    // Times a question on both sides.
    fn time(&self, layout: &Layout, choice: &Choice<'_>) -> Result<Figured, String> {
        let asked = choice.question;
        let original = Original::new(layout);
        let question = original.question(&choice.hidden, asked.clock, &asked.strategy);
        let original = time(self.turns, || question.time());
        let lines = Lines::of(self.bench, self.turns, layout.script())?;
        let call = lines.call(&asked.to_string())?;
        let alone = lines.call(&format!("{asked}, choose alone"))?;
        let test = lines.call(&format!("{asked}, test alone"))?;
        let answer = in_short(&choice.ours);
        if call.answer != answer || alone.answer != answer {
            return Err(format!(
                "{asked}: {answer}, but bench has {} and {}",
                call.answer, alone.answer
            ));
        }
        Ok(Figured {
            answer,
            original,
            alone: alone.figures,
            test: test.figures,
            call: call.figures,
        })
    }
}

// The medians of a side at all sizes, and how many times as long the last takes as the one before.
fn print_side(name: &str, side: &str, figures: impl Iterator<Item = Figures>) {
    let medians: Vec<u64> = figures.map(|it| it.median).collect();
    let mut cells = vec![name.to_string(), side.to_string()];
    cells.extend(medians.iter().map(|median| micros(*median)));
    if let [.., before, last] = medians[..] {
        cells.push(short(last as f64 / before.max(1) as f64));
    }
    row(&cells);
}

// An answer as `bench` has it.
fn in_short(answer: &Answer) -> String {
    match answer {
        Answer::Nothing => answer.kind().to_string(),
        _ => format!("{} of {}", answer.kind(), answer.places().len()),
    }
}
