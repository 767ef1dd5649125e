//! A sample: a script, and what the original chooses on it, in the planner's words.

use crate::answer::Reply;
use crate::families::{Family, FAMILIES};
use crate::judge::{Course, Known, Verdict};
use crate::layout::Layout;
use crate::Options;
use std::collections::BTreeMap;
use std::fmt::Write;

/// How many bytes a layout's script has for the most part.
const MOST_BYTES: usize = 500;

/// How many longer ones a family has, and how many of up to 1,024 tables there are.
const LONG: usize = 6;
const FULL: usize = 1;

/// Writes the files `stdin` and `stdout` of a sample, and returns whether every answer is one that may be written.
pub fn write(options: &Options) -> Result<bool, String> {
    let known = Known::read(&options.differences);
    let families = choose(options);
    let (mut script, mut answers) = (head(options), String::new());
    for (family, name) in FAMILIES {
        writeln!(script, "\n# {name}").map_err(|error| error.to_string())?;
        for layout in families.get(&family).into_iter().flatten() {
            write_layout(layout, &known, &mut script, &mut answers)?;
        }
    }
    println!(
        "{} bytes of script, {} bytes of answers",
        script.len(),
        answers.len()
    );
    save(&format!("{}/stdin", options.to), &script)?;
    save(&format!("{}/stdout", options.to), &answers)?;
    Ok(true)
}

// The layouts of a sample by family: short ones for the most part.
fn choose(options: &Options) -> BTreeMap<Family, Vec<Layout>> {
    let mut families: BTreeMap<Family, Vec<Layout>> = BTreeMap::new();
    let mut long: BTreeMap<Family, usize> = BTreeMap::new();
    let mut count = 0;
    for layout in options.all_layouts() {
        if count == options.count {
            break;
        }
        if layout.script().len() > MOST_BYTES {
            let most = if layout.family == Family::Full {
                FULL
            } else {
                LONG
            };
            let long = long.entry(layout.family).or_default();
            if *long == most {
                continue;
            }
            *long += 1;
        }
        count += 1;
        families.entry(layout.family).or_default().push(layout);
    }
    families
}

fn head(options: &Options) -> String {
    format!(
        "# Random layouts in families, and what the Rust (lsm-tree 3.1.10) chooses on them: compare/sample, seed {}.\n\
         # Where a comment says that the Rust differs, the answer is ours.\n",
        options.seed
    )
}

fn write_layout(
    layout: &Layout,
    known: &Known,
    script: &mut String,
    answers: &mut String,
) -> Result<(), String> {
    script.push_str(&layout.opening());
    writeln!(answers, "opened {}", layout.tables.len()).map_err(|error| error.to_string())?;
    let mut course = Course::new(layout);
    for question in &layout.questions {
        let choice = course.put(question);
        let tables = &layout.tables;
        let ours = choice.expected.line(tables);
        let line = match (choice.judge(&ours, known), &choice.original) {
            (Verdict::Agrees, Some(original)) => {
                choice.expected.with(original.clone()).line(tables)
            }
            (Verdict::Differs(class), Some(original)) => {
                let theirs = Reply::plain(original.clone()).line(tables);
                writeln!(
                    script,
                    "# The Rust differs: {}. It answers: {theirs}",
                    class.words()
                )
                .map_err(|error| error.to_string())?;
                ours
            }
            (Verdict::Refused, _) => ours,
            (verdict, _) => return Err(format!("{}{question}: {verdict:?}", layout.script())),
        };
        writeln!(script, "{question}").map_err(|error| error.to_string())?;
        writeln!(answers, "{line}").map_err(|error| error.to_string())?;
    }
    Ok(())
}

fn save(path: &str, text: &str) -> Result<(), String> {
    std::fs::write(path, text).map_err(|error| format!("{path}: {error}"))
}
