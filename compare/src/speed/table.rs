//! Tables of figures, as Markdown.

use super::figures::Figures;

/// A number with three digits that say something, and marks between thousands.
pub fn short(number: f64) -> String {
    match number {
        n if n < 9.995 => format!("{n:.2}"),
        n if n < 99.95 => format!("{n:.1}"),
        n => thousands(n.round() as u64),
    }
}

/// A whole number with marks between thousands.
pub fn thousands(number: u64) -> String {
    let digits = number.to_string();
    let mut text = String::new();
    for (i, digit) in digits.chars().enumerate() {
        if i > 0 && (digits.len() - i) % 3 == 0 {
            text.push(',');
        }
        text.push(digit);
    }
    text
}

/// A time in microseconds.
pub fn micros(nanos: u64) -> String {
    short(nanos as f64 / 1000.0)
}

/// The median in microseconds, with the least behind it.
pub fn both(figures: Figures) -> String {
    format!("{} ({})", micros(figures.median), micros(figures.least))
}

/// How many times as long one takes as the other, by the medians: 1/5 where that takes five times as long.
pub fn ratio(one: Figures, other: Figures) -> String {
    let (one, other) = (one.median.max(1) as f64, other.median.max(1) as f64);
    if one * 9.995 < other {
        format!("1/{}", thousands((other / one).round() as u64))
    } else {
        short(one / other)
    }
}

/// Prints a row.
pub fn row(cells: &[String]) {
    println!("| {} |", cells.join(" | "));
}

/// Prints the head of a table: the first columns have words, the others numbers.
pub fn head(titles: &[&str], words: usize) {
    row(&titles.iter().map(ToString::to_string).collect::<Vec<_>>());
    let sides = (0..titles.len()).map(|i| if i < words { "---" } else { "---:" });
    println!("|{}|", sides.collect::<Vec<_>>().join("|"));
}
