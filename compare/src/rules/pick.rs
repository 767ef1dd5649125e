//! What is picked of a level that won.

use super::class::{Class, Rules};
use super::Sheet;
use std::ops::Range;

/// The tables of a pick, by their places.
pub enum Pick {
    Move(Vec<usize>),
    Merge(Vec<usize>),
}

/// A run with what stands before each place, so that a window's sums are differences.
struct Front {
    places: Range<usize>,
    bytes: Vec<u64>,
    hidden: Vec<usize>,
}

impl Front {
    fn new(sheet: Sheet<'_>, places: Range<usize>) -> Front {
        let (mut bytes, mut hidden) = (vec![0], vec![0]);
        for (i, place) in places.clone().enumerate() {
            bytes.push(bytes[i] + sheet.tables[place].size);
            hidden.push(hidden[i] + usize::from(sheet.hidden[place]));
        }
        Front {
            places,
            bytes,
            hidden,
        }
    }

    fn sum(&self, window: &Range<usize>) -> u64 {
        self.bytes[window.end] - self.bytes[window.start]
    }

    fn is_free(&self, window: &Range<usize>) -> bool {
        self.hidden[window.end] == self.hidden[window.start]
    }

    // The windows of a length, from the left.
    fn windows(&self, length: usize) -> impl Iterator<Item = Range<usize>> {
        (0..=self.places.len() - length).map(move |start| start..start + length)
    }

    // The places of a window in the sheet.
    fn of(&self, window: &Range<usize>) -> Range<usize> {
        self.places.start + window.start..self.places.start + window.end
    }
}

/// The longest movable window, else the cheapest merge, else nothing.
pub fn pick(
    rules: Rules,
    sheet: Sheet<'_>,
    upper: Range<usize>,
    lower: Range<usize>,
    target: u64,
) -> Option<Pick> {
    let upper = Front::new(sheet, upper);
    let lower = Front::new(sheet, lower);
    if let Some(window) = longest_movable(sheet, &upper, &lower) {
        return Some(Pick::Move(upper.of(&window).collect()));
    }
    let (window, contained) = cheapest_merge(rules, sheet, &upper, &lower, target)?;
    Some(Pick::Merge(
        upper.of(&contained).chain(lower.of(&window)).collect(),
    ))
}

// The longest window with no hidden table whose span the next level meets nowhere, the leftmost among equals.
fn longest_movable(sheet: Sheet<'_>, upper: &Front, lower: &Front) -> Option<Range<usize>> {
    let tables = |front: &Front| &sheet.tables[front.places.clone()];
    let below = tables(lower);
    let ended: Vec<usize> = tables(upper)
        .iter()
        .map(|t| below.iter().filter(|u| u.max < t.min).count())
        .collect();
    let begun: Vec<usize> = tables(upper)
        .iter()
        .map(|t| below.iter().filter(|u| !(t.max < u.min)).count())
        .collect();
    let meets_none = |window: &Range<usize>| begun[window.end - 1] == ended[window.start];
    (1..=upper.places.len())
        .rev()
        .flat_map(|length| upper.windows(length))
        .find(|window| upper.is_free(window) && meets_none(window))
}

// The admissible window of the next level with the fewest bytes, the first that is read among equals, and what lies inside it.
fn cheapest_merge(
    rules: Rules,
    sheet: Sheet<'_>,
    upper: &Front,
    lower: &Front,
    target: u64,
) -> Option<(Range<usize>, Range<usize>)> {
    let tables = |front: &Front| &sheet.tables[front.places.clone()];
    let above = tables(upper);
    let begun: Vec<usize> = tables(lower)
        .iter()
        .map(|t| above.iter().filter(|u| u.min < t.min).count())
        .collect();
    let ended: Vec<usize> = tables(lower)
        .iter()
        .map(|t| above.iter().filter(|u| !(t.max < u.max)).count())
        .collect();
    let mut best: Option<(u64, Range<usize>, Range<usize>)> = None;
    for window in (1..=lower.places.len()).flat_map(|length| lower.windows(length)) {
        if lower.sum(&window) > 50 * target {
            if rules.takes(Class::LargeWindow) {
                break;
            }
            continue;
        }
        let (start, end) = (begun[window.start], ended[window.end - 1]);
        let contained = start..end.max(start);
        let weighs = upper.sum(&contained);
        if weighs == 0 || !upper.is_free(&contained) || !lower.is_free(&window) {
            continue;
        }
        let bytes = lower.sum(&window) + weighs;
        if best.as_ref().map_or(true, |(fewest, ..)| bytes < *fewest) {
            best = Some((bytes, window, contained));
        }
    }
    best.map(|(_, window, contained)| (window, contained))
}
