//! Leveled, step by step.

use super::class::{Class, Rules};
use super::pick::{pick, Pick};
use super::{Sheet, Span};
use crate::answer::{Answer, Input};
use crate::layout::{Key, Leveled, LEVELS};
use std::ops::Range;

/// The step at which an answer falls.
#[derive(Clone, Copy, Debug, PartialEq, Eq, PartialOrd, Ord)]
pub enum Step {
    /// 1. Level 0 moves to level 6.
    Sinks,
    /// 3. Level 0 moves to L1.
    Slides,
    /// 4. No score is 1 or above.
    Low,
    /// 5. Level 0 won.
    First,
    /// 6. Another level won.
    Pick,
}

impl Step {
    /// The step in words.
    pub fn words(self) -> &'static str {
        match self {
            Step::Sinks => "level 0 moves to level 6",
            Step::Slides => "level 0 moves to L1",
            Step::Low => "no score of 1",
            Step::First => "level 0 won",
            Step::Pick => "another level won",
        }
    }
}

/// What is asked, with what each level holds.
struct Survey<'a> {
    rules: Rules,
    sheet: Sheet<'a>,
    settings: &'a Leveled,
    /// The places of each level.
    levels: [Range<usize>; LEVELS],
    free_bytes: [u64; LEVELS],
}

/// What leveled answers, and at which step.
pub fn choose(rules: Rules, sheet: Sheet<'_>, settings: &Leveled) -> (Step, Answer) {
    let levels = std::array::from_fn(|n| sheet.level(n));
    let free_bytes = std::array::from_fn(|n| sheet.free_bytes(sheet.level(n)));
    let survey = Survey {
        rules,
        sheet,
        settings,
        levels,
        free_bytes,
    };
    if survey.sinks() {
        return (
            Step::Sinks,
            Answer::Move(survey.input(survey.levels[0].clone().collect(), 6, 1)),
        );
    }
    let first = survey.first_level();
    if survey.slides(first) {
        return (
            Step::Slides,
            Answer::Move(survey.input(survey.levels[0].clone().collect(), first, 1)),
        );
    }
    match survey.chosen_level(first) {
        None => (Step::Low, Answer::Nothing),
        Some(0) => (Step::First, survey.merge_first(first)),
        Some(n) => (Step::Pick, survey.compact(first, n)),
    }
}

impl Survey<'_> {
    fn input(&self, mut places: Vec<usize>, destination: usize, canonical: usize) -> Input {
        places.sort_unstable();
        Input {
            places,
            destination: destination as u8,
            canonical: canonical as u8,
            target: self.settings.target,
        }
    }

    fn is_empty(&self, n: usize) -> bool {
        self.levels[n].is_empty()
    }

    fn is_busy(&self, first: usize) -> bool {
        self.sheet.busy(self.levels[0].clone()) || self.sheet.busy(self.levels[first].clone())
    }

    // Step 1.
    fn sinks(&self) -> bool {
        self.sheet.runs() == 1 && (1..=5).all(|n| self.is_empty(n)) && !self.last_meets_first()
    }

    // Whether the spans of level 0 and level 6 meet.
    fn last_meets_first(&self) -> bool {
        let empty = Key::Bytes(vec![]);
        let of_nothing = Span {
            min: &empty,
            max: &empty,
        };
        let Some(first) = self.sheet.span(self.levels[0].clone()) else {
            return false;
        };
        match self.sheet.span(self.levels[6].clone()) {
            Some(last) => last.meets(&first),
            None => {
                self.rules.takes(Class::EmptyLastLevel)
                    && *first.min == empty
                    && of_nothing.meets(&first)
            }
        }
    }

    // Step 2.
    fn first_level(&self) -> usize {
        let Some(first) = (1..=6).find(|n| !self.is_empty(*n)) else {
            return 6;
        };
        let overfull = |n: usize| self.free_bytes[n] > target(self.settings, n + 1 - first);
        if first > 1 && (1..=6).all(|n| self.is_empty(n) || overfull(n)) {
            first - 1
        } else {
            first
        }
    }

    // The places of a level that meet level 0's span.
    fn met(&self, n: usize) -> Vec<usize> {
        let Some(span) = self.sheet.span(self.levels[0].clone()) else {
            return vec![];
        };
        self.levels[n]
            .clone()
            .filter(|place| self.sheet.tables[*place].span().meets(&span))
            .collect()
    }

    // Step 3.
    fn slides(&self, first: usize) -> bool {
        self.sheet.runs() == 1
            && !self.is_busy(first)
            && !self.is_empty(first)
            && self.met(first).is_empty()
    }

    // Step 4: the level that won.
    fn chosen_level(&self, first: usize) -> Option<usize> {
        let scores: [f64; LEVELS] = std::array::from_fn(|n| self.score(first, n));
        let highest = scores.iter().copied().fold(0.0, f64::max);
        let last = scores.iter().rposition(|score| *score == highest);
        last.filter(|_| highest >= 1.0)
    }

    fn score(&self, first: usize, n: usize) -> f64 {
        if n == 0 {
            let score = self.levels[0].len() as f64 / f64::from(self.settings.threshold);
            return if score >= 1.0 { score } else { 0.0 };
        }
        if n < first || n > 5 {
            return 0.0;
        }
        let target = target(self.settings, n + 1 - first);
        if self.free_bytes[n] <= target {
            0.0
        } else if self.is_empty(n + 1) {
            99.99
        } else {
            self.free_bytes[n] as f64 / target as f64
        }
    }

    // Step 5.
    fn merge_first(&self, first: usize) -> Answer {
        if self.is_busy(first) {
            return Answer::Nothing;
        }
        let met = self.met(first);
        let moves = self.sheet.runs() == 1 && met.is_empty();
        let input = self.input(self.levels[0].clone().chain(met).collect(), first, 1);
        if moves {
            Answer::Move(input)
        } else {
            Answer::Merge(input)
        }
    }

    // Step 6.
    fn compact(&self, first: usize, n: usize) -> Answer {
        let (upper, lower) = (self.levels[n].clone(), self.levels[n + 1].clone());
        match pick(self.rules, self.sheet, upper, lower, self.settings.target) {
            None => Answer::Nothing,
            Some(Pick::Move(places)) => Answer::Move(self.input(places, n + 1, n + 2 - first)),
            Some(Pick::Merge(places)) => Answer::Merge(self.input(places, n + 1, n + 2 - first)),
        }
    }
}

/// The target size of a canonical level from 1 on.
pub fn target(settings: &Leveled, canonical: usize) -> u64 {
    let base = settings.target * u64::from(settings.threshold);
    if canonical == 1 {
        return base;
    }
    let ratios = &settings.ratios;
    let last = ratios.last().copied().unwrap_or(10.0);
    let mut size = base as f32;
    for i in 0..canonical - 1 {
        // Two numbers of 24 digits have an exact product of 48, which is then rounded once.
        let product = f64::from(size) * f64::from(ratios.get(i).copied().unwrap_or(last));
        size = product as f32;
    }
    if f64::from(size) >= 18_446_744_073_709_551_616.0 {
        u64::MAX
    } else {
        f64::from(size).trunc() as u64
    }
}
