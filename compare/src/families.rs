//! Random sound layouts, in families: each family seeks a place where the rules turn.

mod ages;
mod bounds;
mod draft;
mod keys;
mod settings;
mod stores;

use crate::layout::{Kind, Layout, Leveled, Question, Strategy, Word, KINDS};
use crate::rng::Rng;

/// What a layout was made for.
#[derive(Clone, Copy, Debug, PartialEq, Eq, PartialOrd, Ord)]
pub enum Family {
    /// Levels near their target sizes.
    Targets,
    /// Sums around 50 times the target size.
    Fifty,
    /// Equal sizes, scores, windows and ages.
    Ties,
    /// Tables of no bytes.
    Zeros,
    /// Ratios of all kinds, 1.0 and 1000.0 among them, and large sizes.
    Ratios,
    /// Level 0 near its threshold, in one run or more.
    Thresholds,
    /// The first levels are empty.
    Raised,
    /// Level 0 over level 6 or over the first level alone.
    Landed,
    /// The empty key, and an empty level 6.
    EmptyKeys,
    /// Ages, times to live and limits.
    Ages,
    /// Bounds of range drops.
    Bounds,
    /// All tables.
    Whole,
    /// Jobs run, so that tables are hidden.
    Hidden,
    /// More tables than a page shows.
    Long,
    /// Up to 1,024 tables.
    Full,
}

/// The families, each with its name.
pub const FAMILIES: [(Family, &str); 15] = [
    (Family::Targets, "levels near their targets"),
    (Family::Fifty, "sums around 50 targets"),
    (Family::Ties, "ties"),
    (Family::Zeros, "tables of no bytes"),
    (Family::Ratios, "ratios and large sizes"),
    (Family::Thresholds, "thresholds"),
    (Family::Raised, "a raised first level"),
    (Family::Landed, "moves of level 0"),
    (Family::EmptyKeys, "the empty key"),
    (Family::Ages, "ages and limits"),
    (Family::Bounds, "bounds"),
    (Family::Whole, "all tables"),
    (Family::Hidden, "hidden tables"),
    (Family::Long, "20 to 120 tables"),
    (Family::Full, "up to 1,024 tables"),
];

/// What may be asked.
#[derive(Clone)]
pub struct Allowed {
    pub strategies: Vec<Kind>,
    /// Whether jobs may run.
    pub hidden: bool,
}

impl Allowed {
    /// Whether nothing is left out.
    pub fn asks_all(&self) -> bool {
        self.hidden && KINDS.iter().all(|kind| self.strategies.contains(kind))
    }

    // The strategies that a layout is asked with: the family's own, and now and then another.
    fn strategy(&self, rng: &mut Rng, own: Kind) -> Kind {
        let chosen = if rng.one_in(8) { rng.pick(&KINDS) } else { own };
        if self.strategies.contains(&chosen) {
            chosen
        } else {
            rng.pick(&self.strategies)
        }
    }
}

// The family of a layout.
fn family(rng: &mut Rng, allowed: &Allowed) -> Family {
    if rng.one_in(1000) {
        return Family::Full;
    }
    if rng.one_in(60) {
        return Family::Long;
    }
    loop {
        let family = FAMILIES[rng.place(13)].0;
        let is_own = own_strategy(family).map_or(true, |own| allowed.strategies.contains(&own));
        let is_allowed = allowed.hidden || family != Family::Hidden;
        // Where a family's own strategy is not asked, some of its layouts serve the others.
        if is_allowed && (is_own || rng.one_in(4)) {
            return family;
        }
    }
}

// The strategy that a family is made for, if it is one.
fn own_strategy(family: Family) -> Option<Kind> {
    match family {
        Family::Ages => Some(Kind::Fifo),
        Family::Whole => Some(Kind::Major),
        Family::Bounds => Some(Kind::DropRange),
        Family::Hidden | Family::Long | Family::Full => None,
        _ => Some(Kind::Leveled),
    }
}

/// The layout at a place of a seed.
pub fn layout(seed: u64, place: u64, allowed: &Allowed) -> Layout {
    let mut rng = Rng::new(seed, place);
    let family = family(&mut rng, allowed);
    let (draft, mut leveled) = match family {
        Family::Ages => (ages::draft(&mut rng), settings::settings(&mut rng)),
        _ => stores::draft(&mut rng, family),
    };
    let (tables, keys) = draft.tables(&mut rng);
    let mut layout = Layout {
        family,
        tables,
        blobs: ages::blobs(&mut rng),
        questions: vec![],
    };
    let own = own_strategy(family).unwrap_or_else(|| {
        if rng.one_in(2) {
            Kind::Leveled
        } else {
            rng.pick(&KINDS)
        }
    });
    for round in 0..rng.count(1, 3) {
        if allowed.hidden && (family == Family::Hidden || rng.one_in(6)) {
            book(&mut rng, &mut layout, &keys, &leveled, allowed);
        }
        let chosen = allowed.strategy(&mut rng, own);
        if round > 0 {
            leveled = settings::other_settings(&mut rng, &leveled);
        }
        let word = if allowed.hidden && rng.one_in(12) {
            Word::LookAhead
        } else {
            Word::Propose
        };
        let question = question(&mut rng, word, chosen, &layout, &keys, &leveled);
        layout.questions.push(question);
    }
    layout
}

fn question(
    rng: &mut Rng,
    word: Word,
    kind: Kind,
    layout: &Layout,
    keys: &keys::Keys,
    leveled: &Leveled,
) -> Question {
    let mut clock = rng.number();
    let strategy = match kind {
        Kind::Leveled => Strategy::Leveled(leveled.clone()),
        Kind::Fifo => {
            let (now, limit, ttl) = ages::settings(rng, layout);
            clock = now;
            Strategy::Fifo { limit, ttl }
        }
        Kind::Major => Strategy::Major {
            target: rng.number(),
        },
        Kind::DropRange => bounds::strategy(rng, layout, keys),
    };
    Question {
        word,
        clock,
        strategy,
    }
}

// Books range drops, so that their tables are hidden, and now and then what another strategy chooses.
fn book(
    rng: &mut Rng,
    layout: &mut Layout,
    keys: &keys::Keys,
    leveled: &Leveled,
    allowed: &Allowed,
) {
    for _ in 0..rng.count(1, 4) {
        let kind = if rng.one_in(3) {
            allowed.strategy(rng, Kind::Leveled)
        } else {
            Kind::DropRange
        };
        let mut question = question(rng, Word::Book, kind, layout, keys, leveled);
        if kind == Kind::DropRange && !rng.one_in(8) && !layout.tables.is_empty() {
            question.strategy = bounds::around(rng, layout);
        }
        layout.questions.push(question);
    }
}
