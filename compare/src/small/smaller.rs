//! What might be smaller than an input and show the same.

use super::Small;
use crate::layout::{Key, Leveled, Question, Strategy, Table, Word};
use std::ops::Range;

impl Small {
    /// What might be smaller and show the same, one after another: with many tables fewer first.
    pub fn smaller(&self) -> impl Iterator<Item = Small> + '_ {
        let count = self.layout.tables.len();
        let halves = std::iter::successors(Some(count / 2), |length| Some(length / 2));
        let lengths = halves.take_while(|length| *length > 1).chain([1]);
        let fewer = lengths.flat_map(move |length| {
            let starts = (0..count).step_by(length);
            starts.map(move |start| self.without(start..(start + length).min(count)))
        });
        let hidden = (0..count).filter(|place| self.hidden[*place]);
        fewer
            .chain((1..count).filter_map(|place| self.with_joined(place)))
            .chain(hidden.map(|place| self.with_shown(place)))
            .chain((0..count).flat_map(|place| self.with_smaller_numbers(place)))
            .chain(std::iter::once_with(|| self.with_smaller_settings()).flatten())
            .chain(std::iter::once_with(|| self.with_plain_keys()))
            .chain(std::iter::once_with(|| self.with_plain_numbers()))
    }

    // Without some tables; level 0's runs are counted anew.
    fn without(&self, places: Range<usize>) -> Small {
        let mut small = self.clone();
        small.layout.tables.drain(places.clone());
        small.hidden.drain(places);
        let mut last = None;
        let mut runs = 0;
        for table in small.layout.tables.iter_mut().filter(|t| t.level == 0) {
            if last != Some(table.run) {
                last = Some(table.run);
                runs += 1;
            }
            table.run = runs - 1;
        }
        small
    }

    // With a table shown.
    fn with_shown(&self, place: usize) -> Small {
        let mut small = self.clone();
        small.hidden[place] = false;
        small
    }

    // With one table in place of two neighbours of a run.
    fn with_joined(&self, place: usize) -> Option<Small> {
        let mut small = self.clone();
        let gone = small.layout.tables.remove(place);
        let kept = &mut small.layout.tables[place - 1];
        if (kept.level, kept.run) != (gone.level, gone.run) {
            return None;
        }
        (kept.max, kept.size) = (gone.max, kept.size + gone.size);
        small.hidden.remove(place);
        Some(small)
    }

    fn with_smaller_numbers(&self, place: usize) -> Vec<Small> {
        let change = |change: &dyn Fn(&mut Table)| {
            let mut small = self.clone();
            change(&mut small.layout.tables[place]);
            small
        };
        let table = &self.layout.tables[place];
        let mut found = vec![];
        for size in smaller_numbers(table.size) {
            found.push(change(&|t| t.size = size));
        }
        for created in smaller_numbers(table.created) {
            found.push(change(&|t| t.created = created));
        }
        for linked in smaller_numbers(table.linked) {
            found.push(change(&|t| t.linked = linked));
        }
        found.push(change(&|t| t.max = t.min.clone()));
        found
    }

    fn with_smaller_settings(&self) -> Vec<Small> {
        let mut found = vec![];
        for blobs in smaller_numbers(self.layout.blobs) {
            let mut small = self.clone();
            small.layout.blobs = blobs;
            found.push(small);
        }
        let mut put = |clock: u64, strategy: Strategy| {
            let mut small = self.clone();
            small.layout.questions = vec![Question {
                word: Word::Propose,
                clock,
                strategy,
            }];
            found.push(small);
        };
        let clock = self.question().clock;
        for clock in smaller_numbers(clock) {
            put(clock, self.question().strategy.clone());
        }
        match &self.question().strategy {
            Strategy::Leveled(settings) => {
                for settings in smaller_leveled(settings) {
                    put(clock, Strategy::Leveled(settings));
                }
            }
            Strategy::Fifo { limit, ttl } => {
                for limit in smaller_numbers(*limit) {
                    put(clock, Strategy::Fifo { limit, ttl: *ttl });
                }
                for ttl in smaller_numbers(*ttl) {
                    put(clock, Strategy::Fifo { limit: *limit, ttl });
                }
            }
            Strategy::Major { .. } | Strategy::DropRange { .. } => {}
        }
        found
    }

    // With keys that are counted from 0, but for the empty one.
    fn with_plain_keys(&self) -> Small {
        let mut small = self.clone();
        let mut keys: Vec<Key> = small
            .layout
            .tables
            .iter()
            .flat_map(|t| [t.min.clone(), t.max.clone()])
            .collect();
        keys.sort();
        keys.dedup();
        let plain = |key: &Key| {
            let place = keys.partition_point(|it| it < key) as u32;
            match key {
                Key::Stop(..) => Key::Stop(0, place),
                Key::Bytes(bytes) if bytes.is_empty() => key.clone(),
                Key::Bytes(_) => Key::Bytes(vec![place as u8]),
            }
        };
        if keys.len() <= 256 && !matches!(self.question().strategy, Strategy::DropRange { .. }) {
            for table in small.layout.tables.iter_mut() {
                (table.min, table.max) = (plain(&table.min), plain(&table.max));
            }
        }
        small
    }

    // With tables numbered from 1.
    fn with_plain_numbers(&self) -> Small {
        let mut small = self.clone();
        for (place, table) in small.layout.tables.iter_mut().enumerate() {
            table.number = place as u64 + 1;
        }
        small
    }
}

fn smaller_numbers(n: u64) -> Vec<u64> {
    let mut found: Vec<u64> = [0, 1, n / 2, n - n / 8, n.saturating_sub(1)]
        .into_iter()
        .filter(|it| *it < n)
        .collect();
    found.dedup();
    found
}

fn smaller_leveled(settings: &Leveled) -> Vec<Leveled> {
    let mut found = vec![];
    for target in smaller_numbers(settings.target) {
        found.push(Leveled {
            target: target.max(1),
            ..settings.clone()
        });
    }
    for threshold in smaller_numbers(settings.threshold.into()) {
        found.push(Leveled {
            threshold: threshold.max(1) as u8,
            ..settings.clone()
        });
    }
    for ratios in [
        vec![],
        vec![1000.0],
        settings.ratios[..settings.ratios.len().saturating_sub(1)].to_vec(),
    ] {
        found.push(Leveled {
            ratios,
            by_bits: false,
            ..settings.clone()
        });
    }
    found
}
