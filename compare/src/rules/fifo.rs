//! FIFO: what has expired, and the oldest of what is above the limit.

use super::class::{Class, Rules};
use super::Sheet;
use crate::answer::{Answer, Refusal};
use crate::layout::Table;

const SECOND: u128 = 1_000_000_000;

/// What FIFO answers with a limit in bytes and a time to live in seconds.
pub fn choose(rules: Rules, sheet: Sheet<'_>, limit: u64, ttl: u64) -> Answer {
    let first = sheet.level(0);
    if first.is_empty() {
        return Answer::Nothing;
    }
    let refusal = if sheet.runs() > 1 {
        Some(Refusal {
            number: 7,
            layer: 'S',
            place: 0,
        })
    } else {
        let place = first.clone().find(|place| sheet.hidden[*place]);
        place.map(|place| Refusal {
            number: 8,
            layer: 'S',
            place,
        })
    };
    if let Some(refusal) = refusal {
        return if rules.takes(Class::Asserts) {
            Answer::Stopped
        } else {
            Answer::Refused(refusal)
        };
    }
    let expires = |t: &Table| has_expired(rules, t, ttl, sheet.clock);
    let (expired, mut live): (Vec<usize>, Vec<usize>) = first
        .clone()
        .partition(|place| expires(&sheet.tables[*place]));
    let whole = first
        .map(|place| u128::from(sheet.tables[place].size))
        .sum::<u128>()
        + u128::from(sheet.blobs);
    let left = whole.saturating_sub(
        expired
            .iter()
            .map(|place| weight(&sheet.tables[*place]))
            .sum(),
    );
    // Older is created before, or at the same time and earlier on the sheet.
    live.sort_by_key(|place| (sheet.tables[*place].created, *place));
    let mut older = 0;
    let mut goes = expired;
    for place in live {
        if left > u128::from(limit) + older {
            goes.push(place);
        }
        older += weight(&sheet.tables[place]);
    }
    goes.sort_unstable();
    if goes.is_empty() {
        Answer::Nothing
    } else {
        Answer::Drop(goes)
    }
}

// The bytes of a table and of the blobs that it links to.
fn weight(table: &Table) -> u128 {
    u128::from(table.size) + u128::from(table.linked)
}

// Whether the table was created at least the time to live before the clock.
fn has_expired(rules: Rules, table: &Table, ttl: u64, clock: u64) -> bool {
    let (created, clock, age) = (
        u128::from(table.created),
        u128::from(clock),
        u128::from(ttl) * SECOND,
    );
    let first_second = rules.takes(Class::Cutoff) && created == 0;
    ttl > 0 && (created + age <= clock || first_second)
}
