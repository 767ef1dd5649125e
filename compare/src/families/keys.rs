//! Keys in order, of either kind.

use crate::layout::Key;
use crate::rng::Rng;

/// The keys that a layout's tables begin and end at, in order, each once.
pub struct Keys(pub Vec<Key>);

/// At least so many keys of a kind that is chosen.
pub fn keys(rng: &mut Rng, count: usize) -> Keys {
    match rng.below(5) {
        0 => stops(rng, count),
        1 => Keys((0..count).map(|i| Key::Stop(0, i as u32)).collect()),
        2 => counted(count),
        3 => long(rng, count),
        _ => short(rng, count),
    }
}

// Stop keys over tours, the first and the last of all among them.
fn stops(rng: &mut Rng, count: usize) -> Keys {
    let mut keys = vec![Key::Stop(0, 0), Key::Stop(u32::MAX, u32::MAX)];
    while keys.len() < count {
        let tour = rng.pick(&[0, 1, 7, 12, 255, 256, u32::MAX]);
        let bits = rng.below(32);
        keys.push(Key::Stop(tour, (rng.bits() as u32) >> bits));
    }
    in_order(rng, keys, count, |rng| {
        Key::Stop(rng.bits() as u32, rng.bits() as u32)
    })
}

// Byte keys of two bytes.
fn counted(count: usize) -> Keys {
    Keys(
        (0..count)
            .map(|i| Key::Bytes((i as u16 * 7).to_be_bytes().to_vec()))
            .collect(),
    )
}

/// Short byte keys: the empty one, prefixes of one another, and the least and greatest bytes.
pub fn short(rng: &mut Rng, count: usize) -> Keys {
    let mut keys = vec![Key::Bytes(vec![])];
    while keys.len() < count {
        let length = rng.count(0, 3);
        keys.push(Key::Bytes(
            (0..length)
                .map(|_| rng.pick(&[0, 1, 0x7f, 0x80, 0xff]))
                .collect(),
        ));
    }
    in_order(rng, keys, count, |rng| {
        Key::Bytes(rng.bits().to_be_bytes()[..4].to_vec())
    })
}

// Byte keys of up to 32 bytes that begin alike.
fn long(rng: &mut Rng, count: usize) -> Keys {
    let head: Vec<u8> = (0..28).map(|_| rng.bits() as u8).collect();
    let make = |rng: &mut Rng| {
        let mut key = head.clone();
        let tail = rng.count(0, 4);
        key.extend((0..tail).map(|_| rng.bits() as u8));
        Key::Bytes(key)
    };
    in_order(rng, vec![], count, make)
}

// Sorts keys, each once, and makes more until there are enough.
fn in_order(
    rng: &mut Rng,
    mut keys: Vec<Key>,
    count: usize,
    mut make: impl FnMut(&mut Rng) -> Key,
) -> Keys {
    loop {
        keys.sort();
        keys.dedup();
        if keys.len() >= count {
            return Keys(keys);
        }
        for _ in keys.len()..count {
            let key = make(rng);
            keys.push(key);
        }
    }
}
