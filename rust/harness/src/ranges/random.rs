//! Random lists and lines: few lines, so that ranges meet, and those at both ends.

use super::List;
use crate::Rng;

const ENDS: [u32; 8] = [
    0,
    1,
    2,
    u32::MAX,
    u32::MAX - 1,
    u32::MAX - 2,
    1 << 31,
    (1 << 31) - 1,
];

pub fn line(rng: &mut Rng) -> u32 {
    match rng.below(8) {
        0 => rng.pick(&ENDS),
        1 => rng.number() as u32,
        _ => rng.below(40) as u32,
    }
}

/// A start and an end; some end before they start, most are short.
pub fn range(rng: &mut Rng) -> (u32, u32) {
    let start = line(rng);
    let end = match rng.below(6) {
        0 => line(rng),
        1 => start.saturating_sub(1),
        _ => start.saturating_add(rng.below(4) as u32),
    };
    (start, end)
}

const MOST_PAIRS: usize = 9;

/// A slice of some length, none of it used.
pub fn empty_list(rng: &mut Rng) -> List {
    let room = rng.below(MOST_PAIRS);
    list_of_room(rng, room)
}

/// A slice for so many pairs, some of them used, with few lines between two.
pub fn begun_list(rng: &mut Rng, room: usize) -> List {
    let mut list = list_of_room(rng, room);
    list.used = rng.below(room + 1);
    for (place, pair) in (0..).zip(&mut list.pairs[..list.used]) {
        *pair = [5 * place, 5 * place + rng.below(3) as u32];
    }
    list
}

/// A slice for so many pairs, none of them used; what it holds is free.
fn list_of_room(rng: &mut Rng, room: usize) -> List {
    let mut list = List::of_room(room);
    for pair in &mut list.pairs {
        *pair = [line(rng), line(rng)];
    }
    list
}

/// A list that was changed somewhere, so that it is often not well formed.
pub fn damage(rng: &mut Rng, list: &mut List) {
    let places = list.pairs.len();
    match rng.below(3) {
        0 => list.used = rng.below(places + 3),
        1 if places > 1 => {
            let place = rng.below(places - 1);
            list.pairs.swap(place, place + 1);
        }
        _ if places > 0 => {
            let place = rng.below(places);
            list.pairs[place][rng.below(2)] = line(rng);
        }
        _ => list.used = usize::MAX,
    }
}
