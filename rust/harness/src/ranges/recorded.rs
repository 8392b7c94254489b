//! Recorded calls on lists of range structs with the Rust's answers, which the program `test_line_num` replays.

use super::cases::{encoded, inserted_line, queried_line, Call, ROOM};
use super::{expected, random};
use crate::Rng;

const SEED: u64 = 17;

const LISTS: usize = 24;

/// Inserts into one list, each with a query after it.
const INSERTS: usize = 12;

/// Of how many inserts one is followed by damage to the list.
const DAMAGED_ONE_IN: usize = 9;

/// Standard input and output of the program.
#[derive(PartialEq, Eq)]
pub struct Calls {
    pub asked: Vec<u8>,
    pub answered: String,
}

pub fn make() -> Calls {
    let mut rng = Rng::new(SEED);
    let mut calls = Calls {
        asked: Vec::new(),
        answered: String::new(),
    };
    for _ in 0..LISTS {
        calls.list(&mut rng);
    }
    calls
}

impl Calls {
    fn list(&mut self, rng: &mut Rng) {
        let mut list = random::begun_list(rng, ROOM);
        for _ in 0..INSERTS {
            let (start, end) = random::range(rng);
            let (answer, pairs) = expected::insert(&list, start, end);
            self.asked.extend(encoded(Call::Insert, &list, start, end));
            self.answered += &inserted_line(&answer, &pairs);
            list.pairs = pairs;
            if answer.number == 0 {
                list.used = answer.words[0] as usize;
            }
            let (start, end) = random::range(rng);
            self.asked.extend(encoded(Call::Query, &list, start, end));
            self.answered += &queried_line(&expected::query(&list, start, end));
            if rng.one_in(DAMAGED_ONE_IN) {
                random::damage(rng, &mut list);
            }
        }
    }
}

#[cfg(test)]
mod tests {
    #[test]
    fn each_answer_is_recorded() {
        let answered = super::make().answered;
        for what in [
            "\nheld\n",
            "\nnot held\n",
            "\nrefused 18 0 0 0\n",
            "\nrefused 15 0 0 0\n",
            "\n8 ",
        ] {
            assert!(answered.contains(what), "{what:?}");
        }
    }
}
