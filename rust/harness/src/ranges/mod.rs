//! Ranges of lines: random lists, what SPEC 8 expects of an insert, a query and a half-open range, and the comparison with the port.

pub mod cases;
pub mod compare;
pub mod expected;
pub mod program;
pub mod random;
pub mod recorded;

/// A lent list: a slice of pairs, each a start and an end, of which the first `used` count.
#[derive(Clone, Debug, PartialEq, Eq)]
pub struct List {
    pub pairs: Vec<[u32; 2]>,
    pub used: usize,
}

impl List {
    /// A slice for so many pairs, none used.
    pub fn of_room(room: usize) -> Self {
        List {
            pairs: vec![[0, 0]; room],
            used: 0,
        }
    }

    /// The pairs that count; None where the list says that there are more than it has, or they are not well formed.
    pub fn held(&self) -> Option<&[[u32; 2]]> {
        let held = self.pairs.get(..self.used)?;
        let ordered = held.iter().all(|[start, end]| start <= end);
        let apart = held
            .windows(2)
            .all(|two| u64::from(two[0][1]) + 1 < u64::from(two[1][0]));
        (ordered && apart).then_some(held)
    }
}
