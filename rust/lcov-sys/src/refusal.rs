//! A refusal in words.

use crate::{Fault, WORDS};

/// A refusal's number, and where it was met: what does not apply is 0.
#[derive(Debug, Clone, Copy, PartialEq, Eq)]
pub struct Refusal {
    pub number: u32,
    /// From 0.
    pub text: usize,
    /// From 1.
    pub line: u64,
    /// From 1.
    pub field: u64,
    /// How long the output must be, for number 14.
    pub needed: usize,
}

impl Refusal {
    /// What a call answered: its first word, or the refusal that its number and words are.
    pub fn unless_answered(number: u32, answer: [u64; WORDS]) -> Result<u64, Refusal> {
        if number == 0 {
            return Ok(answer[0]);
        }
        Err(Refusal {
            number,
            text: answer[0] as usize,
            line: answer[1],
            field: answer[2],
            needed: answer[3] as usize,
        })
    }

    /// None where no call gives the number.
    pub fn fault(&self) -> Option<Fault> {
        Fault::of(self.number)
    }

    pub fn meaning(&self) -> &'static str {
        self.fault().map_or("an unknown refusal", Fault::meaning)
    }
}

#[cfg(test)]
mod tests {
    use super::*;

    #[test]
    fn an_answer_or_a_refusal_in_words() {
        assert_eq!(Refusal::unless_answered(0, [7, 0, 0, 0, 0, 0, 0, 0]), Ok(7));
        let refused = Refusal::unless_answered(5, [1, 3, 2, 0, 0, 0, 0, 0]).unwrap_err();
        assert_eq!((refused.text, refused.line, refused.field), (1, 3, 2));
        assert_eq!(refused.fault(), Some(Fault::InvalidDigit));
        assert_eq!(refused.meaning(), "bad digit");
        let last = Refusal {
            number: 18,
            ..refused
        };
        assert_eq!(last.meaning(), "the range list is not well formed");
        assert_eq!(
            Refusal { number: 26, ..last }.meaning(),
            "an unknown refusal"
        );
    }
}
