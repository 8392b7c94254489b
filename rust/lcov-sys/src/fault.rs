//! Why a call is refused: the one table of this package.

/// Makes the type and its functions of the table: number, name, meaning, and the words that are told.
macro_rules! faults {
    ($($number:literal $name:ident $meaning:literal $told:literal,)+) => {
        /// Why a call is refused: each with its meaning and the words that are told. The names are those of `Fault` in crates/model,
        /// the numbers those of `enum lcov_refusal` in include/lcov.h.
        #[derive(Debug, Clone, Copy, PartialEq, Eq, Hash)]
        #[repr(u32)]
        pub enum Fault {
            $(
                #[doc = $meaning]
                #[doc = ""]
                #[doc = $told]
                $name = $number,
            )+
        }

        impl Fault {
            pub const ALL: &'static [Fault] = &[$(Fault::$name,)+];

            pub fn meaning(self) -> &'static str {
                match self {
                    $(Fault::$name => $meaning,)+
                }
            }
        }
    };
}

faults! {
    1 UnknownRecord "tag unknown" "text, line",
    2 FieldNotFound "field missing" "text, line, field",
    3 TooManyFields "too many fields" "text, line",
    4 EmptyNumber "number empty" "text, line, field",
    5 InvalidDigit "bad digit" "text, line, field",
    6 NumberOverflow "number too large" "text, line, field",
    7 UnexpectedRecord "TN inside a section" "text, line",
    8 UnexpectedEof "the text ends inside a section" "text, last line + 1",
    9 CallOverflow "the calls of a function add up past 2^64 - 1" "text, line",
    10 TooManyEntries "too many entries" "text, line; line 0 in a merge",
    11 UnmatchedFunctionLine "the start lines of a function differ" "text",
    12 UnmatchedChecksum "the checksums of a line differ" "text",
    13 CountOverflow "the counts of a line or branch add up past 2^64 - 1" "text",
    14 OutputTooShort "the output is too short" "needed length",
    15 RangesFull "the range list is full" "",
    16 MalformedBundle "the bundle is not well formed" "",
    17 PartOutside "a record's text part is outside the lent text" "",
    18 MalformedRanges "the range list is not well formed" "",
    19 SignedNumber "number with a plus sign" "text, line, field",
    20 RepeatedRevision "a run has the same revision twice" "text",
    21 MalformedTags "the table of tags is not well formed" "",
    22 EqualTags "two tags of the table are equal" "",
    23 EndBeforeStart "end line below the start line" "text, line",
    24 WidthOutside "the window width is 0 or above 16" "",
    25 SecondSourceFile "second SF in a section" "text, line",
    27 DifferentKeys "the two texts do not hold the same keys" "",
    28 LeastAboveGreatest "a least count is above its greatest" "",
    29 MalformedLabs "a lab number is outside 1 to 8, or there is not one lab number for each text" "",
}

impl Fault {
    pub fn number(self) -> u32 {
        self as u32
    }

    /// The fault that has the number, if there is one.
    pub fn of(number: u32) -> Option<Self> {
        Fault::ALL
            .iter()
            .copied()
            .find(|fault| fault.number() == number)
    }
}

#[cfg(test)]
mod tests {
    use super::*;

    #[test]
    fn each_number_has_its_fault() {
        assert!(Fault::ALL.is_sorted_by_key(|fault| fault.number()));
        for &fault in Fault::ALL {
            assert_eq!(Fault::of(fault.number()), Some(fault));
        }
        for free in [0, 26, 30] {
            assert_eq!(Fault::of(free), None);
        }
    }
}
