//! The port for Rust programs: the calls of the archive that `rt lib` in crates/lcov_c writes, as include/lcov.h declares them for C, and safe
//! ones over them. A program that uses them links the archive (rust/lcov-gather/build.rs shows how).
//!
//! A call that can be refused returns 0, or the number of a [`Fault`], and puts eight words into `answer` where that holds them all; a
//! shorter slice stays. A refusal's words are text index from 0, line from 1, field from 1 and needed length, then zeros; what does not apply
//! is 0. A call that is refused leaves the output and the range list as they were.

#[macro_use]
mod declare;
mod fault;
mod refusal;
mod tags;

pub use fault::Fault;
pub use refusal::Refusal;
pub use tags::{make_tags, DEFAULT_TAGS, DEFAULT_TAG_NAMES};

/// So many words of scratch allow one entry.
pub const WORDS_PER_ENTRY: usize = 32;

/// The most entries, however long the scratch.
pub const MAX_ENTRIES: usize = 65_535;

/// The most texts that a bundle names.
pub const MAX_TEXTS: usize = 64;

/// The most texts of a window.
pub const MAX_WIDTH: u32 = 16;

/// Labs are numbered from 1 to this.
pub const LABS: usize = 8;

/// The words of a lab's mark.
pub const MARK_WORDS: usize = 5;

/// The kinds of record, for each of which a table of tags has a length and a slot.
pub const KINDS: usize = 13;

/// The slot of a tag, and so its greatest length.
pub const TAG_SLOT: usize = 16;

/// The length of a table of tags.
pub const TAGS_LEN: usize = 221;

/// The words of an answer.
pub const WORDS: usize = 8;

/// An output that is nearly always long enough for what is printed of so many bytes, and so long that the report is written without being
/// measured first.
pub const fn roomy(read: usize) -> usize {
    4 * read + 65_536
}

/// The refusal of an output that is too short, which tells the needed length.
pub const OUTPUT_TOO_SHORT: u32 = Fault::OutputTooShort as u32;

// What [`compare_paths`] answers.
pub const LESS: u32 = 0;
pub const EQUAL: u32 = 1;
pub const GREATER: u32 = 2;

calls! {
    /// Reads one line: kind, four numbers, given, and the text's start and length, as include/lcov.h tells. Refuses with 1 to 6, 19 and 23.
    fn read_line = lcov_read_line(line: &[u8], answer: &mut [u64]) -> u32;

    /// Reads one line and prints its record, with byte 10 after it, to `out`. Refuses with 1 to 6, 14, 19 and 23.
    fn print_line = lcov_print_line(line: &[u8], out: &mut [u8], answer: &mut [u64]) -> u32;

    /// Reads one number field, a number up to `max`: its value and how many digits were read are the first two words. Refuses with 4, 5, 6 and
    /// 19, all words 0.
    fn read_number = lcov_read_number(field: &[u8], max: u64, answer: &mut [u64]) -> u32;

    /// Compares two paths by their components: [`LESS`], [`EQUAL`] or [`GREATER`].
    fn compare_paths = lcov_compare_paths(a: &[u8], b: &[u8]) -> u32;

    /// Reads one text and prints its report. Refuses with 1 to 10, 14, 19, 23 and 25.
    fn read_text = lcov_read_text(text: &[u8], scratch: &mut [u64], out: &mut [u8], answer: &mut [u64]) -> u32;

    /// The checked gather. Refuses with 1 to 14, 16, 19, 23 and 25.
    fn gather_with = lcov_gather_with(bundle: &[u8], scratch: &mut [u64], out: &mut [u8], answer: &mut [u64]) -> u32;

    /// The lossy gather: the later given start line, with its end line or none, or checksum wins. Refuses with 1 to 10, 13, 14, 16, 19, 23 and 25.
    fn gather_lossy = lcov_gather_lossy(bundle: &[u8], scratch: &mut [u64], out: &mut [u8], answer: &mut [u64]) -> u32;

    /// The checked gather with 8,192 words of scratch inside, which allow 256 entries.
    fn gather = lcov_gather(bundle: &[u8], out: &mut [u8], answer: &mut [u64]) -> u32;

    /// The page of totals of a checked gather: for each section a line `FH/FF BH/BF LH/LF share test path`, then one of the sums, as
    /// include/lcov.h tells. Refuses as [`gather_with`] does.
    fn totals = lcov_totals(bundle: &[u8], scratch: &mut [u64], out: &mut [u8], answer: &mut [u64]) -> u32;

    /// The checked gather of a bundle with revisions, which has run numbers and revisions after the lengths: of each run the text with the
    /// highest revision is gathered, and the others are not read. Refuses with 16, then 20, then as [`gather_with`] does.
    fn gather_revisions = lcov_gather_revisions(bundle: &[u8], scratch: &mut [u64], out: &mut [u8], answer: &mut [u64]) -> u32;

    /// For each text a line `hit/found` over the lines of the checked gather of that text and the up to `width` - 1 before it. Refuses with 16,
    /// then 24 where `width` is 0 or above [`MAX_WIDTH`], then as [`gather_with`] does.
    fn windows = lcov_windows(bundle: &[u8], width: u32, scratch: &mut [u64], out: &mut [u8], answer: &mut [u64]) -> u32;

    /// The checked gather of the labs whose own gather is accepted and has at most as many entries as their quota, with a lab number for each
    /// text and [`LABS`] quotas. `marks` gets [`MARK_WORDS`] words for each lab, as include/lcov.h tells, where it holds them all. Refuses with 16,
    /// then 29, then as [`gather_with`] does.
    fn gather_quotas = lcov_gather_quotas(
        bundle: &[u8],
        labs: &[u8],
        quotas: &[u32],
        scratch: &mut [u64],
        out: &mut [u8],
        marks: &mut [u64],
        answer: &mut [u64]
    ) -> u32;

    /// The least and the greatest number of hit lines, functions and branches of a run whose counts are known only by two texts: six words, as
    /// include/lcov.h tells. Refuses as [`read_text`] does, without 14, then with 27 and 28.
    fn hit_bounds = lcov_hit_bounds(least: &[u8], greatest: &[u8], scratch: &mut [u64], answer: &mut [u64]) -> u32;

    /// Reads one text and prints what of its report the first `used` pairs hold. Refuses with 18, 1 to 10, 14, 19, 23 and 25.
    fn filter = lcov_filter(
        text: &[u8],
        pairs: &[[u32; 2]],
        used: usize,
        scratch: &mut [u64],
        out: &mut [u8],
        answer: &mut [u64]
    ) -> u32;

    /// As [`filter`], but a function that gives no end line ends one before the next greater start.
    fn filter_distinct_starts = lcov_filter_distinct_starts(
        text: &[u8],
        pairs: &[[u32; 2]],
        used: usize,
        scratch: &mut [u64],
        out: &mut [u8],
        answer: &mut [u64]
    ) -> u32;

    /// Puts a range, from start to end, among the first `used` pairs. The first word is the new number of pairs. Refuses with 15 and 18.
    fn insert_range = lcov_insert_range(pairs: &mut [[u32; 2]], used: usize, start: u32, end: u32, answer: &mut [u64]) -> u32;

    /// Whether one of the first `used` pairs shares a line with start to end: the first word is 1 or 0. Refuses with 18.
    fn query_range = lcov_query_range(pairs: &[[u32; 2]], used: usize, start: u32, end: u32, answer: &mut [u64]) -> u32;

    /// The range that the half-open `a..b` is: the first two words.
    fn half_open = lcov_half_open(a: u32, b: u32, answer: &mut [u64]);

    /// As [`read_line`], with the tags of a table ([`make_tags`]) in place of the default ones. So do the calls below. Each refuses with 21 and 22
    /// before all else.
    fn read_line_tagged = lcov_read_line_tagged(tags: &[u8], line: &[u8], answer: &mut [u64]) -> u32;

    /// As [`print_line`].
    fn print_line_tagged = lcov_print_line_tagged(tags: &[u8], line: &[u8], out: &mut [u8], answer: &mut [u64]) -> u32;

    /// As [`read_text`].
    fn read_text_tagged = lcov_read_text_tagged(
        tags: &[u8],
        text: &[u8],
        scratch: &mut [u64],
        out: &mut [u8],
        answer: &mut [u64]
    ) -> u32;

    /// As [`gather_with`].
    fn gather_tagged = lcov_gather_tagged(
        tags: &[u8],
        bundle: &[u8],
        scratch: &mut [u64],
        out: &mut [u8],
        answer: &mut [u64]
    ) -> u32;

    /// As [`gather_lossy`].
    fn gather_lossy_tagged = lcov_gather_lossy_tagged(
        tags: &[u8],
        bundle: &[u8],
        scratch: &mut [u64],
        out: &mut [u8],
        answer: &mut [u64]
    ) -> u32;

    /// As [`totals`].
    fn totals_tagged = lcov_totals_tagged(
        tags: &[u8],
        bundle: &[u8],
        scratch: &mut [u64],
        out: &mut [u8],
        answer: &mut [u64]
    ) -> u32;

    /// As [`gather_revisions`].
    fn gather_revisions_tagged = lcov_gather_revisions_tagged(
        tags: &[u8],
        bundle: &[u8],
        scratch: &mut [u64],
        out: &mut [u8],
        answer: &mut [u64]
    ) -> u32;

    /// As [`windows`].
    fn windows_tagged = lcov_windows_tagged(
        tags: &[u8],
        bundle: &[u8],
        width: u32,
        scratch: &mut [u64],
        out: &mut [u8],
        answer: &mut [u64]
    ) -> u32;

    /// As [`gather_quotas`].
    fn gather_quotas_tagged = lcov_gather_quotas_tagged(
        tags: &[u8],
        bundle: &[u8],
        labs: &[u8],
        quotas: &[u32],
        scratch: &mut [u64],
        out: &mut [u8],
        marks: &mut [u64],
        answer: &mut [u64]
    ) -> u32;

    /// As [`hit_bounds`].
    fn hit_bounds_tagged = lcov_hit_bounds_tagged(
        tags: &[u8],
        least: &[u8],
        greatest: &[u8],
        scratch: &mut [u64],
        answer: &mut [u64]
    ) -> u32;

    /// As [`filter`].
    fn filter_tagged = lcov_filter_tagged(
        tags: &[u8],
        text: &[u8],
        pairs: &[[u32; 2]],
        used: usize,
        scratch: &mut [u64],
        out: &mut [u8],
        answer: &mut [u64]
    ) -> u32;

    /// As [`filter_distinct_starts`].
    fn filter_distinct_starts_tagged = lcov_filter_distinct_starts_tagged(
        tags: &[u8],
        text: &[u8],
        pairs: &[[u32; 2]],
        used: usize,
        scratch: &mut [u64],
        out: &mut [u8],
        answer: &mut [u64]
    ) -> u32;
}
