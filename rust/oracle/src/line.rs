//! One line: `Record::from_str` and `Display for Record`.

use crate::fault::{utf8, Fault};
use crate::Record;

/// A lone line is line 1.
pub fn read_line(line: &[u8]) -> Result<Record, Fault> {
    record_of(utf8(line)?).map_err(|fault| fault.on_line(1))
}

/// The record of a line; its fault has no line yet.
pub(crate) fn record_of(line: &str) -> Result<Record, Fault> {
    line.parse().map_err(|error| Fault::of_line(line, &error))
}

/// The record as a line, without byte 10.
pub fn print_record(record: &Record) -> Vec<u8> {
    record.to_string().into_bytes()
}
