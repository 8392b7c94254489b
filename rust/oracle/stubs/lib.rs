// Stand-in for the root of the Rust: the modules that its files name each other by.

pub mod filter;
pub mod reader;
pub mod record;
pub mod report;

pub use self::reader::Reader;
pub use self::record::{Record, RecordKind};
pub use self::report::Report;
