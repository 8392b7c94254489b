//! What the lines of a file mean.

#[derive(Debug, Clone, Copy, PartialEq, Eq)]
pub enum Meaning {
    /// A section has its own TN and comes once. The guard refuses files in which something would be replaced.
    Guarded,
    /// TN holds up to the next one, and what comes again adds.
    Geninfo,
    /// What comes later in a file replaces what came earlier (SPEC 3.2). A file in which a section comes twice is read by the library alone
    /// before it is cut.
    AsWritten,
}
