//! The tables. Each line first compares the answers, which is not timed, then lets all work on the same inputs in turns.

#[cfg(has_library)]
pub mod bridge;
#[cfg(has_library)]
pub mod chains;
#[cfg(has_library)]
pub mod join;
#[cfg(has_library)]
pub mod pick;
#[cfg(has_library)]
pub mod rings;
#[cfg(has_library)]
pub mod sums;
#[cfg(has_library)]
pub mod write;

/// A table's name and what prints it.
type Printed = (&'static str, fn());

/// The tables; without the library there is nothing to time.
pub const TABLES: &[Printed] = &[
    #[cfg(has_library)]
    ("pick", pick::print),
    #[cfg(has_library)]
    ("bridge", bridge::print),
    #[cfg(has_library)]
    ("chains", chains::print),
    #[cfg(has_library)]
    ("write", write::print),
    #[cfg(has_library)]
    ("sums", sums::print),
    #[cfg(has_library)]
    ("join", join::print),
    #[cfg(has_library)]
    ("rings", rings::print),
];
