//! The store's rules once more, in plain Rust, written from docs/FORMAT.md and docs/REFUSALS.md and not from the
//! sources that are proved.
pub mod codes;
pub mod fast_lists;
pub mod fast_spots;
pub mod lists;
pub mod spots;
