//! The memo's words, tags, dictionary and generation, and what it gives on the runs of
//! the program memo_check; a child of the memo's module.

use super::Table;

#[path = "memo_runs.rs"]
pub mod runs;

impl Table {
    pub(crate) fn left(&self) -> (&[u64], &[u8], &[u64]) {
        (&self.slots, &self.tags, &self.dict)
    }

    pub(crate) fn generation(&self) -> u64 {
        self.generation
    }

    /// The words and tags, to be altered.
    pub(crate) fn memory(&mut self) -> (&mut [u64], &mut [u8]) {
        (&mut self.slots, &mut self.tags)
    }
}
