//! What a table holds. A child of memo.rs, so that it may read its fields.
use super::Table;

pub(crate) fn words(t: &Table) -> &[u64] {
    &t.slots
}

pub(crate) fn tags(t: &Table) -> &[u8] {
    &t.tags
}

pub(crate) fn dict(t: &Table) -> &[u64] {
    &t.dict
}
