//! The lent table.

use std::ops::{Deref, DerefMut};

/// A table for planning and judging, four numbers for each configuration. Any slice of numbers will do for a call; this one is
/// made by the number of configurations that it holds.
#[derive(Clone, Debug)]
pub struct Table(Vec<u64>);

impl Table {
    /// The most configurations that a call takes a table for; a longer one it answers with TABLE.
    pub const MOST: usize = 1_048_576;

    /// A table that holds so many configurations.
    pub fn for_configurations(number: usize) -> Table {
        Table(vec![0; number.saturating_mul(4)])
    }

    /// How many configurations it holds.
    pub fn configurations(&self) -> usize {
        self.0.len() / 4
    }

    /// A plan buffer that is never too short where the table is large enough: no plan has more slots than its room has
    /// configurations.
    pub fn plan_buffer(&self) -> Vec<u16> {
        vec![0; self.configurations()]
    }
}

impl Deref for Table {
    type Target = [u64];

    fn deref(&self) -> &[u64] {
        &self.0
    }
}

impl DerefMut for Table {
    fn deref_mut(&mut self) -> &mut [u64] {
        &mut self.0
    }
}
