// The task table: which tasks are bound, and to which node and queue.

use crate::layout::{TABLE, TABLE_WORDS, UNBOUND};

/// The 512 words of a task table.
#[derive(Clone, Copy)]
pub struct Table<'a>(pub &'a [u32; TABLE_WORDS]);

impl<'a> Table<'a> {
    /// The table, if the slice has its length.
    pub fn of(words: &'a [u32]) -> Option<Table<'a>> {
        words.try_into().ok().map(Table)
    }

    /// The table of a memory, if it is long enough to hold one.
    pub fn within(memory: &'a [u32]) -> Option<Table<'a>> {
        Table::of(memory.get(TABLE..TABLE + TABLE_WORDS)?)
    }

    /// Node and queue as the table holds them; a task number over 255 is unbound.
    pub fn entry(self, task: u32) -> [u32; 2] {
        match task {
            0..=255 => [self.0[2 * task as usize], self.0[2 * task as usize + 1]],
            _ => UNBOUND,
        }
    }

    pub fn is_bound(self, task: u32) -> bool {
        self.entry(task) != UNBOUND
    }

    pub fn bound_tasks(self) -> impl Iterator<Item = u32> + 'a {
        (0..=255).filter(move |&task| self.is_bound(task))
    }
}
