// Queues that run round: their items, append, drop and closing gaps, in a sound memory.

use crate::layout::{Queue, TaskQueue};

/// Raises a count by one; it stops at the greatest word.
pub fn count_up(memory: &mut [u32], place: usize) {
    memory[place] = memory[place].saturating_add(1);
}

/// The place of the slot `n` behind the start, going round.
pub fn slot(memory: &[u32], queue: Queue, n: usize) -> usize {
    queue.slots + (memory[queue.start] as usize + n) % queue.length
}

/// How many items the queue has, gaps counted.
pub fn item_count(memory: &[u32], queue: Queue) -> usize {
    memory[queue.items] as usize
}

/// The items, first to last, gaps as 0.
pub fn items(memory: &[u32], queue: Queue) -> Vec<u32> {
    (0..item_count(memory, queue)).map(|n| memory[slot(memory, queue, n)]).collect()
}

pub fn is_full(memory: &[u32], queue: Queue) -> bool {
    item_count(memory, queue) == queue.length
}

/// Appends an item; when the queue is at its length, raises its full count and answers false.
pub fn append(memory: &mut [u32], queue: Queue, block: u32) -> bool {
    if is_full(memory, queue) {
        count_up(memory, queue.full_count);
        return false;
    }
    let behind = slot(memory, queue, item_count(memory, queue));
    memory[behind] = block;
    memory[queue.items] += 1;
    true
}

/// Appends to a task queue; at its length it closes its gaps first if the flag is 1.
pub fn append_to_task_queue(memory: &mut [u32], task_queue: TaskQueue, block: u32) -> bool {
    if is_full(memory, task_queue.queue) && memory[task_queue.gap_flag] == 1 {
        close_gaps(memory, task_queue);
    }
    append(memory, task_queue.queue, block)
}

/// Live items keep their order and stand from the start slot on; the flag becomes 0.
pub fn close_gaps(memory: &mut [u32], task_queue: TaskQueue) {
    let queue = task_queue.queue;
    let live: Vec<u32> = items(memory, queue).into_iter().filter(|&item| item != 0).collect();
    for n in 0..queue.length {
        let place = slot(memory, queue, n);
        memory[place] = live.get(n).copied().unwrap_or(0);
    }
    memory[queue.items] = live.len() as u32;
    memory[task_queue.gap_flag] = 0;
}

/// Drops the first item: its slot becomes 0 and the start moves on.
pub fn drop_first(memory: &mut [u32], queue: Queue) {
    let first = slot(memory, queue, 0);
    memory[first] = 0;
    memory[queue.start] = (memory[queue.start] + 1) % queue.length as u32;
    memory[queue.items] -= 1;
}

/// Takes item `n` out of a task queue: the first is dropped with the zeroes directly behind it,
/// one further in becomes 0. The flag tells if an item left is 0.
pub fn take_out(memory: &mut [u32], task_queue: TaskQueue, n: usize) {
    let queue = task_queue.queue;
    if n == 0 {
        drop_first(memory, queue);
        while items(memory, queue).first() == Some(&0) {
            drop_first(memory, queue);
        }
    } else {
        let place = slot(memory, queue, n);
        memory[place] = 0;
    }
    memory[task_queue.gap_flag] = u32::from(items(memory, queue).contains(&0));
}
