// The five calls: set up, send, receive, turn and list.

use crate::blocks::{give_back, header, letter, take, write};
use crate::layout::*;
use crate::queues::*;
use crate::sound::{position, sound, table_rule};
use crate::table::Table;

/// The greatest number of words in a body.
pub const GREATEST_BODY: usize = GREATEST_LENGTH - HEADER_WORDS;
/// Words of a list record.
pub const RECORD_WORDS: usize = 6;

/// What comes back: the document's number and up to three values.
#[derive(Clone, Copy, Debug, PartialEq)]
pub struct Answer {
    pub number: u32,
    pub values: [u32; 3],
}

impl Answer {
    fn done(values: [u32; 3]) -> Answer {
        Answer { number: 0, values }
    }

    fn refused(number: u32) -> Answer {
        Answer { number, values: [0; 3] }
    }
}

/// Sets up a memory whatever its content.
pub fn set_up(settings: [u32; 5], table: &[u32], memory: &mut [u32]) -> Answer {
    let Some(set) = Settings::in_range(settings) else { return Answer::refused(13) };
    if Table::of(table).is_none_or(|table| table_rule(table).is_err()) {
        return Answer::refused(14);
    }
    if memory.len() != set.memory_words() {
        return Answer::refused(15);
    }
    lay_out(settings, table, memory);
    Answer::done([0; 3])
}

/// Writes a memory with no letters; it must have the size that the settings ask for.
pub fn lay_out(settings: [u32; 5], table: &[u32], memory: &mut [u32]) {
    let set = Settings::of(settings);
    memory.fill(0);
    memory[..settings.len()].copy_from_slice(&settings);
    memory[TABLE..][..TABLE_WORDS].copy_from_slice(table);
    for node in set.nodes() {
        memory[node.first_free()] = 1;
        for block in 1..set.m as u32 {
            memory[node.link(block)] = block + 1;
        }
    }
}

/// Sends a letter from task `source` to task `destination`.
pub fn send(memory: &mut [u32], source: u32, destination: u32, body: &[u32]) -> Answer {
    let Ok(set) = sound(memory) else { return Answer::refused(1) };
    let Some(from) = bound_place(memory, source) else { return Answer::refused(2) };
    let Some(to) = bound_place(memory, destination) else { return Answer::refused(3) };
    let length = HEADER_WORDS + body.len();
    let blocks = set.blocks_needed(length);
    if body.len() > GREATEST_BODY || blocks > set.m {
        return Answer::refused(4);
    }
    let node = set.node(from.node);
    let Some(chain) = take(memory, node, blocks) else {
        count_up(memory, node.room_count());
        return Answer::refused(5);
    };
    let appended = if from.node == to.node {
        append_to_task_queue(memory, node.task_queue(to.queue), chain[0])
    } else {
        append(memory, node.send_queue(to.node), chain[0])
    };
    if !appended {
        // Nothing is written yet, so giving back leaves the free list and every block as before.
        give_back(memory, node, chain[0]);
        return Answer::refused(6);
    }
    let mut letter = vec![source, from.node as u32, destination, to.node as u32, length as u32];
    letter.extend_from_slice(body);
    write(memory, node, &chain, &letter);
    Answer::done([blocks as u32, 0, 0])
}

/// Receives for task `destination` its first letter, or its first one from `source` if that is not 0.
pub fn receive(memory: &mut [u32], destination: u32, source: u32, out: &mut [u32]) -> Answer {
    let Ok(set) = sound(memory) else { return Answer::refused(1) };
    let Some(home) = bound_place(memory, destination) else { return Answer::refused(2) };
    if source != 0 && bound_place(memory, source).is_none() {
        return Answer::refused(3);
    }
    let node = set.node(home.node);
    let task_queue = node.task_queue(home.queue);
    let items = items(memory, task_queue.queue);
    let is_wanted = |&item: &u32| item != 0 && (source == 0 || header(memory, node, item)[SOURCE] == source);
    let Some(n) = items.iter().position(is_wanted) else {
        count_up(memory, task_queue.empty_count);
        let hopeless = source != 0 && is_full(memory, task_queue.queue);
        return Answer::refused(if hopeless { 8 } else { 7 });
    };
    let letter = letter(memory, node, items[n]);
    let body = &letter[HEADER_WORDS..];
    if out.len() < body.len() {
        return Answer::refused(9);
    }
    out[..body.len()].copy_from_slice(body);
    take_out(memory, task_queue, n);
    give_back(memory, node, items[n]);
    Answer::done([letter[SOURCE], body.len() as u32, 0])
}

/// Lets the node whose turn it is fetch its mail.
pub fn turn(memory: &mut [u32]) -> Answer {
    let Ok(set) = sound(memory) else { return Answer::refused(1) };
    let mut round = Round { node: set.node(memory[TURN] as usize), letters: 0, back: 0 };
    let end = round.go(memory).err().unwrap_or(FINISHED);
    memory[position_place(round.node.number)..][..3].copy_from_slice(&end.position);
    memory[TURN] = (memory[TURN] + 1) % NODES as u32;
    Answer { number: end.number, values: [round.node.number as u32, round.letters, round.back] }
}

/// How a turn ends: its number and the postman's position: stage, other node, held block.
struct End {
    number: u32,
    position: [u32; 3],
}

const FINISHED: End = End { number: 0, position: [0; 3] };

/// A turn under way: the node whose turn it is, letters appended, blocks given back.
struct Round {
    node: Node,
    letters: u32,
    back: u32,
}

impl Round {
    /// Takes up where the postman stands and goes on through that queue and higher nodes.
    fn go(&mut self, memory: &mut [u32]) -> Result<(), End> {
        let [stage, named, held] = position(memory, self.node.number);
        let named = named as usize;
        match stage {
            2 => self.hand_over(memory, named, held)?,
            3 => self.acknowledge(memory, named)?,
            _ => self.collect(memory),
        }
        // At stage 0 the node named is 0, the first one.
        for other in self.others().filter(|&other| other >= named) {
            while item_count(memory, self.send_queue_on(other)) > 0 {
                self.fetch(memory, other)?;
            }
        }
        Ok(())
    }

    /// The nodes 0 to 5 but the one whose turn it is.
    fn others(&self) -> impl Iterator<Item = usize> {
        let own = self.node.number;
        (0..NODES).filter(move |&other| other != own)
    }

    /// The send queue on another node with letters for this one.
    fn send_queue_on(&self, other: usize) -> Queue {
        self.node.set.node(other).send_queue(self.node.number)
    }

    /// Step 1: gives the acknowledged letters' chains back.
    fn collect(&mut self, memory: &mut [u32]) {
        for other in self.others() {
            let queue = self.node.set.node(other).acknowledge_queue(self.node.number);
            for first in items(memory, queue) {
                drop_first(memory, queue);
                self.back += give_back(memory, self.node, first);
            }
        }
    }

    /// Step 2 for the first letter of a queue: takes space and copies; stage 1 if space is wanting.
    fn fetch(&mut self, memory: &mut [u32], other: usize) -> Result<(), End> {
        let first = memory[slot(memory, self.send_queue_on(other), 0)];
        let letter = letter(memory, self.node.set.node(other), first);
        let Some(chain) = take(memory, self.node, self.node.set.blocks_needed(letter.len())) else {
            count_up(memory, self.node.room_count());
            return Err(End { number: 5, position: [1, other as u32, 0] });
        };
        write(memory, self.node, &chain, &letter);
        self.hand_over(memory, other, chain[0])
    }

    /// Appends the copy to its task queue; stage 2 if that is full.
    fn hand_over(&mut self, memory: &mut [u32], other: usize, copy: u32) -> Result<(), End> {
        let destination = header(memory, self.node, copy)[DESTINATION];
        let queue = memory[task_place(destination) + 1] as usize;
        if !append_to_task_queue(memory, self.node.task_queue(queue), copy) {
            return Err(End { number: 6, position: [2, other as u32, copy] });
        }
        self.letters += 1;
        self.acknowledge(memory, other)
    }

    /// Moves the source's block from the send queue to the acknowledge queue; stage 3 if that is full.
    fn acknowledge(&mut self, memory: &mut [u32], other: usize) -> Result<(), End> {
        let first = memory[slot(memory, self.send_queue_on(other), 0)];
        if !append(memory, self.node.acknowledge_queue(other), first) {
            return Err(End { number: 10, position: [3, other as u32, 0] });
        }
        drop_first(memory, self.send_queue_on(other));
        Ok(())
    }
}

/// Lists the letters on their way, six words each.
pub fn list(memory: &[u32], out: &mut [u32]) -> Answer {
    let Ok(set) = sound(memory) else { return Answer::refused(1) };
    let records: Vec<[u32; RECORD_WORDS]> = (1..=255).flat_map(|task| letters_for(memory, set, task)).collect();
    let answer = [records.len() as u32, 0, 0];
    if out.len() < RECORD_WORDS * records.len() {
        return Answer { number: 11, values: answer };
    }
    out[..RECORD_WORDS * records.len()].copy_from_slice(&records.concat());
    Answer::done(answer)
}

/// The list records of one destination task: its task queue, then the send queues to its node.
fn letters_for(memory: &[u32], set: Settings, task: u32) -> Vec<[u32; RECORD_WORDS]> {
    let Some(home) = bound_place(memory, task) else { return Vec::new() };
    let mut records = Vec::new();
    let mut add = |place, node: Node, first| {
        let header = header(memory, node, first);
        if header[DESTINATION] == task {
            let body = header[LENGTH] - HEADER_WORDS as u32;
            records.push([task, header[SOURCE], place, node.number as u32, first, body]);
        }
    };
    let own = set.node(home.node);
    for first in items(memory, own.task_queue(home.queue).queue).into_iter().filter(|&item| item != 0) {
        add(1, own, first);
    }
    let [stage, named, _] = position(memory, home.node);
    for node in set.nodes() {
        // The first item has been handed over if the postman waits at stage 3 on this queue.
        let handed_over = stage == 3 && named as usize == node.number;
        for first in items(memory, node.send_queue(home.node)).into_iter().skip(usize::from(handed_over)) {
            add(2, node, first);
        }
    }
    records
}

/// A bound task's node and queue.
struct Bound {
    node: usize,
    queue: usize,
}

/// Where a task of a sound memory is bound, if it is.
fn bound_place(memory: &[u32], task: u32) -> Option<Bound> {
    let table = Table::within(memory)?;
    let [node, queue] = table.entry(task).map(|word| word as usize);
    table.is_bound(task).then_some(Bound { node, queue })
}
