// A copy of a sound memory on which damage is done, and what can be picked from it.

use crate::blocks::{chain, take, write};
use crate::layout::*;
use crate::queues::*;
use crate::random::Random;
use crate::sound::{letters_begun, position, Begun, Place};
use crate::table::Table;

/// A copy of a sound memory on which damage is done.
pub struct Bench<'a> {
    pub memory: Vec<u32>,
    pub set: Settings,
    pub random: &'a mut Random,
}

impl Bench<'_> {
    /// A value over `most`.
    pub fn over(&mut self, most: usize) -> u32 {
        self.random.one_of([most as u32 + 1, most as u32 + 1, most as u32 + 2, u32::MAX])
    }

    pub fn any_node(&mut self) -> Node {
        let number = self.random.below(NODES);
        self.set.node(number)
    }

    /// A task for which this holds of its place in the table.
    pub fn task(&mut self, wanted: impl Fn(Table, u32) -> bool) -> Option<u32> {
        let table = Table::within(&self.memory)?;
        let tasks: Vec<u32> = (1..=255).filter(|&task| wanted(table, task)).collect();
        self.random.pick(&tasks)
    }

    pub fn bound_task(&mut self) -> Option<u32> {
        self.task(|table, task| table.is_bound(task))
    }

    pub fn unbound_task(&mut self) -> Option<u32> {
        self.task(|table, task| !table.is_bound(task))
    }

    /// A bound task on this node.
    pub fn task_on(&mut self, node: usize) -> Option<u32> {
        self.task(|table, task| table.is_bound(task) && table.entry(task)[0] as usize == node)
    }

    /// A bound task on another node.
    pub fn task_off(&mut self, node: usize) -> Option<u32> {
        self.task(|table, task| table.is_bound(task) && table.entry(task)[0] as usize != node)
    }

    pub fn entry(&self, task: u32) -> [u32; 2] {
        [self.memory[task_place(task)], self.memory[task_place(task) + 1]]
    }

    pub fn set_entry(&mut self, task: u32, entry: [u32; 2]) {
        self.memory[task_place(task)..][..2].copy_from_slice(&entry);
    }

    /// A queue on one of these nodes that is bound to no task.
    pub fn free_place(&mut self, wanted: impl Fn(usize) -> bool) -> Option<[u32; 2]> {
        let table = Table::within(&self.memory)?;
        let taken: Vec<[u32; 2]> = table.bound_tasks().map(|task| table.entry(task)).collect();
        let nodes = (0..NODES).filter(|&node| wanted(node));
        let all = nodes.flat_map(|node| (0..TASK_QUEUES).map(move |queue| [node as u32, queue as u32]));
        let free: Vec<[u32; 2]> = all.filter(|place| !taken.contains(place)).collect();
        self.random.pick(&free)
    }

    /// A queue for which this holds, of each class equally often; queues with items are preferred.
    pub fn queue(&mut self, wanted: impl Fn(&[u32], Queue) -> bool) -> Option<Queue> {
        let class = self.random.below(3);
        let mut queues: Vec<Queue> = Vec::new();
        for node in self.set.nodes() {
            match class {
                0 => queues.extend((0..NODES).map(|to| node.send_queue(to))),
                1 => queues.extend((0..NODES).map(|to| node.acknowledge_queue(to))),
                _ => queues.extend((0..TASK_QUEUES).map(|number| node.task_queue(number).queue)),
            }
        }
        queues.retain(|&queue| wanted(&self.memory, queue));
        let busy: Vec<Queue> = queues.iter().copied().filter(|&queue| item_count(&self.memory, queue) > 0).collect();
        let queues = if self.random.percent(70) && !busy.is_empty() { busy } else { queues };
        self.random.pick(&queues)
    }

    /// The task queue of a bound task.
    pub fn task_queue_of(&self, task: u32) -> TaskQueue {
        let [node, queue] = self.entry(task).map(|word| word as usize);
        self.set.node(node).task_queue(queue)
    }

    /// What is chosen of some letter.
    fn letter_by<T: Copy>(&mut self, choose: impl Fn(Begun) -> Option<T>) -> Option<T> {
        let letters = letters_begun(&self.memory, self.set, Table::within(&self.memory)?);
        let chosen: Vec<T> = letters.into_iter().filter_map(choose).collect();
        self.random.pick(&chosen)
    }

    /// A letter for which this holds.
    pub fn letter(&mut self, wanted: impl Fn(&Begun) -> bool) -> Option<Begun> {
        self.letter_by(|begun| wanted(&begun).then_some(begun))
    }

    /// A letter in a send queue, and the node it goes to.
    pub fn send_letter(&mut self) -> Option<(Begun, usize)> {
        self.letter_by(|begun| if let Place::SendQueue { to } = begun.place { Some((begun, to)) } else { None })
    }

    /// A letter in an acknowledge queue, and the node of that queue.
    pub fn acknowledged_letter(&mut self) -> Option<(Begun, usize)> {
        self.letter_by(|begun| if let Place::AcknowledgeQueue { on } = begun.place { Some((begun, on)) } else { None })
    }

    /// A letter in a task queue, and its task.
    pub fn task_letter(&mut self) -> Option<(Begun, u32)> {
        self.letter_by(|begun| if let Place::TaskQueue { task } = begun.place { Some((begun, task)) } else { None })
    }

    /// Two letters in one node with at least so many blocks.
    pub fn two_letters(&mut self, blocks: usize) -> Option<(Begun, Begun)> {
        let one = self.letter(|_| true)?;
        let memory = self.memory.clone();
        let fits = |begun: &Begun| chain(&memory, begun.node, begun.first).len() >= blocks;
        let other =
            self.letter(|begun| begun.node.number == one.node.number && begun.first != one.first && fits(begun))?;
        fits(&one).then_some((one, other))
    }

    pub fn chain(&self, begun: Begun) -> Vec<u32> {
        chain(&self.memory, begun.node, begun.first)
    }

    pub fn last_link(&self, begun: Begun) -> Option<usize> {
        Some(begun.node.link(*self.chain(begun).last()?))
    }

    /// The place of a word of a letter.
    pub fn word_place(&self, begun: Begun, n: usize) -> usize {
        let carried = self.set.b - 1;
        begun.node.block(self.chain(begun)[n / carried]) + n % carried
    }

    pub fn word(&self, begun: Begun, n: usize) -> u32 {
        self.memory[self.word_place(begun, n)]
    }

    pub fn set_word(&mut self, begun: Begun, n: usize, value: u32) {
        let place = self.word_place(begun, n);
        self.memory[place] = value;
    }

    /// The place that names a letter's first block.
    pub fn item_place(&self, begun: Begun) -> Option<usize> {
        let queue = match begun.place {
            Place::SendQueue { to } => begun.node.send_queue(to),
            Place::AcknowledgeQueue { on } => self.set.node(on).acknowledge_queue(begun.node.number),
            Place::TaskQueue { task } => self.task_queue_of(task).queue,
            Place::Hand => return Some(position_place(begun.node.number) + 2),
        };
        let n = items(&self.memory, queue).iter().position(|&item| item == begun.first)?;
        Some(slot(&self.memory, queue, n))
    }

    /// A postman for whose position this holds.
    pub fn postman(&mut self, wanted: impl Fn([u32; 3]) -> bool) -> Option<usize> {
        let postmen: Vec<usize> = (0..NODES).filter(|&node| wanted(position(&self.memory, node))).collect();
        self.random.pick(&postmen)
    }

    pub fn set_position(&mut self, node: usize, position: [u32; 3]) {
        self.memory[position_place(node)..][..3].copy_from_slice(&position);
    }

    /// Another node whose send queue to this one has items or has none.
    pub fn node_with_mail_for(&mut self, node: usize, some: bool) -> Option<u32> {
        let set = self.set;
        let has_mail = |other: usize| item_count(&self.memory, set.node(other).send_queue(node)) > 0;
        let nodes: Vec<u32> =
            (0..NODES).filter(|&other| other != node && has_mail(other) == some).map(|other| other as u32).collect();
        self.random.pick(&nodes)
    }

    /// The letter in a postman's hand or the one it was copied from.
    pub fn held_letter(&mut self) -> Option<Begun> {
        let node = self.postman(|[stage, _, _]| stage == 2)?;
        let [_, other, held] = position(&self.memory, node);
        let sender = self.set.node(other as usize);
        let first = items(&self.memory, sender.send_queue(node))[0];
        let copy = Begun { node: self.set.node(node), place: Place::Hand, first: held };
        let original = Begun { node: sender, place: Place::SendQueue { to: node }, first };
        Some(self.random.one_of([copy, original]))
    }

    /// A new letter with no body from a task to itself, in its node but in no queue.
    pub fn loose_letter(&mut self) -> Option<Begun> {
        let task = self.bound_task()?;
        let [at, _] = self.entry(task);
        let node = self.set.node(at as usize);
        let blocks = take(&mut self.memory, node, self.set.blocks_needed(HEADER_WORDS))?;
        write(&mut self.memory, node, &blocks, &[task, at, task, at, HEADER_WORDS as u32]);
        Some(Begun { node, place: Place::TaskQueue { task }, first: blocks[0] })
    }
}
