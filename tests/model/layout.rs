// The settings of a memory and where each of its words stands.

/// Nodes, numbered from 0.
pub const NODES: usize = 6;
/// Task queues in a node.
pub const TASK_QUEUES: usize = 64;
/// The place of whose turn it is, behind the five settings.
pub const TURN: usize = 5;
/// The place of the postmen's positions: per node stage, other node, held block.
const POSITIONS: usize = 6;
/// The place of the task table: per task id node, queue.
pub const TABLE: usize = 24;
/// Words of the task table.
pub const TABLE_WORDS: usize = 512;
/// Words before the nodes' stretches.
pub const HEAD_WORDS: usize = 536;
/// What an unbound task id holds in the table.
pub const UNBOUND: [u32; 2] = [255, 0];

/// The header of a letter: the places of its five words.
pub const SOURCE: usize = 0;
pub const SOURCE_NODE: usize = 1;
pub const DESTINATION: usize = 2;
pub const DESTINATION_NODE: usize = 3;
pub const LENGTH: usize = 4;
pub const HEADER_WORDS: usize = 5;
/// The greatest length of a letter, header included.
pub const GREATEST_LENGTH: usize = 1_024;

/// Least and greatest value of B, M, S, A and T.
pub const RANGES: [(u32, u32); 5] = [(4, 64), (1, 1_024), (2, 255), (2, 255), (2, 255)];

/// The five settings.
#[derive(Clone, Copy)]
pub struct Settings {
    /// Words in a block, link included.
    pub b: usize,
    /// Blocks in a node.
    pub m: usize,
    /// Length of a send queue.
    pub s: usize,
    /// Length of an acknowledge queue.
    pub a: usize,
    /// Length of a task queue.
    pub t: usize,
}

impl Settings {
    /// The settings, if each is in its range.
    pub fn in_range(words: [u32; 5]) -> Option<Settings> {
        let good = words.iter().zip(RANGES).all(|(&word, (least, greatest))| least <= word && word <= greatest);
        good.then(|| Settings::of(words))
    }

    /// The settings, whether in range or not.
    pub fn of(words: [u32; 5]) -> Settings {
        let [b, m, s, a, t] = words.map(|word| word as usize);
        Settings { b, m, s, a, t }
    }

    /// N, the words of a node's stretch.
    pub fn node_words(self) -> usize {
        2 + 6 * (3 + self.s) + 6 * (3 + self.a) + 64 * (5 + self.t) + self.m * self.b
    }

    /// The words of the whole memory.
    pub fn memory_words(self) -> usize {
        HEAD_WORDS + NODES * self.node_words()
    }

    /// The blocks that a letter of this length needs.
    pub fn blocks_needed(self, length: usize) -> usize {
        length.div_ceil(self.b - 1)
    }

    /// A node of this memory.
    pub fn node(self, number: usize) -> Node {
        Node { set: self, number, at: HEAD_WORDS + number * self.node_words() }
    }

    /// All six nodes.
    pub fn nodes(self) -> impl Iterator<Item = Node> {
        (0..NODES).map(move |number| self.node(number))
    }

    /// The places of all counts.
    pub fn count_places(self) -> Vec<usize> {
        let mut places = Vec::new();
        for node in self.nodes() {
            places.push(node.room_count());
            for to in 0..NODES {
                places.extend([node.send_queue(to).full_count, node.acknowledge_queue(to).full_count]);
            }
            for task_queue in (0..TASK_QUEUES).map(|number| node.task_queue(number)) {
                places.extend([task_queue.queue.full_count, task_queue.empty_count]);
            }
        }
        places
    }
}

/// The place of a node's stage; other node and held block follow.
pub fn position_place(node: usize) -> usize {
    POSITIONS + 3 * node
}

/// The place of a task's node in the table; its queue follows.
pub fn task_place(task: u32) -> usize {
    TABLE + 2 * task as usize
}

/// One node's stretch of the memory; its methods give places of words.
#[derive(Clone, Copy)]
pub struct Node {
    pub set: Settings,
    pub number: usize,
    at: usize,
}

impl Node {
    pub fn first_free(self) -> usize {
        self.at
    }

    pub fn room_count(self) -> usize {
        self.at + 1
    }

    /// The send queue to node `to`.
    pub fn send_queue(self, to: usize) -> Queue {
        Queue::plain(self.at + 2 + to * (3 + self.set.s), self.set.s)
    }

    /// The acknowledge queue for node `to`.
    pub fn acknowledge_queue(self, to: usize) -> Queue {
        Queue::plain(self.at + 2 + 6 * (3 + self.set.s) + to * (3 + self.set.a), self.set.a)
    }

    pub fn task_queue(self, number: usize) -> TaskQueue {
        let start = self.at + 2 + 6 * (3 + self.set.s) + 6 * (3 + self.set.a) + number * (5 + self.set.t);
        let queue = Queue { start, items: start + 1, full_count: start + 3, slots: start + 5, length: self.set.t };
        TaskQueue { queue, gap_flag: start + 2, empty_count: start + 4 }
    }

    /// The first word of a block, numbered from 1.
    pub fn block(self, number: u32) -> usize {
        self.at + self.set.node_words() - self.set.m * self.set.b + (number as usize - 1) * self.set.b
    }

    /// The link of a block, its last word.
    pub fn link(self, number: u32) -> usize {
        self.block(number) + self.set.b - 1
    }
}

/// A queue: the places of its words and its length.
#[derive(Clone, Copy)]
pub struct Queue {
    pub start: usize,
    pub items: usize,
    pub full_count: usize,
    pub slots: usize,
    pub length: usize,
}

impl Queue {
    /// A send or acknowledge queue whose first word stands at `start`.
    fn plain(start: usize, length: usize) -> Queue {
        Queue { start, items: start + 1, full_count: start + 2, slots: start + 3, length }
    }
}

/// A task queue: a queue with a gap flag and an empty count.
#[derive(Clone, Copy)]
pub struct TaskQueue {
    pub queue: Queue,
    pub gap_flag: usize,
    pub empty_count: usize,
}
