// Makes scripts from a seed; it plays each step at once, so that it knows the memory.

use crate::layout::{Settings, NODES, TABLE_WORDS, TASK_QUEUES, UNBOUND};
use crate::random::Random;
use crate::script::{script, Done, Player, Step};
use crate::{ends, setups, traffic};

/// The numbers of all nodes.
pub const ALL_NODES: [usize; NODES] = [0, 1, 2, 3, 4, 5];
/// The greatest task id.
const LAST_TASK: usize = 255;

/// The greatest number of a task queue.
const LAST_QUEUE: u32 = TASK_QUEUES as u32 - 1;

/// A script of set-ups alone.
pub fn setup_script(seed: u64) -> Vec<u8> {
    let mut maker = Maker::new(seed);
    setups::make(&mut maker);
    script(&maker.steps)
}

/// A script of this many calls of all kinds.
pub fn calls_script(seed: u64, calls: usize) -> Vec<u8> {
    let mut maker = Maker::new(seed);
    traffic::make(&mut maker, calls);
    script(maker.first_calls(calls))
}

/// A script of letters' ways at the least and greatest settings.
pub fn ends_script(seed: u64) -> Vec<u8> {
    let mut maker = Maker::new(seed);
    ends::make(&mut maker);
    script(&maker.steps)
}

/// A script in the making.
pub struct Maker {
    pub random: Random,
    pub player: Player,
    steps: Vec<Step>,
    calls: usize,
}

impl Maker {
    pub fn new(seed: u64) -> Maker {
        Maker { random: Random::new(seed), player: Player::default(), steps: Vec::new(), calls: 0 }
    }

    /// How many calls the script has.
    pub fn calls(&self) -> usize {
        self.calls
    }

    pub fn last_step(&self) -> Option<&Step> {
        self.steps.last()
    }

    /// Adds a step and plays it; a step that can't be played is left out.
    pub fn add(&mut self, step: Step) -> Option<Done> {
        let done = self.player.play(&step).ok()?;
        self.steps.push(step);
        self.calls += usize::from(done.is_some());
        done
    }

    /// The steps up to so many calls.
    fn first_calls(&self, calls: usize) -> &[Step] {
        let is_call = |step: &Step| !matches!(step, Step::Memory { .. } | Step::Table { .. } | Step::Word { .. });
        let ends = self.steps.iter().enumerate().filter(|(_, step)| is_call(step)).map(|(n, _)| n + 1);
        &self.steps[..ends.take(calls).last().unwrap_or(0)]
    }

    /// Overwrites one word of the memory.
    pub fn put(&mut self, index: usize, value: u32) {
        self.add(Step::Word { index, value });
    }

    /// A new memory of this length with any content.
    pub fn new_memory(&mut self, length: usize) {
        let f = self.any_f();
        self.add(Step::Memory { length, f });
    }

    /// Takes this table for the next set-ups, unless it is the present one.
    pub fn use_table(&mut self, words: Vec<u32>) {
        if words != self.player.table {
            self.add(Step::Table { words });
        }
    }

    /// Sets up; tells if that was done.
    pub fn set_up(&mut self, settings: [u32; 5]) -> bool {
        self.add(Step::SetUp { settings }).is_some_and(|done| done.answer.number == 0)
    }

    /// Some f: small, close to the greatest word, or any.
    pub fn any_f(&mut self) -> u32 {
        match self.random.below(4) {
            0 => self.random.below(1_000) as u32,
            1 => u32::MAX - self.random.below(50) as u32,
            _ => self.random.word(),
        }
    }

    /// A good table of so many tasks on these nodes.
    pub fn table_of(&mut self, tasks: usize, nodes: &[usize]) -> Vec<u32> {
        let mut places: Vec<[u32; 2]> = Vec::new();
        for &node in nodes {
            places.extend((0..TASK_QUEUES).map(|queue| [node as u32, queue as u32]));
        }
        self.shuffle(&mut places);
        if self.random.percent(50) {
            // The first and the last queues of the nodes are bound first.
            places.sort_by_key(|[_, queue]| ![0, LAST_QUEUE].contains(queue));
        }
        let mut ids: Vec<usize> = (2..LAST_TASK).collect();
        self.shuffle(&mut ids);
        // The tasks at both ends of the table come first or last.
        let at = if self.random.percent(50) { 0 } else { ids.len() };
        ids.splice(at..at, [1, LAST_TASK]);
        let mut table = no_tasks();
        for (place, id) in places.into_iter().zip(ids).take(tasks) {
            table[2 * id..][..2].copy_from_slice(&place);
        }
        table
    }

    fn shuffle<T>(&mut self, list: &mut [T]) {
        for end in (1..list.len()).rev() {
            list.swap(end, self.random.below(end + 1));
        }
    }

    /// A good table with every task bound.
    pub fn full_table(&mut self) -> Vec<u32> {
        self.table_of(LAST_TASK, &ALL_NODES)
    }
}

/// The table with no task bound.
pub fn no_tasks() -> Vec<u32> {
    UNBOUND.repeat(TABLE_WORDS / 2)
}

/// The words of a memory with these settings; they must be small, but need not be in range.
pub fn size(settings: [u32; 5]) -> usize {
    Settings::of(settings).memory_words()
}
