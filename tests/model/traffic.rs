// Makes long runs of all calls: random traffic in phases, with damage and odd memories between.

use crate::layout::{Settings, GREATEST_LENGTH, NODES, TABLE_WORDS, TURN};
use crate::mail::{self, GREATEST_BODY, RECORD_WORDS};
use crate::make::{no_tasks, size, Maker, ALL_NODES};
use crate::queues::{is_full, item_count};
use crate::script::{Done, Player, Step, BODY_LIMIT, LIST_LIMIT};
use crate::setups::{bad_setting, other_size};
use crate::sound::{letters_begun, position, sound, Place};
use crate::strike::Striker;
use crate::table::Table;

/// From this many calls on a script also has the whole memories that are one word off.
const LONG_SCRIPT: usize = 1_000;

pub fn make(maker: &mut Maker, calls: usize) {
    let mut striker = Striker::new();
    episode(maker, &mut striker);
    odd_lengths(maker);
    if calls >= LONG_SCRIPT {
        one_word_off(maker, |memory| memory.truncate(memory.len() - 1));
        one_word_off(maker, |memory| memory.push(0));
    }
    while maker.calls() < calls {
        episode(maker, &mut striker);
    }
}

/// A set-up and some phases of traffic, with damage on purpose.
fn episode(maker: &mut Maker, striker: &mut Striker) {
    begin(maker);
    for _ in 0..maker.random.between(2, 6) {
        let phase = Phase::any(maker);
        for _ in 0..maker.random.between(10, 60) {
            match maker.random.below(100) {
                0..=6 => striker.strike(maker, &phase),
                7..=9 => phase.count_at_its_end(maker),
                10 => refused_set_up(maker),
                _ => {
                    phase.call(maker);
                }
            }
        }
    }
    if maker.random.percent(8) {
        odd_lengths(maker);
    }
}

/// Sets up a memory with tasks on two, three or all nodes.
pub fn begin(maker: &mut Maker) {
    let settings = any_settings(maker);
    if maker.random.percent(60) || maker.player.table.len() != TABLE_WORDS {
        if maker.calls() == 0 || maker.random.percent(25) {
            maker.add(Step::Table { words: no_tasks()[1..].to_vec() });
            maker.set_up(settings);
        }
        let nodes = match maker.random.below(3) {
            0 => vec![maker.random.between(0, 2), maker.random.between(3, 5)],
            1 => vec![maker.random.below(2), maker.random.between(2, 3), maker.random.between(4, 5)],
            _ => ALL_NODES.to_vec(),
        };
        let tasks = maker.random.one_of([3, 4, 6, 8, 12, 24, 255]);
        let table = maker.table_of(tasks, &nodes);
        maker.use_table(table);
    }
    maker.new_memory(size(settings));
    maker.set_up(settings);
}

/// Settings that bring out refusals: few blocks, short queues, blocks of all sizes.
fn any_settings(maker: &mut Maker) -> [u32; 5] {
    if maker.random.percent(50) {
        let b = maker.random.one_of([4, 5, 6, 8, 64]);
        let ranges = [(4, 40), (3, 8), (2, 3), (2, 6)];
        let [m, s, a, t] = ranges.map(|(least, greatest)| maker.random.between(least, greatest) as u32);
        return [b, m, s, a, t];
    }
    maker.random.one_of([
        [8, 4, 2, 2, 2],
        [8, 4, 2, 2, 2],
        [8, 64, 32, 32, 32],
        [8, 64, 32, 32, 32],
        [8, 1, 2, 2, 2],
        [4, 2, 2, 2, 2],
        [4, 18, 3, 2, 2],
        [5, 24, 4, 2, 3],
        [8, 5, 4, 2, 3],
        [8, 7, 5, 2, 2],
        [64, 6, 4, 2, 2],
        [64, 8, 6, 2, 3],
        [8, 30, 7, 2, 9],
        [64, 3, 3, 3, 3],
        [64, 40, 6, 2, 3],
        [4, 345, 3, 2, 3],
        [8, 150, 3, 3, 4],
        [5, 300, 5, 2, 3],
    ])
}

/// A set-up in the midst that is refused and changes nothing.
fn refused_set_up(maker: &mut Maker) {
    let Some(&settings) = maker.player.memory.first_chunk::<5>() else { return };
    let settings = if maker.random.percent(50) { bad_setting(maker, settings) } else { other_size(maker, settings) };
    maker.set_up(settings);
}

/// Memories of wrong lengths that begin with good settings.
fn odd_lengths(maker: &mut Maker) {
    let Some(&settings) = maker.player.memory.first_chunk::<5>() else { return };
    let phase = Phase::any(maker);
    let calls = phase.some_steps(maker, 3);
    let exact = size(settings);
    for length in [0, 4, 5, 6, 535, 536, exact - 1, exact + 1] {
        maker.new_memory(length);
        for (index, value) in settings.into_iter().chain([0]).enumerate().take(length) {
            maker.put(index, value);
        }
        maker.add(Step::List { length: 0, f: 0 });
        for step in &calls {
            maker.add(step.clone());
        }
    }
}

/// A memory that would be sound but for one word too few or too many at its end.
fn one_word_off(maker: &mut Maker, change: fn(&mut Vec<u32>)) {
    let settings = [4, 1, 2, 2, 2];
    let mut memory = vec![0; size(settings)];
    mail::set_up(settings, &no_tasks(), &mut memory);
    change(&mut memory);
    maker.add(Step::Memory { length: memory.len(), f: 0 });
    for (index, value) in memory.into_iter().enumerate().filter(|&(index, value)| index as u32 != value) {
        maker.put(index, value);
    }
    maker.add(Step::List { length: 0, f: 0 });
    maker.add(Step::Turn);
    maker.add(Step::Send { source: 1, destination: 1, length: 0, f: 0 });
    maker.add(Step::Receive { destination: 1, source: 0, length: 0, f: 0 });
}

/// A stretch of traffic of one kind.
pub struct Phase {
    /// How often send, receive, turn and list are called, of a hundred.
    weights: [usize; 4],
    /// How often a receive takes from any source, of a hundred.
    any_source: usize,
    /// The tasks that write and are written to.
    talkers: Vec<u32>,
    /// The task that gets most letters.
    favourite: u32,
}

impl Phase {
    /// Some kind of traffic between tasks of two nodes.
    pub fn any(maker: &mut Maker) -> Phase {
        let favourite = any_task(maker, |_| true).unwrap_or(1);
        let home = node_of(maker, favourite);
        let other = any_task(maker, |node| node != home).unwrap_or(favourite);
        let away = node_of(maker, other);
        let mut talkers = vec![favourite, other];
        for _ in 0..maker.random.below(4) {
            talkers.extend(any_task(maker, |node| node == home || node == away));
        }
        Phase {
            weights: maker.random.one_of([
                [60, 6, 28, 6],
                [85, 5, 5, 5],
                [45, 25, 25, 5],
                [10, 50, 35, 5],
                [35, 30, 30, 5],
                [20, 15, 60, 5],
            ]),
            any_source: maker.random.one_of([5, 20, 60]),
            talkers,
            favourite,
        }
    }

    /// Makes one call; a turn is often given to a node that has something to do.
    pub fn call(&self, maker: &mut Maker) -> Option<Done> {
        let step = self.step(maker);
        if step == Step::Turn && maker.random.percent(60) {
            if let Some(node) = busy_node(maker) {
                maker.put(TURN, node as u32);
            }
        }
        maker.add(step)
    }

    /// A random call that suits the present memory.
    pub fn step(&self, maker: &mut Maker) -> Step {
        if maker.random.percent(15) {
            if let Some(step) = help(maker) {
                return step;
            }
        }
        let [send, receive, turn, _] = self.weights;
        let n = maker.random.below(100);
        if n < send {
            self.send(maker)
        } else if n < send + receive {
            self.receive(maker)
        } else if n < send + receive + turn {
            self.turn(maker)
        } else {
            any_list(maker)
        }
    }

    /// Up to `most` such calls, at least one.
    pub fn some_steps(&self, maker: &mut Maker, most: usize) -> Vec<Step> {
        (0..maker.random.between(1, most)).map(|_| self.step(maker)).collect()
    }

    /// A send that suits the present memory.
    pub fn send(&self, maker: &mut Maker) -> Step {
        let source = self.task(maker);
        let destination = match full_with_gaps(maker) {
            Some(task) if maker.random.percent(40) => task,
            _ if maker.random.percent(50) => self.favourite,
            _ => self.task(maker),
        };
        Step::Send { source, destination, length: any_body_length(maker), f: maker.any_f() }
    }

    fn receive(&self, maker: &mut Maker) -> Step {
        let destination = match with_mail(maker, |_| true) {
            Some(task) if maker.random.percent(80) => task,
            None if maker.random.percent(70) => return self.turn(maker),
            _ => self.task(maker),
        };
        let source = self.wanted_source(maker, destination);
        let length = any_out_length(maker, destination, source);
        Step::Receive { destination, source, length, f: maker.any_f() }
    }

    /// A turn, or rather a send if no node has anything to do.
    fn turn(&self, maker: &mut Maker) -> Step {
        if busy_node(maker).is_none() && maker.random.percent(70) {
            return self.send(maker);
        }
        Step::Turn
    }

    /// A talker, and sometimes a task that is bound to nothing.
    fn task(&self, maker: &mut Maker) -> u32 {
        if maker.random.percent(6) {
            let bound = self.favourite;
            return maker.random.one_of([0, 1, 255, 256, bound + 256, bound | 1 << 31, u32::MAX]);
        }
        maker.random.pick(&self.talkers).unwrap_or(0)
    }

    /// 0, the source of a letter in the task's queue, rather not of the first, or any talker.
    fn wanted_source(&self, maker: &mut Maker, destination: u32) -> u32 {
        if maker.random.percent(self.any_source) {
            return 0;
        }
        if maker.random.percent(15) {
            return self.task(maker);
        }
        let mut sources = sources_waiting(&maker.player.memory, destination);
        if let (Some(&first), true) = (sources.first(), maker.random.percent(85)) {
            sources.retain(|&source| source != first);
        }
        maker.random.pick(&sources).unwrap_or_else(|| self.task(maker))
    }

    /// A refused call whose count stands at its end, or one before it, twice.
    fn count_at_its_end(&self, maker: &mut Maker) {
        let step = self.step(maker);
        if let Some(place) = rising_count(&maker.player, &step) {
            let value = u32::MAX - maker.random.below(2) as u32;
            maker.put(place, value);
            maker.add(step.clone());
        }
        maker.add(step);
    }
}

/// The place of a count that this step would raise.
pub fn rising_count(player: &Player, step: &Step) -> Option<usize> {
    let set = sound(&player.memory).ok()?;
    let mut trial = player.clone();
    trial.play(step).ok()?;
    set.count_places().into_iter().find(|&place| trial.memory[place] != player.memory[place])
}

/// A body length: small, about what fills some blocks or all, the greatest, or over it.
fn any_body_length(maker: &mut Maker) -> usize {
    let settings = maker.player.memory.first_chunk::<5>().copied().and_then(Settings::in_range);
    let (carried, blocks) = settings.map_or((7, 4), |set| (set.b - 1, set.m));
    if blocks * carried >= GREATEST_LENGTH && maker.random.percent(15) {
        return GREATEST_BODY - maker.random.below(3);
    }
    let length = match maker.random.below(40) {
        0..=24 => maker.random.below(8),
        25..=28 => maker.random.below(25),
        29..=35 => {
            let filled = maker.random.between(1, blocks.min(3)) * carried;
            (filled + maker.random.below(3)).saturating_sub(6)
        }
        36 => (blocks * carried + maker.random.below(2)).saturating_sub(5),
        37 => maker.random.below(GREATEST_BODY),
        38 => GREATEST_BODY,
        _ => maker.random.one_of([GREATEST_BODY - 1, GREATEST_BODY + 1, BODY_LIMIT]),
    };
    length.min(BODY_LIMIT)
}

/// An out length for a receive: the body's, one less, none, or more.
fn any_out_length(maker: &mut Maker, destination: u32, source: u32) -> usize {
    let mut memory = maker.player.memory.clone();
    let [_, body, _] = mail::receive(&mut memory, destination, source, &mut [0; BODY_LIMIT]).values;
    let body = body as usize;
    match maker.random.below(10) {
        0 => 0,
        1 => body.saturating_sub(1),
        2..=4 => body,
        5 => BODY_LIMIT,
        _ => (body + maker.random.below(20)).min(BODY_LIMIT),
    }
}

/// A list, its out as long as needed, less or more.
pub fn any_list(maker: &mut Maker) -> Step {
    let [letters, _, _] = mail::list(&maker.player.memory, &mut []).values;
    let needed = RECORD_WORDS * letters as usize;
    let length = match maker.random.below(10) {
        0 => 0,
        1 => needed.saturating_sub(1),
        2 => needed / 2,
        3..=5 => needed,
        6 => maker.random.one_of([needed + 1, LIST_LIMIT]),
        _ => needed + maker.random.below(30),
    };
    Step::List { length: length.min(LIST_LIMIT), f: maker.any_f() }
}

/// The node in a task's table entry.
fn node_of(maker: &Maker, task: u32) -> u32 {
    Table::within(&maker.player.memory).map_or(0, |table| table.entry(task)[0])
}

/// A bound task on a node for which this holds.
fn any_task(maker: &mut Maker, wanted: impl Fn(u32) -> bool) -> Option<u32> {
    let table = Table::within(&maker.player.memory)?;
    let tasks: Vec<u32> = table.bound_tasks().filter(|&task| wanted(table.entry(task)[0])).collect();
    maker.random.pick(&tasks)
}

/// A node with letters to fetch or blocks to collect.
fn busy_node(maker: &mut Maker) -> Option<usize> {
    let memory = &maker.player.memory;
    let set = sound(memory).ok()?;
    let has_work = |node: usize| {
        let queues = set.nodes().flat_map(|other| [other.send_queue(node), other.acknowledge_queue(node)]);
        queues.into_iter().any(|queue| item_count(memory, queue) > 0)
    };
    let nodes: Vec<usize> = (0..NODES).filter(|&node| has_work(node)).collect();
    maker.random.pick(&nodes)
}

/// A call that may let a waiting postman go on: a receive on his node, or a turn of the node he names.
fn help(maker: &mut Maker) -> Option<Step> {
    sound(&maker.player.memory).ok()?;
    let positions = (0..NODES).map(|node| (node, position(&maker.player.memory, node)));
    let waiting: Vec<(usize, [u32; 3])> = positions.filter(|(_, [stage, ..])| *stage != 0).collect();
    let (node, [stage, named, _]) = maker.random.pick(&waiting)?;
    if stage == 3 {
        maker.put(TURN, named);
        return Some(Step::Turn);
    }
    let destination = with_mail(maker, |home| home == node)?;
    Some(Step::Receive { destination, source: 0, length: BODY_LIMIT, f: maker.any_f() })
}

/// A task with something in its task queue, on a node for which this holds.
fn with_mail(maker: &mut Maker, wanted: impl Fn(usize) -> bool) -> Option<u32> {
    let memory = &maker.player.memory;
    let set = sound(memory).ok()?;
    let mut tasks = Vec::new();
    for begun in letters_begun(memory, set, Table::within(memory)?) {
        if let Place::TaskQueue { task } = begun.place {
            tasks.extend(wanted(begun.node.number).then_some(task));
        }
    }
    maker.random.pick(&tasks)
}

/// A task whose queue is at its length and has gaps.
fn full_with_gaps(maker: &mut Maker) -> Option<u32> {
    let memory = &maker.player.memory;
    let set = sound(memory).ok()?;
    let table = Table::within(memory)?;
    let is_wanted = |&task: &u32| {
        let [node, queue] = table.entry(task).map(|word| word as usize);
        let task_queue = set.node(node).task_queue(queue);
        is_full(memory, task_queue.queue) && memory[task_queue.gap_flag] == 1
    };
    let tasks: Vec<u32> = table.bound_tasks().filter(is_wanted).collect();
    maker.random.pick(&tasks)
}

/// The sources of the letters in a task's queue.
fn sources_waiting(memory: &[u32], destination: u32) -> Vec<u32> {
    let letters = mail::list(memory, &mut []).values[0] as usize;
    let mut out = vec![0; RECORD_WORDS * letters];
    mail::list(memory, &mut out);
    let records = out.chunks_exact(RECORD_WORDS);
    records.filter(|record| record[0] == destination && record[2] == 1).map(|record| record[1]).collect()
}
