// A sound memory: the test, rule by rule, naming the first rule found broken.

use crate::blocks::{chain, header, letter};
use crate::layout::*;
use crate::queues::{item_count, items, slot};
use crate::table::Table;

/// What can break a memory, in the document's order.
#[derive(Clone, Copy, Debug, PartialEq, Eq, PartialOrd, Ord)]
pub enum Rule {
    SettingOutOfRange,
    SizeNotExact,
    TurnOver5,
    Task0Bound,
    TaskNodeOver5,
    TaskQueueOver63,
    TwoTasksOnOneQueue,
    StartNotBelowLength,
    ItemsOverLength,
    SlotOutsideItemsNot0,
    QueueToItselfHasItems,
    QueueOfNoTaskHasItems,
    SendItemNot1ToM,
    AcknowledgeItemNot1ToM,
    TaskItemOverM,
    TaskQueueBeginsWith0,
    GapFlagWrong,
    StageOver3,
    Stage0NotWith0And0,
    PositionNamesNoOtherNode,
    NamedQueueHasNoItem,
    HeldBlockNot0,
    HeldBlockNot1ToM,
    LinkOverM,
    BlockVisitedTwice,
    BlockNotVisited,
    LengthNotValid,
    BlocksNotAsNeeded,
    HeaderTaskNotBound,
    HeaderNodeNotTheTasks,
    SendLetterNotFromHereToThere,
    AcknowledgedLetterNotFromHereToThere,
    TaskLetterForOtherTask,
    HeldLetterDiffers,
}

impl Rule {
    pub const ALL: [Rule; 34] = [
        Rule::SettingOutOfRange,
        Rule::SizeNotExact,
        Rule::TurnOver5,
        Rule::Task0Bound,
        Rule::TaskNodeOver5,
        Rule::TaskQueueOver63,
        Rule::TwoTasksOnOneQueue,
        Rule::StartNotBelowLength,
        Rule::ItemsOverLength,
        Rule::SlotOutsideItemsNot0,
        Rule::QueueToItselfHasItems,
        Rule::QueueOfNoTaskHasItems,
        Rule::SendItemNot1ToM,
        Rule::AcknowledgeItemNot1ToM,
        Rule::TaskItemOverM,
        Rule::TaskQueueBeginsWith0,
        Rule::GapFlagWrong,
        Rule::StageOver3,
        Rule::Stage0NotWith0And0,
        Rule::PositionNamesNoOtherNode,
        Rule::NamedQueueHasNoItem,
        Rule::HeldBlockNot0,
        Rule::HeldBlockNot1ToM,
        Rule::LinkOverM,
        Rule::BlockVisitedTwice,
        Rule::BlockNotVisited,
        Rule::LengthNotValid,
        Rule::BlocksNotAsNeeded,
        Rule::HeaderTaskNotBound,
        Rule::HeaderNodeNotTheTasks,
        Rule::SendLetterNotFromHereToThere,
        Rule::AcknowledgedLetterNotFromHereToThere,
        Rule::TaskLetterForOtherTask,
        Rule::HeldLetterDiffers,
    ];
}

/// Where a letter's first block is named.
#[derive(Clone, Copy)]
pub enum Place {
    SendQueue { to: usize },
    AcknowledgeQueue { on: usize },
    TaskQueue { task: u32 },
    Hand,
}

/// A letter in a node, by the place that begins it.
#[derive(Clone, Copy)]
pub struct Begun {
    pub node: Node,
    pub place: Place,
    pub first: u32,
}

/// The settings of a sound memory, or a rule that is broken.
pub fn sound(memory: &[u32]) -> Result<Settings, Rule> {
    let set = settings_rule(memory)?;
    let table = Table::within(memory).ok_or(Rule::SizeNotExact)?;
    table_rule(table)?;
    queues_rule(memory, set, table)?;
    for node in set.nodes() {
        position_rule(memory, node)?;
    }
    let letters = letters_begun(memory, set, table);
    blocks_rule(memory, set, &letters)?;
    for begun in &letters {
        letter_rule(memory, table, begun)?;
    }
    // Only now is it known that the chains end, so the letters in hand are compared last.
    for node in set.nodes() {
        held_letter_rule(memory, node)?;
    }
    Ok(set)
}

/// Stage, other node and held block of a node's postman.
pub fn position(memory: &[u32], node: usize) -> [u32; 3] {
    let at = position_place(node);
    [memory[at], memory[at + 1], memory[at + 2]]
}

fn ensure(holds: bool, rule: Rule) -> Result<(), Rule> {
    if holds {
        Ok(())
    } else {
        Err(rule)
    }
}

/// Settings in range, exact size, turn at most 5.
fn settings_rule(memory: &[u32]) -> Result<Settings, Rule> {
    let words = memory.first_chunk::<5>().ok_or(Rule::SizeNotExact)?;
    let set = Settings::in_range(*words).ok_or(Rule::SettingOutOfRange)?;
    ensure(memory.len() == set.memory_words(), Rule::SizeNotExact)?;
    ensure(memory[TURN] <= 5, Rule::TurnOver5)?;
    Ok(set)
}

/// Task 0 unbound; a bound id has node 0-5 and queue 0-63, no two the same.
pub fn table_rule(table: Table) -> Result<(), Rule> {
    ensure(!table.is_bound(0), Rule::Task0Bound)?;
    let mut taken = [[false; TASK_QUEUES]; NODES];
    for task in table.bound_tasks() {
        let [node, queue] = table.entry(task);
        ensure(node <= 5, Rule::TaskNodeOver5)?;
        ensure(queue <= 63, Rule::TaskQueueOver63)?;
        ensure(!taken[node as usize][queue as usize], Rule::TwoTasksOnOneQueue)?;
        taken[node as usize][queue as usize] = true;
    }
    Ok(())
}

/// All queues of all nodes.
fn queues_rule(memory: &[u32], set: Settings, table: Table) -> Result<(), Rule> {
    let mut bound = [[false; TASK_QUEUES]; NODES];
    for [node, queue] in table.bound_tasks().map(|task| table.entry(task)) {
        bound[node as usize][queue as usize] = true;
    }
    for node in set.nodes() {
        for to in 0..NODES {
            plain_queue_rule(memory, node, to, node.send_queue(to), Rule::SendItemNot1ToM)?;
            plain_queue_rule(memory, node, to, node.acknowledge_queue(to), Rule::AcknowledgeItemNot1ToM)?;
        }
        for (number, &bound) in bound[node.number].iter().enumerate() {
            task_queue_rule(memory, set, node.task_queue(number), bound)?;
        }
    }
    Ok(())
}

/// Start below the length, items at most it, slots outside the items 0.
fn queue_rule(memory: &[u32], queue: Queue) -> Result<(), Rule> {
    ensure((memory[queue.start] as usize) < queue.length, Rule::StartNotBelowLength)?;
    ensure(item_count(memory, queue) <= queue.length, Rule::ItemsOverLength)?;
    let outside = item_count(memory, queue)..queue.length;
    ensure(outside.map(|n| memory[slot(memory, queue, n)]).all(|word| word == 0), Rule::SlotOutsideItemsNot0)
}

/// A send or acknowledge queue: none to the node itself, items 1 to M.
fn plain_queue_rule(memory: &[u32], node: Node, to: usize, queue: Queue, items_rule: Rule) -> Result<(), Rule> {
    queue_rule(memory, queue)?;
    ensure(to != node.number || item_count(memory, queue) == 0, Rule::QueueToItselfHasItems)?;
    ensure(items(memory, queue).into_iter().all(|item| is_block(item, node.set)), items_rule)
}

/// A task queue: items only if bound to a task, 0 to M, the first not 0, the flag as the gaps are.
fn task_queue_rule(memory: &[u32], set: Settings, task_queue: TaskQueue, bound: bool) -> Result<(), Rule> {
    queue_rule(memory, task_queue.queue)?;
    let items = items(memory, task_queue.queue);
    ensure(bound || items.is_empty(), Rule::QueueOfNoTaskHasItems)?;
    ensure(items.iter().all(|&item| item == 0 || is_block(item, set)), Rule::TaskItemOverM)?;
    ensure(items.first() != Some(&0), Rule::TaskQueueBeginsWith0)?;
    ensure(memory[task_queue.gap_flag] == u32::from(items.contains(&0)), Rule::GapFlagWrong)
}

fn is_block(word: u32, set: Settings) -> bool {
    1 <= word && word as usize <= set.m
}

/// A postman's position, but for the letter in his hand.
fn position_rule(memory: &[u32], node: Node) -> Result<(), Rule> {
    let [stage, other, held] = position(memory, node.number);
    if stage == 0 {
        return ensure(other == 0 && held == 0, Rule::Stage0NotWith0And0);
    }
    ensure(stage <= 3, Rule::StageOver3)?;
    ensure(other <= 5 && other as usize != node.number, Rule::PositionNamesNoOtherNode)?;
    let named = node.set.node(other as usize).send_queue(node.number);
    ensure(item_count(memory, named) > 0, Rule::NamedQueueHasNoItem)?;
    if stage == 2 {
        ensure(is_block(held, node.set), Rule::HeldBlockNot1ToM)
    } else {
        ensure(held == 0, Rule::HeldBlockNot0)
    }
}

/// The letters begun by send items, acknowledge items, non-zero task items and held blocks.
pub fn letters_begun(memory: &[u32], set: Settings, table: Table) -> Vec<Begun> {
    let mut letters = Vec::new();
    let mut begin = |node, place, firsts: Vec<u32>| {
        letters.extend(firsts.into_iter().filter(|&first| first != 0).map(|first| Begun { node, place, first }));
    };
    for node in set.nodes() {
        for other in 0..NODES {
            begin(node, Place::SendQueue { to: other }, items(memory, node.send_queue(other)));
            let acknowledged = set.node(other).acknowledge_queue(node.number);
            begin(node, Place::AcknowledgeQueue { on: other }, items(memory, acknowledged));
        }
        if let [2, _, held] = position(memory, node.number) {
            begin(node, Place::Hand, vec![held]);
        }
    }
    for task in table.bound_tasks() {
        let [node, queue] = table.entry(task).map(|word| word as usize);
        let task_queue = set.node(node).task_queue(queue);
        begin(set.node(node), Place::TaskQueue { task }, items(memory, task_queue.queue));
    }
    letters
}

/// In each node the free list and the letters' chains visit each block exactly once.
fn blocks_rule(memory: &[u32], set: Settings, letters: &[Begun]) -> Result<(), Rule> {
    for node in set.nodes() {
        let mut visited = vec![false; set.m];
        visit(memory, node, memory[node.first_free()], &mut visited)?;
        for begun in letters.iter().filter(|begun| begun.node.number == node.number) {
            visit(memory, node, begun.first, &mut visited)?;
        }
        ensure(visited.into_iter().all(|block| block), Rule::BlockNotVisited)?;
    }
    Ok(())
}

/// Follows the links from `first` until 0; each block must be new.
fn visit(memory: &[u32], node: Node, first: u32, visited: &mut [bool]) -> Result<(), Rule> {
    let mut block = first;
    while block != 0 {
        ensure(is_block(block, node.set), Rule::LinkOverM)?;
        ensure(!visited[block as usize - 1], Rule::BlockVisitedTwice)?;
        visited[block as usize - 1] = true;
        block = memory[node.link(block)];
    }
    Ok(())
}

/// A valid length, the blocks it needs, a header of bound tasks on their nodes, in its right place.
fn letter_rule(memory: &[u32], table: Table, begun: &Begun) -> Result<(), Rule> {
    let set = begun.node.set;
    let blocks = chain(memory, begun.node, begun.first).len();
    ensure(blocks >= set.blocks_needed(HEADER_WORDS), Rule::BlocksNotAsNeeded)?;
    let header = header(memory, begun.node, begun.first);
    let length = header[LENGTH] as usize;
    ensure((HEADER_WORDS..=GREATEST_LENGTH).contains(&length), Rule::LengthNotValid)?;
    ensure(blocks == set.blocks_needed(length), Rule::BlocksNotAsNeeded)?;
    for (task, node) in [(header[SOURCE], header[SOURCE_NODE]), (header[DESTINATION], header[DESTINATION_NODE])] {
        ensure(table.is_bound(task), Rule::HeaderTaskNotBound)?;
        ensure(table.entry(task)[0] == node, Rule::HeaderNodeNotTheTasks)?;
    }
    let way = [header[SOURCE_NODE] as usize, header[DESTINATION_NODE] as usize];
    let here = begun.node.number;
    match begun.place {
        Place::SendQueue { to } => ensure(way == [here, to], Rule::SendLetterNotFromHereToThere),
        Place::AcknowledgeQueue { on } => ensure(way == [here, on], Rule::AcknowledgedLetterNotFromHereToThere),
        Place::TaskQueue { task } => ensure(header[DESTINATION] == task, Rule::TaskLetterForOtherTask),
        Place::Hand => Ok(()),
    }
}

/// In stage 2 the letter in hand equals the first letter of the named queue, header and body.
fn held_letter_rule(memory: &[u32], node: Node) -> Result<(), Rule> {
    let [2, other, held] = position(memory, node.number) else { return Ok(()) };
    let sender = node.set.node(other as usize);
    let first = memory[slot(memory, sender.send_queue(node.number), 0)];
    ensure(letter(memory, node, held) == letter(memory, sender, first), Rule::HeldLetterDiffers)
}
