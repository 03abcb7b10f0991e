// Ways to damage a memory on purpose: at least one for each rule of a sound memory, and random ones.

use crate::bench::Bench;
use crate::blocks::{chain, free_list, give_back, take};
use crate::layout::*;
use crate::mail::lay_out;
use crate::queues::*;
use crate::random::Random;
use crate::sound::{position, sound, Begun};

/// A way to damage a sound memory; none if there is nothing for it to damage.
pub type Damage = fn(&mut Bench) -> Option<()>;

/// A damage that would change more words than this is not done.
const MOST_CHANGES: usize = 500;

/// Damage after which the memory is never sound.
pub const CERTAIN: &[Damage] = &[
    setting_out_of_range,
    setting_out_of_range_with_exact_size,
    setting_of_other_size,
    turn_over_5,
    task_0_bound,
    task_node_over_5,
    queue_of_unbound_task,
    node_of_unbound_task,
    task_queue_over_63,
    two_tasks_on_one_queue,
    task_with_letters_unbound,
    task_with_letters_moved,
    start_not_below_length,
    items_over_length,
    slot_outside_items,
    letter_in_send_queue_to_itself,
    letter_in_acknowledge_queue_to_itself,
    letter_in_queue_of_no_task,
    send_item_0,
    send_item_over_m,
    acknowledge_item_0,
    acknowledge_item_over_m,
    task_item_over_m,
    task_queue_begins_with_0,
    gap_flag_wrong,
    last_item_forgotten,
    stage_over_3,
    stage_0_names_node_or_block,
    stage_0_keeps_node,
    position_names_itself,
    position_names_node_over_5,
    position_names_empty_queue,
    position_made_up_on_empty_queue,
    block_held_in_stage_1_or_3,
    no_block_held_in_stage_2,
    held_block_given_back,
    held_body_differs,
    held_task_differs,
    held_length_differs,
    held_block_forgotten,
    free_list_goes_in_a_circle,
    free_list_cut,
    free_list_forgotten,
    free_list_over_m,
    free_list_runs_into_letter,
    free_list_begins_with_letter,
    chain_cut,
    chain_over_m,
    chain_goes_in_a_circle,
    chain_runs_into_free_list,
    chains_share_a_tail,
    one_letter_twice,
    length_not_valid,
    length_4,
    length_5,
    length_1_024,
    length_1_025,
    length_not_valid_in_same_blocks,
    length_for_other_blocks,
    one_block_too_many,
    one_block_too_few,
    header_task_not_bound,
    header_of_unbound_task_and_node,
    header_node_wrong,
    send_letter_from_elsewhere,
    send_letter_to_elsewhere,
    acknowledged_letter_from_elsewhere,
    acknowledged_letter_to_elsewhere,
    task_letter_for_other_task,
    send_item_in_other_queue,
    acknowledge_item_on_other_node,
    task_item_in_other_queue,
];

/// Damage that may leave the memory sound.
pub const CHANCE: &[Damage] = &[
    settings_of_same_size,
    stage_changed,
    position_made_up,
    length_in_same_blocks,
    any_word,
    telling_word,
    telling_word,
    telling_word,
    two_telling_words,
];

/// A copy of a sound memory with this damage, if it can be done there.
pub fn damaged_by(damage: Damage, memory: &[u32], random: &mut Random) -> Option<Vec<u32>> {
    let set = sound(memory).ok()?;
    let mut bench = Bench { memory: memory.to_vec(), set, random };
    damage(&mut bench)?;
    Some(bench.memory)
}

fn setting_out_of_range(bench: &mut Bench) -> Option<()> {
    let k = bench.random.below(5);
    bench.memory[k] = bench.random.one_of([RANGES[k].0 - 1, RANGES[k].1 + 1, 0, u32::MAX]);
    Some(())
}

/// A memory with no letters that would be sound but for a setting.
fn setting_out_of_range_with_exact_size(bench: &mut Bench) -> Option<()> {
    let Settings { b, m, s, a, t } = bench.set;
    let mut others = vec![[b, m, 1, s + a - 1, t], [b, m, s + a - 1, 1, t]];
    others.extend([1, 2, 3].map(|words| [words, b * m / words, s, a, t]));
    others.extend([72, 80, 120].map(|words| [words, b * m / words, s, a, t]));
    others.extend([[64, m + t - 1, s, a, 1], [64, m + t, s, a, 0]]);
    others.retain(|&[_, blocks, ..]| blocks > 0);
    let exact = |&settings: &[u32; 5]| Settings::of(settings).memory_words() == bench.memory.len();
    let settings: Vec<[u32; 5]> =
        others.into_iter().map(|other| other.map(|value| value as u32)).filter(exact).collect();
    let settings = bench.random.pick(&settings)?;
    let table = bench.memory[TABLE..][..TABLE_WORDS].to_vec();
    let before = bench.memory.clone();
    lay_out(settings, &table, &mut bench.memory);
    let changes = before.iter().zip(&bench.memory).filter(|(old, new)| old != new).count();
    (changes <= MOST_CHANGES).then_some(())
}

fn setting_of_other_size(bench: &mut Bench) -> Option<()> {
    let k = bench.random.below(5);
    let (least, greatest) = RANGES[k];
    let value = bench.random.between(least as usize, greatest as usize) as u32;
    let differs = value != bench.memory[k];
    bench.memory[k] = value;
    differs.then_some(())
}

fn turn_over_5(bench: &mut Bench) -> Option<()> {
    bench.memory[TURN] = bench.over(5);
    Some(())
}

fn task_0_bound(bench: &mut Bench) -> Option<()> {
    let place = bench.free_place(|_| true)?;
    bench.set_entry(0, place);
    Some(())
}

fn task_node_over_5(bench: &mut Bench) -> Option<()> {
    let task = bench.bound_task()?;
    let [_, queue] = bench.entry(task);
    let node = bench.random.one_of([6, 7, 254, 256, u32::MAX]);
    bench.set_entry(task, [node, queue]);
    Some(())
}

fn queue_of_unbound_task(bench: &mut Bench) -> Option<()> {
    let task = bench.unbound_task()?;
    let queue = bench.random.one_of([1, 63, 64, 255, u32::MAX]);
    bench.set_entry(task, [255, queue]);
    Some(())
}

fn node_of_unbound_task(bench: &mut Bench) -> Option<()> {
    let task = bench.unbound_task()?;
    let node = bench.random.one_of([6, 254, 256, u32::MAX]);
    bench.set_entry(task, [node, 0]);
    Some(())
}

fn task_queue_over_63(bench: &mut Bench) -> Option<()> {
    let task = bench.bound_task()?;
    let [node, _] = bench.entry(task);
    let queue = bench.over(63);
    bench.set_entry(task, [node, queue]);
    Some(())
}

fn two_tasks_on_one_queue(bench: &mut Bench) -> Option<()> {
    let task = bench.bound_task()?;
    let other = bench.task(|_, other| other != task)?;
    bench.set_entry(other, bench.entry(task));
    Some(())
}

/// A letter and one of its two tasks.
fn letter_and_task(bench: &mut Bench) -> Option<u32> {
    let begun = bench.letter(|_| true)?;
    let n = bench.random.one_of([SOURCE, DESTINATION]);
    Some(bench.word(begun, n))
}

fn task_with_letters_unbound(bench: &mut Bench) -> Option<()> {
    let task = letter_and_task(bench)?;
    bench.set_entry(task, UNBOUND);
    Some(())
}

fn task_with_letters_moved(bench: &mut Bench) -> Option<()> {
    let task = letter_and_task(bench)?;
    let [node, _] = bench.entry(task);
    let place = bench.free_place(|other| other != node as usize)?;
    bench.set_entry(task, place);
    Some(())
}

fn start_not_below_length(bench: &mut Bench) -> Option<()> {
    let queue = bench.queue(|_, _| true)?;
    bench.memory[queue.start] = bench.over(queue.length - 1);
    Some(())
}

fn items_over_length(bench: &mut Bench) -> Option<()> {
    let queue = bench.queue(|_, _| true)?;
    bench.memory[queue.items] = bench.over(queue.length);
    Some(())
}

fn slot_outside_items(bench: &mut Bench) -> Option<()> {
    let queue = bench.queue(|memory, queue| !is_full(memory, queue))?;
    let n = bench.random.between(item_count(&bench.memory, queue), queue.length - 1);
    let place = slot(&bench.memory, queue, n);
    bench.memory[place] = bench.random.between(1, bench.set.m + 1) as u32;
    Some(())
}

fn letter_in_send_queue_to_itself(bench: &mut Bench) -> Option<()> {
    let begun = bench.loose_letter()?;
    append(&mut bench.memory, begun.node.send_queue(begun.node.number), begun.first).then_some(())
}

fn letter_in_acknowledge_queue_to_itself(bench: &mut Bench) -> Option<()> {
    let begun = bench.loose_letter()?;
    append(&mut bench.memory, begun.node.acknowledge_queue(begun.node.number), begun.first).then_some(())
}

fn letter_in_queue_of_no_task(bench: &mut Bench) -> Option<()> {
    let begun = bench.loose_letter()?;
    let [_, queue] = bench.free_place(|node| node == begun.node.number)?;
    append(&mut bench.memory, begun.node.task_queue(queue as usize).queue, begun.first).then_some(())
}

/// Makes the item that names a letter 0 and gives its chain back.
fn item_0(bench: &mut Bench, begun: Begun) -> Option<()> {
    let place = bench.item_place(begun)?;
    give_back(&mut bench.memory, begun.node, begun.first);
    bench.memory[place] = 0;
    Some(())
}

/// Makes the item that names a letter greater than M.
fn item_over_m(bench: &mut Bench, begun: Begun) -> Option<()> {
    let place = bench.item_place(begun)?;
    bench.memory[place] = bench.over(bench.set.m);
    Some(())
}

fn send_item_0(bench: &mut Bench) -> Option<()> {
    let (begun, _) = bench.send_letter()?;
    item_0(bench, begun)
}

fn send_item_over_m(bench: &mut Bench) -> Option<()> {
    let (begun, _) = bench.send_letter()?;
    item_over_m(bench, begun)
}

fn acknowledge_item_0(bench: &mut Bench) -> Option<()> {
    let (begun, _) = bench.acknowledged_letter()?;
    item_0(bench, begun)
}

fn acknowledge_item_over_m(bench: &mut Bench) -> Option<()> {
    let (begun, _) = bench.acknowledged_letter()?;
    item_over_m(bench, begun)
}

fn task_item_over_m(bench: &mut Bench) -> Option<()> {
    let (begun, _) = bench.task_letter()?;
    item_over_m(bench, begun)
}

fn task_queue_begins_with_0(bench: &mut Bench) -> Option<()> {
    let (begun, task) = bench.task_letter()?;
    let task_queue = bench.task_queue_of(task);
    let first = items(&bench.memory, task_queue.queue)[0];
    bench.memory[task_queue.gap_flag] = 1;
    item_0(bench, Begun { first, ..begun })
}

fn gap_flag_wrong(bench: &mut Bench) -> Option<()> {
    let task = bench.bound_task()?;
    let flag = bench.task_queue_of(task).gap_flag;
    let value = bench.random.one_of([0, 1, 1, 2, u32::MAX]);
    let differs = value != bench.memory[flag];
    bench.memory[flag] = value;
    differs.then_some(())
}

/// The last item of a send queue is taken away, its chain lost.
fn last_item_forgotten(bench: &mut Bench) -> Option<()> {
    let (begun, to) = bench.send_letter()?;
    let queue = begun.node.send_queue(to);
    let last = slot(&bench.memory, queue, item_count(&bench.memory, queue) - 1);
    bench.memory[last] = 0;
    bench.memory[queue.items] -= 1;
    Some(())
}

fn stage_over_3(bench: &mut Bench) -> Option<()> {
    let node = bench.any_node().number;
    let [stage, other] = [bench.over(3), bench.node_with_mail_for(node, true)?];
    let [_, _, held] = position(&bench.memory, node);
    bench.set_position(node, [stage, other, held]);
    Some(())
}

fn stage_0_names_node_or_block(bench: &mut Bench) -> Option<()> {
    let node = bench.postman(|[stage, _, _]| stage == 0)?;
    let positions = [[0, 1, 0], [0, 5, 0], [0, 6, 0], [0, 0, 1], [0, 3, 1], [0, 0, u32::MAX]];
    let position = bench.random.one_of(positions);
    bench.set_position(node, position);
    Some(())
}

fn stage_0_keeps_node(bench: &mut Bench) -> Option<()> {
    let node = bench.postman(|[stage, other, _]| stage != 0 && other != 0)?;
    bench.memory[position_place(node)] = 0;
    Some(())
}

/// A postman at stage 1, 2 or 3 names this node instead.
fn name_node(bench: &mut Bench, node: usize, other: u32) -> Option<()> {
    bench.memory[position_place(node) + 1] = other;
    Some(())
}

fn position_names_itself(bench: &mut Bench) -> Option<()> {
    let node = bench.postman(|[stage, _, _]| stage != 0)?;
    name_node(bench, node, node as u32)
}

fn position_names_node_over_5(bench: &mut Bench) -> Option<()> {
    let node = bench.postman(|[stage, _, _]| stage != 0)?;
    let other = bench.over(5);
    name_node(bench, node, other)
}

fn position_names_empty_queue(bench: &mut Bench) -> Option<()> {
    let node = bench.postman(|[stage, _, _]| stage != 0)?;
    let other = bench.node_with_mail_for(node, false)?;
    name_node(bench, node, other)
}

fn position_made_up_on_empty_queue(bench: &mut Bench) -> Option<()> {
    let node = bench.postman(|[stage, _, _]| stage == 0)?;
    let other = bench.node_with_mail_for(node, false)?;
    let stage = bench.random.one_of([1, 2, 3]);
    bench.set_position(node, [stage, other, 0]);
    Some(())
}

fn block_held_in_stage_1_or_3(bench: &mut Bench) -> Option<()> {
    let node = bench.postman(|[stage, _, _]| stage == 1 || stage == 3)?;
    bench.memory[position_place(node) + 2] = bench.random.between(1, bench.set.m) as u32;
    Some(())
}

fn no_block_held_in_stage_2(bench: &mut Bench) -> Option<()> {
    let node = bench.postman(|[stage, _, _]| stage == 2)?;
    let over = bench.over(bench.set.m);
    bench.memory[position_place(node) + 2] = bench.random.one_of([0, over]);
    Some(())
}

/// A postman at stage 2 has nothing in his hand; its blocks are given back.
fn held_block_given_back(bench: &mut Bench) -> Option<()> {
    let node = bench.postman(|[stage, _, _]| stage == 2)?;
    let [stage, other, held] = position(&bench.memory, node);
    give_back(&mut bench.memory, bench.set.node(node), held);
    bench.set_position(node, [stage, other, 0]);
    Some(())
}

fn held_body_differs(bench: &mut Bench) -> Option<()> {
    let begun = bench.held_letter()?;
    let body = HEADER_WORDS..bench.word(begun, LENGTH) as usize;
    let n = bench.random.pick(&body.collect::<Vec<usize>>())?;
    let other = bench.word(begun, n) ^ 1 << bench.random.below(32);
    bench.set_word(begun, n, other);
    Some(())
}

fn held_task_differs(bench: &mut Bench) -> Option<()> {
    let begun = bench.held_letter()?;
    let n = bench.random.one_of([SOURCE, DESTINATION]);
    let [task, node] = [bench.word(begun, n), bench.word(begun, n + 1)];
    let other = bench.task_on(node as usize)?;
    bench.set_word(begun, n, other);
    (other != task).then_some(())
}

/// Another valid length; `wanted` compares the blocks needed before and after.
fn change_length(bench: &mut Bench, begun: Begun, wanted: fn(usize, usize) -> bool) -> Option<()> {
    let length = bench.word(begun, LENGTH) as usize;
    let set = bench.set;
    let lengths: Vec<usize> = (HEADER_WORDS..=GREATEST_LENGTH)
        .filter(|&other| other != length && wanted(set.blocks_needed(length), set.blocks_needed(other)))
        .collect();
    let ends = [*lengths.first()?, *lengths.last()?, bench.random.pick(&lengths)?];
    let other = bench.random.one_of(ends);
    bench.set_word(begun, LENGTH, other as u32);
    Some(())
}

fn held_length_differs(bench: &mut Bench) -> Option<()> {
    let begun = bench.held_letter()?;
    change_length(bench, begun, |blocks, others| blocks == others)
}

fn held_block_forgotten(bench: &mut Bench) -> Option<()> {
    let node = bench.postman(|[stage, _, _]| stage == 2)?;
    let [_, other, _] = position(&bench.memory, node);
    bench.set_position(node, [1, other, 0]);
    Some(())
}

/// A node with a free list of at least so many blocks, and that list.
fn node_and_free_list(bench: &mut Bench, least: usize) -> Option<(Node, Vec<u32>)> {
    let node = bench.any_node();
    let free = free_list(&bench.memory, node);
    (free.len() >= least).then_some((node, free))
}

fn free_list_goes_in_a_circle(bench: &mut Bench) -> Option<()> {
    let (node, free) = node_and_free_list(bench, 1)?;
    bench.memory[node.link(*free.last()?)] = bench.random.pick(&free)?;
    Some(())
}

fn free_list_cut(bench: &mut Bench) -> Option<()> {
    let (node, free) = node_and_free_list(bench, 2)?;
    let block = bench.random.pick(&free[..free.len() - 1])?;
    bench.memory[node.link(block)] = 0;
    Some(())
}

fn free_list_forgotten(bench: &mut Bench) -> Option<()> {
    let (node, _) = node_and_free_list(bench, 1)?;
    bench.memory[node.first_free()] = 0;
    Some(())
}

fn free_list_over_m(bench: &mut Bench) -> Option<()> {
    let (node, free) = node_and_free_list(bench, 1)?;
    let mut places: Vec<usize> = free.into_iter().map(|block| node.link(block)).collect();
    places.push(node.first_free());
    let place = bench.random.pick(&places)?;
    bench.memory[place] = bench.over(bench.set.m);
    Some(())
}

fn free_list_runs_into_letter(bench: &mut Bench) -> Option<()> {
    let begun = bench.letter(|_| true)?;
    let free = free_list(&bench.memory, begun.node);
    bench.memory[begun.node.link(*free.last()?)] = bench.random.pick(&bench.chain(begun))?;
    Some(())
}

fn free_list_begins_with_letter(bench: &mut Bench) -> Option<()> {
    let begun = bench.letter(|_| true)?;
    bench.memory[begun.node.first_free()] = begun.first;
    Some(())
}

/// A letter of at least so many blocks, and its chain.
fn letter_and_chain(bench: &mut Bench, least: usize) -> Option<(Begun, Vec<u32>)> {
    let begun = bench.letter(|_| true)?;
    let chain = bench.chain(begun);
    (chain.len() >= least).then_some((begun, chain))
}

fn chain_cut(bench: &mut Bench) -> Option<()> {
    let (begun, chain) = letter_and_chain(bench, 2)?;
    let block = bench.random.pick(&chain[..chain.len() - 1])?;
    bench.memory[begun.node.link(block)] = 0;
    Some(())
}

fn chain_over_m(bench: &mut Bench) -> Option<()> {
    let (begun, chain) = letter_and_chain(bench, 1)?;
    let block = bench.random.pick(&chain)?;
    bench.memory[begun.node.link(block)] = bench.over(bench.set.m);
    Some(())
}

fn chain_goes_in_a_circle(bench: &mut Bench) -> Option<()> {
    let (begun, chain) = letter_and_chain(bench, 1)?;
    let link = bench.last_link(begun)?;
    bench.memory[link] = bench.random.pick(&chain)?;
    Some(())
}

fn chain_runs_into_free_list(bench: &mut Bench) -> Option<()> {
    let begun = bench.letter(|_| true)?;
    let link = bench.last_link(begun)?;
    bench.memory[link] = bench.random.pick(&free_list(&bench.memory, begun.node))?;
    Some(())
}

/// Two chains end in the same block; the other's own last block is given back.
fn chains_share_a_tail(bench: &mut Bench) -> Option<()> {
    let (one, other) = bench.two_letters(2)?;
    let [chain, others] = [bench.chain(one), bench.chain(other)];
    give_back(&mut bench.memory, one.node, *chain.last()?);
    bench.memory[one.node.link(chain[chain.len() - 2])] = *others.last()?;
    Some(())
}

/// Two items name one letter; the other letter's chain is given back.
fn one_letter_twice(bench: &mut Bench) -> Option<()> {
    let (one, other) = bench.two_letters(1)?;
    let place = bench.item_place(one)?;
    give_back(&mut bench.memory, one.node, one.first);
    bench.memory[place] = other.first;
    Some(())
}

fn length_not_valid(bench: &mut Bench) -> Option<()> {
    let begun = bench.letter(|_| true)?;
    let length = bench.random.one_of([0, 1, 4, 1_025, u32::MAX]);
    bench.set_word(begun, LENGTH, length);
    Some(())
}

/// This length, in a letter whose chain has another number of blocks than it needs.
fn length_in_other_blocks(bench: &mut Bench, length: usize) -> Option<()> {
    let (set, memory) = (bench.set, bench.memory.clone());
    let begun = bench.letter(|begun| chain(&memory, begun.node, begun.first).len() != set.blocks_needed(length))?;
    bench.set_word(begun, LENGTH, length as u32);
    Some(())
}

fn length_4(bench: &mut Bench) -> Option<()> {
    length_in_other_blocks(bench, HEADER_WORDS - 1)
}

fn length_5(bench: &mut Bench) -> Option<()> {
    length_in_other_blocks(bench, HEADER_WORDS)
}

fn length_1_024(bench: &mut Bench) -> Option<()> {
    length_in_other_blocks(bench, GREATEST_LENGTH)
}

fn length_1_025(bench: &mut Bench) -> Option<()> {
    length_in_other_blocks(bench, GREATEST_LENGTH + 1)
}

/// A length one too small or too great that needs as many blocks.
fn length_not_valid_in_same_blocks(bench: &mut Bench) -> Option<()> {
    let (set, memory) = (bench.set, bench.memory.clone());
    let length = bench.random.one_of([HEADER_WORDS - 1, GREATEST_LENGTH + 1]);
    let begun = bench.letter(|begun| chain(&memory, begun.node, begun.first).len() == set.blocks_needed(length))?;
    bench.set_word(begun, LENGTH, length as u32);
    Some(())
}

fn length_for_other_blocks(bench: &mut Bench) -> Option<()> {
    let begun = bench.letter(|_| true)?;
    change_length(bench, begun, |blocks, others| blocks != others)
}

fn one_block_too_many(bench: &mut Bench) -> Option<()> {
    let begun = bench.letter(|_| true)?;
    let link = bench.last_link(begun)?;
    let block = take(&mut bench.memory, begun.node, 1)?[0];
    bench.memory[link] = block;
    Some(())
}

fn one_block_too_few(bench: &mut Bench) -> Option<()> {
    let (begun, chain) = letter_and_chain(bench, 2)?;
    give_back(&mut bench.memory, begun.node, *chain.last()?);
    bench.memory[begun.node.link(chain[chain.len() - 2])] = 0;
    Some(())
}

fn header_task_not_bound(bench: &mut Bench) -> Option<()> {
    let begun = bench.letter(|_| true)?;
    let n = bench.random.one_of([SOURCE, DESTINATION]);
    let task = bench.word(begun, n);
    let unbound = bench.unbound_task().unwrap_or(0);
    let other = bench.random.one_of([0, unbound, 256, task + 256, u32::MAX]);
    bench.set_word(begun, n, other);
    Some(())
}

/// The source of a letter in a task queue is unbound, with the node that the table holds for it.
fn header_of_unbound_task_and_node(bench: &mut Bench) -> Option<()> {
    let (begun, _) = bench.task_letter()?;
    let unbound = bench.unbound_task().unwrap_or(0);
    let task = bench.random.one_of([0, unbound, 256, u32::MAX]);
    bench.set_word(begun, SOURCE, task);
    bench.set_word(begun, SOURCE_NODE, UNBOUND[0]);
    Some(())
}

fn header_node_wrong(bench: &mut Bench) -> Option<()> {
    let begun = bench.letter(|_| true)?;
    let n = bench.random.one_of([SOURCE_NODE, DESTINATION_NODE]);
    let node = bench.word(begun, n);
    let other = bench.random.one_of([(node + 1) % 6, (node + 3) % 6, 6, 255, node + 256]);
    bench.set_word(begun, n, other);
    Some(())
}

/// Writes another task with its node into a letter's header.
fn change_task(bench: &mut Bench, begun: Begun, n: usize, task: u32) -> Option<()> {
    let [node, _] = bench.entry(task);
    bench.set_word(begun, n, task);
    bench.set_word(begun, n + 1, node);
    Some(())
}

fn send_letter_from_elsewhere(bench: &mut Bench) -> Option<()> {
    let (begun, _) = bench.send_letter()?;
    let task = bench.task_off(begun.node.number)?;
    change_task(bench, begun, SOURCE, task)
}

fn send_letter_to_elsewhere(bench: &mut Bench) -> Option<()> {
    let (begun, to) = bench.send_letter()?;
    let task = bench.task_off(to)?;
    change_task(bench, begun, DESTINATION, task)
}

fn acknowledged_letter_from_elsewhere(bench: &mut Bench) -> Option<()> {
    let (begun, _) = bench.acknowledged_letter()?;
    let task = bench.task_off(begun.node.number)?;
    change_task(bench, begun, SOURCE, task)
}

fn acknowledged_letter_to_elsewhere(bench: &mut Bench) -> Option<()> {
    let (begun, on) = bench.acknowledged_letter()?;
    let task = bench.task_off(on)?;
    change_task(bench, begun, DESTINATION, task)
}

fn task_letter_for_other_task(bench: &mut Bench) -> Option<()> {
    let (begun, task) = bench.task_letter()?;
    let other = bench.bound_task()?;
    change_task(bench, begun, DESTINATION, other)?;
    (other != task).then_some(())
}

/// The first letter of a send queue stands in the queue to another node.
fn send_item_in_other_queue(bench: &mut Bench) -> Option<()> {
    let (begun, to) = bench.send_letter()?;
    let other = bench.random.below(NODES);
    let first = items(&bench.memory, begun.node.send_queue(to))[0];
    drop_first(&mut bench.memory, begun.node.send_queue(to));
    let moved = append(&mut bench.memory, begun.node.send_queue(other), first);
    (moved && other != to).then_some(())
}

/// The first letter of an acknowledge queue stands in that of another node.
fn acknowledge_item_on_other_node(bench: &mut Bench) -> Option<()> {
    let (begun, on) = bench.acknowledged_letter()?;
    let queue = bench.set.node(on).acknowledge_queue(begun.node.number);
    let other = bench.any_node();
    let first = items(&bench.memory, queue)[0];
    drop_first(&mut bench.memory, queue);
    let moved = append(&mut bench.memory, other.acknowledge_queue(begun.node.number), first);
    (moved && other.number != on).then_some(())
}

/// The first letter of a task queue stands in that of another task on its node.
fn task_item_in_other_queue(bench: &mut Bench) -> Option<()> {
    let (begun, task) = bench.task_letter()?;
    let other = bench.task_on(begun.node.number)?;
    let [from, to] = [task, other].map(|task| bench.task_queue_of(task));
    let first = items(&bench.memory, from.queue)[0];
    take_out(&mut bench.memory, from, 0);
    let moved = append_to_task_queue(&mut bench.memory, to, first);
    (moved && other != task).then_some(())
}

/// Other settings in range that give the same size.
fn settings_of_same_size(bench: &mut Bench) -> Option<()> {
    let Settings { b, m, s, a, .. } = bench.set;
    let mut others: Vec<[usize; 4]> = (4..=64)
        .filter(|&words| (b * m) % words == 0 && b * m / words <= 1_024)
        .map(|words| [words, b * m / words, s, a])
        .collect();
    others.extend((2..s + a - 1).map(|length| [b, m, length, s + a - length]));
    let settings = bench.random.pick(&others)?;
    for (k, value) in settings.into_iter().enumerate() {
        bench.memory[k] = value as u32;
    }
    Some(())
}

fn stage_changed(bench: &mut Bench) -> Option<()> {
    let node = bench.postman(|[stage, _, _]| stage != 0)?;
    bench.memory[position_place(node)] = bench.random.between(0, 4) as u32;
    Some(())
}

/// A postman waits at stage 1 or 3 where there is a letter, though he hasn't come there.
fn position_made_up(bench: &mut Bench) -> Option<()> {
    let node = bench.postman(|[stage, _, _]| stage != 2)?;
    let other = bench.node_with_mail_for(node, true)?;
    let stage = bench.random.one_of([1, 3]);
    bench.set_position(node, [stage, other, 0]);
    Some(())
}

fn length_in_same_blocks(bench: &mut Bench) -> Option<()> {
    let begun = bench.letter(|_| true)?;
    change_length(bench, begun, |blocks, others| blocks == others)
}

fn any_word(bench: &mut Bench) -> Option<()> {
    let place = bench.random.below(bench.memory.len());
    bench.memory[place] = any_value(bench, place);
    Some(())
}

/// A word that rules speak of: before the nodes, of a queue, a link or a header.
fn telling_word(bench: &mut Bench) -> Option<()> {
    let place = telling_place(bench)?;
    bench.memory[place] = any_value(bench, place);
    Some(())
}

fn two_telling_words(bench: &mut Bench) -> Option<()> {
    telling_word(bench)?;
    let place = bench.random.below(HEAD_WORDS);
    bench.memory[place] = any_value(bench, place);
    Some(())
}

fn telling_place(bench: &mut Bench) -> Option<usize> {
    Some(match bench.random.below(6) {
        0 => bench.random.below(TABLE),
        1 => task_place(bench.bound_task()?) + bench.random.below(2),
        2 => bench.queue(|_, _| true)?.start + bench.random.below(6),
        3 => bench.any_node().link(bench.random.between(1, bench.set.m) as u32),
        4 => bench.any_node().first_free(),
        _ => {
            let begun = bench.letter(|_| true)?;
            let n = bench.random.below(HEADER_WORDS);
            bench.word_place(begun, n)
        }
    })
}

/// A value for a damaged word: small, about M, close to the old one, another word, or any.
fn any_value(bench: &mut Bench, place: usize) -> u32 {
    let old = bench.memory[place];
    let m = bench.set.m as u32;
    match bench.random.below(8) {
        0 => bench.random.below(8) as u32,
        1 => bench.random.one_of([0, m - 1, m, m + 1]),
        2 => old.wrapping_add(1),
        3 => old.wrapping_sub(1),
        4 => bench.memory[bench.random.below(bench.memory.len())],
        5 => bench.random.one_of([63, 64, 255, 256, u32::MAX]),
        6 => bench.random.between(1, m as usize) as u32,
        _ => bench.random.word(),
    }
}
