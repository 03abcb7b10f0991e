// Makes a script of ends: a letter's way with settings at the least and at the greatest, and counts at their end.

use crate::layout::{Settings, GREATEST_LENGTH, HEADER_WORDS, RANGES, TURN};
use crate::make::{no_tasks, size, Maker};
use crate::run::SETTINGS;
use crate::script::{Step, BODY_LIMIT};
use crate::traffic::rising_count;

/// Two tasks at the ends of the table, on the first and the last node and queue: task, node, queue.
const TASKS: [(u32, u32, u32); 2] = [(1, 0, 0), (255, 5, 63)];

pub fn make(maker: &mut Maker) {
    let mut table = no_tasks();
    for (task, node, queue) in TASKS {
        table[2 * task as usize..][..2].copy_from_slice(&[node, queue]);
    }
    maker.use_table(table);
    let mut all = vec![RANGES.map(|(least, _)| least), RANGES.map(|(_, greatest)| greatest)];
    for (k, (least, greatest)) in RANGES.into_iter().enumerate() {
        for value in [least, greatest] {
            let mut settings = SETTINGS;
            settings[k] = value;
            all.push(settings);
        }
    }
    for settings in all {
        maker.new_memory(size(settings));
        maker.set_up(settings);
        way(maker, Settings::of(settings));
    }
    maker.new_memory(size(SETTINGS));
    maker.set_up(SETTINGS);
    counts(maker);
}

/// The longest letter to another node and one to the sender's own, listed, carried, received and acknowledged.
fn way(maker: &mut Maker, set: Settings) {
    let [(one, home, _), (other, away, _)] = TASKS;
    let length = (set.m * (set.b - 1)).min(GREATEST_LENGTH).saturating_sub(HEADER_WORDS);
    let f = maker.any_f();
    maker.add(Step::Send { source: one, destination: other, length, f });
    maker.add(Step::Send { source: other, destination: other, length: 0, f });
    maker.add(Step::List { length: 12, f });
    for source in [0, one] {
        maker.put(TURN, away);
        maker.add(Step::Turn);
        maker.add(Step::Receive { destination: other, source, length: BODY_LIMIT, f });
    }
    maker.put(TURN, home);
    maker.add(Step::Turn);
    maker.add(Step::List { length: 12, f });
}

/// Every refusal that raises a count, with that count one before its end and at it.
fn counts(maker: &mut Maker) {
    let [(one, home, _), (other, away, _)] = TASKS;
    let send = |source: u32, length: usize| Step::Send { source, destination: other, length, f: 0 };
    let receive = |source: u32| Step::Receive { destination: other, source, length: BODY_LIMIT, f: 0 };
    at_its_end(maker, &receive(0)); // 7
    play(maker, &[send(other, 0), send(other, 0)]);
    at_its_end(maker, &send(other, 0)); // 6, the task queue
    at_its_end(maker, &receive(one)); // 8
    play(maker, &[send(one, 0), send(one, 0)]);
    at_its_end(maker, &send(one, 0)); // 6, the send queue
    maker.put(TURN, away);
    at_its_end(maker, &Step::Turn); // 6, at stage 2
    for _ in 0..2 {
        play(maker, &[receive(0)]);
        turn_of(maker, away);
    }
    play(maker, &[receive(0), receive(0), send(one, 0)]);
    maker.put(TURN, away);
    at_its_end(maker, &Step::Turn); // 10, at stage 3
    at_its_end(maker, &send(one, 5)); // 5
    turn_of(maker, home);
    turn_of(maker, away);
    play(maker, &[receive(0), send(other, 9), send(other, 9), send(one, 0)]);
    maker.put(TURN, away);
    at_its_end(maker, &Step::Turn); // 5, at stage 1
}

fn play(maker: &mut Maker, steps: &[Step]) {
    for step in steps {
        maker.add(step.clone());
    }
}

/// A turn of this node.
fn turn_of(maker: &mut Maker, node: u32) {
    maker.put(TURN, node);
    maker.add(Step::Turn);
}

/// A step that raises a count, twice: first to its end, then at it; it is the same node's turn both times.
fn at_its_end(maker: &mut Maker, step: &Step) {
    let turn = maker.player.memory[TURN];
    if let Some(place) = rising_count(&maker.player, step) {
        maker.put(place, u32::MAX - 1);
    }
    maker.add(step.clone());
    maker.put(TURN, turn);
    maker.add(step.clone());
}
