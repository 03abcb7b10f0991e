// Strikes a memory with damage on purpose, shows that calls refuse it, and repairs it.

use crate::damage::{damaged_by, CERTAIN, CHANCE};
use crate::make::Maker;
use crate::sound::sound;
use crate::traffic::{any_list, Phase};

/// Strikes the memory of a script in the making.
pub struct Striker {
    /// How often each certain damage has been done.
    strikes: Vec<usize>,
}

impl Striker {
    pub fn new() -> Striker {
        Striker { strikes: vec![0; CERTAIN.len()] }
    }

    /// Damages the memory, lists it, makes calls that are refused, and repairs it.
    pub fn strike(&mut self, maker: &mut Maker, phase: &Phase) {
        let mut calls = phase.some_steps(maker, 2);
        calls.push(phase.send(maker));
        let Some(damaged) = self.damaged(maker) else { return };
        let before = maker.player.memory.clone();
        overwrite(maker, &damaged);
        let list = any_list(maker);
        maker.add(list);
        for step in calls {
            maker.add(step);
        }
        if sound(&maker.player.memory).is_err() {
            repair(maker, &before);
        }
    }

    /// A damaged copy of the memory; of the certain ways the one done least often, if it can be done.
    fn damaged(&mut self, maker: &mut Maker) -> Option<Vec<u32>> {
        if maker.random.percent(40) {
            let damage = CHANCE[maker.random.below(CHANCE.len())];
            return damaged_by(damage, &maker.player.memory, &mut maker.random);
        }
        let mut order: Vec<(usize, usize, usize)> =
            self.strikes.iter().enumerate().map(|(n, &times)| (times, maker.random.below(1_000), n)).collect();
        order.sort_unstable();
        for (_, _, n) in order {
            if let Some(memory) = damaged_by(CERTAIN[n], &maker.player.memory, &mut maker.random) {
                self.strikes[n] += 1;
                return Some(memory);
            }
        }
        None
    }
}

/// Puts the words back, or sets the memory up again.
fn repair(maker: &mut Maker, before: &[u32]) {
    if maker.random.percent(5) {
        if let Some(&settings) = before.first_chunk::<5>() {
            if maker.set_up(settings) {
                return;
            }
        }
    }
    overwrite(maker, before);
}

/// Overwrites the words of the memory that differ from these.
fn overwrite(maker: &mut Maker, words: &[u32]) {
    for (index, &value) in words.iter().enumerate() {
        if maker.player.memory[index] != value {
            maker.put(index, value);
        }
    }
}
