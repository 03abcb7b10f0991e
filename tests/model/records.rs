// Makes records for mailrun: a way to the rare refusals, then from a seed calls of all kinds, and a short last record.

use crate::random::Random;

/// The program's tasks.
const TASKS: [u8; 3] = [7, 27, 52];
/// Numbers that no task of the program has.
const STRANGERS: [u8; 6] = [0, 1, 2, 26, 53, 255];
/// Kinds that are none.
const UNKNOWN: [u8; 4] = [0, 4, 128, 255];
/// Bytes of the short record at the end.
const SHORT: usize = 5;

/// The way, so many whole records and a short one.
pub fn make(seed: u64, count: usize) -> Vec<u8> {
    let mut random = Random::new(seed);
    let mut bytes = way().concat();
    bytes.extend((0..count).flat_map(|_| record(&mut random)));
    bytes.extend(&record(&mut random)[..SHORT]);
    bytes
}

/// To a turn stopped at stage 2, and from there to one stopped at stage 3: who resumes at stage 2 gives no blocks back.
fn way() -> Vec<[u8; 8]> {
    let [_, one, other] = TASKS;
    let send = |from: u8, to: u8| [1, from, to, 0, 0, 0, 0, 0];
    let receive = |from: u8| [2, other, from, 0, 0, 0, 0, 0];
    let turns = |count: usize| vec![[3, 0, 0, 0, 0, 0, 0, 0]; count];
    [
        vec![send(one, other), send(one, other)],
        turns(4), // node 3 fetches both, and its task queue is full
        turns(5), // node 2 gets its blocks back
        vec![send(one, other)],
        turns(1),         // node 3 stops: 6
        vec![receive(7)], // 8
        vec![send(other, one), receive(0), send(other, one)],
        turns(5), // node 2 fetches both, and its acknowledge queue is full
        turns(1), // node 3 goes on from stage 2
        vec![receive(0), send(other, 7)],
        turns(5), // node 2 stops: 10
    ]
    .concat()
}

/// One record: a send, a receive, a turn, or of an unknown kind.
fn record(random: &mut Random) -> [u8; 8] {
    let kind = match random.below(100) {
        0..=39 => 1,
        40..=59 => 2,
        60..=95 => 3,
        _ => random.one_of(UNKNOWN),
    };
    let first = task(random);
    let second = if kind == 2 && random.percent(40) { 0 } else { task(random) };
    let length = match random.below(20) {
        0 => random.one_of([22, 23, 24, 255]),
        1..=4 => random.between(3, 16) as u8,
        _ => random.below(3) as u8,
    };
    let [a, b, c, d] = random.word().to_le_bytes();
    [kind, first, second, length, a, b, c, d]
}

/// One of the program's tasks, and now and then another.
fn task(random: &mut Random) -> u8 {
    if random.percent(4) {
        random.one_of(STRANGERS)
    } else {
        random.one_of(TASKS)
    }
}
