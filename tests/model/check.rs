// Self-tests: the document's examples, demand 3 on random runs, and what made scripts cover.

use std::collections::{BTreeMap, BTreeSet, VecDeque};
use std::fmt::Debug;

use crate::blocks::{chain, free_list, letter};
use crate::cover::cover;
use crate::damage::{damaged_by, CERTAIN};
use crate::layout::*;
use crate::mail::{self, Answer, RECORD_WORDS};
use crate::make::{self, Maker};
use crate::queues::{close_gaps, items};
use crate::random::Random;
use crate::records;
use crate::run;
use crate::script::{counted, play, script, Done, Reader, Step};
use crate::sound::{position, sound};
use crate::table::Table;
use crate::traffic::{begin, Phase};

type Outcome = Result<(), String>;
type Test = fn() -> Outcome;

const TESTS: [(&str, Test); 15] = [
    ("the program's fifteen lines", fifteen_lines),
    ("the program's unknown and short records", unknown_records),
    ("the program's random records meet every refusal that they can", records_meet_all),
    ("eight block counts", block_counts),
    ("sizes of memories", sizes),
    ("closing gaps in (3,0,5) and (3,5)", closing_gaps),
    ("a memory set up is as the document says", set_up_memory),
    ("demand 3 on random runs", demand_3),
    ("refusals change nothing but one count", refusals_change_one_count),
    ("each damage breaks the memory", damage_breaks),
    ("calls refuse random memories and leave them", random_memories),
    ("scripts read back as they were made", scripts_read_back),
    ("bad scripts end with bad", bad_scripts),
    ("a script of calls covers every answer, stage and rule", calls_cover_all),
    ("a script of set-ups covers every answer", setups_cover_all),
];

/// Runs all tests: a line for each, then how many passed and failed; tells if all passed.
pub fn check() -> (String, bool) {
    let mut text = String::new();
    let mut failed = 0;
    for (name, test) in TESTS {
        match test() {
            Ok(()) => text += &format!("ok: {name}\n"),
            Err(why) => {
                failed += 1;
                text += &format!("FAILED: {name}: {why}\n");
            }
        }
    }
    text += &format!("{} passed, {failed} failed\n", TESTS.len() - failed);
    (text, failed == 0)
}

fn equal<T: PartialEq + Debug>(what: &str, found: T, wanted: T) -> Outcome {
    holds(found == wanted, || format!("{what}: {found:?} instead of {wanted:?}"))
}

fn holds(condition: bool, why: impl FnOnce() -> String) -> Outcome {
    if condition {
        Ok(())
    } else {
        Err(why())
    }
}

/// A record of the program's input.
fn record(kind: u8, first: u8, second: u8, length: u8, f: u32) -> Vec<u8> {
    [&[kind, first, second, length], f.to_le_bytes().as_slice()].concat()
}

fn fifteen_lines() -> Outcome {
    let turn = record(3, 0, 0, 0, 0);
    let input = [
        record(1, 27, 52, 3, 100),
        record(1, 27, 52, 3, 200),
        record(1, 27, 52, 0, 0),
        record(2, 52, 0, 0, 0),
        turn.repeat(4),
        record(2, 52, 27, 0, 0),
        turn.repeat(5),
        record(2, 52, 7, 0, 0),
    ];
    let output = "1 0 2 0 0\n2 0 2 0 0\n3 5 0 0 0\n4 7 0 0 0\n5 0 0 0 0\n6 0 1 0 0\n7 0 2 0 0\n8 0 3 2 0\n\
                  9 0 27 3 100\n10 0 4 0 0\n11 0 5 0 0\n12 0 0 0 0\n13 0 1 0 0\n14 0 2 0 4\n15 7 0 0 0\n";
    equal("lines", run::run(&input.concat()).as_str(), output)
}

fn unknown_records() -> Outcome {
    let input = [record(0, 1, 2, 3, 4), record(3, 9, 9, 9, 9), record(4, 27, 52, 0, 0), vec![3, 0, 0, 0, 0, 0, 0]];
    equal("lines", run::run(&input.concat()).as_str(), "1 12 0 0 0\n2 0 0 0 0\n3 12 0 0 0\n4 12 0 0 0\n")?;
    equal("no lines", run::run(&[]).as_str(), "")
}

/// All but 1 (its memory is sound), 9 (its bodies are shorter than its out) and those of list and set up.
fn records_meet_all() -> Outcome {
    let input = records::make(1, 400);
    let mut met = BTreeSet::new();
    for (record, line) in input.chunks(8).zip(run::run(&input).lines()) {
        let number = line.split(' ').nth(1).ok_or("a line with no number")?;
        met.insert(format!("{} {number}", if record.len() < 8 { 0 } else { record[0].min(4) }));
    }
    let wanted =
        ["1 0", "1 2", "1 3", "1 4", "1 5", "1 6", "2 0", "2 2", "2 3", "2 7", "2 8", "3 0", "3 5", "3 6", "3 10"];
    let wanted: BTreeSet<String> = wanted.into_iter().chain(["0 12", "4 12"]).map(String::from).collect();
    equal("kinds with their answers", met, wanted)
}

fn block_counts() -> Outcome {
    let table = [(8, 5, 1), (8, 7, 1), (8, 8, 2), (8, 14, 2), (8, 15, 3), (4, 5, 2), (4, 6, 2), (4, 7, 3)];
    for (b, length, blocks) in table {
        let set = Settings::of([b, 4, 2, 2, 2]);
        equal(&format!("B = {b}, length {length}"), set.blocks_needed(length), blocks)?;
    }
    Ok(())
}

fn sizes() -> Outcome {
    let table = [
        ([8, 4, 2, 2, 2], 3_788),
        ([8, 64, 32, 32, 32], 20_348),
        ([4, 1, 2, 2, 2], 3_620),
        ([64, 1_024, 255, 255, 255], 512_180),
    ];
    for (settings, words) in table {
        equal(&format!("{settings:?}"), Settings::of(settings).memory_words(), words)?;
    }
    Ok(())
}

fn closing_gaps() -> Outcome {
    let set = Settings::of([8, 8, 2, 2, 3]);
    for (before, flag) in [(vec![3, 0, 5], 1), (vec![3, 5], 0)] {
        for start in 0..set.t {
            let mut memory = vec![0; set.memory_words()];
            let task_queue = set.node(1).task_queue(2);
            let queue = task_queue.queue;
            for (n, &item) in before.iter().enumerate() {
                memory[queue.slots + (start + n) % set.t] = item;
            }
            memory[queue.start] = start as u32;
            memory[queue.items] = before.len() as u32;
            memory[task_queue.gap_flag] = flag;
            close_gaps(&mut memory, task_queue);
            equal("items", items(&memory, queue), vec![3, 5])?;
            equal("start and flag", [memory[queue.start], memory[task_queue.gap_flag]], [start as u32, 0])?;
            equal("slot behind", memory[queue.slots + (start + 2) % set.t], 0)?;
        }
    }
    Ok(())
}

fn set_up_memory() -> Outcome {
    for settings in [[8, 4, 2, 2, 2], [4, 1, 2, 2, 2], [64, 1_024, 255, 255, 255]] {
        let set = Settings::of(settings);
        let mut memory = counted(set.memory_words(), 77);
        equal("answer", mail::set_up(settings, &run::table(), &mut memory), Answer { number: 0, values: [0; 3] })?;
        equal("broken rule", sound(&memory).err(), None)?;
        for node in set.nodes() {
            equal("free list", free_list(&memory, node), (1..=set.m as u32).collect())?;
        }
        let first_frees = NODES;
        let links = NODES * (set.m - 1);
        let others = memory[TURN..TABLE].iter().chain(&memory[HEAD_WORDS..]).filter(|&&word| word != 0).count();
        equal("words not 0 behind the settings and the table", others, first_frees + links)?;
        equal("table", memory[TABLE..HEAD_WORDS].to_vec(), run::table())?;
        equal("letters", mail::list(&memory, &mut []), Answer { number: 0, values: [0; 3] })?;
    }
    Ok(())
}

/// Letters accepted and not yet received, oldest first, by sender and receiver.
type Waiting = BTreeMap<(u32, u32), VecDeque<Vec<u32>>>;

fn demand_3() -> Outcome {
    for seed in 0..120 {
        let mut maker = Maker::new(seed);
        begin(&mut maker);
        let mut waiting = Waiting::new();
        for _ in 0..5 {
            let phase = Phase::any(&mut maker);
            for _ in 0..40 {
                let done = phase.call(&mut maker).ok_or("a call that gave nothing")?;
                let step = maker.last_step().ok_or("no step")?;
                note(&mut waiting, step, &done)?;
                let memory = &maker.player.memory;
                equal(&format!("seed {seed}: letters on their way"), listed(memory)?, waiting.clone())?;
                one_place_each(memory)?;
            }
        }
    }
    Ok(())
}

/// Notes a letter accepted or received; a letter received must be the oldest of its pair.
fn note(waiting: &mut Waiting, step: &Step, done: &Done) -> Outcome {
    holds(done.answer.number != 1, || format!("{step:?} refused by 1"))?;
    if done.answer.number != 0 {
        return Ok(());
    }
    match step {
        Step::Send { source, destination, length, f } => {
            waiting.entry((*source, *destination)).or_default().push_back(counted(*length, *f));
        }
        Step::Receive { destination, .. } => {
            let [source, length, _] = done.answer.values;
            let pair = (source, *destination);
            let oldest = waiting.get_mut(&pair).and_then(VecDeque::pop_front);
            waiting.retain(|_, letters| !letters.is_empty());
            let body = done.out.as_ref().map(|out| out[..length as usize].to_vec());
            equal(&format!("letter received by {pair:?}"), body, oldest)?;
        }
        _ => {}
    }
    Ok(())
}

/// The letters that the list shows, read at the node and block named.
fn listed(memory: &[u32]) -> Result<Waiting, String> {
    let set = sound(memory).map_err(|rule| format!("broken: {rule:?}"))?;
    let [letters, _, _] = mail::list(memory, &mut []).values;
    let mut out = vec![0; RECORD_WORDS * letters as usize];
    mail::list(memory, &mut out);
    let mut found = Waiting::new();
    for record in out.chunks_exact(RECORD_WORDS) {
        let &[destination, source, _, node, block, body] = record else { continue };
        let words = letter(memory, set.node(node as usize), block);
        equal("length", words[LENGTH], body + HEADER_WORDS as u32)?;
        equal("pair", [words[SOURCE], words[DESTINATION]], [source, destination])?;
        found.entry((source, destination)).or_default().push_back(words[HEADER_WORDS..].to_vec());
    }
    Ok(found)
}

/// Every block is in the free list or in one letter.
fn one_place_each(memory: &[u32]) -> Outcome {
    let set = sound(memory).map_err(|rule| format!("broken: {rule:?}"))?;
    for node in set.nodes() {
        let mut firsts = vec![memory[node.first_free()], position(memory, node.number)[2]];
        for other in set.nodes() {
            firsts.extend(items(memory, node.send_queue(other.number)));
            firsts.extend(items(memory, other.acknowledge_queue(node.number)));
        }
        firsts.extend((0..TASK_QUEUES).flat_map(|number| items(memory, node.task_queue(number).queue)));
        let mut blocks: Vec<u32> = firsts.into_iter().flat_map(|first| chain(memory, node, first)).collect();
        blocks.sort_unstable();
        equal("blocks of a node", blocks, (1..=set.m as u32).collect())?;
    }
    Ok(())
}

fn refusals_change_one_count() -> Outcome {
    for seed in 200..260 {
        let mut maker = Maker::new(seed);
        begin(&mut maker);
        for _ in 0..200 {
            let phase = Phase::any(&mut maker);
            let step = phase.step(&mut maker);
            let before = maker.player.memory.clone();
            let number = maker.add(step.clone()).map_or(0, |done| done.answer.number);
            if number != 0 && step != Step::Turn {
                let raised = raised_counts(&before, &maker.player.memory)?;
                equal(
                    &format!("{step:?} refused by {number}: counts"),
                    raised,
                    usize::from([5, 6, 7, 8].contains(&number)),
                )?;
            }
        }
    }
    Ok(())
}

/// How many counts rose by one; nothing else may have changed.
fn raised_counts(before: &[u32], after: &[u32]) -> Result<usize, String> {
    let set = sound(before).map_err(|rule| format!("broken: {rule:?}"))?;
    let mut expected = before.to_vec();
    let mut raised = 0;
    for place in set.count_places() {
        if after[place] != before[place] {
            expected[place] += 1;
            raised += 1;
        }
    }
    holds(expected == after, || "another word changed".to_string())?;
    Ok(raised)
}

fn damage_breaks() -> Outcome {
    let mut untried: BTreeSet<usize> = (0..CERTAIN.len()).collect();
    for seed in 300..360 {
        let mut maker = Maker::new(seed);
        begin(&mut maker);
        for _ in 0..10 {
            let phase = Phase::any(&mut maker);
            for _ in 0..20 {
                phase.call(&mut maker);
            }
            for (n, &damage) in CERTAIN.iter().enumerate() {
                if let Some(memory) = damaged_by(damage, &maker.player.memory, &mut maker.random) {
                    holds(sound(&memory).is_err(), || format!("damage {n} leaves a sound memory"))?;
                    untried.remove(&n);
                }
            }
        }
    }
    equal("damage never done", untried, BTreeSet::new())
}

fn random_memories() -> Outcome {
    let mut random = Random::new(400);
    let mut maker = Maker::new(401);
    begin(&mut maker);
    let phase = Phase::any(&mut maker);
    for _ in 0..40 {
        phase.call(&mut maker);
    }
    for _ in 0..2_000 {
        let mut memory = maker.player.memory.clone();
        if random.percent(30) {
            memory.resize(random.below(5_000), 7);
        }
        for _ in 0..random.between(1, 60) {
            let reach = random.one_of([HEAD_WORDS, memory.len()]).min(memory.len());
            if let Some(word) = memory.get_mut(random.below(reach)) {
                *word = random.word() >> random.one_of([0, 29]);
            }
        }
        refused_alike(&memory)?;
    }
    Ok(())
}

/// Four calls refuse a memory by 1 and leave it, or none does because it is sound.
fn refused_alike(memory: &[u32]) -> Outcome {
    let broken = sound(memory).is_err();
    let mut copies = [(); 3].map(|()| memory.to_vec());
    let [sent, received, turned] = &mut copies;
    let task = Table::within(memory).and_then(|table| table.bound_tasks().next()).unwrap_or(0);
    let answers = [
        mail::send(sent, task, task, &[1, 2, 3]),
        mail::receive(received, task, task, &mut [0; 9]),
        mail::turn(turned),
        mail::list(memory, &mut []),
    ];
    for answer in answers {
        equal("refused by 1", answer.number == 1, broken)?;
    }
    holds(!broken || copies.iter().all(|copy| copy == memory), || "a refused memory changed".to_string())
}

fn scripts_read_back() -> Outcome {
    for bytes in [make::setup_script(1), make::calls_script(1, 500)] {
        let mut reader = Reader { bytes: &bytes };
        let mut steps = Vec::new();
        while !reader.bytes.is_empty() {
            steps.push(reader.step().ok_or("a step that can't be read")?);
        }
        holds(script(&steps) == bytes, || "other bytes".to_string())?;
    }
    holds(make::calls_script(1, 500) == make::calls_script(1, 500), || "one seed, two scripts".to_string())?;
    equal("lines", play(&make::calls_script(1, 500)).lines().count(), 500)
}

fn bad_scripts() -> Outcome {
    let scripts: [&[u32]; 14] = [
        &[0],
        &[9],
        &[u32::MAX],
        &[1, 8, 4, 2, 2],
        &[2, 1, 1, 2_049, 0],
        &[3, 1, 1, 2_049, 0],
        &[3, 1, 1, 5],
        &[5, 40_001, 0],
        &[6, 512_181, 0],
        &[7, 1_025],
        &[7, 2, 1],
        &[8, 0, 0],
        &[6, 3, 0, 8, 3, 0],
        &[8, u32::MAX, 0],
    ];
    for words in scripts {
        let bytes: Vec<u8> = words.iter().copied().flat_map(u32::to_le_bytes).collect();
        equal(&format!("{words:?}"), play(&bytes).as_str(), "bad\n")?;
    }
    equal("a part of a word", play(&[4, 0, 0]).as_str(), "bad\n")?;
    // The sum of no words is 7, and a call without out shows 0.
    let bytes: Vec<u8> = [4, 5, 0, 0, 9].into_iter().flat_map(u32::to_le_bytes).collect();
    equal("lines before bad", play(&bytes).as_str(), "1 0 0 0 7 0\n1 0 0 0 7 7\nbad\n")?;
    equal("nothing", play(&[]).as_str(), "")
}

fn calls_cover_all() -> Outcome {
    let script = [make::ends_script(1), make::calls_script(1, 10_000)].concat();
    equal("never", cover(&script).missing(), Vec::new())
}

fn setups_cover_all() -> Outcome {
    for seed in 0..5 {
        let script = make::setup_script(seed);
        let cover = cover(&script);
        for number in [0, 13, 14, 15] {
            holds(cover.answered("set up", number) > 0, || format!("never {number}"))?;
        }
        equal("bad", cover.bad, false)?;
        holds(script.len() < 300_000, || format!("{} bytes", script.len()))?;
    }
    Ok(())
}
