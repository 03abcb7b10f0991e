// Shows what a script covers: answers, stages, gaps, counts, and the rules that refused.

use std::collections::BTreeMap;

use crate::layout::{Queue, Settings, NODES, RANGES, TASK_QUEUES, TURN};
use crate::queues::item_count;
use crate::script::{Bad, Done, Player, Reader, Step};
use crate::sound::{position, sound, Rule};

/// Every call with the numbers that it can answer.
pub const ANSWERS: [(&str, &[u32]); 5] = [
    ("set up", &[0, 13, 14, 15]),
    ("send", &[0, 1, 2, 3, 4, 5, 6]),
    ("receive", &[0, 1, 2, 3, 7, 8, 9]),
    ("turn", &[0, 1, 5, 6, 10]),
    ("list", &[0, 1, 11]),
];
/// Every stage that a turn can begin or end at; 0 is none.
const STAGES: [u32; 4] = [0, 1, 2, 3];
/// Every call with the numbers by which a count rises.
const COUNTED: [(&str, &[u32]); 3] = [("send", &[5, 6]), ("receive", &[7, 8]), ("turn", &[5, 6, 10])];
/// The settings in their order, each with its least and its greatest value.
const LETTERS: [&str; 5] = ["B", "M", "S", "A", "T"];
/// What is counted by a name of its own: gaps closed, queues that run round, bodies.
const CLOSERS: [&str; 2] = ["send", "turn"];
const CLASSES: [&str; 3] = ["send", "acknowledge", "task"];
const BODIES: [&str; 3] = ["0 words", "1,019 words", "other"];

/// How often each thing has occurred in a script.
#[derive(Default)]
pub struct Cover {
    /// By call and answer number.
    answers: BTreeMap<(&'static str, u32), usize>,
    /// Turns that began at a stage and ended at a stage, 0 when finished.
    stages: BTreeMap<(u32, u32), usize>,
    /// Task queues whose gaps were closed, by call.
    gaps_closed: BTreeMap<&'static str, usize>,
    /// Queues seen to run round their end after a call, by class.
    round: BTreeMap<&'static str, usize>,
    /// Letters sent, by body length: none, some, the greatest.
    bodies: BTreeMap<&'static str, usize>,
    /// Refusals whose count already stood at its end, by call and number.
    counts_ended: BTreeMap<(&'static str, u32), usize>,
    /// Turns of each node that brought letters, and that stopped.
    brought: [usize; NODES],
    stopped: [usize; NODES],
    /// Letters sent and received with a setting at its least, and at its greatest.
    least: [usize; 5],
    greatest: [usize; 5],
    /// Calls refused by 1, by the rule found broken.
    rules: BTreeMap<Rule, usize>,
    /// If the script is bad.
    pub bad: bool,
}

/// Plays a script and tells what it covers.
pub fn cover(bytes: &[u8]) -> Cover {
    let mut reader = Reader { bytes };
    let mut player = Player::default();
    let mut cover = Cover::default();
    while !reader.bytes.is_empty() && !cover.bad {
        let Some(step) = reader.step() else {
            cover.bad = true;
            break;
        };
        let before = player.memory.clone();
        match player.play(&step) {
            Ok(None) => {}
            Ok(Some(done)) => cover.note(&step, &before, &player.memory, &done),
            Err(Bad) => cover.bad = true,
        }
    }
    cover
}

/// The name of a call; none for the other steps.
fn call_name(step: &Step) -> &'static str {
    match step {
        Step::SetUp { .. } => "set up",
        Step::Send { .. } => "send",
        Step::Receive { .. } => "receive",
        Step::Turn => "turn",
        Step::List { .. } => "list",
        Step::Memory { .. } | Step::Table { .. } | Step::Word { .. } => "",
    }
}

impl Cover {
    /// Notes one call with the memory before and after it.
    fn note(&mut self, step: &Step, before: &[u32], after: &[u32], done: &Done) {
        let name = call_name(step);
        let number = done.answer.number;
        *self.answers.entry((name, number)).or_default() += 1;
        let set = match (step, sound(before)) {
            (Step::SetUp { .. }, _) => return,
            (_, Err(rule)) => {
                *self.rules.entry(rule).or_default() += 1;
                return;
            }
            (_, Ok(set)) => set,
        };
        match (step, number) {
            (Step::Turn, _) => self.note_turn(before, after, done),
            (Step::Send { .. } | Step::Receive { .. }, 0) => self.note_letter(step, before),
            _ => {}
        }
        if let Step::Send { .. } | Step::Turn = step {
            *self.gaps_closed.entry(name).or_default() += flags_fallen(set, before, after);
        }
        for (class, queue) in all_queues(set) {
            let runs_round = after[queue.start] as usize + item_count(after, queue) > queue.length;
            *self.round.entry(class).or_default() += usize::from(runs_round);
        }
        let counted = [5, 6, 7, 8, 10].contains(&number);
        if counted && set.count_places().into_iter().all(|place| before[place] == after[place]) {
            *self.counts_ended.entry((name, number)).or_default() += 1;
        }
    }

    /// Notes a turn: where it began and ended, and what it brought.
    fn note_turn(&mut self, before: &[u32], after: &[u32], done: &Done) {
        let node = before[TURN] as usize;
        let [from, to] = [before, after].map(|memory| position(memory, node)[0]);
        *self.stages.entry((from, to)).or_default() += 1;
        self.brought[node] += usize::from(done.answer.values[1] > 0);
        self.stopped[node] += usize::from(done.answer.number != 0);
    }

    /// Notes a letter sent or received: its body, and settings at their ends.
    fn note_letter(&mut self, step: &Step, before: &[u32]) {
        for (k, (least, greatest)) in RANGES.into_iter().enumerate() {
            self.least[k] += usize::from(before[k] == least);
            self.greatest[k] += usize::from(before[k] == greatest);
        }
        if let Step::Send { length, .. } = step {
            let kind = match length {
                0 => "0 words",
                1_019 => "1,019 words",
                _ => "other",
            };
            *self.bodies.entry(kind).or_default() += 1;
        }
    }

    /// Every thing that can occur, under its title, with how often it did.
    fn all(&self) -> Vec<(&'static str, Vec<(String, usize)>)> {
        let times = |map: &BTreeMap<(&'static str, u32), usize>, lists: &[(&'static str, &[u32])]| {
            let pairs = lists.iter().flat_map(|&(name, numbers)| numbers.iter().map(move |&number| (name, number)));
            pairs.map(|key| (format!("{} {}", key.0, key.1), map.get(&key).copied().unwrap_or(0))).collect()
        };
        let named = |map: &BTreeMap<&'static str, usize>, names: &[&'static str]| {
            names.iter().map(|&name| (name.to_string(), map.get(name).copied().unwrap_or(0))).collect()
        };
        let numbered = |counts: &[usize; NODES]| counts.iter().enumerate().map(|(n, &k)| (n.to_string(), k)).collect();
        let lettered = |counts: &[usize; 5]| LETTERS.iter().zip(counts).map(|(l, &k)| (l.to_string(), k)).collect();
        let went = STAGES.into_iter().flat_map(|from| STAGES.map(|to| (from, to)));
        let went = went.map(|key| (format!("{} to {}", key.0, key.1), self.stages.get(&key).copied().unwrap_or(0)));
        let rules =
            Rule::ALL.into_iter().map(|rule| (format!("{rule:?}"), self.rules.get(&rule).copied().unwrap_or(0)));
        vec![
            ("answers of each call", times(&self.answers, &ANSWERS)),
            ("turns by the stage they resumed and the stage they stopped at, 0 is none", went.collect()),
            ("turns that brought letters, by node", numbered(&self.brought)),
            ("turns that stopped, by node", numbered(&self.stopped)),
            ("gaps closed, by call", named(&self.gaps_closed, &CLOSERS)),
            ("queues that run round after a call, by class", named(&self.round, &CLASSES)),
            ("letters accepted, by body length", named(&self.bodies, &BODIES)),
            ("letters sent and received with a setting at its least", lettered(&self.least)),
            ("letters sent and received with a setting at its greatest", lettered(&self.greatest)),
            ("counts that had to rise at their end, by call and number", times(&self.counts_ended, &COUNTED)),
            ("calls refused by 1, by the rule found broken", rules.collect()),
        ]
    }

    /// How often a call gave this answer.
    pub fn answered(&self, name: &'static str, number: u32) -> usize {
        self.answers.get(&(name, number)).copied().unwrap_or(0)
    }

    /// What never occurred.
    pub fn missing(&self) -> Vec<String> {
        let names = self.all().into_iter().flat_map(|(title, things)| {
            let never = things.into_iter().filter(|&(_, times)| times == 0);
            never.map(move |(name, _)| format!("{title}: {name}")).collect::<Vec<_>>()
        });
        names.chain(self.bad.then(|| "a script that is not bad".to_string())).collect()
    }

    /// The whole as text, and at its end what never occurred.
    pub fn text(&self) -> String {
        let mut text = String::new();
        for (title, things) in self.all() {
            text += &format!("{title}:\n");
            for (name, times) in things {
                text += &format!("  {name}: {times}\n");
            }
        }
        let missing = self.missing();
        if missing.is_empty() {
            return text + "all is covered\n";
        }
        text + &format!("never:\n  {}\n", missing.join("\n  "))
    }
}

/// All queues with the name of their class.
fn all_queues(set: Settings) -> Vec<(&'static str, Queue)> {
    let mut queues = Vec::new();
    for node in set.nodes() {
        queues.extend((0..NODES).map(|to| ("send", node.send_queue(to))));
        queues.extend((0..NODES).map(|to| ("acknowledge", node.acknowledge_queue(to))));
        queues.extend((0..TASK_QUEUES).map(|number| ("task", node.task_queue(number).queue)));
    }
    queues
}

/// How many task queues had their gap flag go from 1 to 0; in a send or turn that is closing gaps.
fn flags_fallen(set: Settings, before: &[u32], after: &[u32]) -> usize {
    let queues = (0..NODES).flat_map(|node| (0..TASK_QUEUES).map(move |queue| set.node(node).task_queue(queue)));
    queues.filter(|queue| before[queue.gap_flag] == 1 && after[queue.gap_flag] == 0).count()
}
