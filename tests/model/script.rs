// Scripts of calls: their steps as words, and playing them as mailplay does.

use crate::mail::{self, Answer};

/// The greatest lengths that a script may ask for.
pub const MEMORY_LIMIT: usize = 512_180;
pub const TABLE_LIMIT: usize = 1_024;
pub const BODY_LIMIT: usize = 2_048;
pub const LIST_LIMIT: usize = 40_000;

/// One step of a script; the kinds 1 to 8 in their order.
#[derive(Clone, Debug, PartialEq)]
pub enum Step {
    SetUp { settings: [u32; 5] },
    Send { source: u32, destination: u32, length: usize, f: u32 },
    Receive { destination: u32, source: u32, length: usize, f: u32 },
    Turn,
    List { length: usize, f: u32 },
    Memory { length: usize, f: u32 },
    Table { words: Vec<u32> },
    Word { index: usize, value: u32 },
}

impl Step {
    /// The step as words of a script.
    pub fn words(&self) -> Vec<u32> {
        match self {
            Step::SetUp { settings: [b, m, s, a, t] } => vec![1, *b, *m, *s, *a, *t],
            Step::Send { source, destination, length, f } => vec![2, *source, *destination, *length as u32, *f],
            Step::Receive { destination, source, length, f } => vec![3, *destination, *source, *length as u32, *f],
            Step::Turn => vec![4],
            Step::List { length, f } => vec![5, *length as u32, *f],
            Step::Memory { length, f } => vec![6, *length as u32, *f],
            Step::Table { words } => [&[7, words.len() as u32], words.as_slice()].concat(),
            Step::Word { index, value } => vec![8, *index as u32, *value],
        }
    }
}

/// Steps as the bytes of a script, low byte first.
pub fn script(steps: &[Step]) -> Vec<u8> {
    steps.iter().flat_map(Step::words).flat_map(u32::to_le_bytes).collect()
}

/// Reads steps from the bytes of a script.
pub struct Reader<'a> {
    pub bytes: &'a [u8],
}

impl Reader<'_> {
    /// The next step; none if it is of another kind, over a limit or cut off.
    pub fn step(&mut self) -> Option<Step> {
        Some(match self.word()? {
            1 => Step::SetUp { settings: [self.word()?, self.word()?, self.word()?, self.word()?, self.word()?] },
            2 => Step::Send {
                source: self.word()?,
                destination: self.word()?,
                length: self.length(BODY_LIMIT)?,
                f: self.word()?,
            },
            3 => Step::Receive {
                destination: self.word()?,
                source: self.word()?,
                length: self.length(BODY_LIMIT)?,
                f: self.word()?,
            },
            4 => Step::Turn,
            5 => Step::List { length: self.length(LIST_LIMIT)?, f: self.word()? },
            6 => Step::Memory { length: self.length(MEMORY_LIMIT)?, f: self.word()? },
            7 => {
                let length = self.length(TABLE_LIMIT)?;
                Step::Table { words: (0..length).map(|_| self.word()).collect::<Option<_>>()? }
            }
            8 => Step::Word { index: self.word()? as usize, value: self.word()? },
            _ => return None,
        })
    }

    fn word(&mut self) -> Option<u32> {
        let (word, rest) = self.bytes.split_first_chunk::<4>()?;
        self.bytes = rest;
        Some(u32::from_le_bytes(*word))
    }

    fn length(&mut self, limit: usize) -> Option<usize> {
        self.word().map(|word| word as usize).filter(|&length| length <= limit)
    }
}

/// A step that can't be played: an index outside the memory.
#[derive(Debug)]
pub struct Bad;

/// What a call gave: its answer and, if it has one, its out slice.
pub struct Done {
    pub answer: Answer,
    pub out: Option<Vec<u32>>,
}

/// A script under way: the memory and the table for the next set-ups.
#[derive(Clone, Default)]
pub struct Player {
    pub memory: Vec<u32>,
    pub table: Vec<u32>,
}

impl Player {
    /// Plays one step; kinds 1 to 5 give what their call gave.
    pub fn play(&mut self, step: &Step) -> Result<Option<Done>, Bad> {
        let memory = &mut self.memory;
        let mut out = out_before(step);
        let answer = match step {
            Step::SetUp { settings } => mail::set_up(*settings, &self.table, memory),
            Step::Send { source, destination, length, f } => {
                mail::send(memory, *source, *destination, &counted(*length, *f))
            }
            Step::Receive { destination, source, .. } => {
                mail::receive(memory, *destination, *source, out.as_deref_mut().unwrap_or_default())
            }
            Step::Turn => mail::turn(memory),
            Step::List { .. } => mail::list(memory, out.as_deref_mut().unwrap_or_default()),
            Step::Memory { length, f } => {
                *memory = counted(*length, *f);
                return Ok(None);
            }
            Step::Table { words } => {
                self.table.clone_from(words);
                return Ok(None);
            }
            Step::Word { index, value } => {
                *memory.get_mut(*index).ok_or(Bad)? = *value;
                return Ok(None);
            }
        };
        Ok(Some(Done { answer, out }))
    }
}

/// The out slice that a receive or a list is given.
fn out_before(step: &Step) -> Option<Vec<u32>> {
    match step {
        Step::Receive { length, f, .. } | Step::List { length, f } => Some(counted(*length, *f)),
        _ => None,
    }
}

/// So many words, word i being f + i modulo 2^32.
pub fn counted(length: usize, f: u32) -> Vec<u32> {
    (0..length as u32).map(|i| f.wrapping_add(i)).collect()
}

/// The sum of words that a line shows.
fn sum(words: &[u32]) -> u64 {
    words.iter().fold(7, |h, &word| (h * 31 + u64::from(word)) % 4_294_967_291)
}

/// Plays a whole script: a line for each call, `bad` where it has to end early.
pub fn play(bytes: &[u8]) -> String {
    let mut reader = Reader { bytes };
    let mut player = Player::default();
    let mut lines = String::new();
    while !reader.bytes.is_empty() {
        match reader.step().ok_or(Bad).and_then(|step| player.play(&step)) {
            Ok(None) => {}
            Ok(Some(done)) => lines.push_str(&line(&done, &player.memory)),
            Err(Bad) => {
                lines.push_str("bad\n");
                break;
            }
        }
    }
    lines
}

/// The line of one call.
fn line(done: &Done, memory: &[u32]) -> String {
    let [first, second, third] = done.answer.values;
    let out_sum = done.out.as_ref().map_or(0, |out| sum(out));
    format!("{} {first} {second} {third} {} {out_sum}\n", done.answer.number, sum(memory))
}
