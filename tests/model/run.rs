// The program mailrun: records of 8 bytes in, a line for each event out.

use crate::layout::{Settings, TABLE_WORDS, UNBOUND};
use crate::mail::{self, Answer};
use crate::script::counted;

/// The program's settings.
pub const SETTINGS: [u32; 5] = [8, 4, 2, 2, 2];
/// Words of a receive's out.
const OUT_WORDS: usize = 255;
/// Bytes of a record.
const RECORD_BYTES: usize = 8;

/// The program's task table: 7 (node 2, queue 5), 27 (node 2, queue 4), 52 (node 3, queue 16).
pub fn table() -> Vec<u32> {
    let mut table = UNBOUND.repeat(TABLE_WORDS / 2);
    for (task, node, queue) in [(7, 2, 5), (27, 2, 4), (52, 3, 16)] {
        table[2 * task] = node;
        table[2 * task + 1] = queue;
    }
    table
}

/// The lines for a program's input.
pub fn run(input: &[u8]) -> String {
    let mut memory = vec![0; Settings::of(SETTINGS).memory_words()];
    mail::set_up(SETTINGS, &table(), &mut memory);
    let mut lines = String::new();
    for (n, record) in input.chunks(RECORD_BYTES).enumerate() {
        let Answer { number, values: [first, second, third] } = event(&mut memory, record);
        lines.push_str(&format!("{} {number} {first} {second} {third}\n", n + 1));
    }
    lines
}

/// One record: the answer, for a receive with the body's first word or 0 as third value.
fn event(memory: &mut [u32], record: &[u8]) -> Answer {
    match *record {
        [1, source, destination, length, f0, f1, f2, f3] => {
            let body = counted(length.into(), u32::from_le_bytes([f0, f1, f2, f3]));
            mail::send(memory, source.into(), destination.into(), &body)
        }
        [2, destination, source, _, _, _, _, _] => {
            let mut out = [0; OUT_WORDS];
            let mut answer = mail::receive(memory, destination.into(), source.into(), &mut out);
            // The out is zero before, so it shows 0 when there is no body.
            answer.values[2] = out[0];
            answer
        }
        [3, _, _, _, _, _, _, _] => mail::turn(memory),
        _ => Answer { number: 12, values: [0; 3] },
    }
}
