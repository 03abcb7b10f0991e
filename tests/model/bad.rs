// Makes short scripts at the edge of the format: most end in `bad`, each in another way.

use crate::script::{BODY_LIMIT, LIST_LIMIT, MEMORY_LIMIT, TABLE_LIMIT};

/// A memory of ten words, so that a step behind it has one to play on.
const SMALL: [u32; 3] = [6, 10, 0];

/// The words of each script, and how many bytes of their end are cut off.
fn scripts() -> Vec<(Vec<u32>, usize)> {
    let on_small = |step: &[u32]| (([&SMALL, step].concat()), 0);
    let mut all = vec![(vec![], 0), (vec![4], 0), (vec![4, 99, 4], 0)];
    all.extend([0, 9, u32::MAX].map(|kind| (vec![kind], 0)));
    for over in [0, 1] {
        all.push((vec![6, MEMORY_LIMIT as u32 + over, 1, 5, 0, 0], 0));
        all.push(on_small(&[2, 1, 2, BODY_LIMIT as u32 + over, 0]));
        all.push(on_small(&[3, 1, 2, BODY_LIMIT as u32 + over, 5]));
        all.push(on_small(&[5, LIST_LIMIT as u32 + over, 7]));
        all.push(on_small(&[8, 9 + over, 1, 4]));
        let table: Vec<u32> = (0..TABLE_LIMIT as u32 + over).collect();
        all.push(([&[7, table.len() as u32], table.as_slice(), &[4]].concat(), 0));
    }
    // an end in the midst of a word, of a step's arguments, of a table
    all.extend([(vec![1], 3), (vec![2, 1, 2], 1), (vec![1, 8, 4, 2, 2], 0), (vec![7, 4, 1, 2], 0)]);
    all
}

/// How many there are.
pub fn count() -> usize {
    scripts().len()
}

/// Script k, counted from 0; none past the last.
pub fn make(k: usize) -> Option<Vec<u8>> {
    let (words, cut) = scripts().into_iter().nth(k)?;
    let mut bytes: Vec<u8> = words.iter().flat_map(|word| word.to_le_bytes()).collect();
    bytes.truncate(bytes.len() - cut);
    Some(bytes)
}
