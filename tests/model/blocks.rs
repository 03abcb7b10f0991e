// Blocks, chains and letters in one node of a sound memory.

use crate::layout::{Node, HEADER_WORDS, LENGTH};

/// The blocks of the chain that begins with `first`; none if it is 0.
pub fn chain(memory: &[u32], node: Node, first: u32) -> Vec<u32> {
    let mut blocks = Vec::new();
    let mut block = first;
    while block != 0 {
        blocks.push(block);
        block = memory[node.link(block)];
    }
    blocks
}

/// The free list.
pub fn free_list(memory: &[u32], node: Node) -> Vec<u32> {
    chain(memory, node, memory[node.first_free()])
}

/// The first `count` words of a chain, read as if they stood together.
pub fn read(memory: &[u32], node: Node, first: u32, count: usize) -> Vec<u32> {
    let mut words = Vec::with_capacity(count);
    let mut block = first;
    while words.len() < count {
        let part = (count - words.len()).min(node.set.b - 1);
        words.extend_from_slice(&memory[node.block(block)..][..part]);
        block = memory[node.link(block)];
    }
    words
}

/// The header of the letter that begins with block `first`.
pub fn header(memory: &[u32], node: Node, first: u32) -> Vec<u32> {
    read(memory, node, first, HEADER_WORDS)
}

/// The whole letter, header and body.
pub fn letter(memory: &[u32], node: Node, first: u32) -> Vec<u32> {
    let length = header(memory, node, first)[LENGTH] as usize;
    read(memory, node, first, length)
}

/// Writes a letter's words through its blocks; words behind them stay.
pub fn write(memory: &mut [u32], node: Node, blocks: &[u32], letter: &[u32]) {
    for (part, &block) in letter.chunks(node.set.b - 1).zip(blocks) {
        memory[node.block(block)..][..part.len()].copy_from_slice(part);
    }
}

/// Takes the first `count` blocks of the free list, at least one; none if there are too few.
pub fn take(memory: &mut [u32], node: Node, count: usize) -> Option<Vec<u32>> {
    let mut blocks = free_list(memory, node);
    if blocks.len() < count {
        return None;
    }
    blocks.truncate(count);
    let last_link = node.link(*blocks.last()?);
    memory[node.first_free()] = memory[last_link];
    memory[last_link] = 0;
    Some(blocks)
}

/// Puts a chain, in its order, before the free list; answers the number of its blocks.
pub fn give_back(memory: &mut [u32], node: Node, first: u32) -> u32 {
    let blocks = chain(memory, node, first);
    if let Some(&last) = blocks.last() {
        memory[node.link(last)] = memory[node.first_free()];
        memory[node.first_free()] = first;
    }
    blocks.len() as u32
}
