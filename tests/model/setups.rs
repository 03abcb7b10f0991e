// Makes a script of set-ups: good ones, and ones refused by 13, 14 and 15, alone and together.

use crate::layout::{RANGES, TABLE_WORDS};
use crate::make::{no_tasks, size, Maker, ALL_NODES};
use crate::run;
use crate::script::{MEMORY_LIMIT, TABLE_LIMIT};

/// Settings of the document's small memory and of its large one.
const SMALL: [u32; 5] = run::SETTINGS;
const LARGE: [u32; 5] = [8, 64, 32, 32, 32];
/// Above this many words a memory is set up only once, since its sum is long.
const LONG: usize = 25_000;

pub fn make(maker: &mut Maker) {
    before_any_memory(maker);
    good_settings(maker);
    bad_settings(maker);
    good_tables(maker);
    bad_tables(maker);
    bad_lengths(maker);
    refusals_together(maker);
    for _ in 0..60 {
        any_set_up(maker);
    }
}

/// Set-ups while memory or table are still empty.
fn before_any_memory(maker: &mut Maker) {
    maker.set_up([0; 5]);
    maker.set_up(SMALL);
    maker.new_memory(size(SMALL));
    maker.set_up(SMALL);
    maker.new_memory(0);
    maker.use_table(run::table());
    maker.set_up(SMALL);
}

/// The least and the greatest of each setting, alone and together.
fn good_settings(maker: &mut Maker) {
    let mut all = vec![SMALL, LARGE, RANGES.map(|(least, _)| least), RANGES.map(|(_, greatest)| greatest)];
    for (k, (least, greatest)) in RANGES.into_iter().enumerate() {
        all.push(with(SMALL, k, least));
        all.push(with(SMALL, k, greatest));
    }
    for settings in all {
        maker.new_memory(size(settings));
        maker.set_up(settings);
        if size(settings) <= LONG {
            refused_then_done(maker, settings);
        }
    }
}

/// After a success: a refusal that must change nothing, then a set-up of an overwritten memory.
fn refused_then_done(maker: &mut Maker, settings: [u32; 5]) {
    let refused = if maker.random.percent(50) { bad_setting(maker, settings) } else { other_size(maker, settings) };
    maker.set_up(refused);
    overwrite_some(maker);
    maker.set_up(refused);
    maker.set_up(settings);
}

/// One below the least, one past the greatest and very large settings.
fn bad_settings(maker: &mut Maker) {
    for (k, (least, greatest)) in RANGES.into_iter().enumerate() {
        for value in [least - 1, greatest + 1] {
            let settings = with(SMALL, k, value);
            maker.new_memory(size(settings));
            maker.set_up(settings);
        }
        maker.new_memory(size(SMALL));
        for value in [0, 1 << 31, u32::MAX] {
            maker.set_up(with(SMALL, k, value));
        }
    }
    maker.set_up([u32::MAX; 5]);
    maker.set_up([0; 5]);
    products_that_wrap(maker);
}

/// Settings whose M times B is 0 in 32 bits, with a memory of the size that this would give.
fn products_that_wrap(maker: &mut Maker) {
    maker.new_memory(size(with(SMALL, 1, 0)));
    for (b, m) in [(1 << 16, 1 << 16), (1 << 31, 2), (4, 1 << 30), (64, 1 << 26)] {
        maker.set_up(with(with(SMALL, 0, b), 1, m));
    }
}

/// No task, all tasks, the document's tasks, and tasks at both ends of the table.
fn good_tables(maker: &mut Maker) {
    let full = maker.full_table();
    let ends = with_entry(with_entry(no_tasks(), 1, [0, 0]), 255, [5, 63]);
    for table in [no_tasks(), full, ends, run::table()] {
        maker.use_table(table);
        maker.new_memory(size(SMALL));
        maker.set_up(SMALL);
    }
}

/// Tables broken in each way, on a memory set up before.
fn bad_tables(maker: &mut Maker) {
    for table in broken_tables(maker) {
        maker.use_table(table);
        maker.set_up(SMALL);
    }
    maker.use_table(run::table());
    maker.set_up(SMALL);
}

/// A table for each way to break the rule or the length.
fn broken_tables(maker: &mut Maker) -> Vec<Vec<u32>> {
    let good = run::table();
    let mut tables: Vec<Vec<u32>> = [0, 1, TABLE_WORDS - 1, TABLE_WORDS + 1, TABLE_LIMIT]
        .map(|length| good.iter().copied().cycle().take(length).collect())
        .to_vec();
    let entries = [
        (0, [0, 0]),
        (0, [5, 63]),
        (0, [255, 1]),
        (7, [6, 0]),
        (1, [6, 63]),
        (255, [254, 0]),
        (27, [254, 4]),
        (52, [255, 16]),
        (1, [255, 1]),
        (255, [255, 255]),
        (128, [256, 0]),
        (200, [u32::MAX, 0]),
        (7, [2, 64]),
        (1, [0, 64]),
        (255, [5, 255]),
        (52, [3, 256]),
        (100, [0, u32::MAX]),
        (101, [u32::MAX, u32::MAX]),
        (1, [3, 16]),
        (255, [2, 5]),
        (26, [2, 4]),
    ];
    tables.extend(entries.map(|(task, entry)| with_entry(good.clone(), task, entry)));
    let full = maker.full_table();
    for (task, other) in [(1, 255), (255, 1), (254, 255), (100, 101)] {
        let entry = [full[2 * other], full[2 * other + 1]];
        tables.push(with_entry(full.clone(), task, entry));
    }
    tables
}

/// Memories of another size.
fn bad_lengths(maker: &mut Maker) {
    for settings in [SMALL, LARGE] {
        let exact = size(settings);
        for length in [0, 1, 5, 6, 535, 536, 537, exact - 6, exact - 1, exact + 1, exact + 6, 2 * exact] {
            maker.new_memory(length);
            maker.set_up(settings);
        }
    }
}

/// Each choice of the three refusals, twice: so their order shows.
fn refusals_together(maker: &mut Maker) {
    let mut broken = broken_tables(maker);
    for n in 0..16 {
        let [by_table, by_setting, by_size] = [8, 4, 2].map(|bit| n & bit != 0);
        let table = if by_table { broken.swap_remove(maker.random.below(broken.len())) } else { run::table() };
        maker.use_table(table);
        let settings = if by_setting { bad_setting(maker, SMALL) } else { SMALL };
        let off = if by_size { maker.random.between(1, 9) } else { 0 };
        maker.new_memory(size(SMALL) + off);
        maker.set_up(settings);
    }
}

/// A random set-up; each of its parts is good more often than not.
fn any_set_up(maker: &mut Maker) {
    if maker.random.percent(40) {
        let table = any_table(maker);
        maker.use_table(table);
    }
    let ranges = [(4, 64), (1, 40), (2, 20), (2, 20), (2, 20)];
    let good = ranges.map(|(least, greatest)| maker.random.between(least, greatest) as u32);
    match maker.random.below(10) {
        0 => {}
        1 => maker.new_memory(size(good) - 1),
        2 => maker.new_memory(size(good) + 1),
        _ => maker.new_memory(size(good)),
    }
    if maker.random.percent(30) {
        overwrite_some(maker);
    }
    let settings = if maker.random.percent(20) { bad_setting(maker, good) } else { good };
    maker.set_up(settings);
}

/// A table with any number of tasks, broken one time in three.
fn any_table(maker: &mut Maker) -> Vec<u32> {
    if maker.random.percent(33) {
        let mut broken = broken_tables(maker);
        return broken.swap_remove(maker.random.below(broken.len()));
    }
    let tasks = maker.random.below(256);
    maker.table_of(tasks, &ALL_NODES)
}

/// These settings with one of them out of range.
pub fn bad_setting(maker: &mut Maker, settings: [u32; 5]) -> [u32; 5] {
    let k = maker.random.below(settings.len());
    let value = maker.random.one_of([RANGES[k].0 - 1, RANGES[k].1 + 1, 0, u32::MAX]);
    with(settings, k, value)
}

/// These settings with one of them changed within its range, so the size is another.
pub fn other_size(maker: &mut Maker, settings: [u32; 5]) -> [u32; 5] {
    let k = maker.random.below(settings.len());
    let (least, greatest) = RANGES[k];
    with(settings, k, if settings[k] < greatest { settings[k] + 1 } else { least })
}

/// Overwrites some words of the memory.
fn overwrite_some(maker: &mut Maker) {
    for _ in 0..maker.random.between(1, 4) {
        let index = maker.random.below(maker.player.memory.len().min(MEMORY_LIMIT));
        let value = maker.any_f();
        maker.put(index, value);
    }
}

fn with(mut settings: [u32; 5], k: usize, value: u32) -> [u32; 5] {
    settings[k] = value;
    settings
}

fn with_entry(mut table: Vec<u32>, task: usize, entry: [u32; 2]) -> Vec<u32> {
    table[2 * task..][..2].copy_from_slice(&entry);
    table
}
