//! The job of `bench/lock.sh` in plain Rust, without proofs, to compare with: threads that read rows behind locks, each read
//! entered into its lock's journal. Words and output are those of the program in `bench/lock`.
//!
//! `rustc -O bench/lock_plain.rs -o /tmp/lock_plain && PROGRAM=/tmp/lock_plain bench/lock.sh`

// Entries are kept to be kept: nobody reads them.
#![allow(dead_code)]

use std::collections::BTreeMap;
use std::env;
use std::sync::Mutex;
use std::thread;
use std::time::{Duration, Instant};

const ROWS: u64 = 1000;

// Of a multiplicative generator of random numbers.
const FACTOR: u64 = 6_364_136_223_846_793_005;

#[derive(Clone, Copy, PartialEq, Eq, PartialOrd, Ord)]
struct Key {
    table: u16,
    row: u64,
}

#[derive(Clone, Copy)]
struct Row {
    value: i64,
    times: [u64; 2],
    mark: Option<(u32, u64)>,
}

// As long as an entry of coco's journals.
struct Entry {
    thread: u32,
    key: Key,
    row: Row,
    _rest: [u64; 3],
}

// No two locks share a line of the cache.
#[repr(align(128))]
struct Shard(Mutex<Guarded>);

struct Guarded {
    rows: BTreeMap<Key, Row>,
    journal: Vec<Entry>,
}

fn shard(index: u64, shards: u64, steps: usize) -> Shard {
    let rows = (0..ROWS)
        .filter(|row| row % shards == index)
        .map(|row| (Key { table: 0, row }, Row { value: row as i64, times: [0; 2], mark: None }))
        .collect();
    Shard(Mutex::new(Guarded { rows, journal: Vec::with_capacity(steps) }))
}

// Reads so many rows, and answers at which places of the journals.
fn read_all(shards: &[Shard], thread: u32, steps: usize, random: bool) -> Vec<usize> {
    let mut places = Vec::with_capacity(steps);
    let mut drawn = u64::from(thread);
    for step in 0..steps as u64 {
        drawn = drawn.wrapping_mul(FACTOR).wrapping_add(1);
        let number = if random { (drawn >> 33) % ROWS } else { step % ROWS };
        let key = Key { table: 0, row: number };
        let mut guarded = shards[number as usize % shards.len()].0.lock().unwrap();
        let row = guarded.rows[&key];
        places.push(guarded.journal.len());
        guarded.journal.push(Entry { thread, key, row, _rest: [0; 3] });
    }
    places
}

fn timed(shards: &[Shard], threads: u32, steps: usize, random: bool) -> Duration {
    let began = Instant::now();
    thread::scope(|scope| {
        for thread in 1..threads {
            scope.spawn(move || read_all(shards, thread, steps / threads as usize, random));
        }
        read_all(shards, 0, steps / threads as usize, random)
    });
    began.elapsed()
}

fn main() {
    let words: Vec<usize> = env::args().skip(1).map(|word| word.parse().unwrap()).collect();
    let (steps, rounds) = (words[0], words[1]);
    for _ in 0..rounds {
        for (count, random) in [(1, false), (4, false), (16, true)] {
            for threads in [1, 2, 4] {
                let shards: Vec<Shard> = (0..count).map(|index| shard(index, count, steps)).collect();
                let time = timed(&shards, threads, steps, random);
                let calls: usize = shards.iter().map(|it| it.0.lock().unwrap().journal.len()).sum();
                println!("{count} {threads} {calls}");
                eprintln!("{count} {threads} {}", time.as_nanos());
            }
        }
    }
}
