//! Runs of the allocator alone: its words, an open, and calls after it.

use super::{
    generator::Generator,
    lists::{Item, spelled},
};
use oracle::{
    allocator_words::{AllocatorWords, Opened},
    scope::{self, FIRST_POINTER, MARKER, OLD_MARKER},
};

const SIZES: [u64; 5] = [4096, 8192, 16384, 32768, 65536];
const MAX_ROOM: u64 = 8;
const WORD_BYTES: usize = 8;
const MAX_STEPS: u64 = 40;

/// Sizes that no allocator may have: too low, too high, next to an accepted one, or with two bits
/// set. The last is cut to an accepted one where usize has 32 bits. Open takes 0 for the default
/// while word 3 is 0.
const BAD_SIZES: [u64; 22] = [
    0,
    1,
    2,
    2048,
    4095,
    4097,
    8191,
    8193,
    4096 + 8192,
    16383,
    16385,
    32767,
    32769,
    65535,
    65537,
    16384 + 65536,
    131072,
    1 << 32,
    1 << 44,
    1 << 63,
    u64::MAX,
    (1 << 32) + 4096,
];

/// The markers that are accepted: plain, and with bytes behind the first four.
const MARKERS: [u64; 4] = [
    MARKER,
    OLD_MARKER,
    OLD_MARKER | 0x7979_7979 << 32,
    MARKER | 0x0100_00ff << 32,
];

pub fn summary(items: &[Item]) -> String {
    let mut text = String::new();
    for (i, item) in items.iter().enumerate() {
        text += &format!("run {}: {} steps\n", i + 1, item.count);
    }
    let steps: usize = items.iter().map(|item| item.count).sum();
    text + &format!("all {} runs, {steps} steps\n", items.len())
}

pub fn fixed(generator: &mut Generator) -> Vec<Item> {
    let mut starts = Vec::new();
    for size in SIZES {
        for room in 0..=MAX_ROOM {
            for free in 0..=room {
                starts.push((good_words(generator, size, room, free), 18));
            }
        }
    }
    for marker in MARKERS {
        for room in [0, 1, 3, 8] {
            let mut words = good_words(generator, 4096, room, 0);
            (words[0], words[1], words[3]) = (marker, 0, 0);
            starts.push((words, 20));
        }
    }
    for size in SIZES {
        for room in [1, 2, 4, 8] {
            starts.push((plain_words(size, room, &[], 0), MAX_STEPS));
        }
        for room in [0, 2, 8] {
            // word 3 just above what fits the part, and at the top of u64
            starts.push((plain_words(size, room, &[], (room + 1) * size), 12));
            for below_top in [1, 2] {
                let next = 0u64.wrapping_sub(below_top * size);
                let free = [next - size, 0, next - 2 * size];
                let free = &free[..room.min(3) as usize];
                starts.push((plain_words(size, room, free, next), 12));
            }
        }
    }
    starts.extend(bad_markers().into_iter().map(|words| (words, 1)));
    starts.extend(damaged_words().into_iter().map(|words| (words, 1)));
    items(generator, starts)
}

pub fn bulk(generator: &mut Generator) -> Vec<Item> {
    let mut starts = Vec::new();
    for _ in 0..10_000 {
        let room = generator.below(MAX_ROOM + 1);
        let (size, free) = (generator.one_of(&SIZES), generator.below(room + 1));
        let mut words = good_words(generator, size, room, free);
        while generator.once_in(3) {
            damage(generator, &mut words);
        }
        starts.push((words, MAX_STEPS));
    }
    items(generator, starts)
}

fn items(generator: &mut Generator, starts: Vec<(Vec<u64>, u64)>) -> Vec<Item> {
    let mut tally = Tally::default();
    let mut items = Vec::new();
    for (words, most) in starts {
        items.push(run(generator, &words, most, &mut tally));
    }
    let steps: usize = items.iter().map(|item| item.count).sum();
    println!(
        "allocator: {} runs, {steps} steps, first opens {tally:?}",
        items.len()
    );
    items
}

/// How often the Rust and the scope gave which answer to an open that begins a run.
#[derive(Default, Debug)]
struct Tally {
    both_accept: usize,
    both_refuse: usize,
    rust_accepts: usize,
    rust_panics: usize,
    rust_refuses_otherwise: usize,
}

/// An open and, where it is accepted, calls until there are `most` steps or somewhat fewer.
fn run(generator: &mut Generator, words: &[u64], most: u64, tally: &mut Tally) -> Item {
    let mut rust = AllocatorWords::new(words);
    let opened = rust.open();
    let (answer, after) = match scope::open(words) {
        Ok(after) => (0, after),
        Err(refusal) => (refusal, words.to_vec()),
    };
    let (differs, kind) = match opened {
        Opened::Accepted if answer == 0 => (false, &mut tally.both_accept),
        Opened::Accepted => (true, &mut tally.rust_accepts),
        Opened::Refused(error) if scope::number(error) == Some(answer) => {
            (false, &mut tally.both_refuse)
        }
        Opened::Refused(_) => (true, &mut tally.rust_refuses_otherwise),
        Opened::Panicked(_) => (true, &mut tally.rust_panics),
    };
    *kind += 1;
    // what the scope accepts, the Rust accepts too, and where they agree, the words agree
    assert!(!differs || answer != 0);
    assert!(differs || rust.words() == after);

    let mut lines = format!("1 {} {:x} ", differs as u8, WORD_BYTES * words.len());
    lines += &(spelled(words.to_vec()) + "\n");
    let mut steps = 0;
    let mut step = |call: Vec<u64>, after: Vec<u64>| {
        lines += &(spelled(call.into_iter().chain(after)) + "\n");
        steps += 1;
    };
    step(vec![2, answer], after);
    if answer == 0 {
        let taste = generator.below(3);
        for _ in 0..most / 2 + generator.below(most.div_ceil(2)) {
            let call = call(generator, &mut rust, taste);
            step(call, rust.words());
        }
    }
    Item {
        lines,
        count: steps,
        ..Item::default()
    }
}

/// One call that the proved functions permit. `taste` leans it to allocating or to freeing.
fn call(generator: &mut Generator, rust: &mut AllocatorWords, taste: u64) -> Vec<u64> {
    let words = rust.words();
    let room = (words.len() - FIRST_POINTER) as u64;
    let (size, count, next) = (words[1], words[2], words[3]);
    let has_room = |end: u64| count > 0 || end <= room * size;
    let can_allocate = next.checked_add(size).is_some_and(has_room);
    let can_free = count < room && next / size > count;
    match generator.below(12) {
        0 => {
            assert_eq!(rust.open(), Opened::Accepted);
            vec![2, 0]
        }
        1 => set_chunk_size(generator, rust),
        2..8 if next == 0 => set_chunk_size(generator, rust),
        n if can_allocate && (n < 6 + 2 * taste || !can_free) => vec![4, rust.allocate()],
        _ if can_free => {
            let pointer = live_pointer(generator, &words);
            rust.free(pointer);
            vec![5, pointer]
        }
        _ => set_chunk_size(generator, rust),
    }
}

fn set_chunk_size(generator: &mut Generator, rust: &mut AllocatorWords) -> Vec<u64> {
    let size = match generator.below(3) {
        0 => generator.one_of(&BAD_SIZES),
        _ => generator.one_of(&SIZES),
    };
    let answer = rust.set_chunk_size(size).err();
    let answer = answer.map_or(0, |error| scope::number(error).unwrap());
    vec![3, size, answer]
}

/// A multiple of the size below word 3 that is not free.
fn live_pointer(generator: &mut Generator, words: &[u64]) -> u64 {
    let (size, count, next) = (words[1], words[2] as usize, words[3]);
    let free = &words[FIRST_POINTER..][..count];
    loop {
        let pointer = match generator.below(4) {
            0 => next - size,
            _ => generator.below(next / size) * size,
        };
        if !free.contains(&pointer) {
            return pointer;
        }
    }
}

fn plain_words(size: u64, room: u64, free: &[u64], next: u64) -> Vec<u64> {
    let mut words = vec![0; FIRST_POINTER + room as usize];
    (words[0], words[1], words[2], words[3]) = (MARKER, size, free.len() as u64, next);
    words[FIRST_POINTER..][..free.len()].copy_from_slice(free);
    words
}

/// Words that open accepts: `free` pointers in any order, old numbers behind them, sometimes
/// something in the unread words.
fn good_words(generator: &mut Generator, size: u64, room: u64, free: u64) -> Vec<u64> {
    let mut chunks = free + generator.below(room - free + 1);
    if generator.once_in(6) {
        let most = 1 << generator.below(40);
        chunks += generator.below(most);
    }
    let mut words = plain_words(size, room, &[], chunks * size);
    words[0] = generator.one_of(&MARKERS);
    for i in 0..free {
        words[FIRST_POINTER + i as usize] = live_pointer(generator, &words);
        words[2] = i + 1;
    }
    if generator.once_in(2) {
        for old in &mut words[FIRST_POINTER + free as usize..] {
            *old = generator.below(room) * generator.one_of(&[size, size, 1]);
        }
    }
    if generator.once_in(8) {
        for unread in &mut words[4..FIRST_POINTER] {
            *unread = generator.number() >> generator.below(64);
        }
    }
    words
}

/// Both sides refuse these.
fn bad_markers() -> Vec<Vec<u64>> {
    let names: [&[u8; 8]; 14] = [
        b"\0\0\0\0\0\0\0\0",
        b"FSA0\0\0\0\0",
        b"FSA2\0\0\0\0",
        b"FSAq\0\0\0\0",
        b"fsa1\0\0\0\0",
        b"ALO2\0\0\0\0",
        b"ALO0\0\0\0\0",
        b"ALA1\0\0\0\0",
        b"FLO1\0\0\0\0",
        b"1ASF\0\0\0\0",
        b"\0FSA1\0\0\0",
        b"\0\0\0\0FSA1",
        b"FSA\xb1\0\0\0\0",
        b"\xff\xff\xff\xff\xff\xff\xff\xff",
    ];
    let mut starts: Vec<Vec<u64>> = Vec::new();
    for (i, name) in names.iter().enumerate() {
        let mut words = plain_words(SIZES[i % SIZES.len()], i as u64 % 9, &[], 0);
        words[0] = u64::from_le_bytes(**name);
        starts.push(words);
    }
    // everything else is wrong too
    starts.push(vec![u64::MAX; FIRST_POINTER + 2]);
    starts.push(vec![0; FIRST_POINTER]);
    starts
}

/// The scope refuses these: each kind of damage at its smallest, and some at the ends of u64.
fn damaged_words() -> Vec<Vec<u64>> {
    let mut starts = Vec::new();
    let sizes = BAD_SIZES.into_iter().filter(|&size| size != 0);
    for (i, size) in sizes.enumerate() {
        starts.push(plain_words(size, i as u64 % 9, &[], 0));
        starts.push(with(plain_words(size, 2, &[], 0), 0, MARKERS[i % 4]));
    }
    // size word 0
    for next in [1, u64::MAX, 1 << 63].into_iter().chain(SIZES) {
        starts.push(plain_words(0, 1, &[], next));
        starts.push(with(plain_words(0, 1, &[], next), 0, OLD_MARKER));
    }
    starts.push(plain_words(0, 1, &[0], 0));
    starts.push(plain_words(0, 0, &[], 16384));
    for size in SIZES {
        // word 3 unaligned
        for next in [1, size - 1, size + 1, size / 2, u64::MAX, u64::MAX - size] {
            starts.push(plain_words(size, 2, &[], next));
        }
        starts.push(plain_words(size, 2, &[0], size + 1));
        // more free words than the part holds
        for room in 0..=MAX_ROOM {
            let free: Vec<u64> = (0..room).map(|i| i * size).collect();
            let words = plain_words(size, room, &free, 16 * size);
            starts.push(with(words, 2, room + 1));
        }
        for count in [1 << 32, 1 << 60, 1 << 61, 1 << 63, u64::MAX - 15, u64::MAX] {
            starts.push(with(plain_words(size, 1, &[0], 2 * size), 2, count));
        }
        // repeated
        starts.push(plain_words(size, 2, &[0, 0], 2 * size));
        starts.push(plain_words(size, 3, &[size, 0, size], 3 * size));
        let last_two: Vec<u64> = [0, 1, 2, 3, 4, 5, 6, 6].map(|i| i * size).to_vec();
        starts.push(plain_words(size, 8, &last_two, 8 * size));
        let first_and_last: Vec<u64> = [7, 1, 2, 3, 4, 5, 6, 7].map(|i| i * size).to_vec();
        starts.push(plain_words(size, 8, &first_and_last, 8 * size));
        // unaligned
        for pointer in [1, size - 1, size + 1, size / 2] {
            starts.push(plain_words(size, 1, &[pointer], 2 * size));
        }
        starts.push(plain_words(size, 3, &[0, size, size + 8], 4 * size));
        // not below word 3
        starts.push(plain_words(size, 1, &[0], 0));
        starts.push(plain_words(size, 1, &[size], size));
        starts.push(plain_words(size, 2, &[0, 3 * size], 2 * size));
        starts.push(plain_words(size, 1, &[u64::MAX - size + 1], 2 * size));
        starts.push(plain_words(size, 1, &[u64::MAX], 2 * size));
        // an old marker stays as it is
        let words = plain_words(size, 2, &[0, 0], 2 * size);
        starts.push(with(words, 0, MARKERS[2]));
    }
    starts
}

fn with(mut words: Vec<u64>, index: usize, value: u64) -> Vec<u64> {
    words[index] = value;
    words
}

/// Changes one word that open reads, mostly for the worse.
fn damage(generator: &mut Generator, words: &mut [u64]) {
    let size = generator.one_of(&SIZES);
    let odd = [0, 1, size / 2, size, size + 1, u64::MAX, generator.number()];
    let odd = generator.one_of(&odd);
    let bad_size = generator.one_of(&BAD_SIZES);
    let free = &words[FIRST_POINTER..];
    let count = generator.below(free.len() as u64 + 2);
    match generator.below(6) {
        0 => words[0] ^= 1 << generator.below(64),
        1 => words[1] = generator.one_of(&[0, size, bad_size]),
        2 => words[2] = generator.one_of(&[0, count, odd]),
        3 => words[3] = odd,
        _ if !free.is_empty() => {
            let at = FIRST_POINTER + generator.below(free.len() as u64) as usize;
            let other = generator.one_of(free);
            words[at] = generator.one_of(&[odd, other, words[3], words[at] ^ 1]);
        }
        _ => {}
    }
}
