//! How long read and write take, as ratios: the proved calls with their check and without it, next to the Rust over its stand-ins and to plain
//! copies of as many bytes. All four are given the same calls, and their answers and bytes are compared. docs/PERFORMANCE.md says what came of it.
//!
//! `files CHUNK_SIZE` prints rows of its table.

#[allow(dead_code)] // of what names need
mod exported;
#[allow(dead_code)] // of what the vectors need
#[path = "../oracle/programs/vectors/generator.rs"]
mod generator;
mod laid;
mod measuring;
mod sides;

use generator::Generator;
use measuring::{milliseconds, spread};
use oracle::{runtime::types::ChunkSize, volume::FILE_LIMIT};
use sides::{Copies, Place, Proved, Rust, Side};

const RUNS: usize = 5;
const TURNS: usize = 8;

/// Any, but the same every time.
const SEED: u64 = 40;

/// How many chunk rows the other file has.
const FEW: u64 = 0;
const MANY: u64 = 2048;

/// The bytes of the next turn begin so much later: none is the same, and all are aligned alike.
const STEP: usize = 64;

enum Order {
    Sequential,
    Random,
}

/// The calls of a turn. A volume has room for all their chunks at every chunk size, also with the other file's.
struct Pattern {
    name: &'static str,
    length: usize,
    calls: usize,
    order: Order,
}

const PATTERNS: [Pattern; 4] = [
    Pattern { name: "4 KiB | sequential", length: 4096, calls: 128, order: Order::Sequential },
    Pattern { name: "4 KiB | random", length: 4096, calls: 128, order: Order::Random },
    Pattern { name: "1 MiB | sequential", length: 1 << 20, calls: 6, order: Order::Sequential },
    Pattern { name: "1 MiB | random", length: 1 << 20, calls: 6, order: Order::Random },
];

#[derive(Clone, Copy, PartialEq)]
enum Kind {
    Read,
    WriteOver,
    WriteNew,
}

struct Form {
    kind: Kind,
    others: u64,
    pattern: Pattern,
}

type Sides = [Box<dyn Side>; 4];

/// Where each stands.
const CHECKED: usize = 0;
const WORKER: usize = 1;
const RUST: usize = 2;
const COPIES: usize = 3;

/// The order in a turn; the next turn has each one moved on. So in four turns every side follows every other one once.
const ORDER: [usize; 4] = [CHECKED, WORKER, COPIES, RUST];

/// The least milliseconds of a turn of each.
type Times = [f64; 4];

fn main() {
    let size: u64 = std::env::args().nth(1).and_then(|size| size.parse().ok()).expect("files CHUNK_SIZE");
    let chunk = ChunkSize::VALUES.into_iter().find(|&value| value as u64 == size).expect("a chunk size");
    let forms = forms();
    let mut runs = vec![Vec::new(); forms.len()];
    for _ in 0..RUNS {
        let mut sides: Sides =
            [Box::new(Proved::checked(size)), Box::new(Proved::worker(size)), Box::new(Rust::new(chunk)), Box::new(Copies::new(size))];
        for (form, times) in forms.iter().zip(&mut runs) {
            times.push(measure(form, &mut sides));
        }
    }
    show(size, &forms, &runs);
}

fn forms() -> Vec<Form> {
    let mut forms = Vec::new();
    for kind in [Kind::Read, Kind::WriteOver, Kind::WriteNew] {
        for others in [FEW, MANY] {
            forms.extend(PATTERNS.map(|pattern| Form { kind, others, pattern }));
        }
    }
    forms
}

// ---- one form

impl Form {
    fn name(&self) -> String {
        let kind = match self.kind {
            Kind::Read => "read",
            Kind::WriteOver => "write over",
            Kind::WriteNew => "write into holes",
        };
        let rows = if self.others == FEW { "few" } else { "many" };
        format!("{kind} | {} | {rows}", self.pattern.name)
    }

    fn places(&self) -> Vec<Place> {
        let length = self.pattern.length;
        let mut generator = Generator::new(SEED);
        let mut offset = |i: usize| match self.pattern.order {
            Order::Sequential => (i * length) as u64,
            Order::Random => generator.below(FILE_LIMIT - length as u64),
        };
        let place = |i: usize| Place { offset: offset(i), flat: i * length..(i + 1) * length };
        (0..self.pattern.calls).map(place).collect()
    }

    fn total(&self) -> usize {
        self.pattern.length * self.pattern.calls
    }

    /// What a turn writes. Reads read what the first turn would.
    fn bytes<'a>(&self, source: &'a [u8], turn: usize) -> &'a [u8] {
        let start = if self.kind == Kind::Read { 0 } else { STEP * turn };
        &source[start..start + self.total()]
    }
}

/// The least times of some turns.
fn measure(form: &Form, sides: &mut Sides) -> Times {
    let places = form.places();
    let source: Vec<u8> = (0..form.total() + STEP * TURNS).map(|i| (i * 7 % 251 + 1) as u8).collect();
    let mut buffer = vec![0; form.total()];
    let mut least = [f64::INFINITY; 4];
    for side in sides.iter_mut() {
        side.renew(form.others);
        write_all(side.as_mut(), &places, form.bytes(&source, 0));
    }
    for turn in 0..TURNS {
        let bytes = form.bytes(&source, turn);
        for i in ORDER.map(|i| (i + turn) % ORDER.len()) {
            least[i] = least[i].min(take_turn(form, sides[i].as_mut(), &places, bytes, &mut buffer));
        }
    }
    least
}

/// The milliseconds of a turn, whose bytes are compared. The same calls come before it, so that every side finds what it touches in the
/// caches; a volume made anew was written just now.
fn take_turn(form: &Form, side: &mut dyn Side, places: &[Place], bytes: &[u8], buffer: &mut [u8]) -> f64 {
    match form.kind {
        Kind::WriteNew => side.renew(form.others),
        _ => carry_out(form, side, places, bytes, buffer),
    }
    buffer.fill(0);
    let start = milliseconds();
    carry_out(form, side, places, bytes, buffer);
    let took = milliseconds() - start;
    if form.kind != Kind::Read {
        read_all(side, places, buffer);
    }
    assert!(buffer == bytes, "other bytes are read than were written");
    took
}

fn carry_out(form: &Form, side: &mut dyn Side, places: &[Place], bytes: &[u8], buffer: &mut [u8]) {
    match form.kind {
        Kind::Read => read_all(side, places, buffer),
        _ => write_all(side, places, bytes),
    }
}

fn write_all(side: &mut dyn Side, places: &[Place], bytes: &[u8]) {
    for place in places {
        let bytes = &bytes[place.flat.clone()];
        assert_eq!(side.write(place, bytes), (0, bytes.len() as u64));
    }
}

fn read_all(side: &mut dyn Side, places: &[Place], buffer: &mut [u8]) {
    for place in places {
        let buffer = &mut buffer[place.flat.clone()];
        assert_eq!(side.read(place, buffer), (0, buffer.len() as u64));
    }
}

// ---- the table

fn show(size: u64, forms: &[Form], runs: &[Vec<Times>]) {
    println!("chunk size {size}; {RUNS} runs, least of {TURNS} turns\n");
    println!("| call | bytes | offsets | rows | worker / memcpy | worker / Rust | with check / memcpy | with check / Rust | memcpy, µs a call |");
    println!("|---|---|---|---|---|---|---|---|---|");
    for (form, runs) in forms.iter().zip(runs) {
        let ratio = |above: usize, below: usize| spread(runs.iter().map(|times| times[above] / times[below]));
        let copy = spread(runs.iter().map(|times| times[COPIES] * 1e3 / form.pattern.calls as f64));
        let [worker, checked] = [WORKER, CHECKED].map(|side| format!("{} | {}", ratio(side, COPIES), ratio(side, RUST)));
        println!("| {} | {worker} | {checked} | {copy} |", form.name());
    }
}
