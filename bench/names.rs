//! How long the calls on names take, as ratios: the proved calls next to the Rust over its stand-ins. Both are given the same calls, and every
//! answer is compared. docs/PERFORMANCE.md says what came of it.
//!
//! With `--cfg plain` the proved code is compiled as Rust (bench/run-plain), and its calls are measured without their check, too.

#[cfg(plain)]
extern crate rim_c as _; // the exported functions

#[allow(dead_code)] // of what files need
mod exported;
mod laid;
mod measuring;
mod name_sides;

use laid::ROOT;
use measuring::{milliseconds, spread};
#[cfg(plain)]
use name_sides::Worker;
use name_sides::{Answer, Checked, Entry, Proved, Rust, Shape, Side};
use std::ops::Range;

const RUNS: usize = 5;

/// A turn for each order of three sides.
const TURNS: usize = 6;

/// Entries of the directory; with the root there are as many nodes as rows.
const NAMES: usize = 4095;

/// A name that no entry has.
const ABSENT: usize = 9999;

/// Calls of a turn that ask for one name, and those that change the volume.
const FINDS: usize = 64;
const CHANGES: usize = 64;

/// Where the changes in the middle begin.
const MIDDLE: usize = NAMES / 2 - CHANGES / 2;

/// Chunk rows of a file that is removed, and of the next one.
const CHUNKS: u64 = 2048;

/// Of the scope.
const NO_SUCH_ENTRY: u32 = 2;

fn main() {
    let forms = forms();
    let mut sides = sides();
    let mut runs = vec![Vec::new(); forms.len()];
    for _ in 0..RUNS {
        for (form, times) in forms.iter().zip(&mut runs) {
            times.push(measure(form, &mut sides));
        }
    }
    show(&forms, &sides, &runs);
}

// ---- what is measured

struct Measured {
    title: &'static str,
    side: Box<dyn Side>,
    /// One call of those with the check takes as long as thousands of the others.
    most_calls: usize,
}

/// The Rust is the last.
fn sides() -> Vec<Measured> {
    let sides = [
        #[cfg(plain)]
        Measured { title: "worker", side: Box::new(Proved::<Worker>::new()), most_calls: usize::MAX },
        Measured { title: "with check", side: Box::new(Proved::<Checked>::new()), most_calls: 1 },
        Measured { title: "Rust", side: Box::new(Rust::new()), most_calls: usize::MAX },
    ];
    sides.into()
}

#[derive(Clone, Copy)]
enum Kind {
    Find(usize),
    List,
    Create { ahead: bool, looks: bool },
    Unlink { first: usize, backward: bool },
    Remove { chunks: u64 },
}

const KINDS: [(&str, Kind); 14] = [
    ("find | first name", Kind::Find(0)),
    ("find | middle name", Kind::Find(NAMES / 2)),
    ("find | last name", Kind::Find(NAMES - 1)),
    ("find | absent name", Kind::Find(ABSENT)),
    ("next entry | whole listing", Kind::List),
    ("create | behind all names", Kind::Create { ahead: false, looks: true }),
    ("create | behind all names, the Rust not looking", Kind::Create { ahead: false, looks: false }),
    ("create | ahead of all names", Kind::Create { ahead: true, looks: true }),
    ("create | ahead of all names, the Rust not looking", Kind::Create { ahead: true, looks: false }),
    ("unlink | first name", Kind::Unlink { first: 0, backward: false }),
    ("unlink | middle name", Kind::Unlink { first: MIDDLE, backward: false }),
    ("unlink | last name", Kind::Unlink { first: NAMES - 1, backward: true }),
    ("remove | first file, empty", Kind::Remove { chunks: 0 }),
    ("remove | first file, 2,048 chunks", Kind::Remove { chunks: CHUNKS }),
];

struct Form {
    title: &'static str,
    kind: Kind,
    long: bool,
}

/// Remove asks for no name, so that short ones do.
fn forms() -> Vec<Form> {
    let short = KINDS.map(|(title, kind)| Form { title, kind, long: false });
    let long = KINDS.map(|(title, kind)| Form { title, kind, long: true });
    let of_names = long.into_iter().filter(|form| !matches!(form.kind, Kind::Remove { .. }));
    short.into_iter().chain(of_names).collect()
}

// ---- the calls of a form

enum Call {
    Find(String),
    NextEntry(u32, String),
    Create(String, bool),
    Unlink(String),
    Remove(u64),
}

/// A call and its answer.
type Step = (Call, Answer);

/// The calls of a turn: before those that are measured, these, and behind them, where the volume shows that they were carried out.
struct Turn {
    shape: Shape,
    /// Then every turn has a volume made anew.
    changes: bool,
    before: Vec<Step>,
    steps: Vec<Step>,
    after: Vec<Step>,
}

impl Form {
    fn turn(&self) -> Turn {
        match self.kind {
            Kind::Find(ABSENT) => self.finds(ABSENT, Err(NO_SUCH_ENTRY)),
            Kind::Find(number) => self.finds(number, Ok(node(number))),
            Kind::List => self.asks(|| self.listing()),
            Kind::Create { ahead, looks } => self.creates(ahead, looks),
            Kind::Unlink { first, backward: false } => self.unlinks((first..first + CHANGES).collect()),
            Kind::Unlink { first, backward: true } => self.unlinks((first + 1 - CHANGES..=first).rev().collect()),
            Kind::Remove { chunks: 0 } => self.removes(0..CHANGES, 0),
            // one of the two that have chunks
            Kind::Remove { chunks } => self.removes(0..1, chunks),
        }
    }

    /// Any two names of a length differ in their last four bytes only.
    fn name(&self, number: usize) -> String {
        let lead = if self.long { 251 } else { 6 };
        format!("{}{number:04}", "x".repeat(lead))
    }

    fn shape(&self, directory: u64, count: usize, chunks: u64) -> Shape {
        Shape { directory, names: (0..count).map(|number| self.name(number)).collect(), chunks }
    }

    fn find(&self, number: usize, answer: Answer) -> Step {
        (Call::Find(self.name(number)), answer)
    }

    fn unlink(&self, number: usize) -> Step {
        (Call::Unlink(self.name(number)), Ok(node(number)))
    }

    /// The same calls come before those that are measured.
    fn asks(&self, steps: impl Fn() -> Vec<Step>) -> Turn {
        Turn { shape: self.shape(ROOT, NAMES, 0), changes: false, before: steps(), steps: steps(), after: Vec::new() }
    }

    fn finds(&self, number: usize, answer: Answer) -> Turn {
        self.asks(|| (0..FINDS).map(|_| self.find(number, answer)).collect())
    }

    fn listing(&self) -> Vec<Step> {
        let entry = |number| (Call::NextEntry(node(number) as u32, self.name(number)), Ok(node(number)));
        let end = (Call::NextEntry(NAMES as u32 + 1, String::new()), Err(NO_SUCH_ENTRY));
        (0..NAMES).map(entry).chain([end]).collect()
    }

    /// When all are made, all rows of nodes and all but one of entries are in use.
    fn creates(&self, ahead: bool, looks: bool) -> Turn {
        let made = NAMES - CHANGES..NAMES;
        Turn {
            shape: self.shape(ahead as u64, made.start - ahead as usize, 0),
            changes: true,
            before: Vec::new(),
            steps: made.clone().map(|number| (Call::Create(self.name(number), looks), Ok(node(number)))).collect(),
            after: made.map(|number| self.find(number, Ok(node(number)))).collect(),
        }
    }

    fn unlinks(&self, numbers: Vec<usize>) -> Turn {
        Turn {
            shape: self.shape(ROOT, NAMES, 0),
            changes: true,
            before: Vec::new(),
            steps: numbers.iter().map(|&number| self.unlink(number)).collect(),
            after: numbers.iter().map(|&number| self.find(number, Err(NO_SUCH_ENTRY))).collect(),
        }
    }

    fn removes(&self, numbers: Range<usize>, chunks: u64) -> Turn {
        let remove = |answer: Answer| numbers.clone().map(|number| (Call::Remove(node(number)), answer)).collect();
        Turn {
            shape: self.shape(ROOT, NAMES, chunks),
            changes: true,
            before: numbers.clone().map(|number| self.unlink(number)).collect(),
            steps: remove(Ok(0)),
            after: remove(Err(NO_SUCH_ENTRY)),
        }
    }
}

/// The node of a name, which is its index too.
fn node(number: usize) -> u64 {
    number as u64 + 1
}

fn carry_out<'a>(side: &mut dyn Side, steps: impl Iterator<Item = &'a Step>) {
    for (call, answer) in steps {
        let given = match call {
            Call::Find(name) => side.find(name),
            Call::NextEntry(from, name) => list(side, *from, name),
            Call::Create(name, looks) => side.create(name, *looks),
            Call::Unlink(name) => side.unlink(name),
            Call::Remove(node) => side.remove(*node),
        };
        assert_eq!(given, *answer);
    }
}

/// An entry whose index is the one asked for, and its node's number.
fn list(side: &dyn Side, from: u32, name: &str) -> Answer {
    let expected = Entry { index: from, node: from as u64, name: name.as_bytes() };
    side.next_entry(from, &mut |entry| assert_eq!(entry, expected))
}

// ---- turns

/// The least microseconds a call of some turns, for each side.
fn measure(form: &Form, sides: &mut [Measured]) -> Vec<f64> {
    let turn = form.turn();
    for Measured { side, .. } in sides.iter_mut() {
        side.renew(&turn.shape);
        side.assert_sound();
    }
    let count = sides.len();
    let mut least = vec![f64::INFINITY; count];
    for i in (0..TURNS).flat_map(|turn| order(turn, count)) {
        least[i] = least[i].min(take_turn(&turn, &mut sides[i]));
    }
    sides.iter().for_each(|measured| measured.side.assert_sound());
    least
}

/// The microseconds a call. A side finds in the caches what it touches: its volume was written just now, or was asked the same.
fn take_turn(turn: &Turn, measured: &mut Measured) -> f64 {
    let (side, calls) = (measured.side.as_mut(), turn.steps.len().min(measured.most_calls));
    if turn.changes {
        side.renew(&turn.shape);
    }
    carry_out(side, turn.before.iter().take(calls));
    let start = milliseconds();
    carry_out(side, turn.steps.iter().take(calls));
    let took = milliseconds() - start;
    carry_out(side, turn.after.iter().take(calls));
    took * 1e3 / calls as f64
}

/// Each side is the first, and follows each other one, equally often.
fn order(turn: usize, sides: usize) -> Vec<usize> {
    let mut order: Vec<usize> = (0..sides).collect();
    order.rotate_left(turn / 2 % sides);
    if turn % 2 == 1 {
        order.reverse();
    }
    order
}

// ---- the table

fn show(forms: &[Form], sides: &[Measured], runs: &[Vec<Vec<f64>>]) {
    let rust = sides.len() - 1;
    let ratios = sides[..rust].iter().map(|measured| format!(" {} / Rust |", measured.title)).collect::<String>();
    println!("{RUNS} runs, least of {TURNS} turns\n");
    println!("| call | of | bytes of a name |{ratios} Rust, µs a call |");
    println!("|---|---|---|{}---|", "---|".repeat(rust));
    for (form, runs) in forms.iter().zip(runs) {
        let ratio = |side: usize| format!(" {} |", spread(runs.iter().map(|times| times[side] / times[rust])));
        let ratios: String = (0..rust).map(ratio).collect();
        println!("| {} | {} |{ratios} {} |", form.title, form.name(0).len(), spread(runs.iter().map(|times| times[rust])));
    }
}
