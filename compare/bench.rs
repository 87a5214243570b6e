//! Times both sides on the same inputs, in turns, and prints the median ratio.

use std::hint::black_box;
use std::time::Instant;

use crate::calls::{Buffers, Calls, Stretches, Twin, COUNTS, READING, SPAN, VALUES};
use crate::checker;
use crate::exports::Proved;
use crate::sheets::{self, Parts};
use crate::twin::{Refusal, MAX_LENGTH, MAX_NODES, RECORD, UNSET};

pub const SEED: u64 = 2022;
/// A list of one record of kind 6.
pub const ASSIGNMENT: [u8; RECORD] = [6, 0, 0, 0, 0];
const SWEEPS: usize = 20;
/// Repetitions of a short call in one sample.
const REPEAT: u32 = 300;

/// What both sides are given.
pub struct Input {
    pub sheet: Vec<u8>,
    pub opened: Buffers,
    pub forward: Vec<u8>,
    pub backward: Vec<u8>,
}

/// Nanoseconds of one call, by item.
type Sample<const K: usize> = [f64; K];
const ITEMS: [&str; 8] = [
    "read",
    "open",
    "report",
    "show an edge",
    "write two sweeps",
    "place",
    "run a kind 6",
    "run 20 + 20 sweeps",
];
/// What was placed, and the buffers after a run of kind 6.
type Placed = (Vec<u8>, Buffers);
/// Beside the second Rust program.
const RUNNING: [&str; 3] = ["read", "report", "run 20 + 20 sweeps"];
/// Of a sheet that is there to place on or to find the cheapest matching of.
const PLACING: [&str; 3] = ["read", "place", "run a kind 6"];

/// Answers whether both sides ended in the same buffers, but for sets of nodes that each may name.
pub fn bench(runs: usize) -> bool {
    let mut alike = true;
    for (name, parts) in sheets::bench_sheets(SEED) {
        let input = prepare(&parts);
        let title = format!("{name}: {} bytes", input.sheet.len());
        alike &= in_turns(&title, ITEMS, runs, || sample::<Proved>(&input), || sample::<Twin>(&input));
        let title = format!("{title}, beside the Rust program by stretches");
        let sides = (|| sample_running::<Proved>(&input), || sample_running::<Stretches>(&input));
        alike &= in_turns(&title, RUNNING, runs, sides.0, sides.1);
    }
    for (name, parts) in sheets::placing_sheets(SEED).into_iter().chain(sheets::assigning_sheets(SEED)) {
        let sheet = parts.bytes();
        let title = format!("{name}: {} bytes", sheet.len());
        let sides = (|| sample_placing::<Proved>(&sheet), || sample_placing::<Twin>(&sheet));
        alike &= in_turns(&title, PLACING, runs, sides.0, sides.1);
    }
    println!("{}", if alike { "both sides ended in the same buffers" } else { "the buffers DIFFER" });
    alike
}

/// Prints what both sides took; answers whether they ended alike.
fn in_turns<const K: usize, T: PartialEq>(
    title: &str,
    items: [&str; K],
    runs: usize,
    proved: impl Fn() -> (Sample<K>, T),
    twin: impl Fn() -> (Sample<K>, T),
) -> bool {
    let mut alike = true;
    let mut samples = Vec::new();
    for _ in 0..runs.max(1) {
        let (proved, left) = proved();
        let (twin, right) = twin();
        alike &= left == right;
        samples.push((proved, twin));
    }
    println!("{title}, {} runs", samples.len());
    print(items, &samples);
    alike
}

fn print<const K: usize>(items: [&str; K], samples: &[(Sample<K>, Sample<K>)]) {
    println!(
        "  {:<20}{:>14}{:>14}{:>10}",
        "",
        format!("{} ns", Proved::NAME),
        "rust ns",
        "ratio"
    );
    for (place, item) in items.iter().enumerate() {
        let proved = median(samples.iter().map(|(proved, _)| proved[place]));
        let twin = median(samples.iter().map(|(_, twin)| twin[place]));
        let ratio = median(samples.iter().map(|(proved, twin)| proved[place] / twin[place]));
        println!("  {item:<20}{proved:>14.0}{twin:>14.0}{ratio:>10.2}");
    }
}

fn median(values: impl Iterator<Item = f64>) -> f64 {
    let mut values: Vec<f64> = values.collect();
    values.sort_unstable_by(f64::total_cmp);
    values[values.len() / 2]
}

/// Opened buffers with a matching kept, and both sweeps.
pub fn prepare(parts: &Parts) -> Input {
    let sheet = parts.bytes();
    assert!(sheet.len() <= MAX_LENGTH);
    let mut opened = Buffers::fitting(&sheet);
    assert_eq!(Twin::open(&sheet, &mut opened), 0);
    opened.incumbent = sheets::identity(parts);
    let length = RECORD * (2 * parts.ends.len() + parts.labels.len() + 1);
    let [forward, backward] = [0, 1].map(|direction| {
        let mut list = vec![0; length];
        assert_eq!(Twin::sweep(&sheet, direction, &mut list), 0);
        list
    });
    Input { sheet, opened, forward, backward }
}

/// One sample of every item, the buffers after the sweeps, and what was placed and kept.
fn sample<S: Calls>(input: &Input) -> (Sample<{ ITEMS.len() }>, (Buffers, Placed)) {
    let sheet = input.sheet.as_slice();
    let ([read, place, assign], placed) = sample_placing::<S>(sheet);
    let mut lent = input.opened.clone();
    let open = time(REPEAT, || black_box(S::open(black_box(sheet), black_box(&mut lent))));
    let mut values = [0; VALUES];
    let report = time(REPEAT, || {
        black_box(S::report(black_box(sheet), black_box(&input.opened), black_box(&mut values)))
    });
    let mut span = [0; SPAN];
    let edge = time(REPEAT, || black_box(S::edge(black_box(sheet), black_box(7), black_box(&mut span))));
    let mut list = vec![0; input.forward.len()];
    let write = time(REPEAT, || {
        black_box(S::sweep(black_box(sheet), 0, black_box(&mut list)));
        black_box(S::sweep(black_box(sheet), 1, black_box(&mut list)))
    });
    let mut lent = input.opened.clone();
    let sweeps = time(1, || run_sweeps::<S>(input, &mut lent));
    assert_eq!(S::report(sheet, &lent, &mut values), 0);
    ([read, open, report, edge, write, place, assign, sweeps], (lent, placed))
}

/// One sample, and the buffers after the sweeps.
fn sample_running<S: Calls>(input: &Input) -> (Sample<{ RUNNING.len() }>, Buffers) {
    let sheet = input.sheet.as_slice();
    let mut answer = [0; READING];
    let read = time(REPEAT, || black_box(S::read(black_box(sheet), black_box(&mut answer))));
    let mut values = [0; VALUES];
    let report = time(REPEAT, || {
        black_box(S::report(black_box(sheet), black_box(&input.opened), black_box(&mut values)))
    });
    let mut lent = input.opened.clone();
    let sweeps = time(1, || run_sweeps::<S>(input, &mut lent));
    ([read, report, sweeps], lent)
}

/// One sample, and what was placed, nothing if there is no matching.
fn sample_placing<S: Calls>(sheet: &[u8]) -> (Sample<{ PLACING.len() }>, Placed) {
    let mut answer = [0; READING];
    let read = time(REPEAT, || black_box(S::read(black_box(sheet), black_box(&mut answer))));
    let mut out = vec![0; MAX_NODES];
    let place = time(REPEAT, || black_box(S::place(black_box(sheet), black_box(&mut out))));
    let refusal = S::place(sheet, &mut out);
    if refusal == Refusal::NoMatching as u8 {
        assert!(checker::is_obstruction(sheet, &out));
        out.clear();
    } else {
        assert_eq!(refusal, 0);
    }
    let (assign, kept) = sample_assigning::<S>(sheet);
    ([read, place, assign], (out, kept))
}

/// Nanoseconds of a run of kind 6 on opened buffers, and what it keeps of them.
fn sample_assigning<S: Calls>(sheet: &[u8]) -> (f64, Buffers) {
    let mut lent = Buffers::fitting(sheet);
    assert_eq!(S::open(sheet, &mut lent), 0);
    let mut counts = [0; COUNTS];
    let assign = time(REPEAT, || {
        lent.incumbent.fill(UNSET);
        black_box(S::run(black_box(sheet), black_box(&ASSIGNMENT), black_box(&mut lent), &mut counts))
    });
    assert_eq!(counts, [1, u64::from(lent.incumbent.contains(&UNSET))]);
    (assign, lent)
}

fn run_sweeps<S: Calls>(input: &Input, lent: &mut Buffers) {
    let mut counts = [0; COUNTS];
    for _ in 0..SWEEPS {
        for list in [&input.forward, &input.backward] {
            let refusal = S::run(black_box(&input.sheet), black_box(list), black_box(lent), &mut counts);
            assert_eq!((refusal, counts[0] as usize), (0, list.len() / RECORD));
        }
    }
}

/// Nanoseconds of one of `repeat` calls.
fn time<T>(repeat: u32, mut call: impl FnMut() -> T) -> f64 {
    let start = Instant::now();
    for _ in 0..repeat {
        call();
    }
    start.elapsed().as_nanos() as f64 / f64::from(repeat)
}
