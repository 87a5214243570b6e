//! Calls one side so and so many times, for a tool that counts instructions (`compare/counts`).

use std::hint::black_box;

use crate::bench::{prepare, Input, ASSIGNMENT, SEED};
use crate::calls::{Calls, COUNTS, READING, VALUES};
use crate::sheets;
use crate::twin::RECORD;

/// Answers whether there is such a sheet and such an item. Buffers are as opened before each call.
pub fn count<S: Calls>(sheet: usize, item: &str, times: usize) -> Option<bool> {
    let (_, parts) = sheets::bench_sheets(SEED).into_iter().nth(sheet)?;
    let input = prepare(&parts);
    let list = list_of(&input, item)?;
    let mut answer = [0; READING];
    let mut values = [0; VALUES];
    let mut counts = [0; COUNTS];
    let mut lent = input.opened.clone();
    for _ in 0..times {
        lent.clone_from(&input.opened);
        let refusal = match item {
            "read" => S::read(black_box(&input.sheet), black_box(&mut answer)),
            "open" => S::open(black_box(&input.sheet), black_box(&mut lent)),
            "copy" => 0,
            "report" => S::report(black_box(&input.sheet), black_box(&lent), black_box(&mut values)),
            _ => S::run(black_box(&input.sheet), black_box(&list), black_box(&mut lent), &mut counts),
        };
        assert_eq!(refusal, 0);
    }
    println!("{}", list.len() / RECORD);
    Some(true)
}

/// The records of a forward and a backward sweep: all, those of one kind, or none. Neither has one of kind 6.
fn list_of(input: &Input, item: &str) -> Option<Vec<u8>> {
    let both = [input.forward.as_slice(), input.backward.as_slice()].concat();
    let kind = match item {
        "copy" | "read" | "open" | "report" | "none" => return Some(Vec::new()),
        "sweeps" => return Some(both),
        "6" => return Some(ASSIGNMENT.to_vec()),
        _ => item.parse::<u8>().ok().filter(|kind| (1..=5).contains(kind))?,
    };
    Some(both.chunks_exact(RECORD).filter(|record| record[0] == kind).flatten().copied().collect())
}
