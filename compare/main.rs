//! Compares the proved library with a plain Rust program by the same rules.

mod assign;
mod bench;
mod calls;
mod checker;
mod counts;
mod exports;
mod random;
mod sheets;
mod stretches;
mod twin;
mod vectors;

use std::process::ExitCode;

use calls::{Calls, Stretches, Twin};
use exports::Proved;

fn main() -> ExitCode {
    let arguments: Vec<String> = std::env::args().skip(1).collect();
    let words: Vec<&str> = arguments.iter().map(String::as_str).collect();
    let answer = match words[..] {
        ["vectors", path] => replay(path),
        ["random", seed, count] => {
            seed.parse().ok().zip(count.parse().ok()).map(|(s, c)| random::compare(s, c))
        }
        ["bench", runs] => runs.parse().ok().map(bench::bench),
        ["count", side, sheet, item, times] => {
            sheet.parse().ok().zip(times.parse().ok()).and_then(|(sheet, times)| match side {
                Proved::NAME => counts::count::<Proved>(sheet, item, times),
                Twin::NAME => counts::count::<Twin>(sheet, item, times),
                Stretches::NAME => counts::count::<Stretches>(sheet, item, times),
                _ => None,
            })
        }
        _ => None,
    };
    match answer {
        Some(true) => ExitCode::SUCCESS,
        Some(false) => ExitCode::from(1),
        None => {
            eprintln!("usage: compare vectors FILE | random SEED COUNT | bench RUNS | count SIDE SHEET ITEM TIMES");
            ExitCode::from(2)
        }
    }
}

fn replay(path: &str) -> Option<bool> {
    let file = std::fs::read(path).map_err(|error| eprintln!("{path}: {error}")).ok()?;
    let proved = vectors::replay::<Proved>(&file)?;
    let twin = vectors::replay::<Twin>(&file)?;
    let stretches = vectors::replay::<Stretches>(&file)?;
    vectors::print([(Proved::NAME, proved), (Twin::NAME, twin), (Stretches::NAME, stretches)]);
    Some(proved.clean() && twin.clean() && stretches.clean())
}
