//! The seven calls as both sides offer them: flat numbers in slices, as the exports have them.

use crate::{stretches, twin};

/// Places of what reading answers: refusal, n, L, E, N, M, 64 node starts, 256 edge starts.
pub const READING: usize = 6 + twin::MAX_NODES + twin::MAX_EDGES;
pub const COUNTS: usize = 2;
pub const VALUES: usize = 4;
pub const SPAN: usize = 2;

#[derive(Clone, Debug, Default, PartialEq, Eq)]
pub struct Buffers {
    pub nodes: Vec<i64>,
    pub labels: Vec<i64>,
    pub edges: Vec<i64>,
    pub incumbent: Vec<u8>,
}

impl Buffers {
    pub fn zeros(nodes: usize, labels: usize, edges: usize, incumbent: usize) -> Self {
        Buffers {
            nodes: vec![0; nodes],
            labels: vec![0; labels],
            edges: vec![0; edges],
            incumbent: vec![0; incumbent],
        }
    }

    /// Buffers of the lengths the sheet asks for; empty ones for a sheet that cannot be read.
    pub fn fitting(sheet: &[u8]) -> Self {
        twin::read(sheet).map_or_else(
            |_| Buffers::default(),
            |sheet| {
                Self::zeros(sheet.node_cells(), sheet.node_cells(), sheet.edge_cells(), sheet.degrees.len())
            },
        )
    }
}

pub trait Calls {
    const NAME: &'static str;
    fn read(sheet: &[u8], answer: &mut [u64]) -> u8;
    fn open(sheet: &[u8], lent: &mut Buffers) -> u8;
    fn run(sheet: &[u8], records: &[u8], lent: &mut Buffers, counts: &mut [u64]) -> u8;
    fn report(sheet: &[u8], lent: &Buffers, values: &mut [i64]) -> u8;
    fn sweep(sheet: &[u8], direction: u8, out: &mut [u8]) -> u8;
    fn edge(sheet: &[u8], edge: usize, span: &mut [u64]) -> u8;
    fn place(sheet: &[u8], out: &mut [u8]) -> u8;
}

/// The calls of a Rust program in a module of its own.
macro_rules! rust_side {
    ($side:ident, $module:ident, $name:literal) => {
        pub struct $side;

        impl Calls for $side {
            const NAME: &'static str = $name;

            fn read(sheet: &[u8], answer: &mut [u64]) -> u8 {
                let read = $module::read(sheet);
                if answer.len() != READING {
                    return unlent(number(&read));
                }
                answer.fill(0);
                match &read {
                    Err(refusal) => answer[0] = *refusal as u64,
                    Ok(sheet) => {
                        let labels = sheet.label_limit;
                        let counts =
                            [sheet.degrees.len(), labels, sheet.ends.len(), sheet.node_cells(), sheet.edge_cells()];
                        write_reading(counts, &sheet.node_starts, &sheet.edge_starts, answer)
                    }
                }
                number(&read)
            }

            fn open(sheet: &[u8], lent: &mut Buffers) -> u8 {
                let Buffers { nodes, labels, edges, incumbent } = lent;
                number(&$module::open(sheet, nodes, labels, edges, incumbent))
            }

            fn run(sheet: &[u8], records: &[u8], lent: &mut Buffers, counts: &mut [u64]) -> u8 {
                let [done, stuck] = counts else { return unlent(number(&$module::read(sheet))) };
                let Buffers { nodes, labels, edges, incumbent } = lent;
                let outcome = $module::run(sheet, records, nodes, labels, edges, incumbent);
                (*done, *stuck) = (outcome.done, outcome.stuck);
                outcome.refusal.map_or(0, |refusal| refusal as u8)
            }

            fn report(sheet: &[u8], lent: &Buffers, values: &mut [i64]) -> u8 {
                if values.len() != VALUES {
                    return unlent(number(&$module::read(sheet)));
                }
                let answer = $module::report(sheet, &lent.nodes, &lent.labels, &lent.edges, &lent.incumbent);
                match answer {
                    Err(_) => {}
                    Ok($module::Report::Bound { bound }) => values.copy_from_slice(&[0, bound, 0, 0]),
                    Ok($module::Report::Kept { bound, cost, gap }) => {
                        values.copy_from_slice(&[1, bound, cost, gap])
                    }
                }
                number(&answer)
            }

            fn sweep(sheet: &[u8], direction: u8, out: &mut [u8]) -> u8 {
                number(&$module::write_sweep(sheet, direction, out))
            }

            fn edge(sheet: &[u8], edge: usize, span: &mut [u64]) -> u8 {
                let answer = $module::edge_range(sheet, edge);
                let [offset, length] = span else { return unlent(number(&answer)) };
                let range = answer.clone().unwrap_or(0..0);
                (*offset, *length) = (range.start as u64, range.len() as u64);
                number(&answer)
            }

            fn place(sheet: &[u8], out: &mut [u8]) -> u8 {
                number(&$module::place(sheet, out))
            }
        }
    };
}

rust_side!(Twin, twin, "rust");
rust_side!(Stretches, stretches, "stretches");

/// The number of a refusal, 0 for none.
trait Numbered {
    fn number(&self) -> u8;
}

impl Numbered for twin::Refusal {
    fn number(&self) -> u8 {
        *self as u8
    }
}

impl Numbered for stretches::Refusal {
    fn number(&self) -> u8 {
        *self as u8
    }
}

fn number<T>(answer: &Result<T, impl Numbered>) -> u8 {
    answer.as_ref().err().map_or(0, Numbered::number)
}

/// The number of a call that is lent an answer's buffer of another length: what comes before 8, else 8.
fn unlent(before: u8) -> u8 {
    if before == 0 {
        twin::Refusal::Lent as u8
    } else {
        before
    }
}

fn write_reading(counts: [usize; 5], node_starts: &[u16], edge_starts: &[u16], answer: &mut [u64]) {
    let starts = node_starts.iter().chain(edge_starts).map(|&start| u64::from(start));
    let all = counts.into_iter().map(|count| count as u64).chain(starts);
    answer[1..].iter_mut().zip(all).for_each(|(place, number)| *place = number);
}
