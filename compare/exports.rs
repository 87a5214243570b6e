//! The proved library behind its exports, as safe calls. A slice passes as pointer and length.
//!
//! Built with `--cfg standalone` the twin stands in, so that the rest can be tried without the library.

#[cfg(not(standalone))]
pub use linked::Proved;
#[cfg(standalone)]
pub use stand_in::Proved;

#[cfg(not(standalone))]
mod linked {
    use crate::calls::{Buffers, Calls};

    extern "C" {
        fn cirbaldu_read(sheet: *const u8, sheet_len: usize, answer: *mut u64, answer_len: usize) -> u8;
        fn cirbaldu_open(
            sheet: *const u8,
            sheet_len: usize,
            nodes: *mut i64,
            nodes_len: usize,
            labels: *mut i64,
            labels_len: usize,
            edges: *mut i64,
            edges_len: usize,
            incumbent: *mut u8,
            incumbent_len: usize,
        ) -> u8;
        fn cirbaldu_run(
            sheet: *const u8,
            sheet_len: usize,
            records: *const u8,
            records_len: usize,
            nodes: *mut i64,
            nodes_len: usize,
            labels: *mut i64,
            labels_len: usize,
            edges: *mut i64,
            edges_len: usize,
            incumbent: *mut u8,
            incumbent_len: usize,
            counts: *mut u64,
            counts_len: usize,
        ) -> u8;
        fn cirbaldu_report(
            sheet: *const u8,
            sheet_len: usize,
            nodes: *const i64,
            nodes_len: usize,
            labels: *const i64,
            labels_len: usize,
            edges: *const i64,
            edges_len: usize,
            incumbent: *const u8,
            incumbent_len: usize,
            values: *mut i64,
            values_len: usize,
        ) -> u8;
        fn cirbaldu_sweep(
            sheet: *const u8,
            sheet_len: usize,
            direction: u8,
            out: *mut u8,
            out_len: usize,
        ) -> u8;
        fn cirbaldu_edge(
            sheet: *const u8,
            sheet_len: usize,
            edge: usize,
            span: *mut u64,
            span_len: usize,
        ) -> u8;
        fn cirbaldu_place(sheet: *const u8, sheet_len: usize, out: *mut u8, out_len: usize) -> u8;
    }

    pub struct Proved;

    // Each pointer below comes from a live slice and passes with that slice's own length; the exclusive
    // ones come from exclusive borrows, so that no two overlap.
    impl Calls for Proved {
        const NAME: &'static str = "rattle";

        fn read(sheet: &[u8], answer: &mut [u64]) -> u8 {
            unsafe { cirbaldu_read(sheet.as_ptr(), sheet.len(), answer.as_mut_ptr(), answer.len()) }
        }

        fn open(sheet: &[u8], lent: &mut Buffers) -> u8 {
            unsafe {
                cirbaldu_open(
                    sheet.as_ptr(),
                    sheet.len(),
                    lent.nodes.as_mut_ptr(),
                    lent.nodes.len(),
                    lent.labels.as_mut_ptr(),
                    lent.labels.len(),
                    lent.edges.as_mut_ptr(),
                    lent.edges.len(),
                    lent.incumbent.as_mut_ptr(),
                    lent.incumbent.len(),
                )
            }
        }

        fn run(sheet: &[u8], records: &[u8], lent: &mut Buffers, counts: &mut [u64]) -> u8 {
            unsafe {
                cirbaldu_run(
                    sheet.as_ptr(),
                    sheet.len(),
                    records.as_ptr(),
                    records.len(),
                    lent.nodes.as_mut_ptr(),
                    lent.nodes.len(),
                    lent.labels.as_mut_ptr(),
                    lent.labels.len(),
                    lent.edges.as_mut_ptr(),
                    lent.edges.len(),
                    lent.incumbent.as_mut_ptr(),
                    lent.incumbent.len(),
                    counts.as_mut_ptr(),
                    counts.len(),
                )
            }
        }

        fn report(sheet: &[u8], lent: &Buffers, values: &mut [i64]) -> u8 {
            unsafe {
                cirbaldu_report(
                    sheet.as_ptr(),
                    sheet.len(),
                    lent.nodes.as_ptr(),
                    lent.nodes.len(),
                    lent.labels.as_ptr(),
                    lent.labels.len(),
                    lent.edges.as_ptr(),
                    lent.edges.len(),
                    lent.incumbent.as_ptr(),
                    lent.incumbent.len(),
                    values.as_mut_ptr(),
                    values.len(),
                )
            }
        }

        fn sweep(sheet: &[u8], direction: u8, out: &mut [u8]) -> u8 {
            unsafe { cirbaldu_sweep(sheet.as_ptr(), sheet.len(), direction, out.as_mut_ptr(), out.len()) }
        }

        fn edge(sheet: &[u8], edge: usize, span: &mut [u64]) -> u8 {
            unsafe { cirbaldu_edge(sheet.as_ptr(), sheet.len(), edge, span.as_mut_ptr(), span.len()) }
        }

        fn place(sheet: &[u8], out: &mut [u8]) -> u8 {
            unsafe { cirbaldu_place(sheet.as_ptr(), sheet.len(), out.as_mut_ptr(), out.len()) }
        }
    }
}

#[cfg(standalone)]
mod stand_in {
    use crate::calls::{Buffers, Calls, Twin};

    pub struct Proved;

    impl Calls for Proved {
        const NAME: &'static str = "stand-in";

        fn read(sheet: &[u8], answer: &mut [u64]) -> u8 {
            Twin::read(sheet, answer)
        }

        fn open(sheet: &[u8], lent: &mut Buffers) -> u8 {
            Twin::open(sheet, lent)
        }

        fn run(sheet: &[u8], records: &[u8], lent: &mut Buffers, counts: &mut [u64]) -> u8 {
            Twin::run(sheet, records, lent, counts)
        }

        fn report(sheet: &[u8], lent: &Buffers, values: &mut [i64]) -> u8 {
            Twin::report(sheet, lent, values)
        }

        fn sweep(sheet: &[u8], direction: u8, out: &mut [u8]) -> u8 {
            Twin::sweep(sheet, direction, out)
        }

        fn edge(sheet: &[u8], edge: usize, span: &mut [u64]) -> u8 {
            Twin::edge(sheet, edge, span)
        }

        fn place(sheet: &[u8], out: &mut [u8]) -> u8 {
            Twin::place(sheet, out)
        }
    }
}
