//! Replays a .vec file (its README gives the format) through one side and counts what differs.

use crate::calls::{Buffers, Calls, COUNTS, READING, SPAN, VALUES};
use crate::checker;
use crate::twin::{self, Refusal};

const PLACE: u8 = 7;
const OPS: [(u8, &str); 9] = [
    (1, "open"),
    (2, "run"),
    (3, "report"),
    (4, "sweep"),
    (5, "edge"),
    (6, "read"),
    (PLACE, "place"),
    (20, "resize"),
    (21, "poke"),
];
/// How many requests are in the rules of both sides, and so in those of a file they can be held to.
const LEVEL: u32 = 6;
const MODULUS: i128 = 4_294_967_291;
const PRIOR_FILL: u8 = 0xA5;

/// Calls and those that differed, by place in OPS.
#[derive(Clone, Copy, Default)]
pub struct Tally {
    calls: [u64; OPS.len()],
    differed: [u64; OPS.len()],
}

impl Tally {
    pub fn clean(&self) -> bool {
        self.differed.iter().all(|&count| count == 0)
    }
}

pub fn print(tallies: [(&str, Tally); 3]) {
    for (place, (_, name)) in OPS.iter().enumerate() {
        let sides = tallies.map(|(side, tally)| {
            format!("{side} {} calls, {} differed", tally.calls[place], tally.differed[place])
        });
        println!("{name:<7} {}", sides.join("; "));
    }
}

struct Cursor<'a>(&'a [u8]);

impl<'a> Cursor<'a> {
    fn take(&mut self, length: usize) -> Option<&'a [u8]> {
        let (head, rest) = self.0.split_at_checked(length)?;
        self.0 = rest;
        Some(head)
    }

    fn array<const K: usize>(&mut self) -> Option<[u8; K]> {
        self.take(K)?.try_into().ok()
    }

    fn u8(&mut self) -> Option<u8> {
        self.array().map(u8::from_le_bytes)
    }

    fn u32(&mut self) -> Option<u32> {
        self.array().map(u32::from_le_bytes)
    }

    fn size(&mut self) -> Option<usize> {
        self.u32().map(|length| length as usize)
    }

    fn i64(&mut self) -> Option<i64> {
        self.array().map(i64::from_le_bytes)
    }

    fn u64(&mut self) -> Option<u64> {
        self.array().map(u64::from_le_bytes)
    }

    fn bytes(&mut self) -> Option<&'a [u8]> {
        let length = self.size()?;
        self.take(length)
    }
}

struct Hash(u64);

impl Hash {
    fn step(&mut self, number: i128) {
        self.0 = ((i128::from(self.0) * 257 + number + 1) % MODULUS) as u64;
    }

    fn of_bytes(bytes: &[u8]) -> u64 {
        let mut hash = Hash(1);
        bytes.iter().for_each(|&byte| hash.step(i128::from(byte)));
        hash.0
    }

    fn of_state(state: &Buffers) -> u64 {
        let mut hash = Hash(1);
        for &cost in state.nodes.iter().chain(&state.labels).chain(&state.edges) {
            hash.step(i128::from(cost < 0));
            hash.step(i128::from(if cost < 0 { !cost } else { cost }) % MODULUS);
        }
        state.incumbent.iter().for_each(|&byte| hash.step(i128::from(byte)));
        hash.0
    }
}

/// What one call answered.
#[derive(Debug, Default, PartialEq, Eq)]
struct Answer {
    numbers: Vec<i64>,
    output: u64,
    state: u64,
}

/// None when the file is not of the format or of another level.
pub fn replay<S: Calls>(file: &[u8]) -> Option<Tally> {
    let mut cursor = Cursor(file);
    let mut tally = Tally::default();
    if cursor.take(8)? != b"ORCLVEC1" || cursor.u32()? != LEVEL {
        return None;
    }
    for case in 0..cursor.u32()? {
        replay_case::<S>(case, &mut cursor, &mut tally)?;
    }
    cursor.0.is_empty().then_some(tally)
}

fn replay_case<S: Calls>(case: u32, cursor: &mut Cursor, tally: &mut Tally) -> Option<()> {
    let sheet = cursor.bytes()?;
    let prior = cursor.u8()?;
    let mut state = Buffers::zeros(cursor.size()?, cursor.size()?, cursor.size()?, cursor.size()?);
    if prior == 1 {
        fill_prior(&mut state);
    }
    for call in 0..cursor.u32()? {
        let op = cursor.u8()?;
        let place = OPS.iter().position(|&(number, _)| number == op)?;
        let (numbers, output) = replay_call::<S>(op, cursor, sheet, &mut state)?;
        let output = if op == PLACE && numbers == [Refusal::NoMatching as i64] {
            of_obstruction(sheet, &output)
        } else {
            Hash::of_bytes(&output)
        };
        let answer = Answer { numbers, output, state: Hash::of_state(&state) };
        let stored = stored_answer(cursor)?;
        tally.calls[place] += 1;
        if answer != stored {
            tally.differed[place] += 1;
            println!("{} case {case} call {call} {}: {answer:?}, stored {stored:?}", S::NAME, OPS[place].1);
        }
    }
    Some(())
}

/// What a file has for every set of nodes that may be named, and another number for one that may not.
fn of_obstruction(sheet: &[u8], bytes: &[u8]) -> u64 {
    if twin::read(sheet).is_ok() && checker::is_obstruction(sheet, bytes) {
        0
    } else {
        u64::MAX
    }
}

fn fill_prior(state: &mut Buffers) {
    for buffer in [&mut state.nodes, &mut state.labels, &mut state.edges] {
        for (cost, place) in buffer.iter_mut().zip(0..) {
            *cost = place * 7919 - 12345;
        }
    }
    for (byte, place) in state.incumbent.iter_mut().zip(0_usize..) {
        *byte = (place % 3) as u8;
    }
}

fn stored_answer(cursor: &mut Cursor) -> Option<Answer> {
    let count = cursor.u8()?;
    let numbers = (0..count).map(|_| cursor.i64()).collect::<Option<_>>()?;
    Some(Answer { numbers, output: cursor.u64()?, state: cursor.u64()? })
}

/// Numbers and output bytes of one call.
fn replay_call<S: Calls>(
    op: u8,
    cursor: &mut Cursor,
    sheet: &[u8],
    state: &mut Buffers,
) -> Option<(Vec<i64>, Vec<u8>)> {
    match op {
        1 => Some((vec![i64::from(S::open(sheet, state))], vec![])),
        2 => {
            cursor.i64()?;
            let records = cursor.bytes()?;
            let mut counts = [u64::MAX; COUNTS];
            let refusal = S::run(sheet, records, state, &mut counts);
            Some((vec![i64::from(refusal), counts[0] as i64, counts[1] as i64], vec![]))
        }
        3 => {
            cursor.i64()?;
            let prior = [i64::MIN; VALUES];
            let mut values = prior;
            let refusal = S::report(sheet, state, &mut values);
            // A refused report leaves the values as they were, which the file writes as zeros.
            if refusal != 0 && values == prior {
                values = [0; VALUES];
            }
            Some(([&[i64::from(refusal)], values.as_slice()].concat(), vec![]))
        }
        4 => {
            // A direction beyond a byte exists no more than 255 does.
            let direction = u8::try_from(cursor.u32()?).unwrap_or(u8::MAX);
            let mut out = vec![PRIOR_FILL; cursor.size()?];
            let refusal = S::sweep(sheet, direction, &mut out);
            Some((vec![i64::from(refusal)], out))
        }
        5 => Some(replay_edge::<S>(sheet, cursor.size()?)),
        6 => Some(replay_read::<S>(sheet)),
        PLACE => {
            let mut out = vec![PRIOR_FILL; cursor.size()?];
            let refusal = S::place(sheet, &mut out);
            Some((vec![i64::from(refusal)], out))
        }
        20 => replay_resize(cursor, state).map(|()| Default::default()),
        _ => replay_poke(cursor, state).map(|()| Default::default()),
    }
}

fn replay_edge<S: Calls>(sheet: &[u8], edge: usize) -> (Vec<i64>, Vec<u8>) {
    let mut span = [u64::MAX; SPAN];
    let refusal = S::edge(sheet, edge, &mut span);
    let [offset, length] = span.map(|number| number as usize);
    let part = offset.checked_add(length).and_then(|end| sheet.get(offset..end));
    (vec![i64::from(refusal), length as i64], part.unwrap_or(b"outside").to_vec())
}

fn replay_read<S: Calls>(sheet: &[u8]) -> (Vec<i64>, Vec<u8>) {
    let mut answer = [u64::MAX; READING];
    let refusal = S::read(sheet, &mut answer);
    assert_eq!(u64::from(refusal), answer[0]);
    let (numbers, starts) = answer.split_at(6);
    let output = starts.iter().flat_map(|&start| (start as u32).to_le_bytes()).collect();
    (numbers.iter().map(|&number| number as i64).collect(), output)
}

fn replay_resize(cursor: &mut Cursor, state: &mut Buffers) -> Option<()> {
    let buffer = cursor.u8()?;
    let length = cursor.size()?;
    match buffer {
        0 => state.nodes.resize(length, 0),
        1 => state.labels.resize(length, 0),
        2 => state.edges.resize(length, 0),
        _ => state.incumbent.resize(length, 0),
    }
    Some(())
}

fn replay_poke(cursor: &mut Cursor, state: &mut Buffers) -> Option<()> {
    let buffer = cursor.u8()?;
    let place = cursor.size()?;
    let value = cursor.i64()?;
    match buffer {
        0 => *state.nodes.get_mut(place)? = value,
        1 => *state.labels.get_mut(place)? = value,
        2 => *state.edges.get_mut(place)? = value,
        _ => *state.incumbent.get_mut(place)? = value as u8,
    }
    Some(())
}
