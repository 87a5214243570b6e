//! Random comparison of both sides: every answer and every buffer after every call.

use std::cell::OnceCell;
use std::cmp::Ordering;

use crate::bench::ASSIGNMENT;
use crate::calls::{Buffers, Calls, Twin, COUNTS, READING, SPAN, VALUES};
use crate::checker;
use crate::exports::Proved;
use crate::sheets::{self, Rng};
use crate::twin::{self, Refusal, Sheet, LIMIT, RECORD, TRAILER, VANISHED};

const CALLS: [&str; 7] = ["read", "open", "run", "report", "sweep", "edge", "place"];
const REFUSALS: usize = 17;
const PLACED: u8 = 0;
const NOT_PLACED: u8 = Refusal::NoMatching as u8;

/// What shows the rules of the 255, of the unusable cells, of placing and of kind 6, by place in SEEN.
#[derive(Clone, Copy)]
enum Seen {
    Sheet,
    EveryNode,
    Alone,
    NoOthers,
    NotLast,
    Twice,
    Reported,
    Torn,
    Rounded,
    Stuck,
    Kind3,
    Kind4,
    CostLent,
    CostRefused,
    Written,
    Unfit,
    Shared,
    SharedSeldom,
    SharedEverywhere,
    SharedWholly,
    Bare,
    OneCell,
    OneVanished,
    Blocked,
    BlockedOnce,
    BlockedPrice,
    BlockedLabel,
    BlockedRead,
    BlockedOpen,
    BlockedRun,
    BlockedRagged,
    BlockedCost,
    BlockedReport,
    BlockedDirection,
    BlockedSweep,
    BlockedEdge,
    Bounded,
    BoundedVanished,
    BoundedRefused,
    Raised,
    Lowered,
    LeastOfPosition,
    LeastOfEdge,
    BareNamed,
    LeastVanished,
    RaisedOver,
    LoweredOver,
    BlockedPlace,
    PlaceUnlent,
    PlacedNone,
    PlacedOnFirst,
    PlacedElsewhere,
    PlacedByChain,
    PlacedVanished,
    PlacedSaved,
    PlacedTried,
    PlacedOverKept,
    NamedTwo,
    NamedThree,
    NamedMore,
    NamedMany,
    NamedAll,
    NamedBesideVanished,
    NamedOneOfSeveral,
    NamedTried,
    NamedOverKept,
    NamedApart,
    AssignRefused,
    Assigned,
    AssignedCheaper,
    AssignedUnstuck,
    AssignedVanished,
    AssignedBesideVanished,
    AssignedSaved,
    AssignedAtLimit,
    AssignedFirst,
    AssignedBetter,
    AssignedDearer,
    AssignedEven,
    AssignedStuck,
    AssignedStuckVanished,
    AssignedTried,
    AssignedTie,
    AssignedSwap,
    AssignedChain,
    AssignedMoved,
    AssignedStuckTried,
}

/// What has to come up: without them a comparison says nothing of placing or of kind 6.
const NEEDED: [Seen; 22] = [
    Seen::PlaceUnlent,
    Seen::PlacedElsewhere,
    Seen::PlacedByChain,
    Seen::PlacedSaved,
    Seen::PlacedTried,
    Seen::NamedTwo,
    Seen::NamedThree,
    Seen::NamedMore,
    Seen::NamedTried,
    Seen::AssignRefused,
    Seen::AssignedCheaper,
    Seen::AssignedUnstuck,
    Seen::AssignedBesideVanished,
    Seen::AssignedSaved,
    Seen::AssignedAtLimit,
    Seen::AssignedBetter,
    Seen::AssignedDearer,
    Seen::AssignedEven,
    Seen::AssignedSwap,
    Seen::AssignedChain,
    Seen::AssignedMoved,
    Seen::AssignedStuckTried,
];

const SEEN: [&str; Seen::AssignedStuckTried as usize + 1] = [
    "readable sheets with a 255",
    "of these with one at every node",
    "of these with one alone at some node",
    "of these with an L of 0",
    "sheets refused 5 with a 255 that is not last",
    "of these with 255 twice at a node",
    "reports on a kept matching with 255 twice or more",
    "reports refused 10 with 255 twice or more",
    "runs that keep a new matching with 255 twice or more",
    "runs with a rounding stuck at a node without a 255, others having one",
    "runs refused 12 at kind 3 naming a 255",
    "runs refused 12 at kind 4 naming a 255",
    "runs and reports with a label cost not 0 at a 255",
    "runs and reports refused 9 for label costs at a 255 alone",
    "sweeps written for a sheet with a 255",
    "sweeps refused 8 for a length of 2E + N + 1 records",
    "readable sheets with an edge whose ends share a label",
    "of these at less than half of the edges",
    "of these at every edge",
    "of these with an edge whose ends have the same labels, two or more",
    "readable sheets with a position that has no usable cell on an edge",
    "readable sheets with an edge of one cell and two labels",
    "readable sheets with an edge of one cell and 255 twice",
    "sheets refused 15",
    "of these for one edge among others",
    "sheets refused 7 with an edge that has no usable cell",
    "sheets refused 5 with an edge that has no usable cell",
    "reads refused 15 with an answer of another length",
    "opens refused 15 with a buffer of another length",
    "runs refused 15 with a buffer of another length",
    "runs refused 15 with a list of a length that is no multiple of 5",
    "runs and reports refused 15 with a cost past the limit",
    "reports refused 15 with a buffer of another length",
    "sweeps refused 15 with a direction that does not exist",
    "sweeps refused 15 with a buffer of another length",
    "edges refused 15 with a number that does not exist",
    "reports with an unusable cell below the usable ones of its edge",
    "reports with the cell of 255 and 255 below the other usable ones of its edge",
    "reports refused 14 that would not be if every cell were usable",
    "records looked at, of kind 1, that move an unusable cell",
    "records looked at, of kind 2, that move an unusable cell",
    "records looked at, of kind 2, with an unusable cell below the usable ones of its position",
    "records looked at, of kind 2, with an unusable cell below the usable ones of its edge",
    "records looked at, of kind 2, to an end with a position that has no usable cell",
    "records looked at, of kind 2, with the cell of 255 and 255 below the others of its position",
    "runs refused 13 at kind 1 for unusable cells alone",
    "runs refused 13 at kind 2 for unusable cells alone",
    "places refused 15 with bytes of another length",
    "places refused 8 that would be refused 16",
    "placings of no node",
    "placings with every node at its first label",
    "placings with a node elsewhere",
    "of these where taking the first free label in turn gets stuck",
    "placings with a node at 255",
    "placings on a sheet that has none without its 255s",
    "placings held against all labellings",
    "placings written over the kept matching",
    "sets named, of two nodes",
    "sets named, of three",
    "sets named, of four to sixteen",
    "sets named, of seventeen or more",
    "sets named, of all nodes there are",
    "sets named where another node has a 255",
    "sets named where the other nodes cannot be placed either",
    "sets named after a look at all labellings",
    "sets named, written over the kept matching",
    "sets named by one side where the other named another",
    "runs refused 12 at kind 6 with a byte that is not 0",
    "records looked at, of kind 6, that find a matching",
    "of these with a lower sum than that of kind 5",
    "of these where kind 5 gets stuck",
    "of these with two nodes or more at 255",
    "of these with nodes that take a 255 and nodes that take a label instead",
    "of these with a node at 255 on a sheet that has no matching without its 255s",
    "of these with a node cost of 2^40 on either side taken",
    "of these with none kept before",
    "of these that replace a matching kept before",
    "of these with a lower sum than one kept before that is no dearer on the sheet and stays",
    "of these that cost on the sheet what another kept before costs, which stays",
    "records looked at, of kind 6, that get stuck",
    "of these with a 255 somewhere",
    "records looked at, of kind 6, held against all labellings",
    "of these where several have the least sum",
    "of these where the first two of them differ at two nodes",
    "of these where the first two of them differ at three nodes or more",
    "of these where the least sum of the sheet's prices is another matching's",
    "records looked at, of kind 6, stuck after a look at all labellings",
];

/// What shows how amounts are rounded, by place in ROUNDED.
#[derive(Clone, Copy)]
enum Rounded {
    EvenShare,
    OddShare,
    HalfAtEven,
    HalfAtOdd,
    Less,
    JustLess,
    More,
    JustMore,
    Nothing,
    One,
    Far,
    Refused,
    Spared,
}

const ROUNDED: [&str; Rounded::Spared as usize + 1] = [
    "with an even share",
    "with an odd share",
    "with an exact half at an even quotient, toward zero",
    "with an exact half at an odd quotient, away from zero",
    "with less than a half, toward zero",
    "of these as near to a half as can be",
    "with more than a half, away from zero",
    "of these as near to a half as can be",
    "with an amount of 0 from another distance",
    "with an amount of 1 or -1 from a distance less than the share",
    "with a remainder of a distance over 2^39",
    "refused 13, which would not be if rounded toward zero",
    "done, which would be refused 13 if rounded away from zero",
];
/// Kinds, with the sign of the distance.
const MOVES: [&str; 6] = ["1", "2", "3 +", "3 -", "4 +", "4 -"];

struct Tally {
    /// How often each call answered each refusal, 0 being none.
    refusals: [[u64; REFUSALS]; CALLS.len()],
    seen: [u64; SEEN.len()],
    rounded: [[u64; MOVES.len()]; ROUNDED.len()],
}

impl Tally {
    const EMPTY: Self = Tally {
        refusals: [[0; REFUSALS]; CALLS.len()],
        seen: [0; SEEN.len()],
        rounded: [[0; MOVES.len()]; ROUNDED.len()],
    };

    fn see(&mut self, what: Seen, occurs: bool) {
        self.seen[what as usize] += u64::from(occurs);
    }

    /// Kinds 1 and 2 have no distance below 0.
    fn see_rounded(&mut self, what: Rounded, kind: u8, below: bool, occurs: bool) {
        let place = usize::from(kind - 1) + usize::from(kind == 4) + usize::from(below);
        self.rounded[what as usize][place] += u64::from(occurs);
    }
}

/// Where a readable sheet has a 255.
struct Place {
    node: usize,
    position: usize,
    cell: usize,
}

/// A cell of an edge: its place in the buffer, and the position and label of each end.
struct Cell {
    place: usize,
    positions: [usize; 2],
    labels: [u8; 2],
}

impl Cell {
    fn usable(&self) -> bool {
        self.labels[0] != self.labels[1] || self.vanished()
    }

    fn vanished(&self) -> bool {
        self.labels == [VANISHED; 2]
    }
}

/// A record of kind 1 to 4.
struct Move {
    kind: u8,
    share: i64,
    /// Of an edge, or a position of the node.
    index: usize,
    /// Where the node's cells begin, and how many it has.
    start: usize,
    degree: usize,
    /// For kinds 1 and 2: which end of the edge the node is.
    end: usize,
}

impl Move {
    /// For kinds 3 and 4.
    fn at_index(&self, distance: i64) -> Vec<i64> {
        (0..self.degree).map(|position| if position == self.index { distance } else { 0 }).collect()
    }
}

/// What a sheet has at its nodes and edges.
#[derive(Default)]
struct Layout {
    /// Each node's labels.
    labels: Vec<Vec<u8>>,
    ends: Vec<[u8; 2]>,
    /// Each edge's cells.
    tables: Vec<Vec<Cell>>,
}

impl Layout {
    /// Nothing unless the sections fit: a sheet refused with 5, 7 or 15 has a layout too.
    fn new(bytes: &[u8]) -> Self {
        if !matches!(refusal(bytes), None | Some(Refusal::Label | Refusal::Price | Refusal::Unusable)) {
            return Layout::default();
        }
        let trailer = &bytes[bytes.len() - TRAILER..];
        let edges = usize::from(u16::from_le_bytes([trailer[2], trailer[3]]));
        let (degrees, mut rest) = bytes.split_at(usize::from(trailer[0]));
        let mut labels = Vec::new();
        for &degree in degrees {
            let (own, others) = rest.split_at(usize::from(degree));
            labels.push(own.to_vec());
            rest = others;
        }
        let node_cells = labels.iter().map(Vec::len).sum::<usize>();
        let (ends, _) = rest[4 * node_cells..].as_chunks::<2>();
        let ends = ends[..edges].to_vec();
        let mut places = 0..;
        let tables = ends.iter().map(|&[u, v]| {
            let mut table = Vec::new();
            for (row, &low) in labels[usize::from(u)].iter().enumerate() {
                for (column, &high) in labels[usize::from(v)].iter().enumerate() {
                    let place = places.next().unwrap_or_default();
                    table.push(Cell { place, positions: [row, column], labels: [low, high] });
                }
            }
            table
        });
        let tables = tables.collect();
        Layout { labels, ends, tables }
    }

    /// Buffers of the right lengths.
    fn buffers(&self) -> Buffers {
        let node_cells = self.labels.iter().map(Vec::len).sum();
        let edge_cells = self.tables.iter().map(Vec::len).sum();
        Buffers::zeros(node_cells, node_cells, edge_cells, self.labels.len())
    }

    fn vanished(&self) -> Vec<Place> {
        let mut places = Vec::new();
        let mut end = 0;
        for (node, own) in self.labels.iter().enumerate() {
            end += own.len();
            if own.last() == Some(&VANISHED) {
                places.push(Place { node, position: own.len() - 1, cell: end - 1 });
            }
        }
        places
    }

    /// How many edges have no usable cell.
    fn blocked(&self) -> usize {
        self.tables.iter().filter(|table| !table.iter().any(Cell::usable)).count()
    }

    fn unusable(&self) -> impl Iterator<Item = &Cell> {
        self.tables.iter().flatten().filter(|cell| !cell.usable())
    }

    /// For a record of kind 1 to 4 that exists.
    fn movement(&self, [kind, node, low, high, share]: [u8; RECORD]) -> Move {
        let index = usize::from(u16::from_le_bytes([low, high]));
        let (before, from) = self.labels.split_at(usize::from(node));
        let start = before.iter().map(Vec::len).sum();
        let end = usize::from(kind <= 2 && self.ends[index][1] == node);
        Move { kind, share: i64::from(share), index, start, degree: from[0].len(), end }
    }

    /// What is divided by the share at each of the node's positions: 0 where nothing moves.
    fn distances(&self, of: &Move, lent: &Buffers) -> Vec<i64> {
        let costs = &lent.nodes[of.start..][..of.degree];
        match of.kind {
            1 => {
                let least = costs.iter().min().copied().unwrap_or(0);
                costs.iter().map(|cost| cost - least).collect()
            }
            2 => {
                let usable = || self.tables[of.index].iter().filter(|cell| cell.usable());
                let of_edge = least(&lent.edges, usable());
                let at = |k| least(&lent.edges, usable().filter(|cell| cell.positions[of.end] == k));
                (0..of.degree).map(|k| at(k).zip(of_edge).map_or(0, |(own, least)| own - least)).collect()
            }
            3 => {
                let others = (0..of.degree).filter(|&k| k != of.index).map(|k| costs[k]);
                of.at_index(others.min().map_or(0, |least| costs[of.index] - least))
            }
            _ => {
                let labels = self.labels.concat();
                let own = of.start + of.index;
                let others = (0..labels.len()).filter(|&cell| cell != own && labels[cell] == labels[own]);
                let least = others.map(|cell| lent.labels[cell]).fold(0, i64::min);
                of.at_index(lent.labels[own] - least)
            }
        }
    }

    /// Whether a cost passes the limit if each position moves its amount, with the edge's cells that count.
    fn passes(&self, of: &Move, lent: &Buffers, amounts: &[i64], counts: impl Fn(&Cell) -> bool) -> bool {
        let past = |cost: i64| !(-LIMIT..=LIMIT).contains(&cost);
        // The others move toward their rivals.
        let rising = match of.kind {
            1 => &[],
            3 => &lent.labels[of.start..],
            _ => &lent.nodes[of.start..],
        };
        let cells = if of.kind <= 2 { self.tables[of.index].as_slice() } else { &[] };
        let sign = if of.kind == 1 { 1 } else { -1 };
        let moved = |cell: &Cell| lent.edges[cell.place] + sign * amounts[cell.positions[of.end]];
        rising.iter().zip(amounts).any(|(cost, amount)| past(cost + amount))
            || cells.iter().any(|cell| counts(cell) && past(moved(cell)))
    }
}

/// Of the whole numbers on either side the nearer one, the even one if neither is.
fn nearest(distance: i64, share: i64) -> i64 {
    let down = distance.div_euclid(share);
    match (2 * distance.rem_euclid(share)).cmp(&share) {
        Ordering::Less => down,
        Ordering::Equal => down + (down & 1),
        Ordering::Greater => down + 1,
    }
}

fn refusal(bytes: &[u8]) -> Option<Refusal> {
    twin::read(bytes).err()
}

/// The least cost of some cells, none if there are none.
fn least<'a>(edges: &[i64], cells: impl Iterator<Item = &'a Cell>) -> Option<i64> {
    cells.map(|cell| edges[cell.place]).min()
}

/// Whether the first of the costs is lower; none is higher than all.
fn lower(left: Option<i64>, right: Option<i64>) -> bool {
    left.is_some_and(|left| right.is_none_or(|right| left < right))
}

/// The name of the call that differed.
struct Difference(&'static str);

/// One sheet and both sides' buffers.
struct Case<'a> {
    sheet: &'a [u8],
    proved: Buffers,
    twin: Buffers,
    layout: Layout,
    vanished: Vec<Place>,
    /// By going through all labellings, unless there are too many.
    smallest: Option<Option<Vec<u8>>>,
    /// Likewise, when first asked for.
    matchings: OnceCell<Option<Vec<Vec<u8>>>>,
    tally: &'a mut Tally,
}

/// Answers whether all were alike.
pub fn compare(seed: u64, count: u64) -> bool {
    let mut tally = Tally::EMPTY;
    for case in 0..count {
        let mut rng = Rng(seed.wrapping_mul(0x1_0000_0001).wrapping_add(case << 20));
        if let Err(Difference(call)) = compare_case(&mut rng, &mut tally) {
            println!("seed {seed} case {case}: {call} differs");
            return false;
        }
    }
    print(seed, count, &tally);
    let missing = || NEEDED.into_iter().filter(|&what| tally.seen[what as usize] == 0);
    missing().for_each(|what| println!("none came up: {}", SEEN[what as usize]));
    missing().next().is_none()
}

fn print(seed: u64, count: u64, tally: &Tally) {
    println!("seed {seed}, {count} cases, 0 differed; calls by refusal:");
    let line = |name: &str, cells: &[u64]| {
        let cells: String = cells.iter().map(|cell| format!("{cell:>8}")).collect();
        println!("{name:<7}{cells}");
    };
    line("", &(0..REFUSALS as u64).collect::<Vec<_>>());
    for (name, row) in CALLS.iter().zip(&tally.refusals) {
        line(name, row);
    }
    for (what, count) in SEEN.iter().zip(tally.seen) {
        println!("{count:>15}  {what}");
    }
    println!("records looked at with a share other than 1, by kind and sign of a distance:");
    println!("{}", MOVES.map(|kind| format!("{kind:>8}")).concat());
    for (what, row) in ROUNDED.iter().zip(tally.rounded) {
        println!("{}  {what}", row.map(|count| format!("{count:>8}")).concat());
    }
}

fn compare_case(rng: &mut Rng, tally: &mut Tally) -> Result<(), Difference> {
    let sheet = if rng.percent(65) { sheets::valid(rng).bytes() } else { sheets::damaged(rng) };
    let layout = Layout::new(&sheet);
    see_sheet(&sheet, &layout, tally);
    let buffers = layout.buffers();
    let vanished = layout.vanished();
    let smallest = refusal(&sheet)
        .map_or_else(|| checker::smallest_matching(&checker::labels_by_node(&sheet)), |_| None);
    let (proved, twin) = (buffers.clone(), buffers);
    let matchings = OnceCell::new();
    let mut case = Case { sheet: &sheet, proved, twin, layout, vanished, smallest, matchings, tally };
    case.read(rng)?;
    case.edge(rng)?;
    case.poke_all(rng);
    case.open()?;
    case.place(rng)?;
    for _ in 0..10 {
        case.step(rng)?;
    }
    Ok(())
}

fn see_sheet(bytes: &[u8], layout: &Layout, tally: &mut Tally) {
    let blocked = layout.blocked();
    let several = layout.tables.len() > 1;
    match refusal(bytes) {
        None => see_readable(layout, bytes[bytes.len() - TRAILER + 1], tally),
        Some(Refusal::Label) => {
            tally.see(Seen::BlockedLabel, blocked > 0);
            see_misplaced(layout, tally);
        }
        Some(Refusal::Price) => tally.see(Seen::BlockedPrice, blocked > 0),
        Some(Refusal::Unusable) => {
            tally.see(Seen::Blocked, true);
            tally.see(Seen::BlockedOnce, blocked == 1 && several);
        }
        Some(_) => {}
    }
}

fn see_readable(layout: &Layout, label_limit: u8, tally: &mut Tally) {
    let Layout { labels, tables, .. } = layout;
    let places = layout.vanished();
    let any = !places.is_empty();
    tally.see(Seen::Sheet, any);
    tally.see(Seen::EveryNode, any && places.len() == labels.len());
    tally.see(Seen::Alone, places.iter().any(|place| labels[place.node].len() == 1));
    tally.see(Seen::NoOthers, any && label_limit == 0);

    let shared = |table: &[Cell]| table.iter().filter(|cell| !cell.usable()).count();
    let sharing = tables.iter().filter(|table| shared(table) > 0).count();
    tally.see(Seen::Shared, sharing > 0);
    tally.see(Seen::SharedSeldom, sharing > 0 && 2 * sharing < tables.len());
    tally.see(Seen::SharedEverywhere, sharing > 0 && sharing == tables.len());
    let wholly = |table: &[Cell]| shared(table) > 1 && shared(table) * shared(table) == table.len();
    tally.see(Seen::SharedWholly, tables.iter().any(|table| wholly(table)));
    let bare = |table: &[Cell]| (0..2).any(|end| has_bare_position(table, end));
    tally.see(Seen::Bare, tables.iter().any(|table| bare(table)));
    let of_one = || tables.iter().filter(|table| table.len() == 1).map(|table| &table[0]);
    tally.see(Seen::OneCell, of_one().any(|cell| !cell.vanished()));
    tally.see(Seen::OneVanished, of_one().any(Cell::vanished));
}

/// Whether a position of that end has no usable cell.
fn has_bare_position(table: &[Cell], end: usize) -> bool {
    let usable = |position| table.iter().any(|cell| cell.usable() && cell.positions[end] == position);
    table.iter().any(|cell| !usable(cell.positions[end]))
}

/// For a sheet refused with 5.
fn see_misplaced(layout: &Layout, tally: &mut Tally) {
    let not_last = |own: &[u8]| own[..own.len() - 1].contains(&VANISHED);
    let twice = |own: &[u8]| own.iter().filter(|&&label| label == VANISHED).count() > 1;
    tally.see(Seen::NotLast, layout.labels.iter().any(|own| not_last(own)));
    tally.see(Seen::Twice, layout.labels.iter().any(|own| twice(own)));
}

/// Whether a node finds no label if each takes its first one that no earlier node has.
fn gets_stuck(nodes: &[&[u8]]) -> bool {
    let mut taken = Vec::new();
    !nodes.iter().all(|own| {
        let free = own.iter().find(|&&label| label == VANISHED || !taken.contains(&label));
        taken.extend(free);
        free.is_some()
    })
}

/// At how many places two labellings differ.
fn differences(one: &[u8], other: &[u8]) -> usize {
    one.iter().zip(other).filter(|(one, other)| one != other).count()
}

/// The right number of places, now and then another.
fn places(rng: &mut Rng, right: usize) -> usize {
    if rng.percent(95) {
        right
    } else {
        rng.below(right + 3)
    }
}

impl Case<'_> {
    fn step(&mut self, rng: &mut Rng) -> Result<(), Difference> {
        match rng.below(20) {
            0 => self.read(rng),
            1 => self.edge(rng),
            2 => self.open(),
            3..=5 => self.sweep(rng),
            6..=8 => {
                let records = self.records(rng);
                self.run(rng, &records)
            }
            9..=10 => self.report(rng),
            11 => self.with_other_length(rng),
            12..=13 => self.run_halves(rng),
            14 => self.place(rng),
            15..=17 => self.run_assignments(rng),
            _ => {
                self.poke(rng);
                self.report(rng)?;
                let records = self.records(rng);
                self.run(rng, &records)
            }
        }
    }

    /// Counts the call, and compares what both answered and what both hold.
    fn judge<T: PartialEq>(
        &mut self,
        call: usize,
        number: u64,
        proved: T,
        twin: T,
    ) -> Result<(), Difference> {
        self.tally.refusals[call][number as usize % REFUSALS] += 1;
        if proved == twin && self.proved == self.twin {
            Ok(())
        } else {
            Err(Difference(CALLS[call]))
        }
    }

    fn read(&mut self, rng: &mut Rng) -> Result<(), Difference> {
        let length = places(rng, READING);
        let (mut left, mut right) = (vec![77; length], vec![77; length]);
        let left_number = Proved::read(self.sheet, &mut left);
        let number = Twin::read(self.sheet, &mut right);
        self.see_blocked(Seen::BlockedRead, number, length != READING);
        self.judge(0, u64::from(number), (left_number, left), (number, right))
    }

    fn open(&mut self) -> Result<(), Difference> {
        let left = Proved::open(self.sheet, &mut self.proved);
        let right = Twin::open(self.sheet, &mut self.twin);
        self.see_blocked(Seen::BlockedOpen, right, !self.fits());
        self.judge(1, u64::from(right), left, right)
    }

    fn run(&mut self, rng: &mut Rng, records: &[u8]) -> Result<(), Difference> {
        let length = places(rng, COUNTS);
        let (mut left, mut right) = (vec![77; length], vec![77; length]);
        let before = self.twin.clone();
        let costs = self.vanished_costs();
        let left_number = Proved::run(self.sheet, records, &mut self.proved, &mut left);
        let number = Twin::run(self.sheet, records, &mut self.twin, &mut right);
        self.see_costs(number, costs);
        self.see_blocked(Seen::BlockedRun, number, length != COUNTS || !self.fits());
        self.see_blocked(Seen::BlockedRagged, number, records.len() % RECORD != 0);
        self.see_run(number, records, &right, &before.incumbent);
        self.see_records(rng, number, records, &right, &before);
        self.check_assignment(rng, number, records, &right, &before)?;
        self.judge(2, u64::from(number), (left_number, left), (number, right))
    }

    fn report(&mut self, rng: &mut Rng) -> Result<(), Difference> {
        let length = places(rng, VALUES);
        let (mut left, mut right) = (vec![77; length], vec![77; length]);
        let left_number = Proved::report(self.sheet, &self.proved, &mut left);
        let number = Twin::report(self.sheet, &self.twin, &mut right);
        self.see_costs(number, self.vanished_costs());
        self.see_blocked(Seen::BlockedReport, number, length != VALUES || !self.fits());
        self.see_bound(number);
        let twice = self.vanished_taken() > 1;
        self.tally.see(Seen::Reported, number == 0 && twice);
        self.tally.see(Seen::Torn, number == Refusal::Incumbent as u8 && twice);
        self.judge(3, u64::from(number), (left_number, left), (number, right))
    }

    /// Writes a sweep and, if it was written, runs it.
    fn sweep(&mut self, rng: &mut Rng) -> Result<(), Difference> {
        let direction = if rng.percent(92) { rng.byte() & 1 } else { rng.pick(&[2, 3, 128, 255]) };
        // As if no label were 255.
        let full = RECORD * (2 * self.layout.tables.len() + self.layout.buffers().labels.len() + 1);
        let fitting = full - RECORD * self.vanished.len();
        let others = [0, fitting - 1, fitting + 1, fitting - RECORD, fitting + RECORD, full, full];
        let length = if rng.percent(88) { fitting } else { rng.pick(&others) };
        let (mut left, mut right) = (vec![0xA5; length], vec![0xA5; length]);
        let left_number = Proved::sweep(self.sheet, direction, &mut left);
        let number = Twin::sweep(self.sheet, direction, &mut right);
        self.see_blocked(Seen::BlockedDirection, number, direction > 1);
        self.see_blocked(Seen::BlockedSweep, number, direction <= 1 && length != fitting);
        let any = !self.vanished.is_empty();
        self.tally.see(Seen::Written, number == 0 && any);
        self.tally.see(Seen::Unfit, number == Refusal::Lent as u8 && any && length == full);
        self.judge(4, u64::from(number), (left_number, &left), (number, &right))?;
        if number == 0 {
            self.run(rng, &right)
        } else {
            Ok(())
        }
    }

    fn edge(&mut self, rng: &mut Rng) -> Result<(), Difference> {
        let edges = self.layout.tables.len();
        let edge = if rng.percent(85) {
            rng.below(edges)
        } else {
            rng.pick(&[edges, edges + 1, 255, 256, 65_536, usize::MAX])
        };
        let length = places(rng, SPAN);
        let (mut left, mut right) = (vec![77; length], vec![77; length]);
        let left_number = Proved::edge(self.sheet, edge, &mut left);
        let number = Twin::edge(self.sheet, edge, &mut right);
        self.see_blocked(Seen::BlockedEdge, number, edge >= edges);
        if let [offset, length] = right[..] {
            let part = &self.sheet[offset as usize..][..length as usize];
            assert_eq!(part, twin::edge_prices(self.sheet, edge));
            assert_eq!(number, twin::edge_refusal(self.sheet, edge).map_or(0, |refusal| refusal as u8));
        }
        self.judge(5, u64::from(number), (left_number, left), (number, right))
    }

    /// On bytes of any content, now and then of another number than nodes, or on those of the kept matching.
    fn place(&mut self, rng: &mut Rng) -> Result<(), Difference> {
        let over_kept = rng.percent(20);
        let before = if over_kept { self.twin.incumbent.clone() } else { self.some_bytes(rng) };
        let (left_number, mut left) = self.checked_place::<Proved>(&before)?;
        let (number, right) = self.checked_place::<Twin>(&before)?;
        self.see_blocked(Seen::BlockedPlace, number, before.len() != self.layout.labels.len());
        match number {
            PLACED => self.see_placed(&right, over_kept),
            NOT_PLACED => self.see_named(&right, over_kept, left != right),
            _ => self.see_unplaced(number),
        }
        // Any such set may be named.
        if number == NOT_PLACED && left_number == NOT_PLACED {
            left.clone_from(&right);
        }
        if over_kept {
            self.proved.incumbent.clone_from(&left);
            self.twin.incumbent.clone_from(&right);
        }
        self.judge(6, u64::from(number), (left_number, left), (number, right))
    }

    /// What is lent to a placing.
    fn some_bytes(&self, rng: &mut Rng) -> Vec<u8> {
        let nodes = self.layout.labels.len();
        let others = [0, 1, nodes + 1, nodes.saturating_sub(1), 2 * nodes, twin::MAX_NODES, 300];
        let length = if rng.percent(88) { nodes } else { rng.pick(&others) };
        let same = rng.pick(&[None, None, Some(0), Some(1), Some(255)]);
        (0..length).map(|_| same.unwrap_or(rng.byte())).collect()
    }

    /// What one side answers and the bytes after it, which have to be what the answer says they are.
    fn checked_place<S: Calls>(&self, before: &[u8]) -> Result<(u8, Vec<u8>), Difference> {
        let mut bytes = before.to_vec();
        let number = S::place(self.sheet, &mut bytes);
        let readable = refusal(self.sheet).is_none();
        let right = match number {
            PLACED => {
                let smallest =
                    self.smallest.as_ref().is_none_or(|matching| matching.as_ref() == Some(&bytes));
                readable && smallest && checker::is_matching(&self.nodes(), &bytes)
            }
            NOT_PLACED => {
                let none = self.smallest.as_ref().is_none_or(Option::is_none);
                readable && none && checker::is_obstruction(self.sheet, &bytes)
            }
            _ => bytes == before,
        };
        if right {
            Ok((number, bytes))
        } else {
            println!("{} answers {number} and leaves {bytes:?}, which is not so", S::NAME);
            Err(Difference("place"))
        }
    }

    /// Each node's labels.
    fn nodes(&self) -> Vec<&[u8]> {
        self.layout.labels.iter().map(Vec::as_slice).collect()
    }

    /// Opens, runs and reports with one buffer too long or too short, then puts it right.
    fn with_other_length(&mut self, rng: &mut Rng) -> Result<(), Difference> {
        let before = self.twin.clone();
        let buffer = rng.below(4);
        let longer = rng.percent(50);
        for side in [&mut self.proved, &mut self.twin] {
            resize(side, buffer, longer);
        }
        let records = self.records(rng);
        self.run(rng, &records)?;
        self.report(rng)?;
        self.open()?;
        self.proved = before.clone();
        self.twin = before;
        Ok(())
    }

    /// Runs records with one share, most of them, on costs that lie halves of it apart.
    fn run_halves(&mut self, rng: &mut Rng) -> Result<(), Difference> {
        let share = some_share(rng);
        self.poke_halves(rng, i64::from(share));
        let mut records = self.records(rng);
        for record in records.chunks_exact_mut(RECORD) {
            if matches!(record[0], 1..=4) && rng.percent(90) {
                record[4] = share;
            }
        }
        self.run(rng, &records)
    }

    /// Runs lists with records of kind 6 on opened buffers or on any.
    fn run_assignments(&mut self, rng: &mut Rng) -> Result<(), Difference> {
        match rng.below(4) {
            0 => self.open()?,
            1 => {}
            _ => self.poke_sums(rng),
        }
        let mut records = match rng.below(4) {
            0 => ASSIGNMENT.to_vec(),
            1 => [[5, 0, 0, 0, 0], ASSIGNMENT].concat(),
            2 => [ASSIGNMENT, [5, 0, 0, 0, 0], ASSIGNMENT].concat(),
            _ => [self.records(rng), ASSIGNMENT.to_vec()].concat(),
        };
        if rng.percent(10) {
            // Of the last record, which is of kind 6.
            let place = records.len() - 1 - rng.below(RECORD - 1);
            records[place] = rng.pick(&[1, 2, 64, 255]);
        }
        self.run(rng, &records)
    }

    /// Of the records of kind 6 that were done one, by both sides on what the records before it leave: what it
    /// keeps has to be what the checker says.
    fn check_assignment(
        &mut self,
        rng: &mut Rng,
        number: u8,
        records: &[u8],
        counts: &[u64],
        before: &Buffers,
    ) -> Result<(), Difference> {
        let (&[done, _], 0 | 12 | 13) = (counts, number) else { return Ok(()) };
        let (records, _) = records.as_chunks::<RECORD>();
        let done = done as usize;
        let at_kind = records.get(done).is_some_and(|record| record[0] == 6);
        self.tally.see(Seen::AssignRefused, number == 12 && at_kind);
        let first = rng.below(done);
        let mut places = (first..done).chain(0..first).filter(|&place| records[place][0] == 6);
        let Some(place) = places.next() else { return Ok(()) };
        let records = records[..place].as_flattened();
        let mut lent = before.clone();
        Twin::run(self.sheet, records, &mut lent, &mut [0; COUNTS]);
        let kept = self.checked_assignment::<Twin>(&lent)?;
        self.see_assignment(&lent, kept.as_deref());
        let mut lent = before.clone();
        Proved::run(self.sheet, records, &mut lent, &mut [0; COUNTS]);
        self.checked_assignment::<Proved>(&lent).map(|_| ())
    }

    /// The matching that one side finds by a record of kind 6, none if it gets stuck. What it keeps has to be
    /// what the checker says of these buffers.
    fn checked_assignment<S: Calls>(&self, lent: &Buffers) -> Result<Option<Vec<u8>>, Difference> {
        let (mut counts, mut after) = ([0; COUNTS], lent.clone());
        let number = S::run(self.sheet, &ASSIGNMENT, &mut after, &mut counts);
        // With none kept it keeps what it finds.
        let mut found = lent.clone();
        found.incumbent.fill(twin::UNSET);
        S::run(self.sheet, &ASSIGNMENT, &mut found, &mut [0; COUNTS]);
        let stuck = counts[1] == 1;
        let found = (!stuck).then_some(found.incumbent);
        let nodes = self.nodes();
        let tried = self
            .matchings()
            .is_none_or(|matchings| checker::cheapest(matchings, &nodes, &lent.nodes) == found.as_ref());
        let mut expected = lent.clone();
        if let Some(found) = found.as_ref().filter(|found| self.is_adopted(found, lent)) {
            expected.incumbent.clone_from(found);
        }
        let matching = found.as_ref().is_none_or(|found| checker::is_matching(&nodes, found));
        let right = number == 0 && counts[0] == 1 && stuck != checker::can_place(&nodes);
        if tried && matching && right && after == expected {
            Ok(found)
        } else {
            println!(
                "{} answers {number}, {counts:?} and keeps {:?}, which is not so",
                S::NAME,
                after.incumbent
            );
            Err(Difference("kind 6"))
        }
    }

    fn is_adopted(&self, found: &[u8], lent: &Buffers) -> bool {
        let on_sheet = |positions: &[u8]| checker::cost_on_sheet(self.sheet, positions);
        self.keeps_none(lent) || on_sheet(found) < on_sheet(&lent.incumbent)
    }

    /// Without nodes the empty matching counts as kept.
    fn keeps_none(&self, lent: &Buffers) -> bool {
        lent.incumbent.iter().all(|&position| position == twin::UNSET) && !lent.incumbent.is_empty()
    }

    /// All matchings of a readable sheet, unless there are too many labellings.
    fn matchings(&self) -> Option<&Vec<Vec<u8>>> {
        self.matchings.get_or_init(|| checker::matchings(&self.nodes())).as_ref()
    }

    /// How many nodes take a 255 in the matching kept.
    fn vanished_taken(&self) -> usize {
        let incumbent = &self.twin.incumbent;
        let takes = |place: &&Place| {
            incumbent.get(place.node).is_some_and(|&position| usize::from(position) == place.position)
        };
        self.vanished.iter().filter(takes).count()
    }

    /// Whether a label cost at a 255 is not 0, and whether the others are all within the limit.
    fn vanished_costs(&self) -> (bool, bool) {
        let mut others = self.twin.clone();
        let mut any = false;
        for place in &self.vanished {
            if let Some(cost) = others.labels.get_mut(place.cell) {
                any |= std::mem::take(cost) != 0;
            }
        }
        let mut all = others.nodes.iter().chain(&others.labels).chain(&others.edges);
        (any, all.all(|cost| (-LIMIT..=LIMIT).contains(cost)))
    }

    /// What a run or report answered, and the costs it found.
    fn see_costs(&mut self, number: u8, (any, others_within): (bool, bool)) {
        self.tally.see(Seen::CostLent, any && matches!(number, 0 | 12..=14));
        self.tally.see(Seen::CostRefused, number == Refusal::CostRange as u8 && others_within);
        self.see_blocked(Seen::BlockedCost, number, !others_within);
    }

    /// A call refused with 15 that would be refused later.
    fn see_blocked(&mut self, what: Seen, number: u8, later: bool) {
        self.tally.see(what, number == Refusal::Unusable as u8 && later);
    }

    fn fits(&self) -> bool {
        let lengths = |buffers: &Buffers| {
            [buffers.nodes.len(), buffers.labels.len(), buffers.edges.len(), buffers.incumbent.len()]
        };
        lengths(&self.twin) == lengths(&self.layout.buffers())
    }

    /// What a report answered, and the edges' least cells.
    fn see_bound(&mut self, number: u8) {
        if !matches!(number, 0 | 14) {
            return;
        }
        let mut every_usable = self.twin.clone();
        let (mut unusable_least, mut vanished_least) = (false, false);
        for table in &self.layout.tables {
            let edges = &self.twin.edges;
            let of_usable = least(edges, table.iter().filter(|cell| cell.usable()));
            let of_others = least(edges, table.iter().filter(|cell| cell.usable() && !cell.vanished()));
            let of_all = least(edges, table.iter());
            unusable_least |= lower(of_all, of_usable);
            vanished_least |= lower(of_usable, of_others);
            // The bound as if every cell were usable, by one that is.
            if let Some((cell, cost)) = table.iter().find(|cell| cell.usable()).zip(of_all) {
                every_usable.edges[cell.place] = cost;
            }
        }
        self.tally.see(Seen::Bounded, number == 0 && unusable_least);
        self.tally.see(Seen::BoundedVanished, number == 0 && vanished_least);
        if number == Refusal::Bound as u8 && unusable_least {
            let answer = Twin::report(self.sheet, &every_usable, &mut [0; VALUES]);
            self.tally.see(Seen::BoundedRefused, answer == 0);
        }
    }

    /// Of each kind from 1 to 4 one of the records done, and the one refused with 13.
    fn see_records(&mut self, rng: &mut Rng, number: u8, records: &[u8], counts: &[u64], before: &Buffers) {
        let (&[done, _], 0 | 12 | 13) = (counts, number) else { return };
        let (records, _) = records.as_chunks::<RECORD>();
        let done = done as usize;
        let first = rng.below(done);
        let looked_at = (1..=4).filter_map(|kind| {
            let mut places = (first..done).chain(0..first).filter(|&place| records[place][0] == kind);
            // Rather with a share to round by.
            places.clone().find(|&place| records[place][4] != 1).or_else(|| places.next())
        });
        let refused = (number == Refusal::Overflow as u8).then_some(done);
        for place in looked_at.chain(refused) {
            let mut lent = before.clone();
            Twin::run(self.sheet, records[..place].as_flattened(), &mut lent, &mut [0; COUNTS]);
            let of = self.layout.movement(records[place]);
            let distances = self.layout.distances(&of, &lent);
            self.see_rounding(&of, &lent, &distances, place == done);
            if of.kind <= 2 {
                self.see_unusable(&of, &lent, &distances, place == done);
            }
        }
    }

    /// A record of kind 1 to 4, the buffers before it and its distances.
    fn see_rounding(&mut self, of: &Move, lent: &Buffers, distances: &[i64], refused: bool) {
        let &Move { kind, share, .. } = of;
        if share == 1 {
            return;
        }
        let toward_zero = |distance: &i64| distance / share;
        let away_from_zero = |distance: &i64| distance / share + (distance % share).signum();
        let twice = |distance: i64| 2 * (distance % share).abs();
        let odd = |distance: i64| distance / share % 2 != 0;
        let passes = |amounts: Vec<i64>| self.layout.passes(of, lent, &amounts, |_| true);
        let refused_toward = passes(distances.iter().map(toward_zero).collect());
        let refused_away = passes(distances.iter().map(away_from_zero).collect());
        for below in [false, true] {
            let sign = if below { -1 } else { 1 };
            let own: Vec<i64> =
                distances.iter().copied().filter(|distance| distance.signum() == sign).collect();
            if own.is_empty() {
                continue;
            }
            if refused {
                self.tally.see_rounded(Rounded::Refused, kind, below, !refused_toward);
                continue;
            }
            let any = |shows: &dyn Fn(i64) -> bool| own.iter().any(|&distance| shows(distance));
            let less = |distance| (1..share).contains(&twice(distance));
            let seen = [
                (Rounded::EvenShare, share % 2 == 0),
                (Rounded::OddShare, share % 2 != 0),
                (Rounded::HalfAtEven, any(&|distance| twice(distance) == share && !odd(distance))),
                (Rounded::HalfAtOdd, any(&|distance| twice(distance) == share && odd(distance))),
                (Rounded::Less, any(&less)),
                (Rounded::JustLess, any(&|distance| less(distance) && twice(distance) + 2 >= share)),
                (Rounded::More, any(&|distance| twice(distance) > share)),
                (Rounded::JustMore, any(&|distance| (share + 1..=share + 2).contains(&twice(distance)))),
                (Rounded::Nothing, any(&|distance| nearest(distance, share) == 0)),
                (Rounded::One, any(&|distance| distance.abs() < share && nearest(distance, share) != 0)),
                (Rounded::Far, any(&|distance| distance.abs() > LIMIT / 2 && twice(distance) != 0)),
                (Rounded::Spared, refused_away),
            ];
            for (what, occurs) in seen {
                self.tally.see_rounded(what, kind, below, occurs);
            }
        }
    }

    /// A record of kind 1 or 2, the buffers before it and its distances.
    fn see_unusable(&mut self, of: &Move, lent: &Buffers, distances: &[i64], refused: bool) {
        let &Move { kind, share, end, .. } = of;
        let table = &self.layout.tables[of.index];
        let amounts: Vec<i64> = distances.iter().map(|&distance| nearest(distance, share)).collect();
        let unusable = || table.iter().filter(|cell| !cell.usable());
        if refused {
            let passes = |counts: fn(&Cell) -> bool| self.layout.passes(of, lent, &amounts, counts);
            let alone = passes(|_| true) && !passes(Cell::usable);
            self.tally.see(if kind == 1 { Seen::RaisedOver } else { Seen::LoweredOver }, alone);
            return;
        }
        let moves = unusable().any(|cell| amounts[cell.positions[end]] != 0);
        if kind == 1 {
            return self.tally.see(Seen::Raised, moves);
        }
        let at = |position| table.iter().filter(move |cell| cell.positions[end] == position);
        let below_position = |cell: &Cell| {
            let usable = at(cell.positions[end]).filter(|cell| cell.usable());
            lower(Some(lent.edges[cell.place]), least(&lent.edges, usable))
        };
        let vanished_below = |cell: &Cell| {
            let others = at(cell.positions[end]).filter(|other| !other.vanished());
            cell.vanished() && lower(Some(lent.edges[cell.place]), least(&lent.edges, others))
        };
        let of_edge = least(&lent.edges, table.iter().filter(|cell| cell.usable()));
        let below_edge = lower(least(&lent.edges, unusable()), of_edge);
        let seen = [
            (Seen::Lowered, moves),
            (Seen::LeastOfPosition, unusable().any(below_position)),
            (Seen::LeastOfEdge, below_edge),
            (Seen::BareNamed, has_bare_position(table, end)),
            (Seen::LeastVanished, table.iter().any(vanished_below)),
        ];
        for (what, occurs) in seen {
            self.tally.see(what, occurs);
        }
    }

    fn see_placed(&mut self, positions: &[u8], over_kept: bool) {
        let none = positions.is_empty();
        let first = positions.iter().all(|&position| position == 0);
        let vanished = self.vanished.iter().any(|place| usize::from(positions[place.node]) == place.position);
        let saved = vanished && !self.can_place_without_vanished();
        let seen = [
            (Seen::PlacedNone, none),
            (Seen::PlacedOnFirst, first && !none),
            (Seen::PlacedElsewhere, !first),
            (Seen::PlacedByChain, gets_stuck(&self.nodes())),
            (Seen::PlacedVanished, vanished),
            (Seen::PlacedSaved, saved),
            (Seen::PlacedTried, self.smallest.is_some() && !none),
            (Seen::PlacedOverKept, over_kept && !none),
        ];
        for (what, occurs) in seen {
            self.tally.see(what, occurs);
        }
    }

    /// A set named by the twin; whether the library named another.
    fn see_named(&mut self, bytes: &[u8], over_kept: bool, apart: bool) {
        let members = bytes.iter().filter(|&&byte| byte == 1).count();
        let others = self.nodes().into_iter().zip(bytes).filter(|&(_, &byte)| byte == 0);
        let others: Vec<&[u8]> = others.map(|(own, _)| own).collect();
        let seen = [
            (Seen::NamedTwo, members == 2),
            (Seen::NamedThree, members == 3),
            (Seen::NamedMore, (4..=16).contains(&members)),
            (Seen::NamedMany, members > 16),
            (Seen::NamedAll, members == bytes.len()),
            (Seen::NamedBesideVanished, !self.vanished.is_empty()),
            (Seen::NamedOneOfSeveral, !checker::can_place(&others)),
            (Seen::NamedTried, self.smallest.is_some()),
            (Seen::NamedOverKept, over_kept),
            (Seen::NamedApart, apart),
        ];
        for (what, occurs) in seen {
            self.tally.see(what, occurs);
        }
    }

    /// What a record of kind 6 found, and the buffers before it.
    fn see_assignment(&mut self, lent: &Buffers, found: Option<&[u8]>) {
        if let Some(found) = found {
            self.see_assigned(lent, found);
        }
        let stuck = found.is_none();
        self.tally.see(Seen::AssignedStuck, stuck);
        self.tally.see(Seen::AssignedStuckVanished, stuck && !self.vanished.is_empty());
        let Some(matchings) = self.matchings() else { return };
        let nodes = self.nodes();
        let sum = |positions: &[u8]| checker::sum_of_nodes(&nodes, &lent.nodes, positions);
        let least = matchings.iter().map(|positions| sum(positions)).min();
        let mut equal = matchings.iter().filter(|positions| Some(sum(positions)) == least);
        let apart = equal.next().zip(equal.next()).map_or(0, |(one, other)| differences(one, other));
        let mut opened = self.layout.buffers();
        Twin::open(self.sheet, &mut opened);
        let on_sheet = checker::cheapest(matchings, &nodes, &opened.nodes);
        let seen = [
            (Seen::AssignedTried, !stuck),
            (Seen::AssignedTie, apart > 0),
            (Seen::AssignedSwap, apart == 2),
            (Seen::AssignedChain, apart > 2),
            (Seen::AssignedMoved, on_sheet.map(Vec::as_slice) != found),
            (Seen::AssignedStuckTried, stuck),
        ];
        for (what, occurs) in seen {
            self.tally.see(what, occurs);
        }
    }

    fn see_assigned(&mut self, lent: &Buffers, found: &[u8]) {
        let nodes = self.nodes();
        let sum = |positions: &[u8]| checker::sum_of_nodes(&nodes, &lent.nodes, positions);
        let on_sheet = |positions: &[u8]| checker::cost_on_sheet(self.sheet, positions);
        let mut by_turns = lent.clone();
        by_turns.incumbent.fill(twin::UNSET);
        let mut counts = [0; COUNTS];
        Twin::run(self.sheet, &[5, 0, 0, 0, 0], &mut by_turns, &mut counts);
        let takes = |place: &&Place| usize::from(found[place.node]) == place.position;
        let taken = self.vanished.iter().filter(takes).count();
        let costs = nodes.iter().zip(found).scan(0, |start, (own, &position)| {
            let cost = lent.nodes[*start + usize::from(position)];
            *start += own.len();
            Some(cost)
        });
        let at_limit = costs.into_iter().any(|cost| cost.abs() == LIMIT);
        let none = self.keeps_none(lent);
        let other = !none && lent.incumbent != found;
        let better = other && on_sheet(found) < on_sheet(&lent.incumbent);
        let lower = other && sum(found) < sum(&lent.incumbent);
        let even = other && on_sheet(found) == on_sheet(&lent.incumbent);
        let seen = [
            (Seen::Assigned, true),
            (Seen::AssignedCheaper, counts[1] == 0 && sum(found) < sum(&by_turns.incumbent)),
            (Seen::AssignedUnstuck, counts[1] == 1),
            (Seen::AssignedVanished, taken > 1),
            (Seen::AssignedBesideVanished, 0 < taken && taken < self.vanished.len()),
            (Seen::AssignedSaved, taken > 0 && !self.can_place_without_vanished()),
            (Seen::AssignedAtLimit, at_limit),
            (Seen::AssignedFirst, none),
            (Seen::AssignedBetter, better),
            (Seen::AssignedDearer, lower && !better),
            (Seen::AssignedEven, even),
        ];
        for (what, occurs) in seen {
            self.tally.see(what, occurs);
        }
    }

    fn can_place_without_vanished(&self) -> bool {
        let nodes = self.nodes();
        let without: Vec<&[u8]> =
            nodes.iter().map(|own| own.strip_suffix(&[VANISHED]).unwrap_or(own)).collect();
        checker::can_place(&without)
    }

    fn see_unplaced(&mut self, number: u8) {
        let unlent = number == Refusal::Lent as u8;
        self.tally.see(Seen::PlaceUnlent, unlent && !checker::can_place(&self.nodes()));
    }

    fn see_run(&mut self, number: u8, records: &[u8], counts: &[u64], before: &[u8]) {
        let twice = self.vanished_taken() > 1;
        self.tally.see(Seen::Rounded, twice && self.twin.incumbent != before);
        let &[done, stuck] = counts else { return };
        self.tally.see(Seen::Stuck, stuck > 0 && !self.vanished.is_empty());
        let stopped = records.chunks_exact(RECORD).nth(done as usize);
        let (12, Some(&[kind, node, low, high, 1..=64])) = (number, stopped) else { return };
        let index = usize::from(u16::from_le_bytes([low, high]));
        let named =
            self.vanished.iter().any(|place| (place.node, place.position) == (usize::from(node), index));
        self.tally.see(Seen::Kind3, named && kind == 3);
        self.tally.see(Seen::Kind4, named && kind == 4);
    }

    /// The same change on both sides.
    fn poke(&mut self, rng: &mut Rng) {
        match rng.below(10) {
            0 => self.poke_all(rng),
            1 => poke_incumbent(rng, self.sheet, &mut self.twin.incumbent),
            2 => {
                // Costs near the limit, all legal, so that a move passes it.
                let sign = rng.pick(&[-1, 1]);
                let spread = rng.pick(&[3, 1000]);
                let buffer = rng.below(3);
                for cost in cost_buffer(&mut self.twin, buffer) {
                    *cost = sign * (LIMIT - rng.below(spread) as i64);
                }
            }
            3 => {
                // A bound above the kept cost.
                for cost in &mut self.twin.nodes {
                    *cost = rng.between(0, LIMIT);
                }
            }
            4 => self.poke_vanished(rng),
            5 => self.poke_unusable(rng),
            _ => {
                let buffer = rng.below(3);
                let costs = cost_buffer(&mut self.twin, buffer);
                for _ in 0..1 + rng.below(4) {
                    let place = rng.below(costs.len());
                    if let Some(cost) = costs.get_mut(place) {
                        *cost = wild_cost(rng);
                    }
                }
            }
        }
        self.proved = self.twin.clone();
    }

    /// Label costs where the rules know none: any within the limit, now and then one past it.
    fn poke_vanished(&mut self, rng: &mut Rng) {
        let spread = rng.pick(&[9, 1_000_000, LIMIT]);
        let past = rng.percent(30);
        for place in &self.vanished {
            self.twin.labels[place.cell] = if past && rng.percent(50) {
                rng.pick(&[LIMIT + 1, -LIMIT - 1, i64::MIN, i64::MAX])
            } else {
                rng.between(-spread, spread)
            };
        }
    }

    /// Edge costs at unusable cells: lower than others are or at one of the limits, now and then past it.
    fn poke_unusable(&mut self, rng: &mut Rng) {
        let base = rng.pick(&[-5_000_000, -LIMIT, -LIMIT, LIMIT]);
        let past = rng.percent(10);
        for cell in self.layout.unusable() {
            if rng.percent(70) {
                let cost = base - base.signum() * rng.below(3) as i64;
                self.twin.edges[cell.place] = if past { cost * 2 } else { cost };
            }
        }
    }

    /// Costs that lie whole numbers of half shares apart, at times one unit more or less, or any number of
    /// units; around 0 or at one or both of the limits, near to each other or as far apart as can be. None
    /// past the limit, and no matching kept.
    fn poke_halves(&mut self, rng: &mut Rng, share: i64) {
        let off = rng.pick(&[0, 30]);
        for buffer in 0..3 {
            let bases = rng.pick(&[&[0][..], &[0], &[0], &[LIMIT], &[-LIMIT], &[-LIMIT, LIMIT]]);
            let most = rng.pick(&[2, 5, 40, 2 * LIMIT / share]);
            let step = rng.pick(&[share, share, 2]);
            for cost in cost_buffer(&mut self.twin, buffer) {
                let unit = if rng.percent(off) { rng.pick(&[-1, 1]) } else { 0 };
                let apart = (rng.between(-most, most) * step / 2 + unit).clamp(-LIMIT, LIMIT);
                let base = rng.pick(bases);
                *cost = if base == 0 { apart } else { base - base.signum() * apart.abs() };
            }
        }
        self.twin.incumbent.fill(twin::UNSET);
        self.proved = self.twin.clone();
    }

    /// Node costs of few values or many, around 0 or at the limits, and any matching kept or none.
    fn poke_sums(&mut self, rng: &mut Rng) {
        let spread = rng.pick(&[0, 1, 3, 9, 2_000_000, 30_000_000, LIMIT]);
        let bases = rng.pick(&[&[0][..], &[0], &[LIMIT], &[-LIMIT], &[-LIMIT, LIMIT]]);
        for cost in &mut self.twin.nodes {
            let base = rng.pick(bases);
            let apart = rng.between(-spread, spread);
            *cost = if base == 0 { apart } else { base - base.signum() * apart.abs() };
        }
        if let Ok(sheet) = twin::read(self.sheet) {
            fill_matching(rng, &sheet, &mut self.twin.incumbent);
        }
        if rng.percent(30) {
            self.twin.incumbent.fill(twin::UNSET);
        }
        self.proved = self.twin.clone();
    }

    fn poke_all(&mut self, rng: &mut Rng) {
        let wild = rng.percent(10);
        for buffer in 0..3 {
            for cost in cost_buffer(&mut self.twin, buffer) {
                *cost = if wild { wild_cost(rng) } else { rng.between(-LIMIT, LIMIT) };
            }
        }
        poke_incumbent(rng, self.sheet, &mut self.twin.incumbent);
        self.proved = self.twin.clone();
    }

    /// A list of records: legal ones, most of the time; at times one that is not, at times ragged.
    fn records(&self, rng: &mut Rng) -> Vec<u8> {
        let sheet = twin::read(self.sheet).ok();
        let bad = rng.pick(&[0, 0, 1, 3, 30]);
        let count = rng.pick(&[0, 1, 3, 10, 40, 200]);
        let mut list = Vec::new();
        for _ in 0..count {
            let mut record = sheet.as_ref().map_or(ASSIGNMENT, |sheet| legal_record(rng, sheet));
            if rng.percent(bad) {
                let place = self.vanished.get(rng.below(self.vanished.len()));
                match place.filter(|_| rng.percent(40)) {
                    Some(place) => record = vanished_record(rng, place),
                    None => spoil(rng, &mut record),
                }
            }
            list.extend(record);
        }
        if rng.percent(4) {
            list.extend(&[1, 0, 0, 0][..1 + rng.below(4)]);
        }
        list
    }
}

fn cost_buffer(buffers: &mut Buffers, which: usize) -> &mut [i64] {
    match which {
        0 => &mut buffers.nodes,
        1 => &mut buffers.labels,
        _ => &mut buffers.edges,
    }
}

fn resize(buffers: &mut Buffers, which: usize, longer: bool) {
    fn by_one<T: Default>(buffer: &mut Vec<T>, longer: bool) {
        if longer || buffer.pop().is_none() {
            buffer.push(T::default());
        }
    }
    match which {
        0 => by_one(&mut buffers.nodes, longer),
        1 => by_one(&mut buffers.labels, longer),
        2 => by_one(&mut buffers.edges, longer),
        _ => by_one(&mut buffers.incumbent, longer),
    }
}

fn wild_cost(rng: &mut Rng) -> i64 {
    let near = rng.between(-2, 2);
    match rng.below(8) {
        0 => rng.pick(&[i64::MIN, i64::MAX, i64::MIN + 1, i64::MAX - 1]),
        1 => rng.next() as i64,
        2 => LIMIT + near,
        3 => -LIMIT + near,
        4 => rng.between(-LIMIT, LIMIT),
        _ => rng.between(-1_000_000, 1_000_000),
    }
}

/// None kept, a labelling that may be a matching, or anything.
fn poke_incumbent(rng: &mut Rng, sheet: &[u8], incumbent: &mut [u8]) {
    incumbent.fill(twin::UNSET);
    let Ok(sheet) = twin::read(sheet) else { return };
    match rng.below(6) {
        0 => {}
        1..=2 => fill_matching(rng, &sheet, incumbent),
        3 => {
            fill_matching(rng, &sheet, incumbent);
            share_label(rng, &sheet, incumbent);
        }
        4 => {
            fill_matching(rng, &sheet, incumbent);
            let place = rng.below(incumbent.len());
            if let Some(byte) = incumbent.get_mut(place) {
                *byte = rng.pick(&[0, 1, 15, 16, 254, 255]);
            }
        }
        _ => incumbent.iter_mut().for_each(|byte| *byte = rng.byte() & 3),
    }
}

/// A free position for each node, none kept where one finds no free label.
fn fill_matching(rng: &mut Rng, sheet: &Sheet, incumbent: &mut [u8]) {
    let mut taken = Vec::new();
    // Where a 255 stands if there is one, which is always free.
    let last_first = rng.pick(&[0, 0, 50, 100]);
    for node in 0..incumbent.len() {
        let degree = usize::from(sheet.degrees[node]);
        let start = usize::from(sheet.node_starts[node]);
        let first = if rng.percent(last_first) { degree - 1 } else { rng.below(degree) };
        let mut positions = (0..degree).map(|k| (first + k) % degree);
        let Some(position) = positions.find(|&k| !taken.contains(&sheet.labels[start + k])) else {
            return incumbent.fill(twin::UNSET);
        };
        taken.extend(Some(sheet.labels[start + position]).filter(|&label| label != VANISHED));
        incumbent[node] = position as u8;
    }
}

/// Lets a node take the label of another, if it has it; with a 255 it stays a matching.
fn share_label(rng: &mut Rng, sheet: &Sheet, incumbent: &mut [u8]) {
    let labels_of = |node: usize| {
        let start = usize::from(sheet.node_starts[node]);
        &sheet.labels[start..start + usize::from(sheet.degrees[node])]
    };
    let giver = rng.below(incumbent.len());
    let Some(&position) = incumbent.get(giver) else { return };
    let label = labels_of(giver).get(usize::from(position));
    let first = rng.below(incumbent.len());
    for node in (first..incumbent.len()).chain(0..first).filter(|&node| node != giver) {
        let shared = labels_of(node).iter().position(|own| Some(own) == label);
        if let Some(position) = shared {
            incumbent[node] = position as u8;
            return;
        }
    }
}

/// Other than 1.
fn some_share(rng: &mut Rng) -> u8 {
    if rng.percent(70) {
        rng.pick(&[2, 2, 3, 4, 5, 6, 7, 8, 10, 62, 63, 64])
    } else {
        rng.between(2, 64) as u8
    }
}

fn legal_record(rng: &mut Rng, sheet: &Sheet) -> [u8; RECORD] {
    let kind = 1 + rng.below(6) as u8;
    let rounding = [5 + kind % 2, 0, 0, 0, 0];
    let share = if rng.percent(40) { 1 } else { some_share(rng) };
    let nodes = sheet.degrees.len();
    if kind >= 5 || nodes == 0 || (kind <= 2 && sheet.ends.is_empty()) {
        return rounding;
    }
    if kind <= 2 {
        let edge = rng.below(sheet.ends.len());
        let [low, high] = (edge as u16).to_le_bytes();
        return [kind, rng.pick(&sheet.ends[edge]), low, high, share];
    }
    let node = rng.below(nodes);
    let last = sheet.node_starts[node] + u16::from(sheet.degrees[node]) - 1;
    let vanishes = sheet.labels[usize::from(last)] == VANISHED;
    match usize::from(sheet.degrees[node]) - usize::from(vanishes) {
        0 => rounding,
        positions => [kind, node as u8, rng.below(positions) as u8, 0, share],
    }
}

/// Kind 3 or 4 at a 255, and nothing else wrong.
fn vanished_record(rng: &mut Rng, place: &Place) -> [u8; RECORD] {
    let share = if rng.percent(40) { 1 } else { some_share(rng) };
    [3 + rng.below(2) as u8, place.node as u8, place.position as u8, 0, share]
}

fn spoil(rng: &mut Rng, record: &mut [u8; RECORD]) {
    match rng.below(6) {
        0 => record[0] = rng.pick(&[0, 6, 7, 255]),
        1 => record[1] = rng.byte() & 127,
        2 => record[2] = rng.byte() & 31,
        3 => record[3] = rng.pick(&[1, 2, 255]),
        4 => record[4] = rng.pick(&[0, 64, 65, 255]),
        _ => record.iter_mut().for_each(|byte| *byte = rng.byte() & 7),
    }
}
