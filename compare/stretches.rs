//! The rules of document 01 with requests 1 to 6 of document 02 in plain Rust: the opponent of the proved
//! library.
//!
//! Every public function is lent slices, reads the sheet once and makes the document's checks in the
//! document's order.

use std::hint::select_unpredictable;
use std::iter::zip;
use std::ops::Range;

use crate::assign::assign;

pub const MAX_NODES: usize = 64;
pub const MAX_LABELS: usize = 64;
pub const MAX_EDGES: usize = 256;
pub const MAX_DEGREE: usize = 16;
pub const MAX_NODE_CELLS: usize = MAX_NODES * MAX_DEGREE;
pub const MAX_EDGE_CELLS: usize = 4096;
pub const MAX_LENGTH: usize = 22_096;
pub const MAX_PRICE: i32 = 1_000_000;
pub const MAX_SHARE: u8 = 64;
pub const TRAILER: usize = 16;
pub const MARK: [u8; 4] = *b"MSH1";
/// A lent cost lies within plus and minus this limit.
pub const LIMIT: i64 = 1 << 40;
/// Fills the incumbent when no matching is kept.
pub const UNSET: u8 = 255;
/// The label of a mark that has vanished: outside the label limit, a node's last if it has it, and free
/// to any number of nodes. Its cell is a node cost like any other; its label cost is held to the limit
/// and otherwise neither read nor written.
pub const VANISHED: u8 = 255;
/// Bytes of one record: kind, node, index (2), share.
pub const RECORD: usize = 5;

/// The document's numbers; its own word for each is in its table.
#[derive(Clone, Copy, Debug, PartialEq, Eq)]
#[repr(u8)]
pub enum Refusal {
    Trailer = 1,
    Limit,
    Length,
    Degree,
    Label,
    Ends,
    Price,
    Lent,
    CostRange,
    Incumbent,
    ListLength,
    Record,
    Overflow,
    Bound,
    Unusable,
    NoMatching,
}

/// A readable sheet: its sections as parts of the bytes lent, and where each node and edge begins.
pub struct Sheet<'a> {
    pub label_limit: usize,
    pub degrees: &'a [u8],
    pub labels: &'a [u8],
    node_prices: &'a [[u8; 4]],
    pub ends: &'a [[u8; 2]],
    edge_prices: &'a [[u8; 4]],
    pub node_starts: [u16; MAX_NODES],
    pub edge_starts: [u16; MAX_EDGES],
}

pub fn read(bytes: &[u8]) -> Result<Sheet<'_>, Refusal> {
    if bytes.len() > MAX_LENGTH {
        return Err(Refusal::Length);
    }
    let (body, trailer) = bytes.split_last_chunk::<TRAILER>().ok_or(Refusal::Trailer)?;
    if !trailer.ends_with(&MARK) {
        return Err(Refusal::Trailer);
    }
    let node_count = usize::from(trailer[0]);
    let label_limit = usize::from(trailer[1]);
    let edge_count = usize::from(u16::from_le_bytes([trailer[2], trailer[3]]));
    if node_count > MAX_NODES || label_limit > MAX_LABELS || edge_count > MAX_EDGES {
        return Err(Refusal::Limit);
    }

    let (degrees, rest) = split(body, node_count)?;
    let (node_starts, node_cells) = read_degrees(degrees)?;
    let (labels, rest) = split(rest, node_cells)?;
    let (node_prices, rest) = split(rest, 4 * node_cells)?;
    let (ends, edge_prices) = split(rest, 2 * edge_count)?;
    let (ends, _) = ends.as_chunks::<2>();
    let (edge_starts, edge_cells) = read_ends(ends, degrees)?;
    if edge_cells > MAX_EDGE_CELLS {
        return Err(Refusal::Limit);
    }
    let to_edge_prices = 4 * edge_cells + TRAILER;
    let to_node_prices = 4 * node_cells + 2 * edge_count + to_edge_prices;
    if edge_prices.len() != 4 * edge_cells
        || distance(trailer, 4) != to_node_prices
        || distance(trailer, 8) != to_edge_prices
    {
        return Err(Refusal::Length);
    }

    let (node_prices, _) = node_prices.as_chunks::<4>();
    let (edge_prices, _) = edge_prices.as_chunks::<4>();
    if !labels_rise(degrees, labels, label_limit) {
        return Err(Refusal::Label);
    }
    if !prices_in_range(node_prices) || !prices_in_range(edge_prices) {
        return Err(Refusal::Price);
    }
    if degrees.contains(&1) && !edges_usable(degrees, labels, &node_starts, ends) {
        return Err(Refusal::Unusable);
    }
    Ok(Sheet { label_limit, degrees, labels, node_prices, ends, edge_prices, node_starts, edge_starts })
}

fn split(bytes: &[u8], at: usize) -> Result<(&[u8], &[u8]), Refusal> {
    bytes.split_at_checked(at).ok_or(Refusal::Length)
}

fn distance(trailer: &[u8; TRAILER], at: usize) -> usize {
    u32::from_le_bytes([trailer[at], trailer[at + 1], trailer[at + 2], trailer[at + 3]]) as usize
}

fn read_degrees(degrees: &[u8]) -> Result<([u16; MAX_NODES], usize), Refusal> {
    let mut starts = [0; MAX_NODES];
    let mut cells = 0;
    for (start, &degree) in zip(&mut starts, degrees) {
        if degree == 0 || usize::from(degree) > MAX_DEGREE {
            return Err(Refusal::Degree);
        }
        *start = cells;
        cells += u16::from(degree);
    }
    Ok((starts, usize::from(cells)))
}

/// The cells are judged by the caller, after the last pair of ends.
fn read_ends(ends: &[[u8; 2]], degrees: &[u8]) -> Result<([u16; MAX_EDGES], usize), Refusal> {
    let mut starts = [0; MAX_EDGES];
    let mut cells = 0;
    // Below every pair there can be.
    let mut previous = 0;
    for (start, &[u, v]) in zip(&mut starts, ends) {
        let pair = u16::from_be_bytes([u, v]);
        if u >= v || usize::from(v) >= degrees.len() || pair <= previous {
            return Err(Refusal::Ends);
        }
        // At most 255 * 256 before the last edge.
        *start = cells as u16;
        cells += usize::from(degrees[usize::from(u)]) * usize::from(degrees[usize::from(v)]);
        previous = pair;
    }
    Ok((starts, cells))
}

/// Whether the labels rise within each node: as many pairs of neighbours do not rise in all as do not from
/// one node to the next. All pairs are counted without an exit, so that it runs several at a time. A 255 that
/// is not its node's last counts as a label: what comes after it does not rise.
fn labels_rise(degrees: &[u8], labels: &[u8], limit: usize) -> bool {
    let falls =
        zip(labels, &labels[labels.len().min(1)..]).fold(0_u16, |falls, (a, b)| falls + u16::from(a >= b));
    let mut between = 0;
    let mut rest = labels;
    for &degree in degrees {
        let (own, others) = rest.split_at(usize::from(degree));
        if without_vanished(own).last().is_some_and(|&last| usize::from(last) >= limit) {
            return false;
        }
        between += u16::from(!others.is_empty() && own.last() >= others.first());
        rest = others;
    }
    falls == between
}

/// One node's labels without a 255 at their end; none may be left.
fn without_vanished(own: &[u8]) -> &[u8] {
    match own {
        [others @ .., VANISHED] => others,
        _ => own,
    }
}

/// Folded without an early exit, so that it runs several prices at a time.
fn prices_in_range(prices: &[[u8; 4]]) -> bool {
    let range = -MAX_PRICE..=MAX_PRICE;
    prices.iter().fold(true, |all, &bytes| all & range.contains(&i32::from_le_bytes(bytes)))
}

/// Whether every edge has a usable cell, one whose labels differ or are 255. Labels rise within a node, so
/// that only an edge between two nodes of degree 1 can be without one.
fn edges_usable(degrees: &[u8], labels: &[u8], node_starts: &[u16; MAX_NODES], ends: &[[u8; 2]]) -> bool {
    let first = |node: usize| labels[usize::from(node_starts[node])];
    ends.iter().all(|ends| {
        let [u, v] = ends.map(usize::from);
        degrees[u] > 1 || degrees[v] > 1 || first(u) != first(v) || first(u) == VANISHED
    })
}

fn price(bytes: [u8; 4]) -> i64 {
    i64::from(i32::from_le_bytes(bytes))
}

/// One edge's table: its cells, and how many each row has.
struct Table {
    cells: Range<usize>,
    columns: usize,
}

/// An edge named by one of its ends, whose positions are the table's rows or its columns.
struct Named {
    edge: usize,
    by_row: bool,
    share: u8,
}

fn is_share(share: u8) -> bool {
    (1..=MAX_SHARE).contains(&share)
}

impl Sheet<'_> {
    pub fn node_cells(&self) -> usize {
        self.labels.len()
    }

    pub fn edge_cells(&self) -> usize {
        self.edge_prices.len()
    }

    /// A sweep has no record of kind 3 or 4 for a 255.
    fn sweep_records(&self) -> usize {
        let moved: usize = (0..self.degrees.len()).map(|node| self.moved_labels(node).len()).sum();
        2 * self.ends.len() + moved + 1
    }

    /// The labels of a node that kinds 3 and 4 may name: all but a 255.
    fn moved_labels(&self, node: usize) -> &[u8] {
        without_vanished(&self.labels[self.cells_of(node)])
    }

    fn cells_of(&self, node: usize) -> Range<usize> {
        let start = usize::from(self.node_starts[node]);
        start..start + usize::from(self.degrees[node])
    }

    fn table(&self, edge: usize) -> Table {
        let [u, v] = self.ends[edge];
        let start = usize::from(self.edge_starts[edge]);
        let columns = usize::from(self.degrees[usize::from(v)]);
        let rows = usize::from(self.degrees[usize::from(u)]);
        Table { cells: start..start + rows * columns, columns }
    }

    /// The cell at a position of a node, if there is one.
    fn cell(&self, node: usize, position: usize) -> Option<usize> {
        let degree = *self.degrees.get(node)?;
        (position < usize::from(degree)).then(|| usize::from(self.node_starts[node]) + position)
    }

    /// What a record of kind 1 or 2 at this node names.
    fn named(&self, node: u8, &[_, _, low, high, share]: &[u8; RECORD]) -> Result<Named, Refusal> {
        let edge = usize::from(u16::from_le_bytes([low, high]));
        match self.ends.get(edge) {
            Some(ends) if is_share(share) && ends.contains(&node) => {
                Ok(Named { edge, by_row: node == ends[0], share })
            }
            _ => Err(Refusal::Record),
        }
    }

    fn label_sets(&self) -> LabelSets {
        let mut sets = [LabelSet::EMPTY; MAX_NODES];
        for (node, set) in sets[..self.degrees.len()].iter_mut().enumerate() {
            self.moved_labels(node).iter().for_each(|&label| set.add(label));
        }
        sets
    }

    fn check_lengths(
        &self,
        nodes: &[i64],
        labels: &[i64],
        edges: &[i64],
        incumbent: &[u8],
    ) -> Result<(), Refusal> {
        let fits = nodes.len() == self.node_cells()
            && labels.len() == self.node_cells()
            && edges.len() == self.edge_cells()
            && incumbent.len() == self.degrees.len();
        if fits {
            Ok(())
        } else {
            Err(Refusal::Lent)
        }
    }

    /// The cost of the matching kept, none if there is none.
    fn check_incumbent(&self, incumbent: &[u8]) -> Result<Option<i64>, Refusal> {
        if !incumbent.is_empty() && incumbent.iter().all(|&position| position == UNSET) {
            return Ok(None);
        }
        let mut taken = LabelSet::EMPTY;
        for (node, &position) in incumbent.iter().enumerate() {
            let Some(&label) = self.labels[self.cells_of(node)].get(usize::from(position)) else {
                return Err(Refusal::Incumbent);
            };
            if taken.has(label) {
                return Err(Refusal::Incumbent);
            }
            taken.add(label);
        }
        Ok(Some(self.cost(incumbent)))
    }

    /// What a labelling costs on the sheet.
    fn cost(&self, labelling: &[u8]) -> i64 {
        let nodes = zip(&self.node_starts, labelling)
            .map(|(&start, &position)| price(self.node_prices[usize::from(start) + usize::from(position)]));
        let edges = zip(&self.edge_starts, self.ends).map(|(&start, &[u, v])| {
            let columns = usize::from(self.degrees[usize::from(v)]);
            let row = usize::from(labelling[usize::from(u)]);
            let column = usize::from(labelling[usize::from(v)]);
            price(self.edge_prices[usize::from(start) + columns * row + column])
        });
        nodes.sum::<i64>() + edges.sum::<i64>()
    }

    fn bound(&self, nodes: &[i64], labels: &[i64], edges: &[i64]) -> i64 {
        let mut label_least = [0_i64; MAX_LABELS];
        let mut sets = [LabelSet::EMPTY; MAX_NODES];
        for (node, set) in sets[..self.degrees.len()].iter_mut().enumerate() {
            let mut own = LabelSet::EMPTY;
            // Not a 255: its label cost enters no sum.
            for (&label, &cost) in zip(self.moved_labels(node), &labels[self.cells_of(node)]) {
                let least = &mut label_least[usize::from(label)];
                *least = cost.min(*least);
                own.add(label);
            }
            *set = own;
        }
        let nodes = (0..self.degrees.len()).map(|node| least(&nodes[self.cells_of(node)]));
        let edges = (0..self.ends.len()).map(|edge| {
            let Table { cells, columns } = self.table(edge);
            let unusable = Unusable::of(self.ends[edge], &sets);
            if unusable.is_empty() {
                least(&edges[cells])
            } else {
                least_usable(&edges[cells], columns, unusable)
            }
        });
        nodes.sum::<i64>() + edges.sum::<i64>() + label_least.iter().sum::<i64>()
    }
}

/// A set of labels, a bit for each. A 255 is in none: it is never used up and makes no cell unusable.
#[derive(Clone, Copy)]
struct LabelSet(u64);

/// The labels of each node.
type LabelSets = [LabelSet; MAX_NODES];

impl LabelSet {
    const EMPTY: Self = LabelSet(0);

    fn bit(label: u8) -> u64 {
        BITS[usize::from(label)]
    }

    fn has(self, label: u8) -> bool {
        self.0 & Self::bit(label) != 0
    }

    fn add(&mut self, label: u8) {
        self.0 |= Self::bit(label);
    }
}

/// The cells of an edge's table that no matching can use, by row and column: those of the labels that both
/// ends have. There is at most one in a row or column.
#[derive(Clone, Copy)]
struct Unusable {
    rows: u64,
    columns: u64,
    /// The labels whose cells are still to come.
    shared: u64,
}

impl Unusable {
    fn of(ends: [u8; 2], sets: &LabelSets) -> Self {
        let [rows, columns] = ends.map(|node| sets[usize::from(node)].0);
        Unusable { rows, columns, shared: rows & columns }
    }

    fn is_empty(&self) -> bool {
        self.shared == 0
    }
}

impl Iterator for Unusable {
    type Item = (usize, usize);

    fn next(&mut self) -> Option<(usize, usize)> {
        let less = self.shared.checked_sub(1)?;
        // Labels rise within a node: a label's position is the number of those below it.
        let below = less & !self.shared;
        let position = |labels: u64| (labels & below).count_ones() as usize;
        self.shared &= less;
        Some((position(self.rows), position(self.columns)))
    }
}

/// The least of a table's usable cells: that of all, unless an unusable one is as low. Not inlined, so that
/// the loop over the edges stays short where their ends share no label.
#[inline(never)]
fn least_usable(table: &[i64], columns: usize, unusable: Unusable) -> i64 {
    let places = unusable.map(|(row, column)| columns * row + column);
    let minimum = least(table);
    if places.clone().all(|place| table[place] > minimum) {
        return minimum;
    }
    let mut start = 0;
    let before = places.fold(i64::MAX, |minimum, place| {
        let stretch = &table[start..place];
        start = place + 1;
        minimum.min(least(stretch))
    });
    before.min(least(&table[start..]))
}

/// i64::MAX for an empty slice. Four minima side by side: the plain fold is vectorized badly where the
/// machine has no 64-bit vector comparison.
fn least(costs: &[i64]) -> i64 {
    let (fours, rest) = costs.as_chunks::<4>();
    let mut minima = [i64::MAX; 4];
    for four in fours {
        for (minimum, &cost) in zip(&mut minima, four) {
            *minimum = cost.min(*minimum);
        }
    }
    let [a, b, c, d] = minima;
    rest.iter().fold(a.min(b).min(c.min(d)), |least, &cost| least.min(cost))
}

/// Negative if the cost passes the limit on either side, for every i64.
fn excess(cost: i64) -> i64 {
    cost.wrapping_add(LIMIT) | LIMIT.wrapping_sub(cost)
}

/// By how much each of the costs may at least rise; 9 if one is past the limit. If all lie within half the
/// limit, no sum has a bit that makes it as large as the limit, a power of two; else a closer look follows.
fn room(costs: &[i64]) -> Result<i64, Refusal> {
    const HALF: i64 = LIMIT / 2;
    let sums = costs.iter().fold(0, |sums, &cost| sums | cost.wrapping_add(HALF) as u64);
    if sums < LIMIT as u64 {
        Ok(HALF)
    } else if costs.iter().all(|&cost| excess(cost) >= 0) {
        Ok(0)
    } else {
        Err(Refusal::CostRange)
    }
}

/// Where an edge's prices stand in the sheet.
pub fn edge_range(bytes: &[u8], edge: usize) -> Result<Range<usize>, Refusal> {
    let sheet = read(bytes)?;
    if edge >= sheet.ends.len() {
        return Err(Refusal::Record);
    }
    let section = bytes.len() - TRAILER - 4 * sheet.edge_cells();
    let Range { start, end } = sheet.table(edge).cells;
    Ok(section + 4 * start..section + 4 * end)
}

/// The edge's prices as a part of the sheet, empty when refused.
pub fn edge_prices(bytes: &[u8], edge: usize) -> &[u8] {
    edge_range(bytes, edge).map_or(&[], |range| &bytes[range])
}

pub fn edge_refusal(bytes: &[u8], edge: usize) -> Option<Refusal> {
    edge_range(bytes, edge).err()
}

pub fn open(
    bytes: &[u8],
    nodes: &mut [i64],
    labels: &mut [i64],
    edges: &mut [i64],
    incumbent: &mut [u8],
) -> Result<(), Refusal> {
    let sheet = read(bytes)?;
    sheet.check_lengths(nodes, labels, edges, incumbent)?;
    for (cost, &bytes) in zip(nodes, sheet.node_prices) {
        *cost = price(bytes);
    }
    for (cost, &bytes) in zip(edges, sheet.edge_prices) {
        *cost = price(bytes);
    }
    labels.fill(0);
    incumbent.fill(UNSET);
    Ok(())
}

#[derive(Clone, Copy, Debug, PartialEq, Eq)]
pub enum Report {
    Bound { bound: i64 },
    Kept { bound: i64, cost: i64, gap: i64 },
}

pub fn report(
    bytes: &[u8],
    nodes: &[i64],
    labels: &[i64],
    edges: &[i64],
    incumbent: &[u8],
) -> Result<Report, Refusal> {
    let sheet = read(bytes)?;
    let (kept, _) = check_buffers(&sheet, nodes, labels, edges, incumbent)?;
    let bound = sheet.bound(nodes, labels, edges);
    match kept {
        None => Ok(Report::Bound { bound }),
        Some(cost) if bound > cost => Err(Refusal::Bound),
        Some(cost) => Ok(Report::Kept { bound, cost, gap: cost - bound }),
    }
}

/// Refusals 8 to 10; answers the cost of the matching kept, and the edge costs' room.
fn check_buffers(
    sheet: &Sheet,
    nodes: &[i64],
    labels: &[i64],
    edges: &[i64],
    incumbent: &[u8],
) -> Result<(Option<i64>, i64), Refusal> {
    sheet.check_lengths(nodes, labels, edges, incumbent)?;
    room(nodes)?;
    room(labels)?;
    let room = room(edges)?;
    Ok((sheet.check_incumbent(incumbent)?, room))
}

#[derive(Clone, Copy, Debug, Default, PartialEq, Eq)]
pub struct Outcome {
    pub done: u64,
    pub stuck: u64,
    pub refusal: Option<Refusal>,
}

pub fn run(
    bytes: &[u8],
    records: &[u8],
    nodes: &mut [i64],
    labels: &mut [i64],
    edges: &mut [i64],
    incumbent: &mut [u8],
) -> Outcome {
    let refused = |refusal| Outcome { refusal: Some(refusal), ..Outcome::default() };
    let sheet = match read(bytes) {
        Ok(sheet) => sheet,
        Err(refusal) => return refused(refusal),
    };
    let (kept, room) = match check_buffers(&sheet, nodes, labels, edges, incumbent) {
        Ok(checked) => checked,
        Err(refusal) => return refused(refusal),
    };
    let (records, []) = records.as_chunks::<RECORD>() else {
        return refused(Refusal::ListLength);
    };
    let outcome = Outcome::default();
    Run { sheet: &sheet, nodes, labels, edges, incumbent, kept, holders: None, sets: None, room, outcome }
        .records(records)
}

/// The cells of each label below the limit: label s has cells[starts[s]..starts[s + 1]].
struct Holders {
    starts: [u16; MAX_LABELS + 1],
    cells: [u16; MAX_NODE_CELLS],
}

impl Holders {
    fn new(labels: &[u8]) -> Self {
        let mut starts = [0; MAX_LABELS + 1];
        for &label in labels {
            // A 255 has no place, here and below.
            if let Some(count) = starts.get_mut(usize::from(label) + 1) {
                *count += 1;
            }
        }
        for label in 0..MAX_LABELS {
            starts[label + 1] += starts[label];
        }
        let mut next = starts;
        let mut cells = [0; MAX_NODE_CELLS];
        for (cell, &label) in (0..).zip(labels) {
            if let Some(place) = next.get_mut(usize::from(label)) {
                cells[usize::from(*place)] = cell;
                *place += 1;
            }
        }
        Holders { starts, cells }
    }

    fn of(&self, label: u8) -> &[u16] {
        let label = usize::from(label);
        &self.cells[usize::from(self.starts[label])..usize::from(self.starts[label + 1])]
    }
}

/// The two least of some costs, and the place of the least. Kinds 3 and 4 move a cost toward the least of its
/// rivals and not past it, so that the two are known after a move without another look at the costs. Without
/// branches, as nothing foretells where the least stands.
struct Rivals {
    place: usize,
    least: i64,
    second: i64,
}

impl Rivals {
    const NONE: Self = Rivals { place: usize::MAX, least: i64::MAX, second: i64::MAX };

    /// Among a node's costs; an only one is its own rival, so that it does not move.
    fn of_node(costs: &[i64]) -> Self {
        let mut rivals = Self::NONE;
        costs.iter().enumerate().for_each(|(place, &cost)| rivals.add(place, cost));
        if costs.len() == 1 {
            rivals.second = rivals.least;
        }
        rivals
    }

    /// Among the costs of a label's cells and the untaken 0.
    fn of_label(cells: &[u16], costs: &[i64]) -> Self {
        let mut rivals = Rivals { least: 0, ..Self::NONE };
        cells.iter().map(|&cell| usize::from(cell)).for_each(|cell| rivals.add(cell, costs[cell]));
        rivals
    }

    fn add(&mut self, place: usize, cost: i64) {
        self.second = self.second.min(self.least.max(cost));
        self.place = select_unpredictable(cost < self.least, place, self.place);
        self.least = self.least.min(cost);
    }

    /// The least of the others.
    fn least_beside(&self, place: usize) -> i64 {
        select_unpredictable(place == self.place, self.second, self.least)
    }

    /// The cost at this place has moved.
    fn moved(&mut self, place: usize, cost: i64) {
        let own = place == self.place;
        self.least = select_unpredictable(own, cost, self.least);
        self.second = select_unpredictable(own, self.second, self.second.min(cost));
    }
}

/// An expression with a number from 1 to 16 as a constant, so that loops in what it calls have fixed lengths.
macro_rules! fixed {
    ($number:expr, $constant:ident => $call:expr) => {
        fixed!($number, $constant => $call, 1 2 3 4 5 6 7 8 9 10 11 12 13 14 15)
    };
    ($number:expr, $constant:ident => $call:expr, $($value:literal)*) => {
        match $number {
            $($value => {
                const $constant: usize = $value;
                $call
            })*
            _ => {
                const $constant: usize = MAX_DEGREE;
                $call
            }
        }
    };
}

/// A run whose checks 1 to 11 have passed.
struct Run<'a> {
    sheet: &'a Sheet<'a>,
    nodes: &'a mut [i64],
    labels: &'a mut [i64],
    edges: &'a mut [i64],
    incumbent: &'a mut [u8],
    /// The incumbent's cost on the sheet.
    kept: Option<i64>,
    /// Made at the first record of kind 4.
    holders: Option<Holders>,
    /// Made at the first record of kind 2.
    sets: Option<LabelSets>,
    /// By how much every edge cost may at least rise.
    room: i64,
    outcome: Outcome,
}

impl Run<'_> {
    /// Goes by stretches of records of one kind at one node, of kind 4 at any: what does not change within
    /// them is found once.
    fn records(mut self, records: &[[u8; RECORD]]) -> Outcome {
        for stretch in records.chunk_by(|a, b| a[0] == b[0] && (a[1] == b[1] || a[0] == 4)) {
            if let Err(refusal) = self.stretch(stretch) {
                self.outcome.refusal = Some(refusal);
                break;
            }
        }
        self.outcome
    }

    /// The refusal is that of the first record not done.
    fn stretch(&mut self, records: &[[u8; RECORD]]) -> Result<(), Refusal> {
        let [kind, node, ..] = records[0];
        match (kind, self.sheet.degrees.get(usize::from(node))) {
            (1, Some(degree)) => fixed!(degree, D => self.node_to_edges::<D>(node, records)),
            (2, Some(degree)) => fixed!(degree, D => self.edges_to_node::<D>(node, records)),
            (3, Some(_)) => self.node_to_labels(node, records),
            (4, Some(_)) => self.labels_to_nodes(records),
            (5, _) => self.roundings(records, Self::round),
            (6, _) => self.roundings(records, Self::assign),
            _ => Err(Refusal::Record),
        }
    }

    /// At a node of degree D. Each of these four is its own function, so that its loop keeps its registers.
    #[inline(never)]
    fn node_to_edges<const D: usize>(&mut self, node: u8, records: &[[u8; RECORD]]) -> Result<(), Refusal> {
        let sheet = self.sheet;
        let costs = costs_of::<D>(sheet, self.nodes, node);
        // No record of kind 1 changes it.
        let least = least(costs);
        for record in records {
            let Named { edge, by_row, share } = sheet.named(node, record)?;
            let Table { cells, columns } = sheet.table(edge);
            let table = &mut self.edges[cells];
            let amounts = portions(costs.map(|cost| cost - least), share);
            // Only the cells rise. None is looked at before there might be no room left; no amount is more
            // than all their bits.
            let most = amounts.iter().fold(0, |bits, amount| bits | amount);
            if most <= self.room {
                self.room -= most;
            } else if rise_in_range(table, columns, by_row, &amounts) {
                self.room = 0;
            } else {
                return Err(Refusal::Overflow);
            }
            add(table, columns, by_row, &amounts);
            for (cost, amount) in zip(&mut *costs, amounts) {
                *cost -= amount;
            }
            self.outcome.done += 1;
        }
        Ok(())
    }

    /// At a node of degree D.
    #[inline(never)]
    fn edges_to_node<const D: usize>(&mut self, node: u8, records: &[[u8; RECORD]]) -> Result<(), Refusal> {
        let sheet = self.sheet;
        let costs = costs_of::<D>(sheet, self.nodes, node);
        let sets = self.sets.get_or_insert_with(|| sheet.label_sets());
        for record in records {
            let Named { edge, by_row, share } = sheet.named(node, record)?;
            let Table { cells, columns } = sheet.table(edge);
            let table = &mut self.edges[cells];
            let mut leasts = leasts::<D>(table, columns, by_row);
            let unusable = Unusable::of(sheet.ends[edge], sets);
            let passed = !unusable.is_empty() && pass_over(table, columns, by_row, unusable, &mut leasts);
            let least = least(&leasts);
            let amounts = portions(leasts.map(|cost| cost - least), share);
            // The node costs rise. The cells fall toward the edge's least and stay in range, but for unusable
            // ones lower than the usable ones of their position.
            if zip(&*costs, amounts).fold(0, |signs, (&cost, amount)| signs | (LIMIT - (cost + amount))) < 0
                || (passed && !fall_in_range(table, columns, by_row, unusable, &amounts))
            {
                return Err(Refusal::Overflow);
            }
            add(table, columns, by_row, &amounts.map(|amount| -amount));
            for (cost, amount) in zip(&mut *costs, amounts) {
                *cost += amount;
            }
            self.outcome.done += 1;
        }
        Ok(())
    }

    #[inline(never)]
    fn node_to_labels(&mut self, node: u8, records: &[[u8; RECORD]]) -> Result<(), Refusal> {
        let u = usize::from(node);
        let cells = self.sheet.cells_of(u);
        let moved = self.sheet.moved_labels(u).len();
        let nodes = &mut self.nodes[cells.clone()];
        let labels = &mut self.labels[cells];
        let mut rivals = Rivals::of_node(nodes);
        for &[_, _, low, high, share] in records {
            let position = usize::from(u16::from_le_bytes([low, high]));
            if position >= moved || !is_share(share) {
                return Err(Refusal::Record);
            }
            let (node, label) = (&mut nodes[position], &mut labels[position]);
            let amount = portion(*node - rivals.least_beside(position), share);
            // The node cost moves toward its rivals and stays in range.
            if excess(*label + amount) < 0 {
                return Err(Refusal::Overflow);
            }
            let cost = *node - amount;
            *node = cost;
            *label += amount;
            rivals.moved(position, cost);
            self.outcome.done += 1;
        }
        Ok(())
    }

    #[inline(never)]
    fn labels_to_nodes(&mut self, records: &[[u8; RECORD]]) -> Result<(), Refusal> {
        let sheet = self.sheet;
        let holders = self.holders.get_or_insert_with(|| Holders::new(sheet.labels));
        // Of no label yet.
        let mut rivals = Rivals::NONE;
        let mut of_label = VANISHED;
        for &[_, node, low, high, share] in records {
            let position = usize::from(u16::from_le_bytes([low, high]));
            let Some(cell) = sheet.cell(usize::from(node), position).filter(|_| is_share(share)) else {
                return Err(Refusal::Record);
            };
            // A 255 is a position of its node, but has no label cost to move.
            let label = sheet.labels[cell];
            if label == VANISHED {
                return Err(Refusal::Record);
            }
            if label != of_label {
                rivals = Rivals::of_label(holders.of(label), self.labels);
                of_label = label;
            }
            let (node, label) = (&mut self.nodes[cell], &mut self.labels[cell]);
            let amount = portion(*label - rivals.least_beside(cell), share);
            // The label cost moves toward its rivals and stays in range.
            if excess(*node + amount) < 0 {
                return Err(Refusal::Overflow);
            }
            let cost = *label - amount;
            *label = cost;
            *node += amount;
            rivals.moved(cell, cost);
            self.outcome.done += 1;
        }
        Ok(())
    }

    /// Each answers false when stuck.
    fn roundings(
        &mut self,
        records: &[[u8; RECORD]],
        rounding: impl Fn(&mut Self) -> bool,
    ) -> Result<(), Refusal> {
        for record in records {
            if record[1..] != [0; RECORD - 1] {
                return Err(Refusal::Record);
            }
            self.outcome.stuck += u64::from(!rounding(self));
            self.outcome.done += 1;
        }
        Ok(())
    }

    /// False when stuck. A node's keys are its costs plus the rows of the nodes set before it; the
    /// edges are sorted by their lower end, so each node set adds its rows in one stretch.
    fn round(&mut self) -> bool {
        let sheet = self.sheet;
        let mut keys = [0; MAX_NODE_CELLS];
        let keys = &mut keys[..self.nodes.len()];
        keys.copy_from_slice(self.nodes);
        let mut labelling = [0; MAX_NODES];
        let mut taken = LabelSet::EMPTY;
        let mut edge = 0;
        for u in 0..sheet.degrees.len() {
            let cells = sheet.cells_of(u);
            let labels = &sheet.labels[cells.clone()];
            let Some(position) = least_free(&keys[cells], labels, taken) else {
                return false;
            };
            taken.add(labels[position]);
            labelling[u] = position as u8;
            while let Some(&[_, v]) = sheet.ends.get(edge).filter(|ends| usize::from(ends[0]) == u) {
                let Table { cells, columns } = sheet.table(edge);
                let row = &self.edges[cells][columns * position..][..columns];
                for (key, &cost) in zip(&mut keys[sheet.cells_of(usize::from(v))], row) {
                    *key += cost;
                }
                edge += 1;
            }
        }
        self.keep(&labelling[..sheet.degrees.len()]);
        true
    }

    /// False when stuck: there is no matching.
    fn assign(&mut self) -> bool {
        let Sheet { degrees, labels, .. } = *self.sheet;
        let mut labelling = [0; MAX_NODES];
        let labelling = &mut labelling[..degrees.len()];
        let placed = assign(degrees, labels, self.nodes, labelling);
        if placed {
            self.keep(labelling);
        }
        placed
    }

    /// Keeps the matching if none is kept or if it is cheaper on the sheet.
    fn keep(&mut self, matching: &[u8]) {
        let cost = self.sheet.cost(matching);
        if self.kept.is_none_or(|kept| cost < kept) {
            self.incumbent.copy_from_slice(matching);
            self.kept = Some(cost);
        }
    }
}

/// A distance's portion for kinds 3 and 4, of either sign; most shares of a sweep are 1.
fn portion(distance: i64, share: u8) -> i64 {
    if share == 1 {
        distance
    } else if distance < 0 {
        -nearest(distance.unsigned_abs(), share)
    } else {
        nearest(distance.unsigned_abs(), share)
    }
}

/// The portions of distances not below 0, for kinds 1 and 2.
#[inline(always)]
fn portions<const D: usize>(distances: [i64; D], share: u8) -> [i64; D] {
    if share == 1 {
        distances
    } else {
        distances.map(|distance| nearest(distance as u64, share))
    }
}

/// The distance over the share, rounded to the nearest, a half to the even one. A reciprocal times its share
/// passes 2^64 by less than the share. A distance, at most twice the limit, times that is far below 2^64, so
/// that the product over 2^64 rounded down is the quotient rounded down.
#[inline(always)]
fn nearest(distance: u64, share: u8) -> i64 {
    let product = u128::from(distance) * u128::from(RECIPROCALS[usize::from(share)]);
    let quotient = (product >> 64) as u64;
    let share = u64::from(share);
    let remainder = distance - quotient * share;
    // One more if the remainder is over half the share, or half of it and the quotient odd.
    (quotient + u64::from(2 * remainder + quotient % 2 > share)) as i64
}

/// 2^64 over each share from 2 on, rounded up: a multiplication is faster than a division.
static RECIPROCALS: [u64; 256] = {
    let mut reciprocals = [0; 256];
    let mut share = 2;
    while share <= MAX_SHARE as usize {
        reciprocals[share] = u64::MAX / share as u64 + 1;
        share += 1;
    }
    reciprocals
};

/// The costs of a node of degree D.
fn costs_of<'a, const D: usize>(sheet: &Sheet, nodes: &'a mut [i64], node: u8) -> &'a mut [i64; D] {
    let start = usize::from(sheet.node_starts[usize::from(node)]);
    nodes[start..].first_chunk_mut().expect("a buffer of all cells")
}

/// Adds its position's amount to every cell.
#[inline(always)]
fn add<const D: usize>(table: &mut [i64], columns: usize, by_row: bool, amounts: &[i64; D]) {
    if by_row {
        fixed!(columns, C => add_to_rows::<C>(table, amounts));
    } else {
        add_to_columns(table, amounts);
    }
}

/// Not inlined: that would make one for each pair of degrees.
#[inline(never)]
fn add_to_rows<const C: usize>(table: &mut [i64], amounts: &[i64]) {
    for (row, amount) in zip(table.as_chunks_mut::<C>().0, amounts) {
        row.iter_mut().for_each(|cell| *cell += amount);
    }
}

#[inline(always)]
fn add_to_columns<const D: usize>(table: &mut [i64], amounts: &[i64; D]) {
    for row in table.as_chunks_mut::<D>().0 {
        zip(row, amounts).for_each(|(cell, amount)| *cell += amount);
    }
}

/// Whether all cells are in range after they rise by their positions' amounts.
#[cold]
fn rise_in_range(table: &[i64], columns: usize, by_row: bool, amounts: &[i64]) -> bool {
    table.iter().enumerate().all(|(place, cell)| {
        let position = if by_row { place / columns } else { place % columns };
        cell + amounts[position] <= LIMIT
    })
}

/// The least cell at each position.
#[inline(always)]
fn leasts<const D: usize>(table: &[i64], columns: usize, by_row: bool) -> [i64; D] {
    let mut leasts = [i64::MAX; D];
    if by_row {
        fixed!(columns, C => leasts_of_rows::<C>(table, &mut leasts));
    } else {
        for row in table.as_chunks::<D>().0 {
            for (place, &cell) in zip(&mut leasts, row) {
                *place = cell.min(*place);
            }
        }
    }
    leasts
}

/// Not inlined, as above.
#[inline(never)]
fn leasts_of_rows<const C: usize>(table: &[i64], leasts: &mut [i64]) {
    for (place, row) in zip(leasts, table.as_chunks::<C>().0) {
        *place = least(row);
    }
}

/// Makes of the least cell at each position the least usable one. Answers whether any was not usable: an
/// unusable cell that lies higher than a usable one of its position falls no lower than that.
fn pass_over(table: &[i64], columns: usize, by_row: bool, unusable: Unusable, leasts: &mut [i64]) -> bool {
    let mut passed = false;
    for (row, column) in unusable {
        let position = if by_row { row } else { column };
        let start = columns * row;
        if table[start + column] > leasts[position] {
            continue;
        }
        passed = true;
        let (above, rest) = table.split_at(start);
        let (own, below) = rest.split_at(columns);
        leasts[position] = if by_row {
            least(&own[..column]).min(least(&own[column + 1..]))
        } else {
            let others = above.chunks_exact(columns).chain(below.chunks_exact(columns));
            others.fold(i64::MAX, |least, row| row[column].min(least))
        };
        // The only cell at its position, and then the only unusable one: the edge's least makes its amount 0.
        if leasts[position] == i64::MAX {
            leasts[position] = least(leasts);
        }
    }
    passed
}

/// Whether the unusable cells are in range after they fall by their positions' amounts.
#[cold]
fn fall_in_range(
    table: &[i64],
    columns: usize,
    by_row: bool,
    mut unusable: Unusable,
    amounts: &[i64],
) -> bool {
    unusable.all(|(row, column)| {
        let amount = amounts[if by_row { row } else { column }];
        excess(table[columns * row + column] - amount) >= 0
    })
}

/// The position with the least key among labels not taken; the lowest among equals. Without branches, as
/// nothing foretells which labels are taken or which key is lower.
fn least_free(keys: &[i64], labels: &[u8], taken: LabelSet) -> Option<usize> {
    let mut best = None;
    let mut least = i64::MAX;
    for (position, (&key, &label)) in zip(keys, labels).enumerate() {
        let key = select_unpredictable(taken.has(label), i64::MAX, key);
        best = select_unpredictable(key < least, Some(position), best);
        least = least.min(key);
    }
    best
}

pub fn write_sweep(bytes: &[u8], direction: u8, out: &mut [u8]) -> Result<(), Refusal> {
    let sheet = read(bytes)?;
    if direction > 1 {
        return Err(Refusal::Record);
    }
    if out.len() != RECORD * sheet.sweep_records() {
        return Err(Refusal::Lent);
    }
    let (records, _) = out.as_chunks_mut::<RECORD>();
    if let Some((rounding, moves)) = records.split_last_mut() {
        match direction {
            0 => forward(&sheet, moves),
            _ => backward(&sheet, moves),
        }
        *rounding = record(5, 0, 0, 0);
    }
    Ok(())
}

fn record(kind: u8, node: usize, index: usize, share: usize) -> [u8; RECORD] {
    let [low, high] = (index as u16).to_le_bytes();
    [kind, node as u8, low, high, share as u8]
}

/// How many edges each node has to lower and to higher nodes.
fn edge_counts(sheet: &Sheet) -> ([usize; MAX_NODES], [usize; MAX_NODES]) {
    let mut lower = [0; MAX_NODES];
    let mut higher = [0; MAX_NODES];
    for &[u, v] in sheet.ends {
        higher[usize::from(u)] += 1;
        lower[usize::from(v)] += 1;
    }
    (lower, higher)
}

fn forward(sheet: &Sheet, out: &mut [[u8; RECORD]]) {
    let (mut lower, mut shares) = edge_counts(sheet);
    let mut sends = [0; MAX_NODES];
    let mut at = 0;
    // From here on `lower` holds where a node's next record of kind 2 goes.
    for u in 0..sheet.degrees.len() {
        sends[u] = at + lower[u];
        lower[u] = at;
        at = sends[u] + shares[u];
        shares[u] += 1;
        for position in 0..sheet.moved_labels(u).len() {
            out[at] = record(3, u, position, 1);
            at += 1;
        }
    }
    write_edges(sheet, out, &mut lower, &mut sends, &mut shares, |[u, v]| (v, u));
}

fn backward(sheet: &Sheet, out: &mut [[u8; RECORD]]) {
    let mut at = write_labels(sheet, out);
    let (mut shares, mut higher) = edge_counts(sheet);
    let mut sends = [0; MAX_NODES];
    // From here on `higher` holds where a node's next record of kind 2 goes.
    for u in (0..sheet.degrees.len()).rev() {
        sends[u] = at + higher[u];
        higher[u] = at;
        at = sends[u] + shares[u];
    }
    write_edges(sheet, out, &mut higher, &mut sends, &mut shares, |[u, v]| (u, v));
}

/// Kinds 1 and 2, edges by number; `roles` gives an edge's receiving and sending end.
fn write_edges(
    sheet: &Sheet,
    out: &mut [[u8; RECORD]],
    receives: &mut [usize; MAX_NODES],
    sends: &mut [usize; MAX_NODES],
    shares: &mut [usize; MAX_NODES],
    roles: impl Fn([usize; 2]) -> (usize, usize),
) {
    for (edge, ends) in sheet.ends.iter().enumerate() {
        let (receiver, sender) = roles(ends.map(usize::from));
        out[receives[receiver]] = record(2, receiver, edge, 1);
        receives[receiver] += 1;
        out[sends[sender]] = record(1, sender, edge, shares[sender]);
        sends[sender] += 1;
        shares[sender] -= 1;
    }
}

/// Kind 4, labels falling, each label's nodes rising; answers the number of records.
fn write_labels(sheet: &Sheet, out: &mut [[u8; RECORD]]) -> usize {
    let mut counts = [0; MAX_LABELS];
    for &label in sheet.labels {
        // A 255 has no place.
        if let Some(count) = counts.get_mut(usize::from(label)) {
            *count += 1;
        }
    }
    let mut at = 0;
    // From here on each count holds where the label's next record goes.
    for count in counts.iter_mut().rev() {
        at += std::mem::replace(count, at);
    }
    for u in 0..sheet.degrees.len() {
        for (position, &label) in sheet.moved_labels(u).iter().enumerate() {
            let place = &mut counts[usize::from(label)];
            out[*place] = record(4, u, position, 1);
            *place += 1;
        }
    }
    at
}

/// Places all nodes: writes the matching that is the smallest when positions are compared from node 0 on.
/// Where there is none it is refused, and this one refusal writes: 1 for the members and 0 for the rest of a
/// set of nodes without a 255 that together have fewer labels than members, and that can be placed without
/// any one of them.
pub fn place(bytes: &[u8], out: &mut [u8]) -> Result<(), Refusal> {
    let sheet = read(bytes)?;
    if out.len() != sheet.degrees.len() {
        return Err(Refusal::Lent);
    }
    let mut choices = Choices::NONE;
    if let Some(stuck) = choices.take_in_turn(&sheet) {
        Placing::new(&mut choices, stuck).place_from(stuck, out)?;
    }
    choices.write(out);
    Ok(())
}

/// A label's bit; a 255 has none. A table, since much of a placing's time goes into these words.
static BITS: [u64; 256] = {
    let mut bits = [0; 256];
    let mut label = 0;
    while label < MAX_LABELS {
        bits[label] = 1 << label;
        label += 1;
    }
    bits
};

fn lowest(labels: u64) -> u64 {
    labels & labels.wrapping_neg()
}

/// The number of the lowest of the labels.
fn number(labels: u64) -> usize {
    labels.trailing_zeros() as usize % MAX_LABELS
}

/// The labels that each node has and the one that it takes, as bits; a node without one takes its 255.
struct Choices {
    sets: [u64; MAX_NODES],
    taken: [u64; MAX_NODES],
    /// A bit for each node with a 255.
    vanishing: u64,
}

impl Choices {
    const NONE: Self = Choices { sets: [0; MAX_NODES], taken: [0; MAX_NODES], vanishing: 0 };

    /// Lets each node take the lowest of its labels that is free, else its 255. That is the smallest
    /// matching, unless a node has neither: answers the first such node.
    fn take_in_turn(&mut self, sheet: &Sheet) -> Option<usize> {
        let mut labels = sheet.labels;
        let mut free = u64::MAX;
        let mut placed = 0_u64;
        let mut vanishing = 0_u64;
        for (node, &degree) in sheet.degrees.iter().enumerate().take(MAX_NODES) {
            let (own, rest) = labels.split_at(usize::from(degree));
            let set = own.iter().fold(0, |set, &label| set | BITS[usize::from(label)]);
            let label = lowest(set & free);
            self.sets[node] = set;
            self.taken[node] = label;
            placed |= u64::from(label != 0) << node;
            vanishing |= u64::from(own.last() == Some(&VANISHED)) << node;
            free ^= label;
            labels = rest;
        }
        self.vanishing = vanishing;
        let stuck = (placed | vanishing).trailing_ones() as usize;
        (stuck < sheet.degrees.len()).then_some(stuck)
    }

    /// Labels rise within a node: a label's position is the number of those below it, a 255's that of all.
    fn write(&self, out: &mut [u8]) {
        for (position, (&set, &label)) in zip(out, zip(&self.sets, &self.taken)) {
            *position = (set & label.wrapping_sub(1)).count_ones() as u8;
        }
    }
}

/// A placing in which a node gets a label by a chain: each node of the chain takes the label of the next one,
/// and the last a label that is free, or its 255.
struct Placing<'a> {
    choices: &'a mut Choices,
    /// The labels that no node holds.
    free: u64,
    /// The labels whose holders may take a 255 instead.
    yielding: u64,
    holders: [u8; MAX_LABELS],
    /// The labels that each label's holder has.
    reach: [u64; MAX_LABELS],
    /// The labels that a search has looked at, in turn, and the new ones that each one's holder led to.
    looked_at: [u8; MAX_LABELS],
    found: [u64; MAX_LABELS],
}

impl<'a> Placing<'a> {
    /// With what the nodes before this one have taken.
    fn new(choices: &'a mut Choices, end: usize) -> Self {
        let mut placing = Placing {
            choices,
            free: u64::MAX,
            yielding: 0,
            holders: [0; MAX_LABELS],
            reach: [0; MAX_LABELS],
            looked_at: [0; MAX_LABELS],
            found: [0; MAX_LABELS],
        };
        for node in 0..end.min(MAX_NODES) {
            placing.give(node, placing.choices.taken[node]);
        }
        placing
    }

    /// Places the nodes from this one on, and then makes the matching the smallest. Not inlined, so that a
    /// placing without chains stays short.
    #[inline(never)]
    fn place_from(&mut self, first: usize, out: &mut [u8]) -> Result<(), Refusal> {
        for node in first..out.len().min(MAX_NODES) {
            let set = self.choices.sets[node];
            let label = lowest(set & self.free);
            if label != 0 || self.vanishes(node) != 0 {
                self.give(node, label);
            } else if let Err(seen) = self.chain(node, set, 0) {
                self.name(node, seen, out);
                return Err(Refusal::NoMatching);
            }
        }
        self.lower(out.len());
        Ok(())
    }

    /// 1 if the node has a 255.
    fn vanishes(&self, node: usize) -> u64 {
        self.choices.vanishing >> node & 1
    }

    fn holder(&self, labels: u64) -> usize {
        usize::from(self.holders[number(labels)]) % MAX_NODES
    }

    /// A label, or no bit for the node's 255.
    fn give(&mut self, node: usize, label: u64) {
        self.choices.taken[node] = label;
        if label != 0 {
            self.holders[number(label)] = node as u8;
            self.reach[number(label)] = self.choices.sets[node];
            self.free &= !label;
            self.yielding = self.yielding & !label | self.vanishes(node) << number(label);
        }
    }

    /// The node for which there is no chain, and the holders of the labels seen: these are all the labels
    /// that they have. A chain leads from the node to each holder, so that it can be placed in its stead.
    fn name(&self, node: usize, mut seen: u64, out: &mut [u8]) {
        out.fill(0);
        out[node] = 1;
        while seen != 0 {
            out[self.holder(seen)] = 1;
            seen &= seen - 1;
        }
    }

    /// Lets each node from node 0 on take the lowest label that leaves the later ones placed. What the
    /// earlier ones have taken is no longer open.
    fn lower(&mut self, nodes: usize) {
        let mut open = u64::MAX;
        let mut regions = Regions::ONE;
        for node in 0..nodes.min(MAX_NODES) {
            let own = self.choices.taken[node];
            let region = regions.of(own);
            let within = open & regions.labels[region];
            let mut lower = self.choices.sets[node] & within & own.wrapping_sub(1);
            if lower != 0 {
                self.free |= own;
                self.yielding &= !own;
                let mut seen = !within;
                while let Err(grown) = self.chain(node, lowest(lower), seen) {
                    regions.split(region, grown & !seen);
                    seen = grown;
                    lower &= !seen;
                    if lower == 0 {
                        self.free &= !own;
                        break;
                    }
                }
            }
            open &= !self.choices.taken[node];
            self.yielding &= open;
        }
    }

    /// Gives the node one of these labels by a chain through labels not seen yet, a shortest one. Answers all
    /// that has been seen if there is none.
    fn chain(&mut self, node: usize, start: u64, mut seen: u64) -> Result<(), u64> {
        let goal = self.free | self.yielding;
        if start & goal != 0 {
            self.shift(node, 0, lowest(start & goal));
            return Ok(());
        }
        seen |= start;
        let mut count = 0;
        let mut layer = start;
        while layer != 0 {
            let mut next = 0;
            while layer != 0 {
                let label = number(layer);
                let new = self.reach[label] & !seen;
                self.looked_at[count % MAX_LABELS] = label as u8;
                self.found[count % MAX_LABELS] = new;
                count += 1;
                if new & goal != 0 {
                    self.shift(node, count, lowest(new & goal));
                    return Ok(());
                }
                seen |= new;
                next |= new;
                layer &= layer - 1;
            }
            layer = next;
        }
        Err(seen)
    }

    /// Moves the chain that ends at this label, from there back to the node: a label was found by one that
    /// was looked at before it.
    fn shift(&mut self, node: usize, count: usize, mut label: u64) {
        if self.yielding & label != 0 {
            self.choices.taken[self.holder(label)] = 0;
        }
        for place in (0..count.min(MAX_LABELS)).rev() {
            if self.found[place] & label != 0 {
                let from = 1 << (usize::from(self.looked_at[place]) % MAX_LABELS);
                self.give(self.holder(from), label);
                label = from;
            }
        }
        self.give(node, label);
    }
}

/// The labels in parts that no chain crosses. Where none leads on from some labels, their holders have to
/// share them: what they saw is split off for good. Region 0 has the labels that are free or yielding.
struct Regions {
    /// There is one more than labels, as region 0 may become empty.
    labels: [u64; MAX_LABELS + 1],
    by_label: [u8; MAX_LABELS],
    count: usize,
}

impl Regions {
    const ONE: Self = {
        let mut labels = [0; MAX_LABELS + 1];
        labels[0] = u64::MAX;
        Regions { labels, by_label: [0; MAX_LABELS], count: 1 }
    };

    /// Of a node with this label, or with a 255.
    fn of(&self, label: u64) -> usize {
        if label == 0 {
            0
        } else {
            usize::from(self.by_label[number(label)])
        }
    }

    fn split(&mut self, region: usize, mut part: u64) {
        self.labels[region] &= !part;
        self.labels[self.count] = part;
        while part != 0 {
            self.by_label[number(part)] = self.count as u8;
            part &= part - 1;
        }
        self.count += 1;
    }
}
