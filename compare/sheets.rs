//! Pseudo-random sheets, valid and damaged.

use std::ops::Range;

use crate::twin::{
    MARK, MAX_DEGREE, MAX_EDGES, MAX_EDGE_CELLS, MAX_LABELS, MAX_LENGTH, MAX_NODES, MAX_PRICE, TRAILER,
    VANISHED,
};

/// SplitMix64.
pub struct Rng(pub u64);

impl Rng {
    pub fn next(&mut self) -> u64 {
        self.0 = self.0.wrapping_add(0x9E37_79B9_7F4A_7C15);
        let mut word = self.0;
        word = (word ^ (word >> 30)).wrapping_mul(0xBF58_476D_1CE4_E5B9);
        word = (word ^ (word >> 27)).wrapping_mul(0x94D0_49BB_1331_11EB);
        word ^ (word >> 31)
    }

    /// Below the bound; 0 for a bound of 0.
    pub fn below(&mut self, bound: usize) -> usize {
        (self.next() >> 11) as usize % bound.max(1)
    }

    /// Both ends may come.
    pub fn between(&mut self, low: i64, high: i64) -> i64 {
        low + self.below((high - low + 1) as usize) as i64
    }

    pub fn percent(&mut self, chance: usize) -> bool {
        self.below(100) < chance
    }

    pub fn byte(&mut self) -> u8 {
        self.next() as u8
    }

    pub fn pick<T: Copy>(&mut self, from: &[T]) -> T {
        from[self.below(from.len())]
    }

    pub fn shuffle<T>(&mut self, items: &mut [T]) {
        for last in (1..items.len()).rev() {
            items.swap(last, self.below(last + 1));
        }
    }
}

/// The sections of a sheet; the trailer follows from them.
#[derive(Clone, Default)]
pub struct Parts {
    pub label_limit: usize,
    pub degrees: Vec<u8>,
    pub labels: Vec<u8>,
    pub node_prices: Vec<i32>,
    pub ends: Vec<[u8; 2]>,
    pub edge_prices: Vec<i32>,
}

impl Parts {
    pub fn bytes(&self) -> Vec<u8> {
        let mut out = self.degrees.clone();
        out.extend(&self.labels);
        let node_prices = out.len();
        out.extend(self.node_prices.iter().flat_map(|price| price.to_le_bytes()));
        out.extend(self.ends.as_flattened());
        let edge_prices = out.len();
        out.extend(self.edge_prices.iter().flat_map(|price| price.to_le_bytes()));
        let length = out.len() + TRAILER;
        out.extend([self.degrees.len() as u8, self.label_limit as u8]);
        out.extend((self.ends.len() as u16).to_le_bytes());
        out.extend(((length - node_prices) as u32).to_le_bytes());
        out.extend(((length - edge_prices) as u32).to_le_bytes());
        out.extend(MARK);
        out
    }

    /// Each node's labels.
    fn labels_by_node(&self) -> Vec<Vec<u8>> {
        let mut rest = self.labels.as_slice();
        let by_node = self.degrees.iter().map(|&degree| {
            let (own, others) = rest.split_at(usize::from(degree));
            rest = others;
            own.to_vec()
        });
        by_node.collect()
    }

    /// Those of the pairs whose edge has a cell with different labels, or with 255 twice.
    fn usable(&self, mut pairs: Vec<[u8; 2]>) -> Vec<[u8; 2]> {
        let labels = self.labels_by_node();
        pairs.retain(|pair| {
            let [low, high] = pair.map(|node| &labels[usize::from(node)]);
            low.iter().any(|label| high.iter().any(|other| label != other || *label == VANISHED))
        });
        pairs
    }

    fn table_cells(&self, [u, v]: [u8; 2]) -> usize {
        usize::from(self.degrees[usize::from(u)]) * usize::from(self.degrees[usize::from(v)])
    }

    /// Adds a node with these labels, which need not be sorted.
    fn add_node(&mut self, mut labels: Vec<u8>) {
        labels.sort_unstable();
        self.degrees.push(labels.len() as u8);
        self.labels.extend(labels);
    }

    /// Takes the edges in order as long as the tables stay within `cells`.
    fn set_edges(&mut self, mut ends: Vec<[u8; 2]>, cells: usize) {
        let mut sum = 0;
        ends.retain(|&pair| {
            let grown = sum + self.table_cells(pair);
            let fits = grown <= cells;
            sum = if fits { grown } else { sum };
            fits
        });
        ends.sort_unstable();
        self.ends = ends;
    }

    fn set_prices(&mut self, rng: &mut Rng, prices: Prices) {
        let cells = self.ends.iter().map(|&pair| self.table_cells(pair)).sum();
        self.node_prices = (0..self.labels.len()).map(|_| prices.draw(rng)).collect();
        self.edge_prices = (0..cells).map(|_| prices.draw(rng)).collect();
    }
}

#[derive(Clone, Copy)]
enum Prices {
    /// Single units, most of which a share leaves where they are.
    Units,
    Small,
    Wide,
    Ends,
    Zero,
}

impl Prices {
    /// Of a random sheet.
    const SOME: [Self; 7] =
        [Self::Units, Self::Small, Self::Small, Self::Wide, Self::Wide, Self::Ends, Self::Zero];

    fn draw(self, rng: &mut Rng) -> i32 {
        let limit = i64::from(MAX_PRICE);
        (match self {
            Prices::Units => rng.between(0, 3),
            Prices::Small => rng.between(-9, 9),
            Prices::Wide => rng.between(-limit, limit),
            Prices::Ends => rng.pick(&[-limit, 0, limit]),
            Prices::Zero => 0,
        }) as i32
    }
}

/// `degree` of the first labels of a shuffled universe.
fn some_labels(rng: &mut Rng, universe: &mut [u8], degree: usize) -> Vec<u8> {
    rng.shuffle(universe);
    universe[..degree].to_vec()
}

fn all_pairs(nodes: usize) -> Vec<[u8; 2]> {
    let nodes = nodes as u8;
    (0..nodes).flat_map(|u| (u + 1..nodes).map(move |v| [u, v])).collect()
}

/// What a random sheet is drawn from.
struct Shape {
    nodes: usize,
    label_limit: usize,
    /// The nodes choose among so many labels: the fewer, the more the ends of an edge share.
    choice: usize,
    least_degree: usize,
    most_degree: usize,
    /// At most so many edges.
    edges: usize,
    /// At most so many cells in their tables.
    cells: usize,
}

/// A sheet at the limits; the shapes below are less of it.
const FULL: Shape = Shape {
    nodes: MAX_NODES,
    label_limit: MAX_LABELS,
    choice: usize::MAX,
    least_degree: 1,
    most_degree: MAX_DEGREE,
    edges: MAX_EDGES,
    cells: MAX_EDGE_CELLS,
};

impl Shape {
    /// With all labels to choose from or with just enough, at times with two.
    fn draw_sharing(self, rng: &mut Rng) -> Parts {
        let choice = rng.pick(&[usize::MAX, usize::MAX, self.most_degree, self.most_degree + 3, 2]);
        Shape { choice, ..self }.draw(rng)
    }

    fn draw(self, rng: &mut Rng) -> Parts {
        let mut parts = Parts { label_limit: self.label_limit, ..Parts::default() };
        let mut universe: Vec<u8> = (0..self.label_limit as u8).collect();
        rng.shuffle(&mut universe);
        universe.truncate(self.choice);
        // How many nodes in a hundred have a 255; without other labels every one.
        let vanishing = if self.label_limit == 0 { 100 } else { rng.pick(&[0, 0, 10, 60, 100]) };
        for _ in 0..self.nodes {
            let degree = rng.between(self.least_degree as i64, self.most_degree as i64) as usize;
            let vanishes = rng.percent(vanishing);
            // The 255 takes one of the places, at degree 1 the only one.
            let others = (degree - usize::from(vanishes)).min(universe.len());
            let mut labels = some_labels(rng, &mut universe, others);
            labels.extend(vanishes.then_some(VANISHED));
            parts.add_node(labels);
        }
        let mut pairs = parts.usable(all_pairs(self.nodes));
        rng.shuffle(&mut pairs);
        pairs.truncate(self.edges);
        parts.set_edges(pairs, self.cells);
        let prices = rng.pick(&Prices::SOME);
        parts.set_prices(rng, prices);
        parts
    }
}

/// A valid sheet of some shape.
pub fn valid(rng: &mut Rng) -> Parts {
    match rng.below(22) {
        0 => Shape { nodes: 0, label_limit: label_limit(rng, 0), ..FULL }.draw_sharing(rng),
        1..=4 => {
            let label_limit = 1 + rng.below(9);
            Shape { nodes: rng.below(7), label_limit, most_degree: 4, edges: rng.below(16), ..FULL }
                .draw_sharing(rng)
        }
        5..=7 => Shape {
            nodes: rng.below(MAX_NODES + 1),
            label_limit: label_limit(rng, 1),
            most_degree: 1 + rng.below(MAX_DEGREE),
            edges: rng.below(MAX_EDGES + 1),
            ..FULL
        }
        .draw_sharing(rng),
        8 => Shape { least_degree: MAX_DEGREE, ..FULL }.draw_sharing(rng),
        9 => Shape { least_degree: 4, most_degree: 4, ..FULL }.draw_sharing(rng),
        10 => star(rng),
        11 => Shape {
            nodes: rng.pick(&[1, 2, 9, MAX_NODES]),
            label_limit: 0,
            edges: rng.below(MAX_EDGES + 1),
            ..FULL
        }
        .draw_sharing(rng),
        12 => Shape { most_degree: 3, ..FULL }.draw_sharing(rng),
        13..=14 => few_labels(rng),
        15..=18 => crowded(rng),
        _ => contested(rng),
    }
}

/// Few nodes that want the same labels, about as many as there are nodes, so that a label which one takes is
/// missed by another. Prices of few values make many matchings equal; where the labels fall as the nodes rise
/// the first of these is far from where each node's first label leads. With many 255s these compete too.
fn contested(rng: &mut Rng) -> Parts {
    let nodes = rng.between(2, 7) as usize;
    let room = (nodes + rng.pick(&[0, 0, 1, 2])).min(9);
    let least = rng.pick(&[0, MAX_LABELS - room]);
    let degree = rng.pick(&[2, 2, 3, 3, 4, 9]).min(room);
    let falls = rng.percent(50);
    let vanishing = rng.pick(&[0, 0, 20, 100]);
    let mut parts = Parts { label_limit: least + room, ..Parts::default() };
    for node in 0..nodes {
        let first = if falls { (nodes - 1 - node).min(room - degree) } else { rng.below(room - degree + 1) };
        let mut labels: Vec<u8> = (first..first + degree).map(|label| (least + label) as u8).collect();
        if rng.percent(25) {
            labels.swap_remove(rng.below(labels.len()));
        }
        labels.extend(rng.percent(vanishing).then_some(VANISHED));
        parts.add_node(labels);
    }
    let mut pairs = parts.usable(all_pairs(nodes));
    rng.shuffle(&mut pairs);
    pairs.truncate(rng.below(5));
    parts.set_edges(pairs, MAX_EDGE_CELLS);
    let prices = rng.pick(&[Prices::Units, Prices::Units, Prices::Zero, Prices::Small, Prices::Wide]);
    parts.set_prices(rng, prices);
    parts
}

/// Nodes of degree 1 to 3 that have hardly a label to choose from.
fn few_labels(rng: &mut Rng) -> Parts {
    Shape {
        nodes: rng.between(2, 9) as usize,
        label_limit: rng.between(1, 3) as usize,
        most_degree: rng.between(1, 3) as usize,
        edges: 1 + rng.below(20),
        ..FULL
    }
    .draw_sharing(rng)
}

/// Nodes in groups, each with labels of its own: one fewer than nodes, as many, or one more. Some nodes of a
/// later group have labels of earlier ones too. In some groups a node, or several, has a 255.
fn crowded(rng: &mut Rng) -> Parts {
    const FEW: usize = 7;
    let kinds: [(usize, &[usize]); 5] = [
        (FEW, &[2, 3]),
        (FEW, &[2, 3, 4]),
        (MAX_NODES, &[2, 3, 5, 9]),
        (MAX_NODES, &[4, 17, 24]),
        (MAX_NODES, &[40, 60]),
    ];
    let (room, sizes) = rng.pick(&kinds);
    let mut universe: Vec<u8> = (0..rng.pick(&[room, MAX_LABELS]) as u8).collect();
    rng.shuffle(&mut universe);
    let mut nodes = Vec::new();
    let mut used = 0;
    for _ in 0..1 + rng.below(5) {
        let size = rng.pick(sizes);
        let labels = size + rng.pick(&[0, 0, 1, 2]) - 1;
        if nodes.len() + size > room || used + labels > universe.len() {
            break;
        }
        let (earlier, rest) = universe.split_at(used);
        nodes.extend(group(rng, size, earlier, &rest[..labels]));
        used += labels;
    }
    match rng.below(3) {
        0 => {}
        1 => nodes.reverse(),
        _ => rng.shuffle(&mut nodes),
    }
    let mut parts = Parts { label_limit: universe.len(), ..Parts::default() };
    let count = nodes.len();
    nodes.into_iter().for_each(|labels| parts.add_node(labels));
    let mut pairs = parts.usable(all_pairs(count));
    rng.shuffle(&mut pairs);
    pairs.truncate(rng.below(12));
    parts.set_edges(pairs, MAX_EDGE_CELLS);
    let prices = rng.pick(&[Prices::Small, Prices::Small, Prices::Units, Prices::Zero, Prices::Wide]);
    parts.set_prices(rng, prices);
    parts
}

/// A group of a crowded sheet, which has these labels: all of them at every node, two at a node so that they
/// form a chain, or some of them, among which is one of the node's own as long as there are enough.
fn group(rng: &mut Rng, size: usize, earlier: &[u8], labels: &[u8]) -> Vec<Vec<u8>> {
    let form = rng.below(3);
    let others = rng.pick(&[1, 2, 4, 10]);
    let reaching = rng.pick(&[0, 0, 50, 100]);
    let vanishing = rng.pick(&[0, 0, 0, 10, 50]);
    let mut nodes = Vec::new();
    for node in 0..size {
        let mut own = match form {
            0 => labels.to_vec(),
            1 => labels[node.saturating_sub(1)..labels.len().min(node + 1)].to_vec(),
            _ => labels.get(node).into_iter().copied().chain((0..others).map(|_| rng.pick(labels))).collect(),
        };
        if rng.percent(reaching) {
            own.extend((0..others).filter_map(|_| earlier.get(rng.below(earlier.len()))));
        }
        rng.shuffle(&mut own);
        own.truncate(MAX_DEGREE - 1);
        own.extend(rng.percent(vanishing).then_some(VANISHED));
        own.sort_unstable();
        own.dedup();
        nodes.push(own);
    }
    nodes
}

/// A sheet that nothing is wrong with but an edge, or several, of one cell with the same label twice.
fn blocked(rng: &mut Rng) -> Parts {
    let mut parts = if rng.percent(50) { few_labels(rng) } else { valid(rng) };
    if parts.degrees.len() < 2 || parts.label_limit == 0 {
        parts = few_labels(rng);
    }
    let mut labels = parts.labels_by_node();
    let label = rng.below(parts.label_limit) as u8;
    let low = rng.below(labels.len() - 1);
    let high = low + 1 + rng.below(labels.len() - 1 - low);
    labels[low] = vec![label];
    labels[high] = vec![label];
    (parts.degrees, parts.labels) = Default::default();
    labels.into_iter().for_each(|own| parts.add_node(own));

    let pair = [low as u8, high as u8];
    let mut others = std::mem::take(&mut parts.ends);
    others.retain(|&other| other != pair);
    others.truncate(MAX_EDGES - 1);
    if rng.percent(50) {
        others = parts.usable(others);
    }
    parts.set_edges([vec![pair], others].concat(), MAX_EDGE_CELLS);
    parts.set_prices(rng, Prices::Wide);
    parts
}

fn label_limit(rng: &mut Rng, least: i64) -> usize {
    if rng.percent(30) {
        MAX_LABELS
    } else {
        rng.between(least, MAX_LABELS as i64) as usize
    }
}

/// One node with an edge to every other: the largest shares.
fn star(rng: &mut Rng) -> Parts {
    let nodes = rng.pick(&[2, 9, MAX_NODES]);
    let mut parts = Shape { nodes, most_degree: 8, edges: 0, ..FULL }.draw_sharing(rng);
    let hub = rng.pick(&[0, nodes - 1]) as u8;
    let spokes = (0..nodes as u8).filter(|&node| node != hub);
    let ends = spokes.map(|node| [node.min(hub), node.max(hub)]).collect();
    parts.set_edges(parts.usable(ends), MAX_EDGE_CELLS);
    let prices = rng.pick(&[Prices::Units, Prices::Small, Prices::Wide, Prices::Wide]);
    parts.set_prices(rng, prices);
    parts
}

/// The two sheets of the benchmark: every node also has the label of its own number, so that one
/// matching is known: `identity`.
pub fn bench_sheets(seed: u64) -> [(&'static str, Parts); 2] {
    let rng = &mut Rng(seed);
    let shapes = [("64 nodes of degree 16, 16 edges", 16, 16), ("64 nodes of degree 4, 256 edges", 4, 256)];
    shapes.map(|(name, degree, edges)| {
        let nodes = (0..MAX_NODES).map(|node| labels_with(rng, node, 0..MAX_LABELS, degree)).collect();
        (name, full_size(rng, nodes, edges))
    })
}

/// Two more sheets of the first one's size, to place on. Of the first the last 17 nodes have the 16 lowest
/// labels, which are taken by then: there is no matching, and the last node shows it. On the second each
/// node chooses among 24 labels, the lower the higher its number, so that taking the first free label in turn
/// gets stuck; that of 63 less its number is among them, so that there is a matching.
pub fn placing_sheets(seed: u64) -> [(&'static str, Parts); 2] {
    let rng = &mut Rng(seed);
    let mut all: Vec<u8> = (0..MAX_LABELS as u8).collect();
    let alike = vec![all[..MAX_DEGREE].to_vec(); MAX_DEGREE + 1];
    let others = alike.len()..MAX_NODES;
    let crowded = others.map(|_| some_labels(rng, &mut all, MAX_DEGREE)).chain(alike).collect();
    let falling = (0..MAX_NODES).rev().map(|label| {
        let low = label.saturating_sub(12).min(MAX_LABELS - 24);
        labels_with(rng, label, low..low + 24, MAX_DEGREE)
    });
    let falling = falling.collect();
    [
        ("64 nodes of degree 16, no matching", full_size(rng, crowded, 16)),
        ("64 nodes of degree 16, labels that fall", full_size(rng, falling, 16)),
    ]
}

/// Two sheets for roundings by assignment: the 64 nodes want the 64 labels, every one of which is needed. Each
/// has that of its own number, so that there is a matching. Prices of few values leave many equal ones.
pub fn assigning_sheets(seed: u64) -> [(&'static str, Parts); 2] {
    let rng = &mut Rng(seed);
    let kinds = [
        ("64 nodes of degree 16, no edges", Prices::Wide),
        ("64 nodes of degree 16, no edges, prices 0 to 3", Prices::Units),
    ];
    kinds.map(|(name, prices)| {
        let nodes = (0..MAX_NODES).map(|node| labels_with(rng, node, 0..MAX_LABELS, MAX_DEGREE)).collect();
        let mut parts = full_size(rng, nodes, 0);
        parts.set_prices(rng, prices);
        (name, parts)
    })
}

/// So many of the labels, one of which is given.
fn labels_with(rng: &mut Rng, label: usize, of: Range<usize>, degree: usize) -> Vec<u8> {
    let mut others: Vec<u8> = of.filter(|&other| other != label).map(|other| other as u8).collect();
    let mut labels = some_labels(rng, &mut others, degree - 1);
    labels.push(label as u8);
    labels
}

/// Nodes with these labels, so many edges, and wide prices.
fn full_size(rng: &mut Rng, nodes: Vec<Vec<u8>>, edges: usize) -> Parts {
    let mut parts = Parts { label_limit: MAX_LABELS, ..Parts::default() };
    nodes.into_iter().for_each(|labels| parts.add_node(labels));
    let mut pairs = all_pairs(MAX_NODES);
    rng.shuffle(&mut pairs);
    pairs.truncate(edges);
    parts.set_edges(pairs, MAX_EDGE_CELLS);
    parts.set_prices(rng, Prices::Wide);
    parts
}

/// The positions at which each node has the label of its own number.
pub fn identity(parts: &Parts) -> Vec<u8> {
    let mut labels = parts.labels.as_slice();
    let mut positions = Vec::new();
    for (node, &degree) in (0_u8..).zip(&parts.degrees) {
        let (own, rest) = labels.split_at(usize::from(degree));
        positions.push(own.iter().position(|&label| label == node).unwrap_or(0) as u8);
        labels = rest;
    }
    positions
}

/// A sheet with something wrong, most of the time.
pub fn damaged(rng: &mut Rng) -> Vec<u8> {
    let mut parts = if rng.percent(30) { blocked(rng) } else { valid(rng) };
    match rng.below(5) {
        0 => damage_bytes(rng, parts.bytes()),
        1 => damage_trailer(rng, parts.bytes()),
        2 => {
            damage_parts(rng, &mut parts);
            if rng.percent(20) {
                damage_trailer(rng, parts.bytes())
            } else {
                parts.bytes()
            }
        }
        3 => blocked(rng).bytes(),
        _ => overfull(rng),
    }
}

fn damage_bytes(rng: &mut Rng, mut bytes: Vec<u8>) -> Vec<u8> {
    match rng.below(6) {
        0 => {
            let place = rng.below(bytes.len());
            bytes[place] ^= 1 << rng.below(8);
        }
        1 => {
            let place = rng.below(bytes.len());
            bytes[place] = rng.byte();
        }
        2 => bytes.truncate(rng.below(bytes.len())),
        3 => {
            bytes.drain(..1 + rng.below(bytes.len()));
        }
        4 => {
            let place = rng.below(bytes.len());
            bytes.splice(place..place, (0..1 + rng.below(8)).map(|_| 0));
        }
        _ => {
            let grown = rng.pick(&[MAX_LENGTH - 1, MAX_LENGTH, MAX_LENGTH + 1, MAX_LENGTH + 500]);
            let missing = grown.saturating_sub(bytes.len());
            let place = rng.pick(&[0, bytes.len() - TRAILER, bytes.len()]);
            bytes.splice(place..place, (0..missing).map(|_| 0));
        }
    }
    bytes
}

/// Every byte of the trailer, the distances by little.
fn damage_trailer(rng: &mut Rng, mut bytes: Vec<u8>) -> Vec<u8> {
    let trailer = bytes.len() - TRAILER;
    let place = trailer + rng.below(TRAILER);
    let byte = &mut bytes[place];
    *byte = match rng.below(3) {
        0 => byte.wrapping_add(1),
        1 => byte.wrapping_sub(1),
        _ => rng.byte(),
    };
    bytes
}

fn damage_parts(rng: &mut Rng, parts: &mut Parts) {
    let off_scale = [MAX_PRICE + 1, -MAX_PRICE - 1, i32::MIN, i32::MAX];
    // Two times in five a second fault, so that the order of the checks shows.
    for _ in 0..1 + usize::from(rng.percent(40)) {
        match rng.below(7) {
            0 => change(rng, &mut parts.degrees, |rng, _| rng.pick(&[0, 17, 255, 1, 16])),
            1 => change(rng, &mut parts.labels, |rng, label| {
                rng.pick(&[label.wrapping_add(1), 0, 63, 64, 255])
            }),
            2 => change(rng, &mut parts.ends, |rng, [u, v]| {
                rng.pick(&[[v, u], [u, u], [u, 64], [255, 255], [0, 1]])
            }),
            3 => change(rng, &mut parts.node_prices, |rng, _| rng.pick(&off_scale)),
            4 => change(rng, &mut parts.edge_prices, |rng, _| rng.pick(&off_scale)),
            5 => misplace_vanished(rng, parts),
            _ => parts.label_limit = rng.below(MAX_LABELS + 2),
        }
    }
}

/// A 255 that is not its node's last or not its only one, one after a label that is out of order, or
/// another label in its place that is past the limit.
fn misplace_vanished(rng: &mut Rng, parts: &mut Parts) {
    let node = rng.below(parts.degrees.len());
    let start = parts.degrees[..node].iter().map(|&degree| usize::from(degree)).sum();
    // The degrees may be damaged already.
    let (Some(&degree), Some(rest)) = (parts.degrees.get(node), parts.labels.get_mut(start..)) else {
        return;
    };
    let own = rest.get_mut(..usize::from(degree)).unwrap_or_default();
    let Some((last, others)) = own.split_last_mut() else { return };
    match rng.below(5) {
        0 => change(rng, others, |_, _| VANISHED),
        1 => {
            change(rng, others, |_, _| VANISHED);
            *last = VANISHED;
        }
        2 => {
            change(rng, others, |rng, _| rng.pick(&[0, 63, 64, 254]));
            *last = VANISHED;
        }
        3 => *last = rng.pick(&[64, 127, 254]),
        _ => own.fill(VANISHED),
    }
}

fn change<T: Copy>(rng: &mut Rng, items: &mut [T], new: impl Fn(&mut Rng, T) -> T) {
    if !items.is_empty() {
        let place = rng.below(items.len());
        items[place] = new(rng, items[place]);
    }
}

/// Over one of the limits, or just a few bytes.
fn overfull(rng: &mut Rng) -> Vec<u8> {
    match rng.below(5) {
        0 => Shape { nodes: MAX_NODES + 1, most_degree: 2, edges: 0, ..FULL }.draw(rng).bytes(),
        1 => Shape { most_degree: 1, edges: MAX_EDGES + 1 + rng.below(20), ..FULL }.draw(rng).bytes(),
        2 => {
            let shape = Shape { nodes: 20, least_degree: 8, edges: 40, cells: 3 * MAX_EDGE_CELLS, ..FULL };
            let mut parts = shape.draw(rng);
            parts.edge_prices.truncate(MAX_EDGE_CELLS);
            if rng.percent(50) {
                // The ends are judged before the number of cells.
                let last = parts.ends.len() - 1;
                parts.ends[last] = [1, 0];
            }
            parts.bytes()
        }
        3 => Shape { nodes: 3, label_limit: MAX_LABELS + 1 + rng.below(20), ..FULL }.draw(rng).bytes(),
        _ => {
            let mut bytes: Vec<u8> = (0..rng.below(40)).map(|_| rng.byte() & 3).collect();
            if rng.percent(50) {
                bytes.extend(MARK);
            }
            bytes
        }
    }
}
