//! Request 6 for both Rust programs: the matching with the least sum of node costs, and of several the one
//! that is smallest when positions are compared from node 0 on.
//!
//! Each label has a price, 0 or above. A node's key at a label is its cost there and the label's price, at its
//! 255 the cost alone. In a matching where no node has a key lower than that of what it takes, and where no
//! label that is left has a price above 0, the sum is the least. The others with this sum are just those in
//! which each node takes something at the same key as here and no label with a price above 0 is left.

use std::hint::select_unpredictable;
use std::iter::zip;
use std::ops::{Add, AddAssign, Sub};

use crate::twin::{MAX_LABELS, MAX_NODES, VANISHED};

/// In the place of a label: the node's 255.
const VANISHES: usize = MAX_LABELS;
/// In the place of a label: what nobody takes, where a chain may end and another begin.
const OUTSIDE: usize = MAX_LABELS;
/// How often nodes may take a label from each other before searches set in.
const BIDS: u32 = 128;
/// So many keys are compared side by side.
const LANES: usize = 4;
const HALF: usize = MAX_LABELS / 2;

type ByLabel<T> = [T; MAX_LABELS];
type ByNode<T> = [T; MAX_NODES];

/// Of a readable sheet and costs within the limit: fills the labelling, or answers false where there is no
/// matching. Mostly a node's costs lie near enough to each other for the narrow keys.
#[inline(never)]
pub fn assign(degrees: &[u8], labels: &[u8], costs: &[i64], labelling: &mut [u8]) -> bool {
    match solve::<i32>(degrees, labels, costs, labelling) {
        Ok(placed) => placed,
        Err(Wide) => solve::<i64>(degrees, labels, costs, labelling) == Ok(true),
    }
}

fn solve<K: Key>(degrees: &[u8], labels: &[u8], costs: &[i64], labelling: &mut [u8]) -> Result<bool, Wide> {
    let mut market = Market::<K>::empty();
    market.fill(degrees, labels, costs)?;
    if !market.place_all()? {
        return Ok(false);
    }
    let mut alike = Alike::new(&market);
    alike.lower(degrees.len());
    for (position, (set, label)) in zip(labelling, zip(&market.sets, &alike.taken)) {
        // Labels rise within a node, and a 255 is last.
        *position = (set & label.wrapping_sub(1)).count_ones() as u8;
    }
    Ok(true)
}

/// The keys do not have the bits for these costs.
#[derive(Debug, PartialEq, Eq)]
struct Wide;

/// Which of the groups of LANES labels a key belongs to stands in its low bits, so that the least of a lane
/// says where it was.
const GROUP_BITS: u32 = (MAX_LABELS / LANES).trailing_zeros();

/// A number of one of two widths. Of 32 parts that an unsigned one has, all that is added up stays below 32 and
/// all that is told apart stays apart: costs, as distances from the node's first, lie within 2 on either side,
/// prices within 4, a node's own key so within -2 and 6, and searches go on up to 5. What they come to there
/// lies below 14, at a label that the node does not have at 14 or above.
trait Key: Copy + Ord + Add<Output = Self> + Sub<Output = Self> + AddAssign {
    const ZERO: Self;
    const MOST_PRICE: Self;
    const MOST_DISTANCE: Self;
    const NOT_THERE: Self;
    /// The cost of a label that the node does not have.
    const ABSENT: Self;
    /// Of a label that a search has passed: below all keys, and above them by the bits.
    const PASSED: Self;
    const UNREACHED: Self;
    /// How many bits the distance of two costs of a node may have.
    const COST_BITS: u32;
    fn new(distance: i64, label: u8) -> Self;
    fn label(self, lane: usize) -> usize;
    fn without_group(self) -> Self;
    fn least_by_bits(self, other: Self) -> Self;
    fn less_by_bits(self, other: Self) -> bool;
}

macro_rules! key {
    ($signed:ident, $unsigned:ident) => {
        impl Key for $signed {
            const ZERO: Self = 0;
            const MOST_PRICE: Self = 4 << ($signed::BITS - 6);
            const MOST_DISTANCE: Self = 5 << ($signed::BITS - 6);
            const NOT_THERE: Self = 14 << ($signed::BITS - 6);
            const ABSENT: Self = 20 << ($signed::BITS - 6);
            const PASSED: Self = $signed::MIN;
            const UNREACHED: Self = $signed::MAX;
            const COST_BITS: u32 = $signed::BITS - 5 - GROUP_BITS;

            fn new(distance: i64, label: u8) -> Self {
                (distance as $signed) << GROUP_BITS | $signed::from(label / LANES as u8)
            }

            fn label(self, lane: usize) -> usize {
                (self & ((1 << GROUP_BITS) - 1)) as usize * LANES + lane
            }

            fn without_group(self) -> Self {
                self & -(1 << GROUP_BITS)
            }

            fn least_by_bits(self, other: Self) -> Self {
                (self as $unsigned).min(other as $unsigned) as $signed
            }

            fn less_by_bits(self, other: Self) -> bool {
                (self as $unsigned) < other as $unsigned
            }
        }
    };
}

key!(i32, u32);
key!(i64, u64);

/// A key and its lane.
type InLane<K> = (K, usize);

/// One of two, without a branch.
fn pick<K>(is_other: bool, one: InLane<K>, other: InLane<K>) -> InLane<K> {
    (select_unpredictable(is_other, other.0, one.0), select_unpredictable(is_other, other.1, one.1))
}

/// Nodes and the labels that they take at prices.
struct Market<K> {
    nodes: usize,
    /// The labels of each node, as bits.
    sets: ByNode<u64>,
    /// Each node's costs as distances from its first, with the labels; at 255 apart.
    rows: ByNode<ByLabel<K>>,
    vanished: ByNode<K>,
    prices: ByLabel<K>,
    holders: ByLabel<u8>,
    /// The labels that no node holds; their price is 0.
    free: u64,
    /// What each node takes, and its key there.
    taken: ByNode<u8>,
    keys: ByNode<K>,
}

impl<K: Key> Market<K> {
    /// To be filled in its place: it is large.
    #[inline(always)]
    fn empty() -> Self {
        Market {
            nodes: 0,
            sets: [0; MAX_NODES],
            rows: [[K::ABSENT; MAX_LABELS]; MAX_NODES],
            vanished: [K::ABSENT; MAX_NODES],
            prices: [K::ZERO; MAX_LABELS],
            holders: [0; MAX_LABELS],
            free: u64::MAX,
            taken: [0; MAX_NODES],
            keys: [K::ZERO; MAX_NODES],
        }
    }

    fn fill(&mut self, degrees: &[u8], mut labels: &[u8], mut costs: &[i64]) -> Result<(), Wide> {
        self.nodes = degrees.len().min(MAX_NODES);
        let mut bits = 0;
        for (node, &degree) in degrees.iter().enumerate().take(MAX_NODES) {
            let (own, own_costs);
            (own, labels) = labels.split_at(usize::from(degree));
            (own_costs, costs) = costs.split_at(usize::from(degree));
            bits |= self.add_node(node, own, own_costs);
        }
        if bits >> (K::COST_BITS + 1) == 0 {
            Ok(())
        } else {
            Err(Wide)
        }
    }

    /// Answers the bits of all distances from the least cost that there may be.
    fn add_node(&mut self, node: usize, mut labels: &[u8], costs: &[i64]) -> u64 {
        let first = costs[0];
        let least = first - (1 << K::COST_BITS);
        let mut bits = 0;
        if let [others @ .., VANISHED] = labels {
            let cost = costs[others.len()];
            bits = (cost - least) as u64;
            self.vanished[node] = K::new(cost - first, 0);
            labels = others;
        }
        let row = &mut self.rows[node];
        let mut set = 0;
        for (&label, &cost) in zip(labels, costs) {
            bits |= (cost - least) as u64;
            row[usize::from(label) % MAX_LABELS] = K::new(cost - first, label);
            set |= BITS[usize::from(label) % MAX_LABELS];
        }
        self.sets[node] = set;
        bits
    }

    fn is_free(&self, label: usize) -> bool {
        self.free >> (label % MAX_LABELS) & 1 != 0
    }

    fn holder(&self, label: usize) -> usize {
        usize::from(self.holders[label]) % MAX_NODES
    }

    /// A label, or VANISHES.
    fn take(&mut self, node: usize, label: usize) {
        self.taken[node] = label as u8;
        if label != VANISHES {
            self.holders[label % MAX_LABELS] = node as u8;
            self.free &= !(1 << label);
        }
    }

    fn take_at(&mut self, node: usize, label: usize, key: K) {
        self.keys[node] = key;
        self.take(node, label);
    }

    /// False if there is no matching.
    fn place_all(&mut self) -> Result<bool, Wide> {
        let mut bids = BIDS;
        let everyone = u64::MAX.checked_shr((MAX_NODES - self.nodes) as u32).unwrap_or(0);
        let waiting = self.bid_all(everyone, &mut bids);
        let waiting = self.bid_all(waiting, &mut bids);
        for node in members(waiting) {
            if !self.search(node)? {
                return Ok(false);
            }
        }
        Ok(true)
    }

    /// Answers who is left with nothing.
    fn bid_all(&mut self, nodes: u64, bids: &mut u32) -> u64 {
        members(nodes).filter_map(|node| self.bid(node, bids)).fold(0, |waiting, node| waiting | 1 << node)
    }

    /// The node takes the label of its least key, at a price that brings this up to its second. Who held the
    /// label bids in turn. Answers who is left with nothing, if anyone.
    fn bid(&mut self, mut node: usize, bids: &mut u32) -> Option<usize> {
        loop {
            let ((first, label), second) = self.two_least(node);
            let vanished = self.vanished[node];
            if vanished < first {
                self.take_at(node, VANISHES, vanished);
                return None;
            }
            let second = second.min(vanished).without_group();
            let key = first.without_group();
            let free = self.is_free(label);
            if !free && key == second {
                return self.bid_evenly(node, key);
            }
            // An only label is no dearer for it.
            let rise = if second < K::NOT_THERE { second - key } else { K::ZERO };
            let rise = rise.min(K::MOST_PRICE - self.prices[label]);
            if !free && (rise == K::ZERO || *bids == 0) {
                return Some(node);
            }
            let holder = self.holder(label);
            self.prices[label] += rise;
            self.take_at(node, label, key + rise);
            if free {
                return None;
            }
            *bids -= 1;
            node = holder;
        }
    }

    /// The node takes, of what is at its least key, its 255 or something free. Answers it if there is neither.
    fn bid_evenly(&mut self, node: usize, key: K) -> Option<usize> {
        let free = self.labels_at(node, key) & self.free;
        if self.vanished[node] == key {
            self.take_at(node, VANISHES, key);
        } else if free != 0 {
            self.take_at(node, number(free), key);
        } else {
            return Some(node);
        }
        None
    }

    /// The node's least key at a label, with the label, and its second.
    fn two_least(&self, node: usize) -> ((K, usize), K) {
        let mut first = [K::UNREACHED; LANES];
        let mut second = [K::UNREACHED; LANES];
        let (rows, _) = self.rows[node].as_chunks::<LANES>();
        let (prices, _) = self.prices.as_chunks::<LANES>();
        for (cells, prices) in zip(rows, prices) {
            for lane in 0..LANES {
                let key = cells[lane] + prices[lane];
                second[lane] = second[lane].min(first[lane].max(key));
                first[lane] = first[lane].min(key);
            }
        }
        let lower = |one: InLane<K>, other: InLane<K>| pick(other.0 < one.0, one, other);
        let (low, high) = (lower((first[0], 0), (first[1], 1)), lower((first[2], 2), (first[3], 3)));
        let (key, lane) = lower(low, high);
        let rivals = first[0].max(first[1]).min(first[2].max(first[3])).min(low.0.max(high.0));
        let [a, b, c, d] = second;
        ((key, key.label(lane)), a.min(b).min(c.min(d)).min(rivals))
    }

    /// The labels at which the node has this key.
    fn labels_at(&self, node: usize, key: K) -> u64 {
        labels_at(&self.rows[node], &self.prices, key)
    }

    /// Gives the node a label by a chain of the least cost: each node of the chain takes the label of the next
    /// one, and the last one that is free, or its 255. False if there is none.
    fn search(&mut self, start: usize) -> Result<bool, Wide> {
        let own = self.two_least(start).0 .0.min(self.vanished[start]).without_group();
        let mut search = Search::new();
        let Some((step, label, distance)) = self.come_to_end(&mut search, start, own)? else {
            return Ok(false);
        };
        self.shift(&search, step, label);
        self.raise(&search, distance)?;
        self.keys[start] = own + distance;
        Ok(true)
    }

    /// Looks at the labels by their distance from the node, that is by what it costs to free them for it. At
    /// the end stand a step, what its node takes, and the distance.
    fn come_to_end(
        &self,
        search: &mut Search<K>,
        start: usize,
        own: K,
    ) -> Result<Option<(usize, usize, K)>, Wide> {
        let mut node = start;
        let mut base = K::ZERO - own;
        let mut before = K::ZERO;
        let mut alike = 0;
        loop {
            let (least, mut label) =
                search.look_at(node, base, &self.rows[node], &self.prices, self.vanished[node]);
            if search.exit.min(least) >= K::NOT_THERE {
                return Ok(None);
            }
            if search.exit <= least {
                return Ok(Some((search.exit_step, VANISHES, search.exit)));
            }
            if least > K::MOST_DISTANCE {
                return Err(Wide);
            }
            let distance = least.without_group();
            alike = if distance == before { alike + 1 } else { 0 };
            // Where many are at one distance, rather one that is free.
            if alike > 1 && !self.is_free(label) {
                let free = search.labels_at(distance) & self.free;
                label = if free != 0 { number(free) } else { label };
            }
            if self.is_free(label) {
                return Ok(Some((self.step_to(search, label, distance, search.count), label, distance)));
            }
            search.pass(label, distance);
            node = self.holder(label);
            base = distance - self.keys[node];
            before = distance;
        }
    }

    /// The step, of those before this one, that came to a label at this distance.
    fn step_to(&self, search: &Search<K>, label: usize, distance: K, before: usize) -> usize {
        let own = distance - self.prices[label];
        let comes =
            |&step: &usize| (self.rows[search.node(step)][label] + search.bases[step]).without_group() == own;
        (0..before).find(comes).unwrap_or(0)
    }

    /// Moves the chain that ends where this step's node takes this label.
    fn shift(&mut self, search: &Search<K>, mut step: usize, mut label: usize) {
        loop {
            self.take(search.node(step), label);
            if step == 0 {
                return;
            }
            label = search.label(step);
            step = self.step_to(search, label, search.distances[step], step);
        }
    }

    /// Raises what a search has passed to the distance that it came to.
    fn raise(&mut self, search: &Search<K>, distance: K) -> Result<(), Wide> {
        let mut most = K::ZERO;
        for step in 1..search.count {
            let rise = distance - search.distances[step];
            let price = &mut self.prices[search.label(step)];
            *price += rise;
            most = most.max(*price);
            self.keys[search.node(step)] += rise;
        }
        if most <= K::MOST_PRICE {
            Ok(())
        } else {
            Err(Wide)
        }
    }
}

/// A search: its steps, each a node, and the least key at which each label was reached.
struct Search<K> {
    reached: ByLabel<K>,
    count: usize,
    nodes: ByNode<u8>,
    /// The label that the node holds, and at which distance it was reached; of the first step none.
    labels: ByNode<u8>,
    distances: ByNode<K>,
    /// What a step adds to its node's keys.
    bases: ByNode<K>,
    /// The least key at a 255, and its step.
    exit: K,
    exit_step: usize,
}

impl<K: Key> Search<K> {
    fn new() -> Self {
        Search {
            reached: [K::UNREACHED; MAX_LABELS],
            count: 0,
            nodes: [0; MAX_NODES],
            labels: [0; MAX_NODES],
            distances: [K::ZERO; MAX_NODES],
            bases: [K::ZERO; MAX_NODES],
            exit: K::UNREACHED,
            exit_step: 0,
        }
    }

    fn node(&self, step: usize) -> usize {
        usize::from(self.nodes[step]) % MAX_NODES
    }

    fn label(&self, step: usize) -> usize {
        usize::from(self.labels[step]) % MAX_LABELS
    }

    /// The label is not reached again; its holder makes the next step.
    fn pass(&mut self, label: usize, distance: K) {
        self.reached[label] = K::PASSED;
        self.labels[self.count % MAX_NODES] = label as u8;
        self.distances[self.count % MAX_NODES] = distance;
    }

    /// Answers the least key of all labels not passed, and its label.
    fn look_at(
        &mut self,
        node: usize,
        base: K,
        row: &ByLabel<K>,
        prices: &ByLabel<K>,
        vanished: K,
    ) -> (K, usize) {
        let step = self.count % MAX_NODES;
        self.count = step + 1;
        self.nodes[step] = node as u8;
        self.bases[step] = base;
        if vanished + base < self.exit {
            self.exit = vanished + base;
            self.exit_step = step;
        }
        let mut least = [K::UNREACHED; LANES];
        let (rows, _) = row.as_chunks::<LANES>();
        let (prices, _) = prices.as_chunks::<LANES>();
        let (reached, _) = self.reached.as_chunks_mut::<LANES>();
        for (reached, (cells, prices)) in zip(reached, zip(rows, prices)) {
            for lane in 0..LANES {
                let key = reached[lane].min(cells[lane] + prices[lane] + base);
                reached[lane] = key;
                least[lane] = least[lane].least_by_bits(key);
            }
        }
        let lower = |one: InLane<K>, other: InLane<K>| pick(other.0.less_by_bits(one.0), one, other);
        let (low, high) = (lower((least[0], 0), (least[1], 1)), lower((least[2], 2), (least[3], 3)));
        let (key, lane) = lower(low, high);
        (key, key.label(lane))
    }

    /// Not inlined, so that the loop around it keeps its registers.
    #[inline(never)]
    fn labels_at(&self, distance: K) -> u64 {
        labels_at(&self.reached, &[K::ZERO; MAX_LABELS], distance)
    }
}

/// The labels whose cost and price add up to this key.
#[inline(always)]
fn labels_at<K: Key>(costs: &ByLabel<K>, prices: &ByLabel<K>, key: K) -> u64 {
    let (costs, _) = costs.as_chunks::<HALF>();
    let (prices, _) = prices.as_chunks::<HALF>();
    let mut halves = [0; 2];
    for (half, (costs, prices)) in zip(&mut halves, zip(costs, prices)) {
        for (lane, bit) in HALF_BITS.iter().enumerate() {
            let same = (costs[lane] + prices[lane]).without_group() == key;
            *half |= if same { *bit } else { 0 };
        }
    }
    u64::from(halves[0]) | u64::from(halves[1]) << HALF
}

static BITS: ByLabel<u64> = {
    let mut bits = [0; MAX_LABELS];
    let mut label = 0;
    while label < bits.len() {
        bits[label] = 1 << label;
        label += 1;
    }
    bits
};

/// Of half of the labels, no wider than the narrow keys.
static HALF_BITS: [u32; HALF] = {
    let mut bits = [0; HALF];
    let mut label = 0;
    while label < bits.len() {
        bits[label] = 1 << label;
        label += 1;
    }
    bits
};

fn lowest(labels: u64) -> u64 {
    labels & labels.wrapping_neg()
}

fn number(labels: u64) -> usize {
    labels.trailing_zeros() as usize % MAX_LABELS
}

/// The numbers of a set's bits, rising.
fn members(mut set: u64) -> impl Iterator<Item = usize> {
    std::iter::from_fn(move || {
        let less = set.checked_sub(1)?;
        let member = number(set);
        set &= less;
        Some(member)
    })
}

/// The matchings with the same sum as one of them: for each node the labels at its key, as bits, and the one
/// that it takes; none for its 255.
struct Alike {
    sets: ByNode<u64>,
    taken: ByNode<u64>,
    /// A bit for each node with its 255 at its key.
    vanishing: u64,
    free: u64,
    /// The labels at a price of 0, which may be left.
    unpriced: u64,
    /// The labels whose holders may take a 255 instead.
    yielding: u64,
    holders: ByLabel<u8>,
    /// The labels at the key of each label's holder.
    reach: ByLabel<u64>,
    /// What a search has looked at, in turn, each a label or OUTSIDE, and the new labels that it led to.
    looked_at: [u8; MAX_LABELS + 1],
    found: [u64; MAX_LABELS + 1],
    count: usize,
    /// The label by which the search came outside: one that is free, or whose holder takes a 255.
    exit: u64,
}

impl Alike {
    fn new<K: Key>(market: &Market<K>) -> Self {
        let mut alike = Alike {
            sets: [0; MAX_NODES],
            taken: [0; MAX_NODES],
            vanishing: 0,
            free: market.free,
            unpriced: labels_at(&market.prices, &[K::ZERO; MAX_LABELS], K::ZERO),
            yielding: 0,
            holders: [0; MAX_LABELS],
            reach: [0; MAX_LABELS],
            looked_at: [0; MAX_LABELS + 1],
            found: [0; MAX_LABELS + 1],
            count: 0,
            exit: 0,
        };
        for node in 0..market.nodes.min(MAX_NODES) {
            let key = market.keys[node];
            alike.sets[node] = market.labels_at(node, key);
            alike.vanishing |= u64::from(market.vanished[node] == key) << node;
            let label = usize::from(market.taken[node]);
            alike.give(node, if label == VANISHES { 0 } else { BITS[label % MAX_LABELS] });
        }
        alike
    }

    fn holder(&self, label: u64) -> usize {
        usize::from(self.holders[number(label)]) % MAX_NODES
    }

    /// A label, or no bit for the node's 255.
    fn give(&mut self, node: usize, label: u64) {
        self.taken[node] = label;
        if label != 0 {
            self.holders[number(label)] = node as u8;
            self.reach[number(label)] = self.sets[node];
            self.free &= !label;
            self.yielding = self.yielding & !label | (self.vanishing >> node & 1) << number(label);
        }
    }

    /// Lets each node from node 0 on take the lowest label that it can have. What the earlier ones have taken
    /// is no longer open.
    fn lower(&mut self, nodes: usize) {
        let mut open = u64::MAX;
        let mut regions = Regions::ONE;
        for node in 0..nodes.min(MAX_NODES) {
            let own = self.taken[node];
            let region = regions.of(own);
            let mut seen = !(open & regions.labels[region]);
            let mut lower = self.sets[node] & own.wrapping_sub(1) & !seen;
            while lower != 0 {
                let leads_outside = regions.outside == region;
                let Err((grown, outside)) = self.chain(node, lowest(lower), seen, leads_outside) else {
                    break;
                };
                regions.split(region, grown & !seen, outside);
                seen = grown;
                lower &= !seen;
            }
            open &= !self.taken[node];
            self.yielding &= open;
            self.unpriced &= open;
        }
    }

    /// Gives the node this label if a chain leads from there back to its own, through labels not seen yet. Each
    /// node of the chain takes the label of the next one. A chain may also end outside; then the node's own is
    /// left if it may be, else another chain has to begin outside and lead there. Answers all that has been
    /// seen if there is none, and whether it came outside.
    fn chain(
        &mut self,
        node: usize,
        start: u64,
        mut seen: u64,
        leads_outside: bool,
    ) -> Result<(), (u64, bool)> {
        let own = self.taken[node];
        let outside = if leads_outside { self.free | self.yielding & !own } else { 0 };
        let leaves = own == 0 || own & self.unpriced != 0;
        let goal = own | if leaves { outside } else { 0 };
        self.count = 0;
        self.exit = 0;
        let mut new = start;
        let mut next = 0;
        while new & goal == 0 {
            seen |= new;
            next |= new & !self.free;
            if new & outside != 0 && self.exit == 0 {
                self.exit = lowest(new & outside);
                seen |= self.free;
                new = self.find(OUTSIDE, self.from_outside(node) & !seen);
            } else if next != 0 {
                let label = number(next);
                next &= next - 1;
                new = self.find(label, self.reach[label] & !seen);
            } else {
                return Err((seen, self.exit != 0));
            }
        }
        self.shift(node, lowest(new & goal));
        Ok(())
    }

    fn find(&mut self, looked_at: usize, found: u64) -> u64 {
        self.looked_at[self.count % (MAX_LABELS + 1)] = looked_at as u8;
        self.found[self.count % (MAX_LABELS + 1)] = found;
        self.count += 1;
        found
    }

    /// The labels that may be left, and those that nodes after this one may take instead of their 255.
    fn from_outside(&self, node: usize) -> u64 {
        self.vanished_after(node).fold(self.unpriced, |labels, other| labels | self.sets[other])
    }

    fn vanished_after(&self, node: usize) -> impl Iterator<Item = usize> + '_ {
        (node + 1..MAX_NODES).filter(|&other| self.taken[other] == 0)
    }

    /// Moves the chain that ends at this label, from there back to the node: what found a label was looked at
    /// before it.
    fn shift(&mut self, node: usize, mut label: u64) {
        let own = self.taken[node];
        if label != own {
            self.leave(own);
            self.yield_to_chain(label);
        }
        for place in (0..self.count.min(MAX_LABELS + 1)).rev() {
            if self.found[place] & label == 0 {
                continue;
            }
            if usize::from(self.looked_at[place]) == OUTSIDE {
                self.begin_outside(node, label);
                label = self.exit;
                self.yield_to_chain(label);
            } else {
                let from = BITS[usize::from(self.looked_at[place]) % MAX_LABELS];
                self.give(self.holder(from), label);
                label = from;
            }
        }
        self.give(node, label);
    }

    fn leave(&mut self, label: u64) {
        self.free |= label;
        self.yielding &= !label;
    }

    /// Its holder takes a 255, if a chain ends at this label and it is not free.
    fn yield_to_chain(&mut self, label: u64) {
        if self.yielding & label != 0 {
            self.taken[self.holder(label)] = 0;
        }
    }

    /// A chain that leads here begins outside: the label is left, or taken instead of a 255.
    fn begin_outside(&mut self, node: usize, label: u64) {
        let other = self.vanished_after(node).find(|&other| self.sets[other] & label != 0);
        match other {
            Some(other) if self.unpriced & label == 0 => self.give(other, label),
            _ => self.leave(label),
        }
    }
}

/// The labels in parts that no chain crosses. Where none leads on from some labels, their holders have to
/// share them: what they saw is split off for good.
struct Regions {
    /// There is one more than labels, as region 0 may become empty.
    labels: [u64; MAX_LABELS + 1],
    by_label: ByLabel<u8>,
    count: usize,
    /// The region of what is outside, and so of nodes with a 255.
    outside: usize,
}

impl Regions {
    const ONE: Self = {
        let mut labels = [0; MAX_LABELS + 1];
        labels[0] = u64::MAX;
        Regions { labels, by_label: [0; MAX_LABELS], count: 1, outside: 0 }
    };

    /// Of a node with this label, or with a 255.
    fn of(&self, label: u64) -> usize {
        if label == 0 {
            self.outside
        } else {
            usize::from(self.by_label[number(label)])
        }
    }

    fn split(&mut self, region: usize, part: u64, outside: bool) {
        self.labels[region] &= !part;
        self.labels[self.count] = part;
        for label in members(part) {
            self.by_label[label] = self.count as u8;
        }
        if outside {
            self.outside = self.count;
        }
        self.count += 1;
    }
}
