//! What request 4 says of a placing and of a set of nodes that cannot be placed, and request 6 of the matching
//! with the least sum, word by word: slow, and written to be seen to be right. The sheet has to be readable.

use crate::twin::{TRAILER, VANISHED};

/// More labellings than this are not gone through.
const MOST_LABELLINGS: usize = 20_000;

/// Each node's labels, from the sheet's own bytes.
pub fn labels_by_node(sheet: &[u8]) -> Vec<&[u8]> {
    let (degrees, mut rest) = sheet.split_at(usize::from(sheet[sheet.len() - TRAILER]));
    let by_node = degrees.iter().map(|&degree| {
        let (own, others) = rest.split_at(usize::from(degree));
        rest = others;
        own
    });
    by_node.collect()
}

/// Whether these are labels of which none but 255 occurs twice.
fn one_to_one(taken: &[u8]) -> bool {
    taken.iter().enumerate().all(|(place, &label)| label == VANISHED || !taken[..place].contains(&label))
}

/// Whether there is a position for each node, and no label but 255 is taken twice.
pub fn is_matching(nodes: &[&[u8]], positions: &[u8]) -> bool {
    let taken = nodes.iter().zip(positions).map(|(own, &position)| own.get(usize::from(position)).copied());
    let taken: Option<Vec<u8>> = taken.collect();
    nodes.len() == positions.len() && taken.is_some_and(|taken| one_to_one(&taken))
}

/// Whether the nodes can be placed. Each in turn takes a label, if need be one whose holder finds another;
/// what comes of it is then looked at, so that a true answer does not hang on how it was found.
pub fn can_place(nodes: &[&[u8]]) -> bool {
    let mut positions = vec![None; nodes.len()];
    for node in 0..nodes.len() {
        if !find_place(nodes, node, &mut positions, &mut vec![]) {
            return false;
        }
    }
    let positions: Vec<u8> = positions.into_iter().flatten().collect();
    assert!(is_matching(nodes, &positions));
    true
}

fn find_place(nodes: &[&[u8]], node: usize, positions: &mut Vec<Option<u8>>, tried: &mut Vec<u8>) -> bool {
    for (position, &label) in (0..).zip(nodes[node]) {
        if tried.contains(&label) {
            continue;
        }
        let holds = |&other: &usize| {
            label != VANISHED && positions[other].is_some_and(|at| nodes[other][usize::from(at)] == label)
        };
        let holder = (0..nodes.len()).find(holds);
        tried.push(label);
        if holder.is_none_or(|holder| find_place(nodes, holder, positions, tried)) {
            positions[node] = Some(position);
            return true;
        }
    }
    false
}

/// Whether the bytes are 1 for the members and 0 for the rest of a set of nodes such that no member has the
/// label 255, the labels of all members together are fewer than the members, and without any one member the
/// rest of the set can be placed.
pub fn is_obstruction(sheet: &[u8], bytes: &[u8]) -> bool {
    let nodes = labels_by_node(sheet);
    if bytes.len() != nodes.len() || bytes.iter().any(|&byte| byte > 1) {
        return false;
    }
    let members: Vec<&[u8]> =
        (0..nodes.len()).filter(|&node| bytes[node] == 1).map(|node| nodes[node]).collect();
    let mut labels = members.concat();
    labels.sort_unstable();
    labels.dedup();
    let without = |member: usize| [&members[..member], &members[member + 1..]].concat();
    !labels.contains(&VANISHED)
        && labels.len() < members.len()
        && (0..members.len()).all(|member| can_place(&without(member)))
}

/// The first matching of all labellings in order, positions being compared from node 0 on; none if none of
/// them is one. Not answered if there are too many.
pub fn smallest_matching(nodes: &[&[u8]]) -> Option<Option<Vec<u8>>> {
    Some(labellings(nodes)?.find(|positions| is_matching(nodes, positions)))
}

/// All matchings, positions being compared from node 0 on. Not answered if there are too many labellings.
pub fn matchings(nodes: &[&[u8]]) -> Option<Vec<Vec<u8>>> {
    Some(labellings(nodes)?.filter(|positions| is_matching(nodes, positions)).collect())
}

/// All labellings in order, unless there are too many.
fn labellings<'a>(nodes: &'a [&[u8]]) -> Option<impl Iterator<Item = Vec<u8>> + 'a> {
    let count = nodes.iter().try_fold(1_usize, |count, own| count.checked_mul(own.len()))?;
    let mut next = vec![0; nodes.len()];
    let labellings = (0..count).map(move |_| {
        let positions = next.clone();
        next_labelling(nodes, &mut next);
        positions
    });
    (count <= MOST_LABELLINGS).then_some(labellings)
}

/// The last node's position rises first.
fn next_labelling(nodes: &[&[u8]], positions: &mut [u8]) {
    for (own, position) in nodes.iter().zip(positions).rev() {
        *position += 1;
        if usize::from(*position) < own.len() {
            return;
        }
        *position = 0;
    }
}

/// The sum of the node costs at these positions.
pub fn sum_of_nodes(nodes: &[&[u8]], costs: &[i64], positions: &[u8]) -> i64 {
    let mut start = 0;
    let mut sum = 0;
    for (own, &position) in nodes.iter().zip(positions) {
        sum += costs[start + usize::from(position)];
        start += own.len();
    }
    sum
}

/// Of all these matchings, which are in order, the one with the least sum of node costs; the first of equals.
pub fn cheapest<'a>(matchings: &'a [Vec<u8>], nodes: &[&[u8]], costs: &[i64]) -> Option<&'a Vec<u8>> {
    // Of equal ones this answers the first.
    matchings.iter().min_by_key(|positions| sum_of_nodes(nodes, costs, positions))
}

/// What a labelling costs on the sheet: its node prices, and of each edge the price in the row of its lower
/// node's position and the column of its higher node's.
pub fn cost_on_sheet(sheet: &[u8], positions: &[u8]) -> i64 {
    let nodes = labels_by_node(sheet);
    let node_cells = nodes.concat().len();
    let trailer = &sheet[sheet.len() - TRAILER..];
    let edges = usize::from(u16::from_le_bytes([trailer[2], trailer[3]]));
    let (node_prices, rest) = sheet[nodes.len() + node_cells..].split_at(4 * node_cells);
    let (ends, edge_prices) = rest.split_at(2 * edges);
    let mut cost = sum_of_nodes(&nodes, &prices(node_prices), positions);
    let edge_prices = prices(&edge_prices[..edge_prices.len() - TRAILER]);
    let mut start = 0;
    for ends in ends.chunks_exact(2) {
        let [u, v] = [0, 1].map(|end| usize::from(ends[end]));
        let (rows, columns) = (nodes[u].len(), nodes[v].len());
        cost += edge_prices[start + usize::from(positions[u]) * columns + usize::from(positions[v])];
        start += rows * columns;
    }
    cost
}

fn prices(bytes: &[u8]) -> Vec<i64> {
    bytes.as_chunks::<4>().0.iter().map(|&price| i64::from(i32::from_le_bytes(price))).collect()
}
