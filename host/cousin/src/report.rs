//! The seven numbers.

use crate::code;
use crate::pool::{audit, level, nodes, read, root, Slot};

/// What a subtree adds, and its nodes.
#[derive(Default)]
struct Sums {
    nodes: u64,
    excess_weight: u64,
    conflicts: u64,
    red_distance: u64,
    over_distance: u64,
}

/// "each passes its children to either"
fn children(pool: &[u32], v: Slot, n: u64) -> Sums {
    if v.right == 0 {
        return Sums { nodes: 1, ..Sums::default() };
    }
    let (left, right) = (below(pool, v.left, n), below(pool, v.right, n));
    Sums {
        nodes: left.nodes + right.nodes + 1,
        excess_weight: left.excess_weight + right.excess_weight,
        conflicts: left.conflicts + right.conflicts,
        red_distance: left.red_distance + right.red_distance,
        over_distance: left.over_distance + right.over_distance,
    }
}

fn below(pool: &[u32], slot: u32, n: u64) -> Sums {
    let v = read(pool, slot);
    if v.weight == 0 {
        below_red(pool, v, n)
    } else {
        below_other(pool, v, n)
    }
}

/// "a node below a red edge adds one conflict per red child edge"
fn below_red(pool: &[u32], v: Slot, n: u64) -> Sums {
    let mut sums = children(pool, v, n);
    let reds = [v.left, v.right].iter().filter(|&&t| read(pool, t).weight == 0).count() as u64;
    sums.conflicts += reds;
    sums.red_distance += reds * (n - sums.nodes);
    sums
}

fn below_other(pool: &[u32], v: Slot, n: u64) -> Sums {
    let mut sums = children(pool, v, n);
    if v.weight > 1 {
        let excess = u64::from(v.weight) - 1;
        sums.excess_weight += excess;
        sums.over_distance += excess * (n - sums.nodes);
    }
    sums
}

pub fn report(pool: &[u32], index: u32) -> u64 {
    if audit(pool) != code::GOOD {
        return 0;
    }
    let n = u64::from(nodes(pool));
    match index {
        1 => return n,
        2 => return u64::from(level(pool)),
        _ => {}
    }
    let sums = if n == 0 { Sums::default() } else { below_other(pool, read(pool, root(pool)), n) };
    match index {
        3 => sums.excess_weight,
        4 => sums.conflicts,
        5 => sums.over_distance,
        6 => sums.red_distance,
        7 => (3 * n + 1) * sums.over_distance + 2 * n * sums.conflicts + sums.red_distance,
        _ => 0,
    }
}
