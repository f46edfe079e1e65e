//! The distances and the seven numbers.

use super::{Edge, Set};

/// Sums over the edges below some edge.
#[derive(Default)]
struct Sums {
    conflicts: u64,
    red_distance: u64,
    over_distance: u64,
}

impl Set {
    /// L: down the right side, for a change. (The audit compares all leaves.)
    pub fn level(&self) -> u64 {
        let mut level = 0;
        let mut at = self.tree.as_ref().map(|e| &e.to);
        while let Some(node) = at {
            let right = node.edges().get(1);
            level += right.map_or(0, |e| u64::from(e.weight));
            at = right.map(|e| &e.to);
        }
        level
    }

    /// N, L, the excess weight, R, D, Q, and (3N+1)D + 2NR + Q.
    pub fn figures(&self) -> [u64; 7] {
        let n = u64::from(self.nodes());
        let mut sums = Sums::default();
        if let Some(root) = &self.tree {
            add(root, n, &mut sums);
        }
        let excess = self.tree.as_ref().map_or(0, excess_weight);
        let Sums { conflicts: r, red_distance: q, over_distance: d } = sums;
        let bound = u128::from(3 * n + 1) * u128::from(d) + u128::from(2 * n * r + q);
        [n, self.level(), excess, r, d, q, u64::try_from(bound).expect("a bound of 64 bits")]
    }
}

/// 02 (iii): "Source document 003 counts overweight conflicts as the sum of weight less one. The report's third number must be
/// that sum". Over the edges below `to_v`, of which only the overweighted ones have any.
fn excess_weight(to_v: &Edge) -> u64 {
    to_v.to.edges().iter().map(|below| u64::from(below.weight.max(1) - 1) + excess_weight(below)).sum()
}

/// Adds what the edges below `to_u` give, and `to_u` as the upper edge of conflicts. Gives u's size.
fn add(to_u: &Edge, n: u64, sums: &mut Sums) -> u64 {
    let mut size = 1;
    for below in to_u.to.edges() {
        let below_size = add(below, n, sums);
        size += below_size;
        if below.weight > 1 {
            // "D adds (weight - 1) times outside(u) over overweighted edges to u."
            sums.over_distance += u64::from(below.weight - 1) * (n - below_size);
        }
    }
    // "two red edges in a row, v to u to t; its distance is outside(u)"
    if to_u.weight == 0 {
        let conflicts = to_u.to.edges().iter().filter(|t| t.weight == 0).count() as u64;
        sums.conflicts += conflicts;
        sums.red_distance += conflicts * (n - size);
    }
    size
}
