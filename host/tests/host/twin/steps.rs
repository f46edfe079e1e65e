//! Step kinds: the table's left forms once, right forms by a mirror.

use super::{edge, inner, Answer, Edge, Node, Set};

/// An edge as seen directly or in a mirror.
#[derive(Clone, Copy)]
struct View<'a> {
    edge: &'a Edge,
    mirrored: bool,
}

impl<'a> View<'a> {
    /// The child edge on the side that is the left one in this view; None under a leaf.
    fn left(self) -> Option<View<'a>> {
        self.child(usize::from(self.mirrored))
    }

    fn right(self) -> Option<View<'a>> {
        self.child(usize::from(!self.mirrored))
    }

    fn child(self, side: usize) -> Option<View<'a>> {
        Some(View { edge: self.to_edges().get(side)?, ..self })
    }

    fn to_edges(self) -> &'a [Edge] {
        self.edge.to.edges()
    }

    fn red(self) -> bool {
        self.edge.weight == 0
    }

    fn overweighted(self) -> bool {
        self.edge.weight > 1
    }

    /// Whether there is such an edge and it is red.
    fn is_red(view: Option<View>) -> bool {
        view.is_some_and(View::red)
    }
}

/// A right form is a left one in the mirror.
fn form(kind: u32) -> (u32, bool) {
    match kind {
        3 => (2, true),
        5 => (4, true),
        8 => (7, true),
        left => (left, false),
    }
}

/// The table's column "Condition", at the inner node on this edge.
fn condition(to_v: &Edge, kind: u32) -> bool {
    let (left_form, mirrored) = form(kind);
    let v = View { edge: to_v, mirrored };
    let (Some(left), Some(right)) = (v.left(), v.right()) else {
        return false;
    };
    match left_form {
        // "both children red, some grandchild red, v not red"
        1 => {
            let grandchildren = [left.left(), left.right(), right.left(), right.right()];
            left.red() && right.red() && grandchildren.into_iter().any(View::is_red) && !v.red()
        }
        // "left child u red, right child not red, u's left child red, v not red"
        2 => left.red() && !right.red() && View::is_red(left.left()) && !v.red(),
        // "left child u red, right child not red, u's right child red, v not red"
        4 => left.red() && !right.red() && View::is_red(left.right()) && !v.red(),
        // "one child overweighted, the other not red"
        6 => left.overweighted() && !right.red() || right.overweighted() && !left.red(),
        // "left child t overweighted, right child u red, u's left child not red"
        7 => left.overweighted() && right.red() && !View::is_red(right.left()),
        _ => unreachable!("kind {kind}"),
    }
}

fn mirror(e: Edge) -> Edge {
    let Node { slot, key, below } = e.to;
    let below = below.map(|both| {
        let [left, right] = *both;
        Box::new([mirror(right), mirror(left)])
    });
    edge(e.weight, Node { slot, key, below })
}

/// An inner node taken apart.
fn parts(node: Node) -> (u32, u32, Edge, Edge) {
    let [left, right] = *node.below.expect("an inner node");
    (node.slot, node.key, left, right)
}

fn lighter(e: Edge) -> Edge {
    edge(e.weight - 1, e.to)
}

/// The table's column "Effect", on the edge to v: p is its weight.
fn effect(to_v: Edge, kind: u32) -> Edge {
    let (left_form, mirrored) = form(kind);
    if mirrored {
        return mirror(effect(mirror(to_v), left_form));
    }
    let p = to_v.weight;
    let (v, v_router, left, right) = parts(to_v.to);
    match left_form {
        // "children become 1; p falls by 1"
        1 => edge(p - 1, inner(v, v_router, edge(1, left.to), edge(1, right.to))),
        // "v takes u's router, children u's old left and slot u; slot u takes v's router, children u's old right and
        // v's old right"
        2 => {
            let (u, u_router, u_left, u_right) = parts(left.to);
            edge(p, inner(v, u_router, u_left, edge(0, inner(u, v_router, u_right, right))))
        }
        // "v takes t's router, children u and t; u keeps its router and left child, its right becomes t's old left; t
        // takes v's router, children t's old right and v's old right"
        4 => {
            let (u, u_router, u_left, u_right) = parts(left.to);
            let (t, t_router, t_left, t_right) = parts(u_right.to);
            edge(p, inner(v, t_router, edge(0, inner(u, u_router, u_left, t_left)), edge(0, inner(t, v_router, t_right, right))))
        }
        // "both children fall by 1; p rises by 1"
        6 => edge(p + 1, inner(v, v_router, lighter(left), lighter(right))),
        // "v takes u's router, children slot u and u's old right; slot u takes v's router, children t and u's old left,
        // weight 1; those two children each fall by 1"
        7 => {
            let (u, u_router, u_left, u_right) = parts(right.to);
            edge(p, inner(v, u_router, edge(1, inner(u, v_router, lighter(left), lighter(u_left))), u_right))
        }
        _ => unreachable!("kind {kind}"),
    }
}

impl Set {
    /// The code for a kind from 1 to 8 at an inner node: 0, 10 or 11.
    fn judge(&self, to_v: &Edge, kind: u32) -> u32 {
        let at_root = self.tree.as_ref().is_some_and(|root| root.to.slot == to_v.to.slot);
        if !condition(to_v, kind) {
            10
        } else if kind == 1 && at_root && self.level() == 255 {
            11
        } else {
            0
        }
    }

    pub fn step(&mut self, slot: u32, kind: u32) -> Answer {
        let Some(path) = self.tree.as_ref().and_then(|tree| tree.path_to(slot)) else {
            return (8, 0);
        };
        let to_v = self.tree.as_ref().unwrap().see(&path);
        if to_v.to.below.is_none() {
            return (8, 0);
        }
        if !(1..=8).contains(&kind) {
            return (9, 0);
        }
        match self.judge(to_v, kind) {
            0 => {
                self.take_step(&path, kind);
                (0, kind)
            }
            code => (code, 0),
        }
    }

    fn take_step(&mut self, path: &[usize], kind: u32) {
        let place = self.tree.as_mut().unwrap().follow(path);
        let hole = edge(0, Node { slot: 0, key: 0, below: None });
        *place = effect(std::mem::replace(place, hole), kind);
        // "unless v is root"
        if path.is_empty() {
            place.weight = 1;
        }
    }

    /// Every slot and kind that would be accepted, in no order.
    pub fn allowed(&self) -> Vec<(u32, u32)> {
        let mut found = vec![];
        let mut ahead: Vec<&Edge> = self.tree.iter().collect();
        while let Some(e) = ahead.pop() {
            if e.to.below.is_some() {
                found.extend((1..=8).filter(|&kind| self.judge(e, kind) == 0).map(|kind| (e.to.slot, kind)));
            }
            ahead.extend(e.to.edges());
        }
        found
    }

    /// "the lowest slot with an allowed kind, and there the lowest kind". Slots above one that was found are not judged.
    fn lowest_allowed(&self) -> Option<(u32, u32)> {
        let mut lowest = None;
        let mut ahead: Vec<&Edge> = self.tree.iter().collect();
        while let Some(e) = ahead.pop() {
            let slot = e.to.slot;
            if e.to.below.is_some() && lowest.map_or(true, |(found, _)| slot < found) {
                let kind = (1..=8).find(|&kind| self.judge(e, kind) == 0);
                lowest = kind.map(|kind| (slot, kind)).or(lowest);
            }
            ahead.extend(e.to.edges());
        }
        lowest
    }

    /// ".. until none is left or the budget is spent"
    pub fn settle(&mut self, budget: u32) -> Answer {
        let mut trees_after_the_first = 0;
        while let Some((slot, kind)) = self.lowest_allowed() {
            if trees_after_the_first == budget {
                return (12, trees_after_the_first);
            }
            let path = self.tree.as_ref().and_then(|tree| tree.path_to(slot)).unwrap();
            self.take_step(&path, kind);
            trees_after_the_first += 1;
        }
        (0, trees_after_the_first)
    }
}
