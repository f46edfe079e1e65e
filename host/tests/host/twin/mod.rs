//! The twin: all of document 01 and 02's requests so far once more, written from those documents alone and working
//! differently. The set is an explicit tree whose edges own what is below them; words are read once and written once.

mod audit;
mod bytes;
mod figures;
mod ledger;
mod saved;
mod spans;
mod steps;

pub use audit::{audit, read};
pub use bytes::{commands, write_number, Command};
pub use ledger::{call, Call, Parts, LIMITS, NOTICES, RESIDENTS};
pub use saved::{load, save};

/// 01: "Slots are numbered from 1", "C from 1 to 1,023"; 02 (viii): "Raise C to 16,383."
pub const MOST_SLOTS: usize = 16_383;
const FREE: u32 = 4_294_967_295;

/// A code and a number.
pub type Answer = (u32, u32);

/// An edge and what hangs on it. The root hangs on an edge too: of weight 1, always.
#[derive(Clone, Debug, PartialEq)]
pub struct Edge {
    pub weight: u32,
    pub to: Node,
}

/// A leaf with its key, or an inner node with its router and its two edges, left first.
#[derive(Clone, Debug, PartialEq)]
pub struct Node {
    pub slot: u32,
    pub key: u32,
    pub below: Option<Box<[Edge; 2]>>,
}

/// The set: C, the tree, and the free slots with the chain's head last.
#[derive(Clone, Debug, PartialEq)]
pub struct Set {
    pub slots: usize,
    pub tree: Option<Edge>,
    pub free: Vec<u32>,
}

pub fn leaf(slot: u32, key: u32) -> Node {
    Node { slot, key, below: None }
}

pub fn inner(slot: u32, router: u32, left: Edge, right: Edge) -> Node {
    Node { slot, key: router, below: Some(Box::new([left, right])) }
}

pub fn edge(weight: u32, to: Node) -> Edge {
    Edge { weight, to }
}

impl Node {
    /// Both edges of an inner node, none of a leaf.
    pub fn edges(&self) -> &[Edge] {
        match &self.below {
            Some(both) => &both[..],
            None => &[],
        }
    }

    /// "Search goes left when the key is at most the router, else right."
    fn side_of(&self, key: u32) -> usize {
        usize::from(key > self.key)
    }
}

impl Edge {
    /// The edge that a list of sides leads to.
    pub fn follow(&mut self, path: &[usize]) -> &mut Edge {
        path.iter().fold(self, |e, &side| &mut e.to.below.as_mut().expect("the path ends higher")[side])
    }

    pub fn see(&self, path: &[usize]) -> &Edge {
        path.iter().fold(self, |e, &side| &e.to.edges()[side])
    }

    /// The sides that lead to a slot.
    pub fn path_to(&self, slot: u32) -> Option<Vec<usize>> {
        let mut path = vec![];
        self.leads_to(slot, &mut path).then_some(path)
    }

    /// Whether the slot is here or below; then the sides are added to the path.
    fn leads_to(&self, slot: u32, path: &mut Vec<usize>) -> bool {
        self.to.slot == slot
            || self.to.edges().iter().enumerate().any(|(side, e)| {
                path.push(side);
                let found = e.leads_to(slot, path);
                if !found {
                    path.pop();
                }
                found
            })
    }

    /// The sides that search takes.
    fn search_path(&self, key: u32) -> Vec<usize> {
        let mut path = vec![];
        let mut at = &self.to;
        while let Some(both) = &at.below {
            let side = at.side_of(key);
            path.push(side);
            at = &both[side].to;
        }
        path
    }
}

impl Set {
    pub fn prepared(slots: usize) -> Set {
        Set { slots, tree: None, free: (1..=slots as u32).rev().collect() }
    }

    /// N.
    pub fn nodes(&self) -> u32 {
        (self.slots - self.free.len()) as u32
    }

    fn found(&self, key: u32) -> Option<(Vec<usize>, u32)> {
        let tree = self.tree.as_ref()?;
        let path = tree.search_path(key);
        let end = &tree.see(&path).to;
        (end.key == key).then_some((path, end.slot))
    }

    pub fn search(&self, key: u32) -> Answer {
        self.found(key).map_or((6, 0), |(_, slot)| (0, slot))
    }

    pub fn insert(&mut self, key: u32) -> Answer {
        if self.found(key).is_some() {
            return (5, 0);
        }
        match self.tree.as_mut() {
            None if self.free.is_empty() => (7, 0),
            None => {
                let slot = self.free.pop().unwrap();
                self.tree = Some(edge(1, leaf(slot, key)));
                (0, slot)
            }
            Some(_) if self.free.len() < 2 => (7, 0),
            Some(tree) => {
                let path = tree.search_path(key);
                let v = tree.follow(&path);
                // "the first for the left child and the second for the right"
                let (first, second) = (self.free.pop().unwrap(), self.free.pop().unwrap());
                let old = v.to.key;
                let (small, large) = if key < old { (key, old) } else { (old, key) };
                v.to = inner(v.to.slot, small, edge(1, leaf(first, small)), edge(1, leaf(second, large)));
                // "weight one less than before (the root keeps 1)"
                if !path.is_empty() {
                    v.weight -= 1;
                }
                (0, if key == small { first } else { second })
            }
        }
    }

    pub fn delete(&mut self, key: u32) -> Answer {
        let Some((mut path, slot)) = self.found(key) else {
            return (6, 0);
        };
        let tree = self.tree.as_mut().unwrap();
        match path.pop() {
            None => {
                self.tree = None;
                self.free.push(slot);
            }
            Some(side) => {
                let parent = tree.follow(&path);
                let [left, right] = *parent.to.below.take().unwrap();
                let sibling = if side == 0 { right } else { left };
                // "whose weight becomes the sum of the two old weights (1 if it is the root)"
                parent.weight = if path.is_empty() { 1 } else { parent.weight + sibling.weight };
                let sibling_slot = sibling.to.slot;
                parent.to = Node { slot: parent.to.slot, ..sibling.to };
                // "The leaf's slot is freed first, then the sibling's."
                self.free.extend([slot, sibling_slot]);
            }
        }
        (0, self.keys())
    }

    /// Leaves: one more than inner nodes.
    fn keys(&self) -> u32 {
        self.nodes().div_ceil(2)
    }

    pub fn run(&mut self, command: Command) -> Answer {
        match command {
            Command::Search(key) => self.search(key),
            Command::Insert(key) => self.insert(key),
            Command::Delete(key) => self.delete(key),
            Command::Step(slot, kind) => self.step(slot, kind),
            Command::Settle(budget) => self.settle(budget),
            Command::AtOrAbove(key) => self.at_or_above(key),
            Command::Count(a, b) => self.count(a, b),
            Command::DeleteSpan(a, b) => self.delete_span(a, b),
        }
    }

    /// The pool's words.
    pub fn words(&self) -> Vec<u32> {
        let mut words = vec![0; 4 + 4 * self.slots];
        words[0] = self.tree.as_ref().map_or(0, |e| e.to.slot);
        words[2] = self.nodes();
        // 02 (v): "Keep L in the fourth header word". Only bytes that were never saved have an L that is no word.
        words[3] = u32::try_from(self.level()).unwrap_or(u32::MAX);
        if let Some(tree) = &self.tree {
            write_edge(tree, &mut words);
        }
        let mut next = 0;
        for &slot in &self.free {
            write_slot(&mut words, slot, [0, next, 0, FREE]);
            next = slot;
        }
        words[1] = next;
        words
    }
}

fn write_slot(words: &mut [u32], slot: u32, four: [u32; 4]) {
    let at = 4 * slot as usize;
    words[at..at + 4].copy_from_slice(&four);
}

fn write_edge(e: &Edge, words: &mut [u32]) {
    let child = |side: usize| e.to.edges().get(side).map_or(0, |c| c.to.slot);
    write_slot(words, e.to.slot, [e.to.key, child(0), child(1), e.weight]);
    e.to.edges().iter().for_each(|c| write_edge(c, words));
}

/// Prepare on words.
pub fn prepare(words: &mut [u32]) -> u32 {
    match audit::slots(words.len()) {
        None => 1,
        Some(c) => {
            words.copy_from_slice(&Set::prepared(c).words());
            0
        }
    }
}

/// The report on words: its code and the seven numbers, "seven zeros when refused".
pub fn report(words: &[u32]) -> (u32, [u64; 7]) {
    match read(words) {
        Ok(set) => (0, set.figures()),
        Err(code) => (code, [0; 7]),
    }
}

/// The batch on words: code and number, as a pair.
pub fn batch(words: &mut [u32], bytes: &[u8], answers: &mut [u32]) -> Answer {
    // "Codes 1 to 4 refuse the call, in the order 1, 3, 4, 2, and change no word."
    if audit::slots(words.len()).is_none() {
        return (1, 0);
    }
    let commands = match commands(bytes) {
        Ok(commands) => commands,
        Err(byte) => return (3, byte as u32),
    };
    if answers.len() < 2 * commands.len() {
        return (4, 0);
    }
    let Ok(mut set) = read(words) else {
        return (2, 0);
    };
    for (command, place) in commands.into_iter().zip(answers.chunks_mut(2)) {
        (place[0], place[1]) = set.run(command);
    }
    words.copy_from_slice(&set.words());
    (0, 0)
}
