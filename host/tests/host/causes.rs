//! Why bytes are refused with 13, and where: the causes, told apart by a reader of their own, and stored cases of each.

use crate::pair::same_load;
use crate::twin::MOST_SLOTS;
use std::fmt::Debug;

#[derive(Clone, Copy, Debug, PartialEq)]
pub enum Cause {
    NoBytes,
    CutShort,
    NotShortest,
    Above32Bits,
    NoSlots,
    SlotsAboveLimit,
    NodesAboveSlots,
    NodesEven,
    NodeTooMany,
    NodesBesideTree,
    LeftOver,
    RootWeight,
    RedLeaf,
    UnequalSums,
    TooTall,
    WrongSide,
}

pub const CAUSES: usize = 16;

/// Why, and the byte at which they go wrong.
pub type Fault = (Cause, usize);

/// Bytes, and the next to be read.
struct Reader<'a> {
    saved: &'a [u8],
    next: usize,
}

impl Reader<'_> {
    fn number(&mut self) -> Result<u32, Fault> {
        let mut value = 0;
        for group in 0..5 {
            let at = self.next;
            let &byte = self.saved.get(at).ok_or((if at == 0 { Cause::NoBytes } else { Cause::CutShort }, at))?;
            self.next += 1;
            match byte {
                16.. if group == 4 => return Err((Cause::Above32Bits, at)),
                0 if group > 0 => return Err((Cause::NotShortest, at)),
                _ => value += u32::from(byte % 128) << (7 * group),
            }
            if byte < 128 {
                break;
            }
        }
        Ok(value)
    }

    /// All numbers are read before anything is judged.
    fn whole(&mut self) -> Result<(), Fault> {
        let (c, n) = (self.number()?, self.number()?);
        let mut nodes = vec![];
        for _ in 0..n {
            nodes.push([self.number()?, self.number()?]);
        }
        let end = self.saved.len();
        judged(c, &nodes).and(must(self.next == end, Cause::LeftOver)).map_err(|cause| (cause, end))
    }
}

/// The nodes that are left, and what was met on the way to where it stands.
struct Walk<'a> {
    nodes: &'a [[u32; 2]],
    /// Each router above, and whether the way went right there.
    above: Vec<(u32, bool)>,
    /// Of the first leaf.
    level: Option<u64>,
}

impl Walk<'_> {
    /// A subtree, whose leaves have `sum` above them.
    fn node(&mut self, is_root: bool, sum: u64) -> Result<(), Cause> {
        let (&[first, key], rest) = self.nodes.split_first().ok_or(Cause::NodeTooMany)?;
        self.nodes = rest;
        let weight = first / 2;
        must(!is_root || weight == 1, Cause::RootWeight)?;
        let sum = if is_root { 0 } else { sum + u64::from(weight) };
        if first % 2 == 0 {
            must(is_root || weight > 0, Cause::RedLeaf)?;
            return self.leaf(key, sum);
        }
        for right in [false, true] {
            self.above.push((key, right));
            self.node(false, sum)?;
            self.above.pop();
        }
        Ok(())
    }

    fn leaf(&mut self, key: u32, sum: u64) -> Result<(), Cause> {
        must(self.above.iter().all(|&(router, right)| (key > router) == right), Cause::WrongSide)?;
        must(*self.level.get_or_insert(sum) == sum, Cause::UnequalSums)?;
        must(sum <= 255, Cause::TooTall)
    }
}

fn judged(c: u32, nodes: &[[u32; 2]]) -> Result<(), Cause> {
    must(c > 0, Cause::NoSlots)?;
    must(c as usize <= MOST_SLOTS, Cause::SlotsAboveLimit)?;
    must(nodes.len() <= c as usize, Cause::NodesAboveSlots)?;
    if nodes.is_empty() {
        return Ok(());
    }
    must(nodes.len() % 2 == 1, Cause::NodesEven)?;
    let mut walk = Walk { nodes, above: vec![], level: None };
    walk.node(true, 0)?;
    must(walk.nodes.is_empty(), Cause::NodesBesideTree)
}

fn must(holds: bool, cause: Cause) -> Result<(), Cause> {
    if holds {
        Ok(())
    } else {
        Err(cause)
    }
}

/// The first cause that is met, and where, or None for bytes that some writer produces.
pub fn cause(saved: &[u8]) -> Option<Fault> {
    Reader { saved, next: 0 }.whole().err()
}

/// Each is one change away from a good form, most of them from C 9, N 3, router 10, keys 10 and 20; and at which byte it goes
/// wrong.
#[rustfmt::skip]
const REFUSED: &[(&str, Cause, usize, &[u8])] = &[
    ("no bytes at all", Cause::NoBytes, 0, &[]),
    ("C is 0", Cause::NoSlots, 2, &[0x00, 0x00]),
    ("C is 0 and N is 1", Cause::NoSlots, 4, &[0x00, 0x01, 0x02, 0x0A]),
    ("C is 16,384", Cause::SlotsAboveLimit, 4, &[0x80, 0x80, 0x01, 0x00]),
    ("C is 4,294,967,295", Cause::SlotsAboveLimit, 12, &[0xFF, 0xFF, 0xFF, 0xFF, 0x0F, 0x03, 0x03, 0x0A, 0x02, 0x0A, 0x02, 0x14]),
    ("N above C", Cause::NodesAboveSlots, 8, &[0x02, 0x03, 0x03, 0x0A, 0x02, 0x0A, 0x02, 0x14]),
    ("N above C, in a tree that is not deep", Cause::NodesAboveSlots, 16, &[0x06, 0x07, 0x03, 0x14, 0x01, 0x0A, 0x02, 0x0A, 0x02, 0x14, 0x01, 0x1E, 0x02, 0x1E, 0x02, 0x28]),
    ("N is 2", Cause::NodesEven, 6, &[0x09, 0x02, 0x03, 0x0A, 0x02, 0x0A]),
    ("N is 4", Cause::NodesEven, 10, &[0x09, 0x04, 0x03, 0x0A, 0x02, 0x0A, 0x02, 0x14, 0x02, 0x1E]),
    ("a node more than N says", Cause::NodeTooMany, 8, &[0x09, 0x01, 0x03, 0x0A, 0x02, 0x0A, 0x02, 0x14]),
    ("a tree of one node, and N is 3", Cause::NodesBesideTree, 8, &[0x09, 0x03, 0x02, 0x0A, 0x02, 0x0A, 0x02, 0x14]),
    ("a byte left over", Cause::LeftOver, 9, &[0x09, 0x03, 0x03, 0x0A, 0x02, 0x0A, 0x02, 0x14, 0x00]),
    ("a byte left over after an empty tree", Cause::LeftOver, 3, &[0x09, 0x00, 0x00]),
    ("a node left over", Cause::LeftOver, 6, &[0x09, 0x01, 0x02, 0x0A, 0x02, 0x14]),
    ("a node after an empty tree", Cause::LeftOver, 4, &[0x09, 0x00, 0x02, 0x0A]),
    ("a root leaf of weight 0", Cause::RootWeight, 4, &[0x09, 0x01, 0x00, 0x0A]),
    ("a root leaf of weight 2", Cause::RootWeight, 4, &[0x09, 0x01, 0x04, 0x0A]),
    ("an inner root of weight 0", Cause::RootWeight, 8, &[0x09, 0x03, 0x01, 0x0A, 0x02, 0x0A, 0x02, 0x14]),
    ("an inner root of weight 2", Cause::RootWeight, 8, &[0x09, 0x03, 0x05, 0x0A, 0x02, 0x0A, 0x02, 0x14]),
    ("a red leaf", Cause::RedLeaf, 8, &[0x09, 0x03, 0x03, 0x0A, 0x00, 0x0A, 0x02, 0x14]),
    ("two red leaves", Cause::RedLeaf, 8, &[0x09, 0x03, 0x03, 0x0A, 0x00, 0x0A, 0x00, 0x14]),
    ("red leaves below a black node, sums equal", Cause::RedLeaf, 12, &[0x09, 0x05, 0x03, 0x0A, 0x03, 0x05, 0x00, 0x05, 0x00, 0x0A, 0x02, 0x14]),
    ("unequal sums", Cause::UnequalSums, 8, &[0x09, 0x03, 0x03, 0x0A, 0x02, 0x0A, 0x04, 0x14]),
    ("unequal sums under a red node", Cause::UnequalSums, 12, &[0x09, 0x05, 0x03, 0x0A, 0x01, 0x05, 0x02, 0x05, 0x04, 0x0A, 0x02, 0x14]),
    ("L is 256", Cause::TooTall, 10, &[0x09, 0x03, 0x03, 0x0A, 0x80, 0x04, 0x0A, 0x80, 0x04, 0x14]),
    ("L is 256 by weights of 128", Cause::TooTall, 22, &[0x09, 0x07, 0x03, 0x14, 0x81, 0x02, 0x0A, 0x80, 0x02, 0x0A, 0x80, 0x02, 0x14, 0x81, 0x02, 0x1E, 0x80, 0x02, 0x1E, 0x80, 0x02, 0x28]),
    ("a key on the left above the router", Cause::WrongSide, 8, &[0x09, 0x03, 0x03, 0x0A, 0x02, 0x0B, 0x02, 0x14]),
    ("a key on the right that is the router", Cause::WrongSide, 8, &[0x09, 0x03, 0x03, 0x0A, 0x02, 0x0A, 0x02, 0x0A]),
    ("a key on the wrong side of a router two levels up", Cause::WrongSide, 12, &[0x09, 0x05, 0x03, 0x0A, 0x01, 0x05, 0x02, 0x05, 0x02, 0x0B, 0x02, 0x14]),
    ("the same, on the right", Cause::WrongSide, 12, &[0x09, 0x05, 0x03, 0x0A, 0x02, 0x0A, 0x01, 0x14, 0x02, 0x0A, 0x02, 0x1E]),
    // A number that does not read: C, N, the first node's, the last node's.
    ("C in two bytes", Cause::NotShortest, 1, &[0x89, 0x00, 0x00]),
    ("C in five bytes", Cause::NotShortest, 4, &[0x89, 0x80, 0x80, 0x80, 0x00, 0x00]),
    ("C of one byte that has no end", Cause::CutShort, 1, &[0x89]),
    ("C of four bytes that have no end", Cause::CutShort, 4, &[0x89, 0x80, 0x80, 0x80]),
    ("C of five bytes that have no end", Cause::Above32Bits, 4, &[0x89, 0x80, 0x80, 0x80, 0x80]),
    ("C of six bytes that have no end", Cause::Above32Bits, 4, &[0x89, 0x80, 0x80, 0x80, 0x80, 0x80]),
    ("C above 32 bits", Cause::Above32Bits, 4, &[0x89, 0x80, 0x80, 0x80, 0x10, 0x00]),
    ("N is not there", Cause::CutShort, 1, &[0x09]),
    ("N cut short", Cause::CutShort, 3, &[0x09, 0x83, 0x80]),
    ("N in two bytes", Cause::NotShortest, 2, &[0x09, 0x83, 0x00, 0x03, 0x0A, 0x02, 0x0A, 0x02, 0x14]),
    ("N of 0 in two bytes", Cause::NotShortest, 2, &[0x09, 0x80, 0x00]),
    ("N is 4,294,967,296", Cause::Above32Bits, 5, &[0x09, 0x80, 0x80, 0x80, 0x80, 0x10]),
    ("N of five bytes that have no end", Cause::Above32Bits, 5, &[0x09, 0x83, 0x80, 0x80, 0x80, 0x80]),
    ("N is 4,294,967,295, and no node", Cause::CutShort, 6, &[0x09, 0xFF, 0xFF, 0xFF, 0xFF, 0x0F]),
    ("N is 4,294,967,295, and one node", Cause::CutShort, 8, &[0x09, 0xFF, 0xFF, 0xFF, 0xFF, 0x0F, 0x02, 0x0A]),
    ("N is 2,147,483,648, and one node", Cause::CutShort, 8, &[0x09, 0x80, 0x80, 0x80, 0x80, 0x08, 0x02, 0x0A]),
    ("N is 4,294,967,295, and the first key in two bytes", Cause::NotShortest, 8, &[0x09, 0xFF, 0xFF, 0xFF, 0xFF, 0x0F, 0x02, 0x8A, 0x00, 0x02]),
    ("N is 2,147,483,648, and the first key in two bytes", Cause::NotShortest, 8, &[0x09, 0x80, 0x80, 0x80, 0x80, 0x08, 0x02, 0x8A, 0x00]),
    ("N is 2,147,483,649, and the second node in two bytes", Cause::NotShortest, 9, &[0x09, 0x81, 0x80, 0x80, 0x80, 0x08, 0x02, 0x0A, 0x82, 0x00]),
    ("no node where N is 1", Cause::CutShort, 2, &[0x09, 0x01]),
    ("a node without its key", Cause::CutShort, 3, &[0x09, 0x01, 0x02]),
    ("the right leaf is missing", Cause::CutShort, 6, &[0x09, 0x03, 0x03, 0x0A, 0x02, 0x0A]),
    ("two nodes fewer than N says", Cause::CutShort, 8, &[0x09, 0x05, 0x03, 0x0A, 0x02, 0x0A, 0x02, 0x14]),
    ("the root's first number in two bytes", Cause::NotShortest, 3, &[0x09, 0x01, 0x82, 0x00, 0x0A]),
    ("the root's first number above 32 bits", Cause::Above32Bits, 6, &[0x09, 0x01, 0x82, 0x80, 0x80, 0x80, 0x10, 0x0A]),
    ("the root's first number of five bytes that have no end", Cause::Above32Bits, 6, &[0x09, 0x01, 0x82, 0x80, 0x80, 0x80, 0x80]),
    ("the root's first number of four bytes that have no end", Cause::CutShort, 6, &[0x09, 0x01, 0x82, 0x80, 0x80, 0x80]),
    ("a key in two bytes", Cause::NotShortest, 4, &[0x09, 0x01, 0x02, 0x8A, 0x00]),
    ("a key in five bytes", Cause::NotShortest, 7, &[0x09, 0x01, 0x02, 0x8A, 0x80, 0x80, 0x80, 0x00]),
    ("a key cut short", Cause::CutShort, 4, &[0x09, 0x01, 0x02, 0x8A]),
    ("a key above 32 bits", Cause::Above32Bits, 7, &[0x09, 0x01, 0x02, 0xFF, 0xFF, 0xFF, 0xFF, 0x10]),
    ("a key of six bytes", Cause::Above32Bits, 7, &[0x09, 0x01, 0x02, 0xFF, 0xFF, 0xFF, 0xFF, 0x8F, 0x00]),
    ("the last node's first number in three bytes", Cause::NotShortest, 8, &[0x09, 0x03, 0x03, 0x0A, 0x02, 0x0A, 0x82, 0x80, 0x00, 0x14]),
    ("the last key in two bytes", Cause::NotShortest, 8, &[0x09, 0x03, 0x03, 0x0A, 0x02, 0x0A, 0x02, 0x94, 0x00]),
    ("the last key cut short", Cause::CutShort, 8, &[0x09, 0x03, 0x03, 0x0A, 0x02, 0x0A, 0x02, 0x94]),
    ("the last key above 32 bits", Cause::Above32Bits, 11, &[0x09, 0x03, 0x03, 0x0A, 0x02, 0x0A, 0x02, 0x94, 0x80, 0x80, 0x80, 0x10]),
    // The first such number decides, whatever else is wrong before it or after it.
    ("C and N in two bytes", Cause::NotShortest, 1, &[0x89, 0x00, 0x83, 0x00]),
    ("N in two bytes and a key cut short", Cause::NotShortest, 2, &[0x09, 0x81, 0x00, 0x02, 0x8A]),
    ("both numbers of a node in two bytes", Cause::NotShortest, 3, &[0x09, 0x01, 0x82, 0x00, 0x8A, 0x00]),
    ("C is 0 and N is not there", Cause::CutShort, 1, &[0x00]),
    ("C is 0 and N in two bytes", Cause::NotShortest, 2, &[0x00, 0x83, 0x00]),
    ("C is 0 and a key in two bytes", Cause::NotShortest, 4, &[0x00, 0x01, 0x02, 0x8A, 0x00]),
    ("C is 16,384 and N cut short", Cause::CutShort, 4, &[0x80, 0x80, 0x01, 0x80]),
    ("C is 16,384 and a key above 32 bits", Cause::Above32Bits, 9, &[0x80, 0x80, 0x01, 0x01, 0x02, 0x80, 0x80, 0x80, 0x80, 0x10]),
    ("N above C and the last key cut short", Cause::CutShort, 8, &[0x01, 0x03, 0x03, 0x0A, 0x02, 0x0A, 0x02, 0x94]),
    ("N is 2 and the last key in two bytes", Cause::NotShortest, 6, &[0x09, 0x02, 0x03, 0x0A, 0x02, 0x8A, 0x00]),
    ("a red root and its key in two bytes", Cause::NotShortest, 4, &[0x09, 0x01, 0x00, 0x8A, 0x00]),
    ("a root of weight 2 and the last key cut short", Cause::CutShort, 8, &[0x09, 0x03, 0x05, 0x0A, 0x02, 0x0A, 0x02, 0x94]),
    ("a red leaf and the last key in two bytes", Cause::NotShortest, 8, &[0x09, 0x03, 0x03, 0x0A, 0x00, 0x0A, 0x02, 0x94, 0x00]),
    ("a key on the wrong side and the last one above 32 bits", Cause::Above32Bits, 11, &[0x09, 0x03, 0x03, 0x0A, 0x02, 0x0B, 0x02, 0x94, 0x80, 0x80, 0x80, 0x10]),
    ("a weight above 255 and the last key cut short", Cause::CutShort, 10, &[0x09, 0x03, 0x03, 0x0A, 0x80, 0x04, 0x0A, 0x80, 0x04, 0x94]),
    ("unequal sums and the last key in two bytes", Cause::NotShortest, 8, &[0x09, 0x03, 0x03, 0x0A, 0x02, 0x0A, 0x04, 0x94, 0x00]),
    ("a tree of one node, N is 3, and the last key cut short", Cause::CutShort, 8, &[0x09, 0x03, 0x02, 0x0A, 0x02, 0x0A, 0x02, 0x94]),
    ("a tree of one node, N is 3, and a number in two bytes", Cause::NotShortest, 5, &[0x09, 0x03, 0x02, 0x0A, 0x82, 0x00, 0x0A, 0x02, 0x14]),
    // What comes after the last of N nodes is not read.
    ("a byte left over that begins a number", Cause::LeftOver, 3, &[0x09, 0x00, 0x80]),
    ("a number left over in two bytes", Cause::LeftOver, 6, &[0x09, 0x01, 0x02, 0x0A, 0x82, 0x00]),
    ("a number left over above 32 bits", Cause::LeftOver, 10, &[0x09, 0x01, 0x02, 0x0A, 0x80, 0x80, 0x80, 0x80, 0x80, 0x80]),
    ("a node more than N says, in two bytes", Cause::NodeTooMany, 6, &[0x09, 0x01, 0x03, 0x0A, 0x82, 0x00]),
    ("C is 0 and a number left over in two bytes", Cause::NoSlots, 4, &[0x00, 0x00, 0x82, 0x00]),
];

/// The good forms that those are near to, their C, N and L.
#[rustfmt::skip]
const TAKEN: [(usize, u32, u32, &[u8]); 16] = [
    (9, 0, 0, &[0x09, 0x00]),
    (1, 0, 0, &[0x01, 0x00]),
    (1023, 0, 0, &[0xFF, 0x07, 0x00]),
    (1024, 0, 0, &[0x80, 0x08, 0x00]),
    (MOST_SLOTS, 0, 0, &[0xFF, 0x7F, 0x00]),
    (MOST_SLOTS, 3, 1, &[0xFF, 0x7F, 0x03, 0x03, 0x0A, 0x02, 0x0A, 0x02, 0x14]),
    (9, 1, 0, &[0x09, 0x01, 0x02, 0x0A]),
    (1, 1, 0, &[0x01, 0x01, 0x02, 0xFF, 0xFF, 0xFF, 0xFF, 0x0F]),
    (9, 3, 1, &[0x09, 0x03, 0x03, 0x0A, 0x02, 0x0A, 0x02, 0x14]),
    (3, 3, 1, &[0x03, 0x03, 0x03, 0x0A, 0x02, 0x00, 0x02, 0x0B]),
    (9, 3, 255, &[0x09, 0x03, 0x03, 0x0A, 0xFE, 0x03, 0x0A, 0xFE, 0x03, 0x14]),
    (9, 5, 1, &[0x09, 0x05, 0x03, 0x0A, 0x01, 0x05, 0x02, 0x05, 0x02, 0x0A, 0x02, 0x14]),
    (9, 5, 1, &[0x09, 0x05, 0x03, 0x0A, 0x02, 0x0A, 0x01, 0x14, 0x02, 0x0B, 0x02, 0x1E]),
    (9, 5, 255, &[0x09, 0x05, 0x03, 0x0A, 0x81, 0x02, 0x05, 0xFE, 0x01, 0x05, 0xFE, 0x01, 0x0A, 0xFE, 0x03, 0x14]),
    (9, 7, 255, &[0x09, 0x07, 0x03, 0x14, 0x81, 0x02, 0x0A, 0xFE, 0x01, 0x0A, 0xFE, 0x01, 0x14, 0x81, 0x02, 0x1E, 0xFE, 0x01, 0x1E, 0xFE, 0x01, 0x28]),
    (9, 5, 2, &[0x09, 0x05, 0x03, 0x0A, 0x03, 0x05, 0x02, 0x05, 0x02, 0x0A, 0x04, 0x14]),
];

fn pool(slots: usize) -> Vec<u32> {
    vec![7; 4 + 4 * slots]
}

fn answers<A: PartialEq + Debug>(name: &str, saved: &[u8], got: A, want: A) {
    assert_eq!(got, want, "{name}: {saved:02X?}");
}

/// 13 comes before 14, and after 1: whatever the pool's C is, and only if its length is good. 13 alone has a number.
#[test]
fn each_cause_is_refused_with_13() {
    let mut seen = [0; CAUSES];
    for &(name, why, place, saved) in REFUSED {
        answers(name, saved, cause(saved), Some((why, place)));
        for slots in [9, 1, 2, 3, 1023, MOST_SLOTS] {
            answers(name, saved, same_load(&pool(slots), saved).0, (13, place as u32));
        }
        for words in [0, 4, 39, 4 + 4 * (MOST_SLOTS + 1)] {
            answers(name, saved, same_load(&vec![7; words], saved).0, (1, 0));
        }
        seen[why as usize] += 1;
    }
    assert!(seen.iter().all(|&times| times > 0), "{seen:?}");
    println!("compared {} stored forms that 13 refuses, by cause: {seen:?}", REFUSED.len());
}

/// No byte after the one at which they go wrong changes the answer.
#[test]
fn what_follows_a_bad_number_does_not_matter() {
    for &(name, _, place, saved) in REFUSED.iter().filter(|(_, _, place, saved)| *place < saved.len()) {
        for end in place + 1..=saved.len() {
            answers(name, saved, same_load(&pool(9), &saved[..end]).0, (13, place as u32));
        }
        for more in [&[0][..], &[0x80], &[0xFF; 40], &[2; 5000]] {
            answers(name, saved, same_load(&pool(9), &[saved, more].concat()).0, (13, place as u32));
        }
    }
}

#[test]
fn what_is_near_to_them_is_taken() {
    for (slots, n, level, saved) in TAKEN {
        answers("good", saved, cause(saved), None);
        let (answer, words) = same_load(&pool(slots), saved);
        answers("good", saved, answer, (0, n));
        answers("L", saved, words[3], level);
        for other in [2, 8, 10, 1022, MOST_SLOTS - 1] {
            answers("another C", saved, same_load(&pool(other), saved).0, (14, 0));
        }
        answers("no pool", saved, same_load(&[7; 39], saved).0, (1, 0));
    }
}

/// Good forms that are cut, at every byte, and with bytes left over: both go wrong at their end.
#[test]
fn good_forms_cut_and_with_more() {
    for (slots, _, _, saved) in TAKEN {
        for end in 0..saved.len() {
            answers("cut", &saved[..end], same_load(&pool(slots), &saved[..end]).0, (13, end as u32));
        }
        for more in [&[0][..], &[0x80], &[0x80, 0x00], &[0xFF; 9], &[2; 300]] {
            let longer = [saved, more].concat();
            answers("more", &longer, same_load(&pool(slots), &longer).0, (13, longer.len() as u32));
        }
    }
}
