//! The commands over a span of keys of document 02 (vii), over the list of all keys.

use super::{Answer, Set};

impl Set {
    /// "the smallest key at or above a given one, answering the key"; "6 when nothing lies at or above".
    pub fn at_or_above(&self, given: u32) -> Answer {
        self.in_order().into_iter().find(|&key| key >= given).map_or((6, 0), |key| (0, key))
    }

    /// Those "from a to b", the smallest first.
    fn between(&self, a: u32, b: u32) -> Vec<u32> {
        self.in_order().into_iter().filter(|&key| a <= key && key <= b).collect()
    }

    /// "the number of keys from a to b"
    pub fn count(&self, a: u32, b: u32) -> Answer {
        (0, self.between(a, b).len() as u32)
    }

    /// "delete all keys from a to b, smallest first, answering how many went"; "The tree after 8 is the one that single deletes in that order
    /// leave."
    pub fn delete_span(&mut self, a: u32, b: u32) -> Answer {
        let keys = self.between(a, b);
        keys.iter().for_each(|&key| assert_eq!(self.delete(key).0, 0));
        (0, keys.len() as u32)
    }
}
