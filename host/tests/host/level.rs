//! Request (v): "Keep L in the fourth header word, true after every prepare, insert, delete, step, settle and read back." Where it moves
//! and where it stays, worked by hand; the same over random commands, without the twin; that word damaged.

use crate::damage;
use crate::pair::{same_batch, same_call, same_load, same_on, same_save, Pair, Seen};
use crate::pools::{deepest, grown, some_keys, two_chains, Shape, LARGE, MOST_KEYS, SHAPES, WEIGHTS};
use crate::random::{command, compared, shapes_and_weights, share, MIXES, SMALL};
use crate::rng::Rng;
use crate::threads::roomy;
use crate::twin::{edge, inner, leaf, Answer, Call, Command, Set, MOST_SLOTS};
use crate::worked::{after_p1, below_the_root, heavy_beside_red, p8, rotation_case, two_leaves};
use chromatic::{Pool, Refused};
use Command::{AtOrAbove, Count, Delete, DeleteSpan, Insert, Search, Settle, Step};

// Worked by hand. The fourth number of a header is L.

/// Commands in turn: what each answers, and the header that it leaves.
fn lines(pair: &mut Pair, lines: &[(Command, Answer, [u32; 4])]) {
    for &(command, answer, header) in lines {
        assert_eq!((pair.run(command), pair.header()), (answer, header), "{command:?}");
    }
}

/// One command that leaves the header as it is.
fn keeps(mut pair: Pair, header: [u32; 4], command: Command, answer: Answer) {
    assert_eq!(pair.header(), header, "before {command:?}");
    lines(&mut pair, &[(command, answer, header)]);
}

/// The second key makes L 1, and where one of two goes it is 0 again.
#[test]
fn two_keys_and_one() {
    let mut pair = Pair::prepared(3);
    assert_eq!(pair.header(), [0, 1, 0, 0]);
    lines(
        &mut pair,
        &[
            (Insert(10), (0, 1), [1, 2, 1, 0]),
            (Insert(20), (0, 3), [1, 0, 3, 1]),
            (Search(20), (0, 3), [1, 0, 3, 1]),
            (Insert(20), (5, 0), [1, 0, 3, 1]),
            (Insert(30), (7, 0), [1, 0, 3, 1]),
            (Delete(30), (6, 0), [1, 0, 3, 1]),
            (Settle(9), (0, 0), [1, 0, 3, 1]),
            (Delete(10), (0, 1), [1, 3, 1, 0]),
            (Insert(5), (0, 3), [1, 0, 3, 1]),
            (Delete(20), (0, 1), [1, 3, 1, 0]),
            (Delete(5), (0, 0), [0, 1, 0, 0]),
        ],
    );
    assert_eq!(pair.words, [0, 1, 0, 0, 0, 3, 0, u32::MAX, 0, 0, 0, u32::MAX, 0, 2, 0, u32::MAX]);
}

/// 01's P1 to P5: L is 1 from the second key on, the third and later ones keep it, kind 1 at the root makes it 2, a delete below the
/// root keeps it, kind 6 at the root, which settle takes, makes it 1.
#[test]
fn p1_to_p5() {
    let mut pair = Pair::prepared(9);
    lines(
        &mut pair,
        &[
            (Insert(10), (0, 1), [1, 2, 1, 0]),
            (Insert(20), (0, 3), [1, 4, 3, 1]),
            (Insert(30), (0, 5), [1, 6, 5, 1]),
            (Insert(40), (0, 7), [1, 8, 7, 1]),
            (Step(1, 3), (0, 3), [1, 8, 7, 1]),
            (Insert(50), (0, 9), [1, 0, 9, 1]),
            (Step(1, 1), (0, 1), [1, 0, 9, 2]),
            (Delete(10), (0, 4), [1, 4, 7, 2]),
            (Settle(1), (12, 1), [1, 4, 7, 1]),
            (Settle(9), (0, 1), [1, 4, 7, 1]),
        ],
    );
}

/// The root over a leaf and an inner node of weight `above`, which is over two leaves of weight `below`. L is the sum of both. With the
/// leaf on the left it is slot 2 with key 1, and the others are slots 3, 4, 5; else it is slot 5 with key 3, and they are 2, 3, 4.
fn leaf_beside_inner(above: u32, below: u32, leaf_on_left: bool) -> Pair {
    let beside = |slot| edge(above, inner(slot, 0, edge(below, leaf(slot + 1, 0)), edge(below, leaf(slot + 2, 0))));
    let alone = |slot| edge(above + below, leaf(slot, 0));
    if leaf_on_left {
        below_the_root(alone(2), beside(3))
    } else {
        below_the_root(beside(2), alone(5))
    }
}

const ABOVE_AND_BELOW: [(u32, u32); 8] = [(0, 1), (0, 255), (1, 1), (2, 1), (5, 3), (9, 9), (254, 1), (1, 254)];

/// A delete right under the root takes the sibling's weight off L, a red one's nothing. The leaf's slot is freed first, then the sibling's.
#[test]
fn a_delete_right_under_the_root() {
    for (above, below) in ABOVE_AND_BELOW {
        let mut pair = leaf_beside_inner(above, below, true);
        assert_eq!(pair.header(), [1, 0, 5, above + below]);
        lines(&mut pair, &[(Delete(1), (0, 2), [1, 3, 3, below])]);
        let mut pair = leaf_beside_inner(above, below, false);
        lines(&mut pair, &[(Delete(3), (0, 2), [1, 2, 3, below])]);
    }
}

/// With the last two keys L is 0, whatever they weigh.
#[test]
fn a_delete_of_one_of_two() {
    for weight in 1..=255 {
        for (key, header) in [(1, [1, 3, 1, 0]), (2, [1, 2, 1, 0])] {
            let mut pair = two_leaves(weight);
            assert_eq!(pair.header(), [1, 0, 3, weight]);
            lines(&mut pair, &[(Delete(key), (0, 1), header)]);
        }
    }
}

/// An insert and a delete below the root: what the leaf's edge loses, or the parent's gains, the ones below it had.
#[test]
fn updates_below_the_root() {
    for weight in [1, 2, 3, 255] {
        let tree = two_leaves(weight).twin.tree;
        let mut pair = Pair::holding(Set { slots: 5, tree, free: vec![5, 4] });
        assert_eq!(pair.header(), [1, 4, 3, weight]);
        lines(&mut pair, &[(Insert(3), (0, 5), [1, 0, 5, weight]), (Delete(2), (0, 2), [1, 5, 3, weight])]);
        assert_eq!(pair.slot(3), [3, 0, 0, weight]);
    }
    for (above, below) in ABOVE_AND_BELOW {
        let mut pair = leaf_beside_inner(above, below, true);
        lines(&mut pair, &[(Delete(2), (0, 2), [1, 5, 3, above + below])]);
    }
}

/// "Kind 1 at the root raises L. At L = 255 it is refused with 11."
#[test]
fn kind_1_at_the_root() {
    for level in 1..=254 {
        let mut pair = p8(level);
        assert_eq!(pair.header(), [1, 0, 9, level]);
        lines(&mut pair, &[(Step(1, 1), (0, 1), [1, 0, 9, level + 1]), (Step(1, 1), (10, 0), [1, 0, 9, level + 1])]);
        assert_eq!(pair.report()[1], u64::from(level) + 1);
    }
    keeps(p8(255), [1, 0, 9, 255], Step(1, 1), (11, 0));
    // By settle: kind 1 at slot 1 with L = 254, and with L = 255, where it is passed by, kind 8 at slot 2.
    lines(&mut p8(254), &[(Settle(1), (12, 1), [1, 0, 9, 255])]);
    keeps(p8(255), [1, 0, 9, 255], Settle(1), (12, 1));
}

/// The same in large pools and the largest, far from every leaf but two.
#[test]
fn kind_1_at_the_root_of_the_largest_pool() {
    for slots in [LARGE, MOST_SLOTS] {
        roomy(|| {
            for (level, answer, after) in [(1, (0, 1), 2), (254, (0, 1), 255), (255, (11, 0), 255)] {
                let mut pair = Pair::holding(two_chains(slots, level));
                assert_eq!((pair.header(), pair.report()[1]), ([1, 0, slots as u32, level], level.into()));
                lines(&mut pair, &[(Step(1, 1), answer, [1, 0, slots as u32, after])]);
                assert_eq!(pair.report()[1], after.into());
            }
        });
    }
}

/// 02 (viii): "255 remains enough for L." At L = 255 a step of kind 6, 7 or 8 is allowed in every tree of the most slots; L stays at most 255.
#[test]
fn l_of_255_in_the_largest_pools() {
    let heavy = 6..=8;
    let mut refused = 0;
    let mut tried = |rng: &mut Rng, pair: &mut Pair| {
        let root = pair.words[0];
        let answer = pair.run(Step(root, 1));
        assert!([(10, 0), (11, 0)].contains(&answer), "{answer:?}");
        refused += u32::from(answer.0 == 11);
        let allowed: Vec<(u32, u32)> = pair.twin.allowed().into_iter().filter(|(_, kind)| heavy.contains(kind)).collect();
        assert!(!allowed.is_empty(), "no step of kind 6, 7 or 8");
        for _ in 0..3 {
            let (slot, kind) = rng.pick(&allowed);
            assert_eq!(pair.clone().run(Step(slot, kind)), (0, kind));
        }
        let (code, taken) = pair.run(Settle(5));
        assert_eq!((code, taken), (12, 5));
        assert!(pair.words[3] <= 255);
    };
    roomy(|| {
        let mut rng = Rng::seeded("L of 255 in the largest pools", 43_000);
        tried(&mut rng, &mut Pair::holding(two_chains(MOST_SLOTS, 255)));
        for (shape, weights) in shapes_and_weights() {
            let keys = some_keys(&mut rng, MOST_KEYS, 1 << 20);
            let mut pair = Pair::holding(grown(&mut rng, MOST_SLOTS, &keys, 255, shape, weights));
            tried(&mut rng, &mut pair);
        }
    });
    println!("compared kind 1 at the root with L = 255 in pools of 16,383 slots: {refused} refused with 11");
    assert!(refused > 0);
}

/// Kind 6 at the root lowers L: both children overweighted, or one.
#[test]
fn kind_6_at_the_root() {
    for level in 2..=255 {
        let mut pair = two_leaves(level);
        lines(&mut pair, &[(Step(1, 6), (0, 6), [1, 0, 3, level - 1])]);
    }
    keeps(two_leaves(1), [1, 0, 3, 1], Step(1, 6), (10, 0));
    for leaf_on_left in [true, false] {
        for (above, below) in [(1, 1), (1, 254), (2, 1), (9, 9)] {
            let mut pair = leaf_beside_inner(above, below, leaf_on_left);
            lines(&mut pair, &[(Step(1, 6), (0, 6), [1, 0, 5, above + below - 1])]);
        }
    }
    lines(&mut two_leaves(9), &[(Settle(3), (12, 3), [1, 0, 3, 6]), (Settle(9), (0, 5), [1, 0, 3, 1])]);
}

/// The rotations' kinds, and on which sides u and t are.
const ROTATIONS: [(u32, bool, bool); 4] = [(2, true, true), (3, false, false), (4, true, false), (5, false, true)];

/// Kinds 2 to 5, 7 and 8 at the root.
#[test]
fn other_kinds_at_the_root_keep_it() {
    for level in [1, 2, 9, 255] {
        for (kind, u_on_left, t_on_left) in ROTATIONS {
            let heavy = |slot| edge(level, leaf(slot, 0));
            let beside = |on_left, child, other| if on_left { [child, other] } else { [other, child] };
            let [left, right] = beside(t_on_left, edge(0, inner(3, 0, heavy(4), heavy(5))), heavy(6));
            let [left, right] = beside(u_on_left, edge(0, inner(2, 0, left, right)), heavy(7));
            keeps(below_the_root(left, right), [1, 0, 7, level], Step(1, kind), (0, kind));
        }
    }
    keeps(heavy_beside_red(false, None), [1, 10, 9, 2], Step(1, 7), (0, 7));
    keeps(heavy_beside_red(true, None), [1, 10, 9, 2], Step(1, 8), (0, 8));
}

/// Every kind below the root.
#[test]
fn kinds_below_the_root_keep_it() {
    for (p, weight) in [(1, 1), (2, 1), (1, 254), (100, 155)] {
        let heavy = |slot| edge(weight, leaf(slot, 0));
        let c = edge(0, inner(3, 0, edge(0, inner(4, 0, heavy(5), heavy(6))), heavy(7)));
        let v = edge(p, inner(2, 0, c, edge(0, inner(8, 0, heavy(9), heavy(10)))));
        keeps(below_the_root(v, edge(p + weight, leaf(11, 0))), [1, 0, 11, p + weight], Step(2, 1), (0, 1));
        for (kind, u_on_left, t_on_left) in ROTATIONS {
            keeps(rotation_case(u_on_left, t_on_left, p), [1, 0, 9, p + 1], Step(2, kind), (0, kind));
        }
        for (mirrored, kind) in [(false, 7), (true, 8)] {
            keeps(heavy_beside_red(mirrored, Some(p)), [10, 0, 11, p + 2], Step(1, kind), (0, kind));
        }
    }
    for weight in [2, 9, 255] {
        keeps(p8(weight), [1, 0, 9, weight], Step(4, 6), (0, 6));
    }
}

// Over random commands.

/// Where a command moves L: at no other place.
#[derive(Clone, Copy, Debug)]
enum Place {
    SecondKey,
    DeleteUnderRoot { sibling: u32 },
    Kind1AtRoot,
    Kind6AtRoot,
}

impl Place {
    /// Of a command that was accepted on these words, and is no settle.
    fn of(before: &[u32], command: Command) -> Option<Place> {
        let root = before[0];
        match command {
            Insert(_) if before[2] == 1 => Some(Place::SecondKey),
            Delete(key) => sibling_under_the_root(before, key).map(|sibling| Place::DeleteUnderRoot { sibling }),
            Step(slot, 1) if slot == root => Some(Place::Kind1AtRoot),
            Step(slot, 6) if slot == root => Some(Place::Kind6AtRoot),
            _ => None,
        }
    }

    /// L afterwards.
    fn level(self, before: u32) -> u32 {
        match self {
            Place::SecondKey => 1,
            Place::DeleteUnderRoot { sibling } => before - sibling,
            Place::Kind1AtRoot => before + 1,
            Place::Kind6AtRoot => before - 1,
        }
    }
}

/// The sibling's weight, if the key's leaf is right under the root.
fn sibling_under_the_root(words: &[u32], key: u32) -> Option<u32> {
    let slot = |slot: u32| &words[4 * slot as usize..][..4];
    let root = slot(words[0]);
    let (end, sibling) = if key <= root[0] { (root[1], root[2]) } else { (root[2], root[1]) };
    (end != 0 && slot(end)[1] == 0).then(|| slot(sibling)[3])
}

/// How often L was seen to move, or to stay.
#[derive(Debug, Default)]
struct Moves {
    second_keys: u64,
    deletes_to_0: u64,
    deletes_to_less: u64,
    deletes_beside_red: u64,
    kinds_1_at_root: u64,
    kinds_6_at_root: u64,
    /// Accepted steps that keep it, by kind.
    steps_that_keep: [u64; 9],
    settles_up: u64,
    settles_down: u64,
    /// Spans deleted by which it fell, and by which keys went and it stayed.
    spans_down: u64,
    spans_that_keep: u64,
    restarts: u64,
}

impl Moves {
    fn add(&mut self, place: Option<Place>, command: Command, after: u32) {
        match (place, command) {
            (Some(Place::SecondKey), _) => self.second_keys += 1,
            (Some(Place::DeleteUnderRoot { sibling: 0 }), _) => self.deletes_beside_red += 1,
            (Some(Place::DeleteUnderRoot { .. }), _) if after == 0 => self.deletes_to_0 += 1,
            (Some(Place::DeleteUnderRoot { .. }), _) => self.deletes_to_less += 1,
            (Some(Place::Kind1AtRoot), _) => self.kinds_1_at_root += 1,
            (Some(Place::Kind6AtRoot), _) => self.kinds_6_at_root += 1,
            (None, Step(_, kind)) => self.steps_that_keep[kind as usize] += 1,
            (None, _) => {}
        }
    }

    /// One command. Its pool is compared, and L counted off the words, by `Pair::run`.
    fn run(&mut self, pair: &mut Pair, command: Command, seen: &mut Seen) -> Answer {
        let mut singly = pair.clone();
        let before = pair.words.clone();
        let answer = pair.run_seen(command, seen);
        let (was, is) = (before[3], pair.words[3]);
        match command {
            Settle(_) => {
                self.settles_up += u64::from(is > was);
                self.settles_down += u64::from(is < was);
            }
            // It moves where the single deletes move it.
            DeleteSpan(first, last) => {
                for key in singly.twin.in_order().into_iter().filter(|key| (first..=last).contains(key)) {
                    self.run(&mut singly, Delete(key), seen);
                }
                assert_eq!(is, singly.words[3], "L after {command:?} on {before:?}");
                self.spans_down += u64::from(is < was);
                self.spans_that_keep += u64::from(is == was && answer.1 > 0);
            }
            _ if answer.0 == 0 => {
                let place = Place::of(&before, command);
                assert_eq!(is, place.map_or(was, |place| place.level(was)), "L after {command:?} on {before:?}");
                self.add(place, command, is);
            }
            _ => assert_eq!(is, was, "L after a refused {command:?} on {before:?}"),
        }
        if matches!(command, Step(..) | Settle(_)) {
            assert_eq!(pair.words[..3], before[..3], "{command:?} on {before:?} moved a header word that is not L");
        }
        answer
    }

    fn restart(&mut self, pair: &mut Pair) {
        let before = pair.words[3];
        pair.restart();
        assert_eq!(pair.words[3], before, "L over a restart");
        self.restarts += 1;
    }

    /// Each at least so often, kinds 1 and 6 below the root too.
    fn each_met(&self, times: u64) -> bool {
        let Moves { second_keys, deletes_to_0, deletes_to_less, deletes_beside_red, kinds_1_at_root, kinds_6_at_root, .. } = *self;
        let moves = [second_keys, deletes_to_0, deletes_to_less, deletes_beside_red, kinds_1_at_root, kinds_6_at_root];
        let others = [self.settles_up, self.settles_down, self.spans_down, self.spans_that_keep, self.restarts];
        [&moves[..], &self.steps_that_keep[1..], &others].concat().iter().all(|&met| met >= times)
    }
}

/// After every command the fourth word is what the weights on the way to every leaf add up to, and the report's second number
/// (`Pair::run`); it moves where it must, by as much as it must, and nowhere else; and a step changes no other word of the header.
#[test]
fn l_after_every_command() {
    let mut moves = Moves::default();
    let mut run = |rng: &mut Rng, mut pair: Pair, seen: &mut Seen| {
        let (mix, most) = (rng.pick(&MIXES), pair.twin.slots as u32);
        for _ in 0..100 {
            let next = command(rng, &pair.twin, &mix, most);
            moves.run(&mut pair, next, seen);
            if rng.one_in(50) {
                moves.restart(&mut pair);
            }
        }
    };
    compared("L after every command", 40_000, 60, |rng, seen| {
        for slots in SMALL {
            run(rng, Pair::prepared(slots), seen);
        }
        for shape in SHAPES {
            for weights in WEIGHTS {
                let slots: usize = rng.pick(&[3, 5, 9, 25]);
                let count = 2 + rng.below(slots.div_ceil(2) - 1);
                let keys = some_keys(rng, count, slots as u32);
                let level = rng.pick(&[1, 2, 3, 9, 254, 255]);
                let pair = Pair::holding(grown(rng, slots, &keys, level, shape, weights));
                run(rng, pair, seen);
            }
        }
    });
    println!("compared how often L moved and stayed: {moves:?}");
    assert!(share() > 1 || moves.each_met(100), "each is met: {moves:?}");
}

/// Every key of pools of all shapes and weights deleted, in any order, with nothing settled: L is 0 in the end.
#[test]
fn deletes_to_the_last_key() {
    let mut moves = Moves::default();
    compared("L down to the last key", 41_000, 40, |rng, seen| {
        for shape in SHAPES {
            for weights in WEIGHTS {
                let mut keys = some_keys(rng, 12, 100);
                let level = rng.pick(&[1, 2, 9, 255]);
                let mut pair = Pair::holding(grown(rng, 23, &keys, level, shape, weights));
                rng.shuffle(&mut keys);
                for (left, &key) in (0..keys.len() as u32).rev().zip(&keys) {
                    assert_eq!(moves.run(&mut pair, Delete(key), seen), (0, left));
                }
                assert_eq!(pair.header()[3], 0);
            }
        }
    });
    let Moves { deletes_to_0, deletes_to_less, deletes_beside_red, .. } = moves;
    println!(
        "compared deletes right under the root: {deletes_to_0} to 0, {deletes_to_less} to less, {deletes_beside_red} beside a red sibling"
    );
    assert!(share() > 1 || [deletes_to_0, deletes_to_less, deletes_beside_red].iter().all(|&met| met > 100));
}

// Damage.

/// What the fourth word must not be: one too high or too low, 0, the limits, what has the same low byte, and the greatest.
fn wrong_words(level: u32) -> Vec<u32> {
    let mut wrong = vec![level + 1, level.wrapping_sub(1), 0, 1, 254, 255, 256, level + 256, level + 65_536, level | 1 << 31, u32::MAX];
    wrong.retain(|&word| word != level);
    wrong
}

/// By every call that audits: 2, with number 0, and no word or byte is changed.
fn refused_with_2(words: &[u32]) {
    assert_eq!(same_on(words), 2, "{words:?}");
    let updates = [Search(10), Insert(25), Delete(10), Step(words[0], 1), Step(words[0], 6), Settle(3)];
    let spans = [AtOrAbove(10), Count(10, 30), DeleteSpan(10, 30)];
    for bytes in [vec![], Command::all(&updates), Command::all(&spans)] {
        assert_eq!(same_batch(words, &bytes, 12), (2, 0), "{words:?}");
    }
    for room in [0, 8000] {
        assert_eq!(same_save(words, room), ((2, 0), vec![]), "{words:?}");
    }
    for call in [Call::MaySend { notice: 1, resident: 0, limit: 1 }, Call::Clear { notice: 1 }] {
        assert_eq!(same_call(words, call), ((2, 0), words.to_vec()), "{call:?}");
    }
    assert!(matches!(Pool::resume(words.to_vec()), Err(Refused::RulesBroken)));
}

/// Pools of every kind, sound but for the fourth word. Read back asks for no word, and gives that one too.
#[test]
fn a_fourth_word_that_is_not_l() {
    let mut rng = Rng::seeded("a wrong L", 42_000);
    let mut sets = damage::patients(&mut rng);
    for level in [1, 2, 3, 254, 255] {
        let keys = some_keys(&mut rng, 8, 60);
        sets.extend(SHAPES.map(|shape| WEIGHTS.map(|weights| grown(&mut rng, 17, &keys, level, shape, weights))).concat());
    }
    sets.extend([1, 2, 9, MOST_SLOTS].map(Set::prepared));
    sets.extend(SHAPES.map(|shape| deepest(LARGE, shape)));
    let mut refused = 0;
    for set in &sets {
        let sound = set.words();
        assert_eq!(same_on(&sound), 0);
        let (_, saved) = same_save(&sound, 8000);
        for word in wrong_words(sound[3]) {
            let mut words = sound.clone();
            words[3] = word;
            refused_with_2(&words);
            let (answer, loaded) = same_load(&words, &saved);
            assert_eq!((answer, loaded[3]), ((0, set.nodes()), sound[3]));
            refused += 1;
        }
    }
    println!("compared {refused} pools whose fourth word alone is wrong, of {} that are sound", sets.len());
}

/// A pool of before this request: its fourth word is 0. With one key or none it is sound, with more it is refused. What was saved of it
/// is read back.
#[test]
fn a_pool_of_before() {
    let mut pair = Pair::prepared(9);
    assert_eq!((pair.header(), same_on(&pair.words)), ([0, 1, 0, 0], 0));
    pair.insert_all(&[10]);
    assert_eq!((pair.header(), same_on(&pair.words)), ([1, 2, 1, 0], 0));
    let now = after_p1(9).words;
    let mut before = now.clone();
    before[3] = 0;
    refused_with_2(&before);
    let saved_before = [0x09, 0x07, 0x03, 0x0A, 0x02, 0x0A, 0x01, 0x14, 0x02, 0x14, 0x01, 0x1E, 0x02, 0x1E, 0x02, 0x28];
    assert_eq!(same_load(&before, &saved_before), ((0, 7), now));
    for weight in [1, 2, 254, 255] {
        let mut before = two_leaves(weight).words;
        before[3] = 0;
        refused_with_2(&before);
    }
    let mut deepest = deepest(LARGE, Shape::Zigzag).words();
    deepest[3] = 0;
    refused_with_2(&deepest);
}
