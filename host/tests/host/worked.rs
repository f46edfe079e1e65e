//! The cases that document 01 works by hand, those of DESIGN.md, and further ones for kinds that those leave out; the
//! saved forms of some of them; 02's leaf of weight 9, and its largest figures.

use crate::pair::{library_batch, overweight, same_batch, same_call, same_load, same_on, same_save, Lent, Pair};
use crate::pools::{deepest_and_heavy, Shape};
use crate::threads::roomy;
use crate::twin::{self, edge, inner, leaf, Call, Command, Edge, Set};
use chromatic::raw;
use Command::{Delete, Insert, Search, Settle, Step};

const NINE: usize = 9;

/// P1's four inserts into so many slots.
pub fn after_p1(slots: usize) -> Pair {
    let mut pair = Pair::prepared(slots);
    assert_eq!(pair.insert_all(&[10, 20, 30, 40]), [(0, 1), (0, 3), (0, 5), (0, 7)]);
    pair
}

fn after_p2() -> Pair {
    let mut pair = after_p1(NINE);
    assert_eq!(pair.run(Step(1, 3)), (0, 3));
    pair
}

fn after_p3() -> Pair {
    let mut pair = after_p2();
    assert_eq!(pair.run(Insert(50)), (0, 9));
    assert_eq!(pair.report(), [9, 1, 0, 1, 0, 4, 22]);
    assert_eq!(pair.run(Step(1, 1)), (0, 1));
    pair
}

fn after_p4() -> Pair {
    let mut pair = after_p3();
    assert_eq!(pair.run(Delete(10)), (0, 4));
    pair
}

#[test]
fn p1_four_inserts() {
    let pair = after_p1(NINE);
    assert_eq!(pair.slot(3)[3], 0);
    assert_eq!(pair.slot(5)[3], 0);
    assert_eq!(pair.report(), [7, 1, 0, 1, 0, 2, 16]);
    pair.look();
}

#[test]
fn p2_kind_3() {
    let pair = after_p2();
    assert_eq!(pair.slot(1), [20, 3, 5, 1]);
    assert_eq!(pair.slot(3), [10, 2, 4, 0]);
    assert!(pair.twin.allowed().is_empty());
    for slot in 0..=10 {
        for kind in 0..=9 {
            assert_ne!(after_p2().run(Step(slot, kind)).0, 0, "slot {slot} kind {kind}");
        }
    }
}

#[test]
fn p3_kind_1_at_the_root() {
    let pair = after_p3();
    assert_eq!((pair.slot(3)[3], pair.slot(5)[3], pair.slot(1)[3]), (1, 1, 1));
    assert_eq!(pair.report()[1], 2);
}

#[test]
fn p4_delete_adds_weights() {
    let pair = after_p4();
    assert_eq!(pair.slot(3), [20, 0, 0, 2]);
    assert_eq!(pair.words[1], 4);
    assert_eq!(pair.slot(4), [0, 2, 0, u32::MAX]);
    assert_eq!(pair.slot(2), [0, 0, 0, u32::MAX]);
    assert_eq!(pair.report(), [7, 2, 1, 0, 6, 0, 132]);
    pair.look();
}

#[test]
fn p5_settle() {
    let mut pair = after_p4();
    assert_eq!(pair.run(Settle(1)), (12, 1));
    assert_eq!(pair.run(Settle(9)), (0, 1));
    assert_eq!(pair.slot(1), [30, 5, 7, 1]);
    assert_eq!(pair.slot(5), [20, 3, 6, 0]);
    let mut same = after_p4();
    assert_eq!(same.run(Step(1, 6)), (0, 6));
    assert_eq!(same.run(Step(1, 3)), (0, 3));
    assert_eq!(same.words, pair.words);
}

#[test]
fn p6_no_room_is_not_key_present() {
    let mut pair = after_p1(7);
    assert_eq!(pair.run(Insert(50)), (7, 0));
    assert_eq!(pair.run(Insert(40)), (5, 0));
}

#[test]
fn p7_empty_pool() {
    let mut pair = Pair::prepared(NINE);
    assert_eq!(pair.run(Search(0)), (6, 0));
    assert_eq!(pair.report(), [0; 7]);
    assert_eq!(pair.run(Settle(0)), (0, 0));
}

/// "nine nodes, root with red c and d, c with red e", every leaf of one weight.
pub fn p8(weight: u32) -> Pair {
    let heavy = |slot, key| edge(weight, leaf(slot, key));
    let e = edge(0, inner(4, 1, heavy(5, 1), heavy(6, 2)));
    let c = edge(0, inner(2, 2, e, heavy(7, 3)));
    let d = edge(0, inner(3, 4, heavy(8, 4), heavy(9, 5)));
    Pair::holding(Set { slots: NINE, tree: Some(edge(1, inner(1, 3, c, d))), free: vec![] })
}

#[test]
fn p8_level_255() {
    assert_eq!(p8(255).run(Step(1, 1)), (11, 0));
    assert_eq!(p8(255).run(Step(4, 6)), (0, 6));
    assert_eq!(p8(254).run(Step(1, 1)), (0, 1));
    p8(255).look();
    // Settle passes by the step that 11 refuses, which stands at the lowest slot.
    assert_eq!(p8(255).run(Settle(1)), (12, 1));
    let mut steps = p8(255);
    let (code, _) = steps.run(Settle(u32::MAX));
    assert_eq!((code, steps.report()[2..4].to_vec()), (0, vec![0, 0]));
}

#[test]
fn p9_numbers() {
    let pool = Pair::prepared(NINE).words;
    let search = |number: &[u8]| same_batch(&pool, &[&[1], number].concat(), 2);
    for good in [&[0x80, 0x01][..], &[0xFF, 0xFF, 0xFF, 0xFF, 0x0F], &[0], &[0x7F]] {
        assert_eq!(search(good), (0, 0));
    }
    for (bad, place) in
        [(&[0x80, 0x00][..], 2), (&[0xFF, 0xFF, 0xFF, 0xFF, 0x10], 5), (&[0xFF, 0xFF, 0xFF, 0xFF, 0x8F, 0x00], 5), (&[0x80], 2), (&[], 1)]
    {
        assert_eq!(search(bad), (3, place));
    }
    let mut keys = Pair::prepared(NINE);
    assert_eq!(library_batch(&mut keys.words, &[2, 0x80, 0x01, 2, 0xFF, 0xFF, 0xFF, 0xFF, 0x0F], &mut [0; 4]), (0, 0));
    assert_eq!((keys.slot(2)[0], keys.slot(3)[0]), (128, u32::MAX));
}

#[test]
fn steps_refused() {
    let mut pair = after_p1(NINE);
    for (slot, kind, code) in [(10, 1, 8), (1, 9, 9), (1, 2, 10), (0, 9, 8), (2, 1, 8), (9, 6, 8), (1, 0, 9), (u32::MAX, 3, 8)] {
        assert_eq!(pair.run(Step(slot, kind)), (code, 0), "slot {slot} kind {kind}");
    }
}

#[test]
fn three_lines_of_the_program() {
    let mut pair = Pair::prepared(127);
    let mut answers = [9; 8];
    assert_eq!(library_batch(&mut pair.words, &[0x02, 0x0A, 0x02, 0x14, 0x01, 0x0A], &mut answers), (0, 0));
    assert_eq!(answers, [0, 1, 0, 3, 0, 2, 9, 9]);
}

/// The three further cases of DESIGN.md.
#[test]
fn kinds_2_and_4_and_no_rotation_under_a_red_v() {
    let mut pair = Pair::prepared(11);
    pair.insert_all(&[40, 30, 20, 10]);
    assert_eq!(pair.run(Step(1, 2)), (0, 2));
    assert_eq!((pair.slot(1), pair.slot(2)), ([20, 4, 2, 1], [30, 5, 3, 0]));

    let mut pair = Pair::prepared(11);
    pair.insert_all(&[30, 40, 10, 20]);
    assert_eq!(pair.run(Step(1, 4)), (0, 4));
    assert_eq!((pair.slot(1), pair.slot(2), pair.slot(5)), ([20, 2, 5, 1], [10, 4, 6, 0], [30, 7, 3, 0]));

    let mut pair = after_p1(11);
    pair.run(Insert(50));
    assert_eq!(pair.run(Step(3, 3)), (10, 0));
}

#[test]
fn kind_5_mirrors_kind_4() {
    let mut pair = Pair::prepared(11);
    pair.insert_all(&[20, 10, 40, 15]);
    assert_eq!(pair.run(Step(1, 5)), (0, 5));
    assert_eq!((pair.slot(1), pair.slot(3), pair.slot(4)), ([15, 4, 3, 1], [20, 7, 5, 0], [10, 2, 6, 0]));
}

/// A red child u beside an overweighted t, in a tree of five leaves at level 2: kind 7 at slot 1, its mirror 8.
pub fn heavy_beside_red(mirrored: bool, under: Option<u32>) -> Pair {
    let one = |slot, key| edge(1, leaf(slot, key));
    let black = |slot, router, l: Edge, r: Edge| edge(1, inner(slot, router, l, r));
    let v = if mirrored {
        let u = edge(0, inner(3, 20, black(4, 10, one(5, 10), one(6, 20)), black(7, 30, one(8, 30), one(9, 40))));
        inner(1, 40, u, edge(2, leaf(2, 50)))
    } else {
        let u = edge(0, inner(3, 30, black(4, 20, one(5, 20), one(6, 30)), black(7, 40, one(8, 40), one(9, 50))));
        inner(1, 10, edge(2, leaf(2, 10)), u)
    };
    let tree = match under {
        None => edge(1, v),
        Some(p) => edge(1, inner(10, 100, edge(p, v), edge(2 + p, leaf(11, 101)))),
    };
    Pair::holding(Set { slots: 11, free: if under.is_none() { vec![11, 10] } else { vec![] }, tree: Some(tree) })
}

#[test]
fn kinds_7_and_8() {
    let mut pair = heavy_beside_red(false, None);
    assert_eq!(pair.run(Step(1, 7)), (0, 7));
    assert_eq!((pair.slot(1), pair.slot(3)), ([30, 3, 7, 1], [10, 2, 4, 1]));
    assert_eq!((pair.slot(2)[3], pair.slot(4)[3], pair.slot(7)[3]), (1, 0, 1));

    let mut pair = heavy_beside_red(true, None);
    assert_eq!(pair.run(Step(1, 8)), (0, 8));
    assert_eq!((pair.slot(1), pair.slot(3)), ([20, 4, 3, 1], [40, 7, 2, 1]));
    assert_eq!((pair.slot(2)[3], pair.slot(7)[3], pair.slot(4)[3]), (1, 0, 1));
}

/// Kinds 6 to 8 do not ask that v is not red.
#[test]
fn kinds_7_and_8_at_a_red_v() {
    for (mirrored, kind) in [(false, 7), (true, 8)] {
        for weight in [0, 1, 2, 9] {
            assert_eq!(heavy_beside_red(mirrored, Some(weight)).run(Step(1, kind)), (0, kind), "v of weight {weight}");
        }
    }
}

/// "Rotating under a red v": each rotation's own condition holds but for "v not red".
#[test]
fn no_rotation_under_a_red_v() {
    for (kind, u_on_left, t_on_left) in [(2, true, true), (3, false, false), (4, true, false), (5, false, true)] {
        assert_eq!(rotation_case(u_on_left, t_on_left, 0).run(Step(2, kind)), (10, 0), "kind {kind} at a red v");
        assert_eq!(rotation_case(u_on_left, t_on_left, 1).run(Step(2, kind)), (0, kind), "kind {kind} at a black v");
    }
}

/// Root 1 over v in slot 2 (weight p), v over red u in slot 3, u over red t in slot 4.
pub fn rotation_case(u_on_left: bool, t_on_left: bool, p: u32) -> Pair {
    let one = |slot| edge(1, leaf(slot, 0));
    let beside = |on_left, slot, child, other| if on_left { inner(slot, 0, child, other) } else { inner(slot, 0, other, child) };
    let t = edge(0, inner(4, 0, one(5), one(6)));
    let u = edge(0, beside(t_on_left, 3, t, one(7)));
    let v = edge(p, beside(u_on_left, 2, u, one(8)));
    let mut tree = edge(1, inner(1, 0, v, edge(1 + p, leaf(9, 0))));
    number_keys(&mut tree, &mut 0);
    Pair::holding(Set { slots: NINE, tree: Some(tree), free: vec![] })
}

/// Leaf keys 1, 2, .. from the left, each router the key on its left.
fn number_keys(e: &mut Edge, last: &mut u32) {
    match e.to.below.as_mut() {
        None => {
            *last += 1;
            e.to.key = *last;
        }
        Some(both) => {
            number_keys(&mut both[0], last);
            e.to.key = *last;
            number_keys(&mut both[1], last);
        }
    }
}

#[test]
fn kind_6_with_both_children_overweighted_and_at_a_red_v() {
    let mut pair = p8(9);
    assert_eq!(pair.run(Step(4, 6)), (0, 6));
    assert_eq!((pair.slot(4)[3], pair.slot(5)[3], pair.slot(6)[3]), (1, 8, 8));
}

/// Every slot counts, the last too: there alone a step is allowed.
#[test]
fn the_last_slot() {
    for slots in [3, 127, 1023, 1024, 16_383] {
        let last = slots as u32;
        let tree = edge(1, inner(last, 10, edge(2, leaf(1, 10)), edge(2, leaf(2, 20))));
        let pair = Pair::holding(Set { slots, tree: Some(tree), free: (3..last).rev().collect() });
        for (command, answer) in [
            (Settle(9), (0, 1)),
            (Settle(0), (12, 0)),
            (Step(last, 6), (0, 6)),
            (Step(last, 1), (10, 0)),
            (Step(last + 1, 6), (8, 0)),
            (Step(last | 1 << 14, 6), (8, 0)),
            (Step(last | 1 << 16, 6), (8, 0)),
            (Delete(10), (0, 1)),
        ] {
            assert_eq!(pair.clone().run(command), answer, "{command:?}, C = {slots}");
        }
    }
}

/// "Where the budget is just enough": settle looks for a step first and at the budget second.
#[test]
fn a_budget_that_is_just_enough() {
    assert_eq!(after_p4().run(Settle(2)), (0, 2));
    assert_eq!(after_p4().run(Settle(0)), (12, 0));
    assert_eq!(after_p2().run(Settle(0)), (0, 0));
}

/// Every call, around the lengths of 1,023 slots, which were the most, and of 16,383. With a sound pool of 16,383 slots in the words, whole,
/// cut or with more after it, a bad length is refused all the same; 1 comes before every other code but 15.
#[test]
fn every_call_at_every_length() {
    let after = [7, 7, 7];
    let sound = [&after_p1(16_383).words[..], &[0; 70_000]].concat();
    for len in (0..=20).chain(4093..=4104).chain(65_531..=65_545).chain([65_600, 131_076]) {
        let good = len % 4 == 0 && (8..=65_536).contains(&len);
        // Of another length it is not even sound: N or the free chain is wrong.
        let code = if len == 65_536 {
            0
        } else if good {
            2
        } else {
            1
        };
        let words = &sound[..len];
        assert_eq!(same_on(words), code, "{len} words");
        assert_eq!(same_batch(words, &[1, 10], 2), (code, 0), "{len} words");
        assert_eq!(same_batch(words, &[9], 0), if good { (3, 0) } else { (1, 0) }, "{len} words");
        assert_eq!(same_batch(words, &[1, 10], 1), if good { (4, 0) } else { (1, 0) }, "{len} words");
        assert_eq!(same_save(words, 40).0 .0, code, "{len} words");
        assert_eq!(same_save(words, 2).0, if code == 0 { (14, 0) } else { (code, 0) }, "{len} words");
        assert_eq!(same_load(words, &[0x80, 0x80, 0x01, 0x00]).0, if good { (13, 4) } else { (1, 0) }, "{len} words");
        assert_eq!(
            same_load(words, &[0xFF, 0x7F, 0x00]).0,
            if code == 0 {
                (0, 0)
            } else if good {
                (14, 0)
            } else {
                (1, 0)
            },
            "{len} words"
        );
        for (call, wrong) in [
            (Call::MaySend { notice: 1, resident: 0, limit: 1 }, Call::MaySend { notice: 0, resident: 0, limit: 1 }),
            (Call::Clear { notice: 1 }, Call::Clear { notice: 0 }),
        ] {
            assert_eq!(same_call(words, call).0 .0, code, "{call:?} on {len} words");
            assert_eq!(same_call(words, wrong).0, (15, 0), "{wrong:?} on {len} words");
        }
        let mut lent = Lent::of(&[words, &after].concat());
        assert_eq!(raw::prepare(&mut lent.words()[..len]), u32::from(!good), "prepare {len} words");
        let prepared = lent.back();
        assert_eq!(prepared[len..], after);
        assert!(good || prepared[..len] == *words, "a refused prepare of {len} words wrote");
    }
}

#[test]
fn lengths() {
    for len in (0..=40).chain(4088..=4112).chain([8196]).chain(65_528..=65_545).chain([65_600, 131_076]) {
        let mut words = vec![7; len];
        let good = len % 4 == 0 && (8..=65_536).contains(&len);
        assert_eq!(raw::audit(&words), if good { 2 } else { 1 }, "audit of {len} words");
        assert_eq!(raw::report(&words, 1), 0);
        let refusal = library_batch(&mut words, &[9], &mut [0; 2]);
        assert_eq!(refusal, if good { (3, 0) } else { (1, 0) }, "batch on {len} words");
        let mut theirs = words.clone();
        assert_eq!(twin::prepare(&mut theirs), u32::from(!good), "the twin's prepare of {len} words");
        let mut lent = Lent::of(&words);
        assert_eq!(raw::prepare(lent.words()), u32::from(!good), "prepare {len} words");
        let words = lent.back();
        assert_eq!(words, theirs, "{len} words after prepare");
        assert!(good || words.iter().all(|&w| w == 7), "a refused prepare of {len} words wrote");
    }
}

/// "Codes 1 to 4 refuse the call, in the order 1, 3, 4, 2".
#[test]
fn order_of_refusals() {
    let good = after_p1(NINE).words;
    let mut broken = good.clone();
    broken[3] = 0; // L is 1
    let short = &broken[..39];
    let bad_command = [2, 77, 1, 10, 9];
    for (words, bytes, room, want) in [
        (short, &bad_command[..], 0, (1, 0)),
        (&broken, &bad_command, 0, (3, 4)),
        (&broken, &bad_command[..4], 3, (4, 0)),
        (&broken, &bad_command[..4], 4, (2, 0)),
        (&broken, &[], 0, (2, 0)),
        (short, &[], 0, (1, 0)),
        (&good, &bad_command[..4], 3, (4, 0)),
        (&good, &bad_command[..4], 4, (0, 0)),
        (&good, &[], 0, (0, 0)),
    ] {
        assert_eq!(same_batch(words, bytes, room), want);
    }
}

#[test]
fn two_hundred_and_fifty_seven_commands() {
    let words = after_p1(NINE).words;
    let many = |n: usize| [1, 10].repeat(n);
    assert_eq!(same_batch(&words, &many(256), 512), (0, 0));
    assert_eq!(same_batch(&words, &many(256), 511), (4, 0));
    assert_eq!(same_batch(&words, &many(257), 600), (3, 512));
    assert_eq!(same_batch(&words, &[many(256), vec![0x80]].concat(), 600), (3, 512));
    let longest = [4, 0xFF, 0xFF, 0xFF, 0xFF, 0x0F, 0xFF, 0xFF, 0xFF, 0xFF, 0x0F].repeat(256);
    assert_eq!((longest.len(), same_batch(&words, &longest, 512)), (2816, (0, 0)));
}

/// What the words are saved as, in a room of `room` bytes.
fn saved(pair: &Pair, room: usize) -> Vec<u8> {
    let ((code, count), bytes) = same_save(&pair.words, room);
    assert_eq!((code, count as usize), (0, bytes.len()));
    bytes
}

/// Worked by hand: C, N, then weights and keys, a node before what is below it.
#[rustfmt::skip]
#[test]
fn saved_forms() {
    let p1 = [0x09, 0x07, 0x03, 0x0A, 0x02, 0x0A, 0x01, 0x14, 0x02, 0x14, 0x01, 0x1E, 0x02, 0x1E, 0x02, 0x28];
    assert_eq!(saved(&after_p1(NINE), 16), p1);
    assert_eq!(saved(&after_p1(7), 17), [&[0x07][..], &p1[1..]].concat());
    let p2 = [0x09, 0x07, 0x03, 0x14, 0x01, 0x0A, 0x02, 0x0A, 0x02, 0x14, 0x01, 0x1E, 0x02, 0x1E, 0x02, 0x28];
    assert_eq!(saved(&after_p2(), 16), p2);
    let p3 = [0x09, 0x09, 0x03, 0x14, 0x03, 0x0A, 0x02, 0x0A, 0x02, 0x14, 0x03, 0x1E, 0x02, 0x1E, 0x01, 0x28, 0x02, 0x28, 0x02, 0x32];
    assert_eq!(saved(&after_p3(), 20), p3);
    let p4 = [0x09, 0x07, 0x03, 0x14, 0x04, 0x14, 0x03, 0x1E, 0x02, 0x1E, 0x01, 0x28, 0x02, 0x28, 0x02, 0x32];
    assert_eq!(saved(&after_p4(), 100), p4);
    let p8_255 = [
        0x09, 0x09, 0x03, 0x03, 0x01, 0x02, 0x01, 0x01, 0xFE, 0x03, 0x01, 0xFE, 0x03, 0x02, 0xFE, 0x03, 0x03,
        0x01, 0x04, 0xFE, 0x03, 0x04, 0xFE, 0x03, 0x05,
    ];
    assert_eq!(saved(&p8(255), 25), p8_255);
    assert_eq!(saved(&Pair::prepared(1), 2), [0x01, 0x00]);
    assert_eq!(saved(&Pair::prepared(NINE), 2), [0x09, 0x00]);
    assert_eq!(saved(&Pair::prepared(1023), 3), [0xFF, 0x07, 0x00]);
    assert_eq!(saved(&Pair::prepared(1024), 3), [0x80, 0x08, 0x00]);
    assert_eq!(saved(&Pair::prepared(16_383), 3), [0xFF, 0x7F, 0x00]);
    let mut one = Pair::prepared(1);
    one.insert_all(&[u32::MAX]);
    assert_eq!(saved(&one, 8), [0x01, 0x01, 0x02, 0xFF, 0xFF, 0xFF, 0xFF, 0x0F]);
    // They are as they were before 02 (v): L is in the words that they are read back as, and in no byte.
    for (form, header) in [
        (&p1[..], [1, 8, 7, 1]), (&p2, [1, 8, 7, 1]), (&p3, [1, 0, 9, 2]), (&p4, [1, 8, 7, 2]), (&p8_255, [1, 0, 9, 255]),
        (&[0x09, 0x00], [0, 1, 0, 0]), (&[0x09, 0x01, 0x02, 0x0A], [1, 2, 1, 0]),
    ] {
        let (answer, words) = same_load(&[0xDEAD_BEEF; 40], form);
        assert_eq!((answer, &words[..4]), ((0, header[2]), &header[..]));
        assert_eq!(same_save(&words, form.len()).1, form);
    }
}

/// P4's slots are 1, 3, 5, 6, 7, 8 and 9 before and 1 to 7 after, and the chain 4, 2 becomes 8, 9. L is 2 before and after.
#[test]
fn p4_over_a_restart() {
    let before = after_p4();
    assert_eq!((before.slot(1), before.slot(5), before.slot(7)), ([20, 3, 5, 1], [30, 6, 7, 1], [40, 8, 9, 0]));
    let ((code, n), after) = same_load(&[0xDEAD_BEEF; 40], &saved(&before, 16));
    assert_eq!((code, n), (0, 7));
    let slots = [
        [1, 8, 7, 2],
        [20, 2, 3, 1],
        [20, 0, 0, 2],
        [30, 4, 5, 1],
        [30, 0, 0, 1],
        [40, 6, 7, 0],
        [40, 0, 0, 1],
        [50, 0, 0, 1],
        [0, 9, 0, u32::MAX],
        [0, 0, 0, u32::MAX],
    ];
    assert_eq!(after, slots.concat());
    // A second load into the same words, and the prepared pool where N is 0.
    assert_eq!(same_load(&after, &saved(&before, 16)).1, after);
    assert_eq!(same_load(&after, &[0x09, 0x00]), ((0, 0), Pair::prepared(NINE).words));
}

/// "the writer's order is 1, 2, 14"
#[test]
fn order_of_refusals_of_save() {
    let good = after_p1(NINE).words;
    let mut broken = good.clone();
    broken[3] = 0; // L is 1
    for (words, room, want) in [
        (&broken[..39], 0, (1, 0)),
        (&broken[..39], 16, (1, 0)),
        (&good[..39], 0, (1, 0)),
        (&good[..4], 0, (1, 0)),
        (&[], 0, (1, 0)),
        (&broken, 0, (2, 0)),
        (&broken, 16, (2, 0)),
        (&good, 0, (14, 0)),
        (&good, 15, (14, 0)),
        (&good, 16, (0, 16)),
        (&good, 17, (0, 16)),
    ] {
        assert_eq!(same_save(words, room).0, want, "{} words, room for {room}", words.len());
    }
}

/// "the reader's 1, 13, 14"
#[test]
fn order_of_refusals_of_load() {
    let p1 = saved(&after_p1(NINE), 16);
    let nine_with_a_red_root = [0x09, 0x01, 0x00, 0x0A];
    let two_thousand_slots = [0xD0, 0x0F, 0x00];
    let too_many_slots = [0x80, 0x80, 0x01, 0x00]; // 16,384
    for (words, bytes, want) in [
        (39, &nine_with_a_red_root[..], (1, 0)),
        (39, &p1, (1, 0)),
        (0, &[], (1, 0)),
        (4, &p1, (1, 0)),
        (65_540, &p1, (1, 0)),
        (65_540, &too_many_slots, (1, 0)),
        (40, &nine_with_a_red_root, (13, 4)),
        (44, &nine_with_a_red_root, (13, 4)),
        (44, &too_many_slots, (13, 4)),
        (65_536, &too_many_slots, (13, 4)),
        (44, &two_thousand_slots, (14, 0)),
        (8004, &two_thousand_slots, (0, 0)),
        (40, &[], (13, 0)),
        (44, &p1, (14, 0)),
        (36, &p1, (14, 0)),
        (4096, &p1, (14, 0)),
        (4100, &p1, (14, 0)),
        (65_536, &p1, (14, 0)),
        (40, &p1, (0, 7)),
    ] {
        assert_eq!(same_load(&vec![7; words], bytes).0, want, "{bytes:02X?} into {words} words");
    }
}

/// A complete tree of 2 to the power `levels` leaves, every edge of weight 1 and the one to it too. Its slots go on from `first`, a node
/// before its left subtree before its right.
fn complete(first: u32, levels: u32) -> Edge {
    if levels == 0 {
        return edge(1, leaf(first, 0));
    }
    let left = complete(first + 1, levels - 1);
    edge(1, inner(first, 0, left, complete(first + (1 << levels), levels - 1)))
}

/// The root in slot 1 over both, and no slot free.
pub fn below_the_root(left: Edge, right: Edge) -> Pair {
    let mut tree = edge(1, inner(1, 0, left, right));
    let mut keys = 0;
    number_keys(&mut tree, &mut keys);
    Pair::holding(Set { slots: 2 * keys as usize - 1, tree: Some(tree), free: vec![] })
}

pub fn two_leaves(weight: u32) -> Pair {
    below_the_root(edge(weight, leaf(2, 0)), edge(weight, leaf(3, 0)))
}

/// The report of a tree with one leaf of weight 9 and 256 of weight 1: D is 8 times 512, the bound 1,540 times D.
const ONE_LEAF_OF_WEIGHT_9: [u64; 7] = [513, 9, 8, 0, 4096, 0, 6_307_840];

/// 02 (viii): "All figures of the report must be shown to fit 64 bits at the new size." The heaviest trees of the most slots: 8,192 leaves
/// of weight 255, each with 16,382 nodes outside, and every inner edge red. In a chain the i-th inner node below the root has 2i nodes
/// outside, and all but the last one a red child. In a complete tree the 2 to the power d inner nodes of depth d have 16,384 less
/// 2 to the power 14 - d outside, and down to depth 11 two red children each.
#[test]
fn figures_above_32_bits() {
    let d = 8192 * 254 * 16_382;
    let whole = |r: u64, q: u64| [16_383, 255, 2_080_768, r, d, q, (3 * 16_383 + 1) * d + 2 * 16_383 * r + q];
    let chain = whole(8189, (1..=8189).map(|i| 2 * i).sum());
    let complete = whole(8188, (1..=11).map(|depth| (2 << depth) * (16_384 - (1 << (14 - depth)))).sum());
    assert_eq!(chain, [16_383, 255, 2_080_768, 8189, 34_087_141_376, 67_067_910, 1_675_383_334_019_084]);
    assert_eq!(complete, [16_383, 255, 2_080_768, 8188, 34_087_141_376, 133_791_744, 1_675_383_400_710_152]);
    roomy(|| {
        for (shape, want) in [(Shape::ChainLeft, chain), (Shape::ChainRight, chain), (Shape::Zigzag, chain), (Shape::Halves, complete)] {
            let pair = Pair::holding(deepest_and_heavy(16_383, 255, shape));
            assert_eq!(pair.report(), want, "{shape:?}");
            pair.look();
        }
    });
}

/// Its third number after each step of settle, of which there are eight.
const EIGHT_WORKED_OFF: [u64; 8] = [7, 6, 5, 4, 3, 2, 1, 0];

/// Settles one step at a time to the end: the third number after each.
fn settled_singly(pair: &mut Pair) -> Vec<u64> {
    let mut thirds = vec![];
    loop {
        let (code, taken) = pair.run(Settle(1));
        assert_eq!(taken, 1);
        thirds.push(pair.report()[2]);
        if code == 0 {
            return thirds;
        }
    }
}

/// 02 (iii): "One leaf of weight 9 shows as 1, and then eight units have to be worked off." With no other
/// overweighted edge L is 9, and so the root's other side has at least 256 leaves.
#[test]
fn one_leaf_of_weight_9() {
    let on_the_left = below_the_root(edge(9, leaf(2, 0)), complete(3, 8));
    let on_the_right = below_the_root(complete(2, 8), edge(9, leaf(513, 0)));
    for mut pair in [on_the_left, on_the_right] {
        assert_eq!(overweight(&pair.words), (1, 8));
        assert_eq!(pair.report(), ONE_LEAF_OF_WEIGHT_9);
        pair.look();
        assert_eq!(settled_singly(&mut pair), EIGHT_WORKED_OFF);
    }
}

/// The same as a host comes to it: 512 keys, every edge black, are loaded, and of the 256 on the left all but the last are deleted, with
/// nothing settled.
#[test]
fn deletes_lead_to_a_leaf_of_weight_9() {
    let mut pair = below_the_root(complete(2, 8), complete(513, 8));
    assert_eq!(pair.report(), [1023, 9, 0, 0, 0, 0, 0]);
    let bytes = saved(&pair, 7165);
    assert_eq!(same_load(&[0xDEAD_BEEF; 4096], &bytes), ((0, 1023), pair.words.clone()));
    for deleted in 1..=255 {
        assert_eq!(pair.run(Delete(deleted)), (0, 512 - deleted));
        // Wherever the way to the lowest key turns right, all on the left is gone, and two edges are one that weighs as much. It turns
        // right for each 1 among the eight binary digits of `deleted`.
        assert_eq!(pair.report()[2], deleted.count_ones().into(), "{deleted} keys deleted");
        pair.look();
    }
    assert_eq!((pair.slot(2), overweight(&pair.words)), ([256, 0, 0, 9], (1, 8)));
    assert_eq!(pair.report(), ONE_LEAF_OF_WEIGHT_9);

    let mut at_once = pair.clone();
    assert_eq!(settled_singly(&mut pair), EIGHT_WORKED_OFF);
    assert_eq!(pair.report()[2..], [0; 5], "red-black, and no distance");
    assert!(pair.twin.allowed().is_empty());
    pair.look();
    assert_eq!(at_once.run(Settle(u32::MAX)), (0, 8));
    assert_eq!(at_once.words, pair.words);
}

/// D and the bound as before, beside the new sum.
#[test]
fn excess_weights() {
    for (weight, excess) in [(1, 0), (2, 2), (3, 4), (9, 16), (255, 508)] {
        let pair = two_leaves(weight);
        assert_eq!(pair.report(), [3, weight.into(), excess, 0, 2 * excess, 0, 20 * excess]);
        pair.look();
    }
    // Red edges take nothing off.
    assert_eq!(p8(9).report(), [9, 9, 40, 1, 320, 4, 8982]);
    assert_eq!(p8(255).report()[2], 1270);
    assert_eq!(after_p2().report(), [7, 1, 0, 0, 0, 0, 0]);
}

/// The only overweighted edge leads to an inner node, on either side.
#[test]
fn excess_weight_above_an_inner_node() {
    let heavy = |first| edge(5, inner(first, 0, edge(1, leaf(first + 1, 0)), edge(1, leaf(first + 2, 0))));
    for pair in [below_the_root(heavy(2), complete(5, 5)), below_the_root(complete(2, 5), heavy(65))] {
        assert_eq!(overweight(&pair.words), (1, 4));
        assert_eq!(pair.report(), [67, 6, 4, 0, 256, 0, 51_712]);
        pair.look();
    }
}

/// "The root's is 1 and counts in nothing."
#[test]
fn a_root_has_no_excess_weight() {
    let mut pair = Pair::prepared(1);
    assert_eq!(pair.report(), [0; 7]);
    pair.run(Insert(10));
    assert_eq!(pair.report(), [1, 0, 0, 0, 0, 0, 0]);
    pair.look();
    // A delete below the root leaves it 1, whatever the sibling weighed.
    let mut pair = two_leaves(255);
    pair.run(Delete(1));
    assert_eq!(pair.report(), [1, 0, 0, 0, 0, 0, 0]);
}

/// "0 for a refused pool"
#[test]
fn a_refused_pool_has_no_excess_weight() {
    let heavy = two_leaves(9).words;
    let mut broken = heavy.clone();
    broken[3] = 1;
    let left_over = [&heavy[..], &[0]].concat();
    for (words, code, excess) in [(&heavy[..], 0, 16), (&broken, 2, 0), (&heavy[..15], 1, 0), (&left_over, 1, 0)] {
        assert_eq!((same_on(words), raw::report(words, 3)), (code, excess), "{words:?}");
    }
}
