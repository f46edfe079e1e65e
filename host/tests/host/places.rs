//! Code 3's number, request (ii): the byte at which a batch goes wrong. (For 13's see causes.rs.)

use crate::causes::cause;
use crate::pair::{library_batch, library_load, same_batch, same_load, Pair};
use crate::random::{share, soak};
use crate::rng::Rng;
use crate::saved::every_string;
use crate::twin::{Command, MOST_SLOTS};
use std::alloc::{alloc_zeroed, dealloc, Layout};
use Command::{AtOrAbove, Count, Delete, DeleteSpan, Insert, Search, Settle, Step};

/// A bad command, and at which of its bytes it goes wrong.
type Bad = (&'static str, usize, &'static [u8]);

/// An operation's number that does not read, or is none. The first fault decides.
#[rustfmt::skip]
const OPERATIONS: &[Bad] = &[
    ("operation 0", 0, &[0x00]),
    ("operation 9", 0, &[0x09]),
    ("operation 9 with an argument", 0, &[0x09, 0x0A]),
    ("operation 9 with an argument cut short", 0, &[0x09, 0x80]),
    ("operation 9 with an argument in two bytes", 0, &[0x09, 0x8A, 0x00]),
    ("operation 9 with two arguments", 0, &[0x09, 0x0A, 0x14]),
    ("operation 10", 0, &[0x0A]),
    ("operation 15", 0, &[0x0F, 0x0A]),
    ("operation 16", 0, &[0x10, 0x0A, 0x14]),
    ("operation 0 with an argument above 32 bits", 0, &[0x00, 0xFF, 0xFF, 0xFF, 0xFF, 0x10]),
    ("operation 127", 0, &[0x7F]),
    ("operation 128", 0, &[0x80, 0x01]),
    ("operation 129, whose lowest group is a search's", 0, &[0x81, 0x01, 0x0A]),
    ("operation 136, whose lowest group is a span's", 0, &[0x88, 0x01, 0x0A, 0x14]),
    ("operation 16,384", 0, &[0x80, 0x80, 0x01]),
    ("operation 2 to the power 28 and 1", 0, &[0x81, 0x80, 0x80, 0x80, 0x01]),
    ("operation 4,026,531,840", 0, &[0x80, 0x80, 0x80, 0x80, 0x0F]),
    ("operation 4,294,967,295", 0, &[0xFF, 0xFF, 0xFF, 0xFF, 0x0F]),
    ("operation 4,294,967,295 with an argument in two bytes", 0, &[0xFF, 0xFF, 0xFF, 0xFF, 0x0F, 0x8A, 0x00]),
    ("operation 1 in two bytes", 1, &[0x81, 0x00]),
    ("operation 1 in two bytes with an argument", 1, &[0x81, 0x00, 0x0A]),
    ("operation 1 in two bytes with an argument in two", 1, &[0x81, 0x00, 0x8A, 0x00]),
    ("operation 1 in three bytes", 2, &[0x81, 0x80, 0x00]),
    ("operation 1 in four bytes", 3, &[0x81, 0x80, 0x80, 0x00]),
    ("operation 1 in five bytes", 4, &[0x81, 0x80, 0x80, 0x80, 0x00]),
    ("operation 0 in two bytes", 1, &[0x80, 0x00]),
    ("operation 6 in two bytes", 1, &[0x86, 0x00]),
    ("operation 6 in two bytes with an argument", 1, &[0x86, 0x00, 0x0A]),
    ("operation 7 in three bytes", 2, &[0x87, 0x80, 0x00]),
    ("operation 8 in two bytes with two arguments", 1, &[0x88, 0x00, 0x0A, 0x14]),
    ("operation 9 in two bytes", 1, &[0x89, 0x00]),
    ("operation 128 in three bytes", 2, &[0x80, 0x81, 0x00]),
    ("operation 0 in five bytes", 4, &[0x80, 0x80, 0x80, 0x80, 0x00]),
    ("an operation of one byte that has no end", 1, &[0x81]),
    ("an operation of two bytes that have no end", 2, &[0x81, 0x80]),
    ("an operation of three bytes that have no end", 3, &[0xFF, 0xFF, 0xFF]),
    ("an operation of four bytes that have no end", 4, &[0x80, 0x80, 0x80, 0x80]),
    ("an operation of five bytes that have no end", 4, &[0x80, 0x80, 0x80, 0x80, 0x80]),
    ("an operation of five bytes, the fifth 8F", 4, &[0x81, 0x80, 0x80, 0x80, 0x8F]),
    ("an operation of six bytes", 4, &[0x81, 0x80, 0x80, 0x80, 0x80, 0x00]),
    ("an operation of six bytes that have no end", 4, &[0xFF, 0xFF, 0xFF, 0xFF, 0xFF, 0xFF]),
    ("operation 2 to the power 32", 4, &[0x80, 0x80, 0x80, 0x80, 0x10]),
    ("operation 2 to the power 32 and 1", 4, &[0x81, 0x80, 0x80, 0x80, 0x10, 0x0A]),
    ("an operation whose fifth byte is 7F", 4, &[0xFF, 0xFF, 0xFF, 0xFF, 0x7F]),
];

/// A number that does not read, and at which of its bytes.
#[rustfmt::skip]
const NUMBERS: &[Bad] = &[
    ("that is not there", 0, &[]),
    ("of one byte that has no end", 1, &[0x80]),
    ("of two bytes that have no end", 2, &[0xFF, 0xFF]),
    ("of four bytes that have no end", 4, &[0x8A, 0x80, 0x80, 0x80]),
    ("of five bytes that have no end", 4, &[0x80, 0x80, 0x80, 0x80, 0x80]),
    ("of five bytes, the fifth 8F", 4, &[0xFF, 0xFF, 0xFF, 0xFF, 0x8F]),
    ("of six bytes", 4, &[0xFF, 0xFF, 0xFF, 0xFF, 0x8F, 0x00]),
    ("of six bytes that have no end", 4, &[0x80, 0x80, 0x80, 0x80, 0x80, 0x80]),
    ("0 in two bytes", 1, &[0x80, 0x00]),
    ("10 in two bytes", 1, &[0x8A, 0x00]),
    ("10 in three bytes", 2, &[0x8A, 0x80, 0x00]),
    ("127 in five bytes", 4, &[0xFF, 0x80, 0x80, 0x80, 0x00]),
    ("16,383 in three bytes", 2, &[0xFF, 0xFF, 0x00]),
    ("2 to the power 28, less 1, in five bytes", 4, &[0xFF, 0xFF, 0xFF, 0xFF, 0x00]),
    ("2 to the power 32", 4, &[0x80, 0x80, 0x80, 0x80, 0x10]),
    ("above 32 bits", 4, &[0xFF, 0xFF, 0xFF, 0xFF, 0x10]),
    ("whose fifth byte is 7F", 4, &[0x80, 0x80, 0x80, 0x80, 0x7F]),
];

const LONGEST: [u8; 11] = [4, 0xFF, 0xFF, 0xFF, 0xFF, 0x0F, 0xFF, 0xFF, 0xFF, 0xFF, 0x0F];

/// Operations with two: step, count, delete of a span.
const TWO_ARGUMENTS: [u8; 3] = [4, 7, 8];

/// Each bad command by name: of its operation's number, of its first argument, of its second.
fn bad_commands() -> Vec<(String, usize, Vec<u8>)> {
    let mut bad: Vec<(String, usize, Vec<u8>)> = OPERATIONS.iter().map(|&(name, at, bytes)| (name.into(), at, bytes.into())).collect();
    let one_byte = (1..=8).map(|operation| vec![operation]);
    let first_arguments: [&[u8]; 5] = [&[0], &[1], &[0x80, 0x01], &LONGEST[1..6], &[0x80, 0x80, 0x80, 0x80, 0x01]];
    let with_second = TWO_ARGUMENTS.iter().flat_map(|&operation| first_arguments.map(|first| [&[operation], first].concat()));
    for beginning in one_byte.chain(with_second) {
        let beginning = &beginning[..];
        for &(name, at, number) in NUMBERS {
            let which = if beginning.len() == 1 { "first" } else { "second" };
            let name = format!("operation {}, its {which} argument {name}", beginning[0]);
            bad.push((name, beginning.len() + at, [beginning, number].concat()));
        }
    }
    // A first argument that does not read, and after it a second that does not, or one that does.
    for operation in TWO_ARGUMENTS {
        for &(name, at, number) in NUMBERS.iter().filter(|(_, at, number)| *at < number.len()) {
            for second in [&[3][..], &[0x83, 0x00], &[0x80], &[0xFF, 0xFF, 0xFF, 0xFF, 0x10]] {
                let name = format!("operation {operation}, its first argument {name}, and a second of {second:02X?}");
                bad.push((name, 1 + at, [&[operation], number, second].concat()));
            }
        }
    }
    bad
}

fn after_p1() -> Vec<u32> {
    let mut pair = Pair::prepared(9);
    pair.insert_all(&[10, 20, 30, 40]);
    pair.words
}

/// So many good commands, of two bytes each or of eleven.
fn good_commands(count: usize) -> [Vec<u8>; 2] {
    [[1, 10].repeat(count), LONGEST.repeat(count)]
}

/// By hand: whatever good commands stand before it, up to 255.
#[test]
fn each_cause_of_code_3_has_its_place() {
    let words = after_p1();
    let mut broken = words.clone();
    broken[3] = 0; // L is 1
    let bad = bad_commands();
    for (name, at, command) in &bad {
        for before in [0, 1, 2, 255].into_iter().flat_map(good_commands) {
            let bytes = [&before[..], command].concat();
            let place = (before.len() + at) as u32;
            assert_eq!(same_batch(&words, &bytes, 600), (3, place), "{name}, after {} bytes", before.len());
            // 3 comes before 4 and 2, and after 1, which has no number.
            assert_eq!(same_batch(&broken, &bytes, 0), (3, place), "{name}, on a broken pool without answers");
            assert_eq!(same_batch(&words[1..], &bytes, 600), (1, 0), "{name}, on no pool");
        }
    }
    println!("compared {} stored bad commands by the byte at which they go wrong", bad.len());
}

/// No byte after the command that goes wrong changes the answer.
#[test]
fn what_follows_the_fault_does_not_matter() {
    let words = after_p1();
    for (name, at, command) in bad_commands().iter().filter(|(_, at, command)| *at < command.len()) {
        for more in [&[0][..], &[0x80], &[0x0A; 2], &[0xFF; 40], &[1; 5000], &LONGEST.repeat(400)] {
            assert_eq!(same_batch(&words, &[command, more].concat(), 600), (3, *at as u32), "{name}");
        }
    }
}

/// "as does a 257th command, which counts before any fault inside it"
#[test]
fn the_257th_command_counts_before_any_fault_inside_it() {
    let words = after_p1();
    for before in good_commands(256) {
        let place = before.len() as u32;
        assert!([512, 2816].contains(&place));
        assert_eq!(same_batch(&words, &before, 512), (0, 0));
        assert_eq!(same_batch(&words, &before, 511), (4, 0));
        for (name, _, command) in bad_commands() {
            let bytes = [before.clone(), command].concat();
            assert_eq!(same_batch(&words, &bytes, 600), (3, place), "{name}, as the 257th");
            assert_eq!(same_batch(&words, &bytes, 0), (3, place), "{name}, as the 257th, without answers");
        }
        for more in [&[1, 10][..], &LONGEST, &[5], &[1], &[0x80; 5000], &[1; 100_000], &LONGEST.repeat(10_000)] {
            assert_eq!(same_batch(&words, &[&before, more].concat(), 600), (3, place));
        }
        // A fault that stands earlier is met earlier.
        let mut earlier = before.clone();
        earlier[0] = 9;
        assert_eq!(same_batch(&words, &[earlier, vec![1, 10]].concat(), 600), (3, 0));
    }
}

/// The place is at most 2,816, however long the input is.
#[test]
fn no_place_is_above_2816() {
    let words = after_p1();
    let longest = LONGEST.repeat(255);
    for (last, place) in [
        (&LONGEST[..10], 2815), // cut short
        (&LONGEST[..6], 2811),
        (&LONGEST[..1], 2806),
        (&[4, 0xFF, 0xFF, 0xFF, 0xFF, 0x0F, 0xFF, 0xFF, 0xFF, 0xFF, 0x10], 2815),
        (&[4, 0xFF, 0xFF, 0xFF, 0xFF, 0x0F, 0xFF, 0xFF, 0xFF, 0xFF, 0x00], 2815),
        (&[4, 0xFF, 0xFF, 0xFF, 0xFF, 0x10, 0xFF, 0xFF, 0xFF, 0xFF, 0x0F], 2810),
        (&[9, 0xFF, 0xFF, 0xFF, 0xFF, 0x10, 0xFF, 0xFF, 0xFF, 0xFF, 0x0F], 2805),
        (&[8, 0xFF, 0xFF, 0xFF, 0xFF, 0x0F, 0xFF, 0xFF, 0xFF, 0xFF], 2815),
        (&[8, 0xFF, 0xFF, 0xFF, 0xFF, 0x0F, 0xFF, 0xFF, 0xFF, 0xFF, 0x10], 2815),
        (&[7, 0xFF, 0xFF, 0xFF, 0xFF, 0x0F, 0xFF, 0xFF, 0xFF, 0xFF, 0x00], 2815),
        (&[7, 0xFF, 0xFF, 0xFF, 0xFF, 0x10, 0xFF, 0xFF, 0xFF, 0xFF, 0x0F], 2810),
    ] {
        assert_eq!(same_batch(&words, &[&longest, last].concat(), 512), (3, place));
    }
    let mut rng = Rng::seeded("long batches", 19_000);
    for len in [2817, 4096, 100_000, 1 << 20] {
        for bytes in [
            LONGEST.iter().copied().cycle().take(len).collect(),
            vec![1; len],
            vec![5; len],
            vec![0x80; len],
            vec![0xFF; len],
            vec![0; len],
            (0..len).map(|_| rng.within(1, 8) as u8).collect::<Vec<u8>>(),
            (0..len).map(|_| rng.next() as u8).collect(),
        ] {
            let (code, place) = same_batch(&words, &bytes, 0);
            assert!(code == 3 && place <= 2816, "{len} bytes: {place}");
        }
    }
}

/// Batches that are short enough to try everything with.
fn small_batches() -> Vec<Vec<Command>> {
    let mut small: Vec<Vec<Command>> = vec![];
    for number in [0, 10, 127, 128, 16_384, 1 << 21, 1 << 28, u32::MAX] {
        small.extend([Search(number), Insert(number), Delete(number), Settle(number), AtOrAbove(number)].map(|command| vec![command]));
        small.push(vec![Step(1, number)]);
        small.extend([Count(15, number), DeleteSpan(number, 30)].map(|command| vec![command]));
        small.push(vec![Step(number, 3), Search(10)]);
        small.push(vec![Insert(50), Step(number, number), Delete(number)]);
    }
    small.push(vec![Search(300), Insert(20), Delete(300), Step(1, 3), Settle(300)]);
    small.push(vec![AtOrAbove(300), Count(10, 300), DeleteSpan(20, 300), Count(300, 10)]);
    small
}

/// Cut inside a command, a batch goes wrong at its end; between two it is good.
#[test]
fn batches_cut_at_every_length() {
    let words = after_p1();
    for commands in small_batches() {
        let bytes = Command::all(&commands);
        let ends: Vec<usize> = (0..=commands.len()).map(|count| Command::all(&commands[..count]).len()).collect();
        for cut in 0..=bytes.len() {
            let want = if ends.contains(&cut) { (0, 0) } else { (3, cut as u32) };
            assert_eq!(same_batch(&words, &bytes[..cut], 10), want, "{commands:?} cut after {cut} bytes");
        }
    }
}

/// Every byte value at every place, every byte left out, put in or exchanged with another.
#[test]
fn small_batches_one_byte_away() {
    let words = after_p1();
    let (mut good, mut refused) = (0, 0);
    let mut tried = |bytes: &[u8]| match same_batch(&words, bytes, 12) {
        (0, 0) => good += 1,
        (3, place) if place as usize <= bytes.len() => refused += 1,
        other => panic!("{bytes:02X?}: {other:?}"),
    };
    for commands in small_batches().iter().step_by(share().min(4) as usize) {
        let own = Command::all(commands);
        for at in 0..own.len() {
            let mut bytes = own.clone();
            for value in 0..=255 {
                bytes[at] = value;
                tried(&bytes);
            }
            bytes.remove(at);
            tried(&bytes);
            for value in [0, 1, 4, 6, 8, 9, 0x0F, 0x10, 0x7F, 0x80, 0x8F, 0xFF] {
                tried(&[&own[..at], &[value], &own[at..]].concat());
            }
            for other in at + 1..own.len() {
                bytes = own.clone();
                bytes.swap(at, other);
                tried(&bytes);
            }
        }
    }
    println!("compared batches one byte away from good ones: {good} good and {refused} refused with 3");
    assert!(good > 100 && refused > 1000);
}

/// Bytes that tell a reader of numbers and operations.
const TELLING: [u8; 15] = [0x00, 0x01, 0x02, 0x04, 0x06, 0x08, 0x09, 0x0F, 0x10, 0x7F, 0x80, 0x81, 0x8F, 0x90, 0xFF];

/// All strings of up to four telling bytes, and of up to three after beginnings that lead to a fifth byte of a number.
fn every_telling_string(beginnings: &[&[u8]], mut tried: impl FnMut(&[u8])) {
    let less = usize::from(share() > 1);
    (0..=4 - less).for_each(|len| every_string(&[], &TELLING, len, &mut tried));
    for beginning in beginnings {
        (0..=3 - less).for_each(|len| every_string(beginning, &TELLING, len, &mut tried));
    }
}

/// What comes after the fault changes nothing: the library's answer to the bytes with more after them.
fn same_with_more(bytes: &[u8], place: u32, ask: impl Fn(&[u8]) -> (u32, u32), answer: (u32, u32)) {
    if (place as usize) < bytes.len() {
        for more in [&[0x00][..], &[0x80], &[0xFF, 0xFF, 0xFF, 0xFF, 0xFF]] {
            let longer = [bytes, more].concat();
            assert_eq!(ask(&longer), answer, "{bytes:02X?} with {more:02X?} after it");
        }
    }
}

#[test]
fn every_short_batch() {
    let words = after_p1();
    let mut seen = [0u32; 5];
    let mut places = [0u32; 12];
    let beginnings: [&[u8]; 9] = [
        &[0x81, 0x80, 0x80],
        &[0xFF, 0xFF, 0xFF, 0xFF],
        &[7, 0xFF, 0xFF, 0xFF],
        &[8, 10, 0x80, 0x80, 0x80],
        &[1, 0x80, 0x80, 0x80],
        &[4, 0xFF, 0xFF, 0xFF],
        &[4, 1, 0x80, 0x80, 0x80],
        &[4, 0xFF, 0xFF, 0xFF, 0xFF, 0x0F],
        &[2, 10, 5, 0x80, 0x80, 0x80],
    ];
    every_telling_string(&beginnings, |bytes| {
        let (code, place) = same_batch(&words, bytes, 8);
        seen[code as usize] += 1;
        if code == 3 {
            places[place as usize] += 1;
            same_with_more(bytes, place, |longer| library_batch(&mut words.clone(), longer, &mut [0; 8]), (3, place));
        }
    });
    println!("compared all short batches, by code: {seen:?}; by place, where refused: {places:?}");
    assert!(seen[0] > 100 && seen[3] > 1000 && places[..8].iter().all(|&times| times > 10));
}

#[test]
fn every_short_form() {
    let words = vec![7; 8]; // C is 1
    let mut seen = [0u32; 15];
    let mut places = [0u32; 12];
    let beginnings: [&[u8]; 7] = [
        &[0x81, 0x80, 0x80],
        &[1, 0x80, 0x80, 0x80],
        &[1, 1, 2],
        &[1, 1, 0x82, 0x80, 0x80],
        &[1, 1, 2, 0x80, 0x80, 0x80],
        &[1, 0xFF, 0xFF, 0xFF, 0xFF, 0x0F],
        &[0, 2, 0, 0, 1],
    ];
    every_telling_string(&beginnings, |saved| {
        let ((code, number), _) = same_load(&words, saved);
        seen[code as usize] += 1;
        let found = cause(saved);
        if code == 13 {
            assert_eq!(found.map(|(_, place)| place), Some(number as usize), "{saved:02X?}");
            places[number as usize] += 1;
            same_with_more(saved, number, |longer| library_load(&mut words.clone(), longer), (13, number));
        } else {
            assert!(found.is_none(), "{saved:02X?}: {found:?}");
        }
    });
    println!("compared all short forms, by code: {seen:?}; by place, where refused: {places:?}");
    assert!(seen[0] > 10 && seen[14] > 10 && seen[13] > 1000 && places[0] == 1 && places[1..9].iter().all(|&times| times > 10));
}

/// Good commands and bad ones in any order: the first bad one decides, or the 257th. Where it goes wrong is known by hand.
#[test]
fn bad_commands_among_good_ones() {
    let mut rng = Rng::seeded("bad commands among good ones", 19_100);
    let bad = bad_commands();
    let words = after_p1();
    let (mut late, mut inside) = (0, 0);
    for _ in 0..6000 / share() {
        let mut bytes = vec![];
        let mut want = None;
        let often = rng.pick(&[2, 20, 200, 600]);
        let pieces = rng.pick(&[3, 30, 256, 257, 258, 300]);
        for piece in 0..pieces {
            let begin = bytes.len();
            let (_, at, command) = &bad[rng.below(bad.len())];
            // What is cut short is so at the end only.
            let is_bad = rng.one_in(often) && (*at < command.len() || piece + 1 == pieces);
            if is_bad {
                bytes.extend(command);
            } else {
                let number = rng.next() as u32 >> rng.below(32);
                let other = rng.next() as u32 >> rng.below(32);
                rng.pick(&[
                    Search(number),
                    Insert(number),
                    Delete(number),
                    Step(number, 3),
                    Step(1, number),
                    Settle(number % 8),
                    AtOrAbove(number),
                    Count(number, other),
                    DeleteSpan(number, other),
                ])
                .write(&mut bytes);
            }
            if want.is_none() && (piece == 256 || is_bad) {
                want = Some(if piece == 256 { begin } else { begin + at });
                if piece == 256 {
                    late += 1;
                } else {
                    inside += 1;
                }
            }
        }
        let want = want.map_or((0, 0), |place| (3, place as u32));
        assert_eq!(same_batch(&words, &bytes, 600), want, "{bytes:02X?}");
    }
    println!("compared {inside} batches with a bad command among others, and {late} with a 257th");
    assert!(share() > 1 || inside > 1000 && late > 500);
}

/// So many zeros, of which only those are in memory that are written; or None where the machine will not lend them.
struct Zeros {
    bytes: *mut u8,
    layout: Layout,
}

impl Zeros {
    fn lent(len: usize) -> Option<Zeros> {
        let layout = Layout::array::<u8>(len).ok()?;
        // SAFETY: the layout is not of size 0.
        let bytes = unsafe { alloc_zeroed(layout) };
        (!bytes.is_null()).then_some(Zeros { bytes, layout })
    }

    fn bytes(&mut self) -> &mut [u8] {
        // SAFETY: that much was allocated, is initialized, and is borrowed from `self`.
        unsafe { std::slice::from_raw_parts_mut(self.bytes, self.layout.size()) }
    }
}

impl Drop for Zeros {
    fn drop(&mut self) {
        // SAFETY: allocated with this layout.
        unsafe { dealloc(self.bytes, self.layout) }
    }
}

/// "A place past 32 bits gives 4,294,967,295": forms of 4 GiB, C and N 0 and the rest left over, of which no byte is read.
#[cfg(target_pointer_width = "64")]
#[test]
fn places_past_32_bits() {
    let most = u32::MAX as usize;
    let Some(mut zeros) = Zeros::lent(most + 8) else {
        println!("compared no form of 4 GiB: there is no room for it here");
        return;
    };
    let saved = zeros.bytes();
    let words = vec![7; 4 + 4 * MOST_SLOTS];
    let load = |saved: &[u8]| {
        let mut pool = words.clone();
        let answer = library_load(&mut pool, saved);
        assert!(pool == words, "a refused load changed words");
        answer
    };
    for (len, place) in [(most - 1, u32::MAX - 1), (most, u32::MAX), (most + 1, u32::MAX), (most + 2, u32::MAX), (most + 8, u32::MAX)] {
        assert_eq!(load(&saved[..len]), (13, place), "{len} zeros");
    }
    saved[..4].copy_from_slice(&[9, 0x80, 0, 0]);
    assert_eq!(load(saved), (13, 2), "N in two bytes, of many");
    saved[..5].copy_from_slice(&[9, 1, 2, 10, 0]);
    assert_eq!(load(saved), (13, u32::MAX), "a good form, and many more bytes");
    assert_eq!(library_batch(&mut words.clone(), saved, &mut []), (3, 0), "operation 9, and many more bytes");
    saved[..3].copy_from_slice(&[1, 9, 0]);
    assert_eq!(library_batch(&mut words.clone(), saved, &mut []), (3, 2), "operation 0, and many more bytes");
    // Every one of the bytes is read: some seconds.
    if soak() > 1 {
        saved[..6].copy_from_slice(&[9, 0xFF, 0xFF, 0xFF, 0xFF, 0x0F]);
        for (len, place) in [(most - 1, u32::MAX - 1), (most + 1, u32::MAX)] {
            assert_eq!(load(&saved[..len]), (13, place), "cut short after {len} bytes");
        }
        saved[most + 2] = 0x80;
        assert_eq!(load(saved), (13, u32::MAX), "in two bytes past 32 bits");
    }
}
