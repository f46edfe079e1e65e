//! The set of marks, for a Rust host: 32-bit keys held as a chromatic tree in words that the host lends or hands over.
//!
//! The work is done by the proved library, `libchromatic.a`, which the build script finds; this crate gives its functions
//! types. It allocates nothing (but in `Pool::save_to_vec`, with the feature `std`), has no dependencies and keeps no state
//! of its own. How it is made a dependency stands in host/README.md.
//!
//! # A send that takes a mark
//!
//! A dispatcher once read "no room for the mark" as "not told yet" and sent one text 211 times more. Here an insert answers one
//! of three cases, and one of them holds a [`Mark`]. **Let the function that sends take the mark:**
//!
//! ```
//! use chromatic::{Inserted, Mark, Pool};
//!
//! fn send(mark: Mark) {
//!     println!("text for key {}", mark.key());
//! }
//!
//! let mut words = [0; Pool::words_for(127)]; // 127 slots hold 64 keys
//! let mut pool = Pool::prepare(&mut words[..])?;
//! match pool.insert(4411)? {
//!     Inserted::NewlyMarked(mark) => send(mark),
//!     Inserted::KeyPresent => println!("marked before: no text"),
//!     Inserted::NoRoom => println!("cannot be marked: no text, call the desk"),
//! }
//! # Ok::<(), chromatic::Refused>(())
//! ```
//!
//! What the types promise is this, and no more: *a send that takes a `Mark` needs an insert that made one.* With it these
//! do not compile. Each is a file of tests/misuse, which `host/test` compiles with its fault and without.
//!
//! | Fault | Error | File |
//! |---|---|---|
//! | `if pool.insert(key)? != Inserted::KeyPresent { .. }` | E0369: an insert's answer is not compared | `compared` |
//! | search says absent, then `send(key)` | E0308: a key is no mark | `absent_then_send` |
//! | a span counts 0, or nothing lies at or above its first key, then `send(key)` | E0308: a key is no mark | `none_in_span_then_send` |
//! | `if !matches!(answer, Inserted::KeyPresent) { send(key) }` | E0308: a key is no mark | `not_key_present` |
//! | a `match` without [`Inserted::NoRoom`] | E0004 | `no_room_forgotten` |
//! | `send(mark); send(mark)` | E0382: a mark is used up | `sent_twice` |
//! | `send(mark)` after [`Pool::withdraw`] | E0382 | `sent_after_withdrawal` |
//! | `mark.clone()`; `answers.clone()`, whose marks would come twice | E0599 | `mark_cloned`, `answers_cloned` |
//! | `Mark { key, slot }` | E0451 | `mark_made_up` |
//! | `Mark::default()` | E0599 | `mark_by_default` |
//! | preparing lent words again while their pool is in use, or loading into them | E0499 | `prepared_in_use`, `loaded_in_use` |
//! | handing over an array, whose copy would get the mark | E0277 | `array_copied` |
//! | `pool.insert(key)?;`, `pool.run(&batch)?;`, `raw::batch(..);`, and so for every command's answer | a warning, `unused_must_use`; make it an error in your crate | `insert_unread`, `answers_unread`, `raw_unread`, `each_unread` |
//! | `pool.save(&mut out);`, `Pool::load(words, saved);`: done, or refused? | the same warning, `unused_must_use` | `save_unread` |
//! | a second save into the same `out` while the first one's bytes are not stored | E0499 | `saved_over` |
//! | an array of `Pool::words_for(0)` or of `words_for(16_384)` words; of `saved_bytes_for(0)` or `saved_bytes_for(16_384)` bytes | E0080 | `no_slots` |
//! | code for 0.3.0, which takes code 3's number for the byte where the command begins: `Refused::BadCommand { byte, .. }` | E0026: the byte at which it goes wrong is `wrong_at` | `old_place` |
//! | code for 0.4.0, which takes the report's third number for a count of overweighted edges: `report.overweighted` | E0609: it is the excess weight, [`Report::excess_weight`] | `old_overweighted` |
//! | a `match` without a rest on [`Refused`], [`Command`] or any answer but those of insert and [`Pool::may_send`]; a [`Report`] made up: they can grow | E0004, E0639 | `rest_forgotten`, `report_made_up` |
//!
//! # A send that takes a permit
//!
//! Where a resident may get more than one text about a notice, but no more than a limit, [`Pool::may_send`] decides, and marks
//! the attempt in the same call. Its answer has three cases too, and one of them holds a [`Permit`]. **No resident gets a text
//! again because the set is full**: then there is no permit. **Let the function that sends take the permit**, and these do not
//! compile either:
//!
//! | Fault | Error | File |
//! |---|---|---|
//! | `if pool.may_send(text, 3)? != MaySend::AllUsed { .. }`, or `!= MaySend::NoRoom` | E0369: the answer is not compared | `may_send_compared` |
//! | `send(text)`, `send(key)` or `send(mark)` where there is no permit | E0308: none of them is one | `text_without_permit` |
//! | a `match` without [`MaySend::NoRoom`], or without [`MaySend::AllUsed`] | E0004 | `send_case_forgotten` |
//! | `send(permit); send(permit)` | E0382: a permit is used up | `permit_sent_twice` |
//! | `permit.clone()` | E0599 | `permit_cloned` |
//! | `Permit { text, attempt }` | E0451 | `permit_made_up` |
//! | `Permit::default()` | E0599 | `permit_by_default` |
//! | `pool.withdraw(permit)` after a failed send | E0308: a permit is no mark; ask again, for the next attempt | `permit_withdrawn` |
//! | `pool.may_send(resident, notice, 3)`, the two exchanged | E0061: a [`Text`] names them | `notice_for_resident` |
//! | `pool.may_send(text, 3)?;`, `pool.clear_notice(notice);` | a warning, `unused_must_use` | `may_send_unread` |
//!
//! # What still compiles
//!
//! No type of this crate can forbid these. Each is a file of tests/misuse too, which compiles and does what is said here.
//!
//! | Fault | What to do instead | File |
//! |---|---|---|
//! | a send that takes a key, after a search that says absent, and then `let _ = pool.insert(key)`: a full pool sends at every poll | `fn send(mark: Mark)`, and no other way to the gateway | `still_search_then_send` |
//! | a send that takes a key, on `!matches!(.., KeyPresent)`: the same | the same | `still_not_key_present` |
//! | a mark from another pool, made to get at a send | one pool for each sender; another is for another sender, or for tests | `still_scratch_pool` |
//! | preparing anew on [`Inserted::NoRoom`]: every mark is gone, every text can go again | no text; call the desk; [`Pool::delete`] the keys of notices that are over, or begin with more slots | `still_prepared_again` |
//! | [`Pool::delete_span`] of marks whose notice stands, to make room: their texts can go again | the same; delete what is over, after that is stored | `still_span_deleted_while_it_stands` |
//! | walking a span by [`Pool::at_or_above`] of `key.wrapping_add(1)`, or of `key + 1` in a build that does not check it: after the last 32-bit key it begins again at the first, and never ends | `key.checked_add(1)`, and end where that is none | `still_walked_round` |
//! | sending by the words that [`Pool::run_bytes`] or [`raw`] fill, on whatever is not code 5 | [`Pool::run`], whose answers hold marks | `still_words_instead_of_marks` |
//! | `if let Inserted::NewlyMarked(mark) = .. { send(mark) }` alone: a full pool looks like "marked before", and nobody calls the desk | `match` all three cases | `still_no_room_unseen` |
//! | a send that borrows: `fn send(mark: &Mark)` (clippy's `needless_pass_by_value` proposes it), or a shared `Rc<Mark>` | take it by value, and allow that lint there | `still_mark_borrowed` |
//! | keeping a mark while its key is deleted and marked again: both send; [`Pool::withdraw`] of the old one takes the later mark away; of another pool's, that key's mark here | send or withdraw a mark at once, and on its own pool | `still_old_mark_withdrawn` |
//! | taking up older words: a copy of [`Pool::words`] from before the mark | store the words after the insert and before the text; never take up an older copy | `still_older_words_resumed` |
//! | loading older bytes: a [`Pool::save`] from before the mark, a backup of the file | save and store after the insert and before the text; never load an older copy | `still_older_bytes_loaded` |
//! | the text first, and then the save: a process that stops in between sends again | insert, save, store, and then the text | `still_sent_before_saved` |
//! | preparing an empty set when [`Pool::load`] refuses, or when there is no file: every mark is gone, every text can go again | no text; call the desk; an empty set is begun by hand, once | `still_empty_after_bad_saved` |
//! | `pool.save(&mut out)?;` and then storing `out`, all of it: the load is refused, and no text goes any more | store what the save gives: `store(pool.save(&mut out)?)`, or `Pool::save_to_vec` | `still_whole_buffer_stored` |
//! | two services that load the same bytes: each makes its mark, and both send | one service has the file, and a lock keeps out a second | `still_loaded_twice` |
//! | withdrawing a mark and not saving after it: the restarted service has the mark, and the text is lost | save and store after a withdrawal too | `still_withdrawal_unsaved` |
//! | words of one's own type ([`Words`]) that are others each time | `&mut [u32]`, `Box<[u32]>` or `Vec<u32>` | `still_words_of_ones_own` |
//! | leaving a loop over [`Answers`] by `break` or `?`: the texts of the rest are lost | read every answer; send each mark or withdraw it | `still_left_early` |
//! | dropping a mark, or a list of answers by `let _ =`: texts are lost | send each mark or withdraw it | `still_mark_dropped` |
//!
//! And with permits:
//!
//! | Fault | What to do instead | File |
//! |---|---|---|
//! | a send that takes a [`Text`], on `!matches!(.., AllUsed)`: a full set sends at every poll | `fn send(permit: Permit)`, and no other way to the gateway | `still_text_on_not_all_used` |
//! | a permit from another pool, made where the set has no room | one pool for each sender | `still_permit_of_scratch_pool` |
//! | a send that borrows: `fn send(permit: &Permit)` | take it by value | `still_permit_borrowed` |
//! | a send that tries again inside, `fn send(permit: Permit) { while post(..).is_err() {} }`, or a gateway client that repeats on a time-out: many texts on one permit | one call of the gateway for each permit, its own repeats switched off; for a text that failed, ask again | `still_retried_in_the_send` |
//! | the text first, and then the save: a process that stops in between sends that attempt again | ask, save, store, and then the text | `still_permit_before_save` |
//! | [`Pool::clear_notice`] of a notice that still stands, to make room: its count begins afresh | on [`MaySend::NoRoom`] no text; call the desk; clear what is over, or begin with more slots | `still_cleared_while_it_stands` |
//! | clearing first, and then storing that the notice is over: a process that stops in between has the notice and no marks | store that it is over, and then clear and save | `still_cleared_before_it_is_over` |
//! | two limits for one notice: the larger one counts | one limit for each notice, in one place | `still_other_limits` |
//! | the same notice under a new number, counted up at a restart or said twice by the desk: each number has its own count | the number belongs to the notice, and is stored with it | `still_another_number` |
//! | asking again for somebody whose text went: each poll sends one more, up to the limit | keep who was told; where one text is enough, a limit of 1 | `still_asked_after_the_text` |
//! | [`Pool::delete`] of a permit's key after a failed send: that attempt goes again, and the first one may have gone | nothing; the next permit is the next attempt | `still_permit_s_mark_deleted` |
//! | keys of another making in the same set: they count as attempts, and [`Pool::clear_notice`] takes them | a set for each | `still_other_keys_in_the_set` |
//! | dropping a permit: its attempt is used and no text went | send each permit | `still_permit_dropped` |
//!
//! # At most once
//!
//! A mark is set before its text goes out, in the words alone: to have it after a restart, save and store it before the
//! text too (below). So a key gets at most one text for each insert that made a mark, and none at all if the process stops
//! between the two, if the mark or a list of [`Answers`] is dropped, or if the gateway fails. Only the last can be mended
//! by the host: [`Pool::withdraw`] takes the mark back, and a later insert makes another. If the gateway failed after the
//! text went out, the key then gets it twice: withdraw only what surely did not go.
//!
//! # At most the limit
//!
//! With permits it is the same, up to the limit: an attempt is marked before its text goes out, and is not given back. Whether a
//! text arrived the set does not know. A yes says that one more may go, so whoever was told is not asked for again; and a
//! send that failed, or a process that stopped, costs an attempt and no more: the next yes is the next attempt.
//!
//! [`Pool::clear_notice`] forgets a notice's marks, to make room. Its count begins afresh, so it comes after the notice is over,
//! and after that is stored. examples/dispatcher.rs is such a sender, tested with a kill and with a power cut at every step.
//!
//! # A span of keys
//!
//! Who was told about a notice is a span of keys. [`Pool::at_or_above`] gives the smallest key from a given one on, so that a span is walked
//! from key to key; [`Pool::count`] says how many keys a span has, and [`Pool::delete_span`] deletes them, the smallest first. A span is a
//! `RangeInclusive`: both ends belong to it, so that `0..=u32::MAX` is all keys; an empty range, as `5..=4`, has none. In a [`Batch`] they are
//! [`Batch::push_at_or_above`], [`Batch::push_count`] and [`Batch::push_delete_span`]. examples/told.rs asks who was told about notice 4,411.
//!
//! # Over a restart
//!
//! [`Pool::save`] gives the set as bytes, [`Pool::load`] makes any words the same set again: keys, routers, shape and
//! weights, so that the next save gives the same bytes; slot numbers may differ. What is in the bytes is what was marked
//! when they were saved. So the order is: **insert, save, store, and only then the text.** A process that stops before the
//! store sent no text, and after the restart it does; one that stops between store and text loses that text. One save after
//! a batch does for all its marks.
//!
//! Storing has its own order, or a power cut leaves half a file: write beside the old file, flush, rename over it, flush
//! the folder. examples/store does this, for examples/restart.rs and examples/dispatcher.rs, and both are tested with a kill
//! and with a power cut at every step.
//!
//! A load that is refused ([`Refused::BadSaved`], [`Refused::NoFit`]) and a file that is not there say nothing about who
//! was told. **Then nothing is sent.** An empty set in their place sends every text again, so a service never begins one by
//! itself: somebody does, once, for a new installation.
//!
//! Bytes that an earlier version of this crate saved load as they are, into as many slots as they were saved of; README.md has a
//! program that takes a set to more. The words of an earlier version need not resume:
//! [`Pool::resume`] says which, and how they come over.
//!
//! What a load refuses is all bytes that no save writes. A fault of the disk that makes another key of one is not among
//! them: whoever fears that keeps a checksum beside the bytes.
//!
//! # Errors
//!
//! [`Refused`], [`Full`] and [`NoKind`] are `core::error::Error`s whose text says what to do; `?` takes them into a
//! `Box<dyn Error>`. The three cases of an insert, and of a question for a text, are no errors: they are answers.
//!
//! The byte at which a batch or saved bytes go wrong is `wrong_at` in [`Refused::BadCommand`] and [`Refused::BadSaved`], counted
//! from 0. host/README.md shows how to read it.
//!
//! # Panics
//!
//! A call panics if the archive gives a code that does not belong to the operation, or a save that says it wrote more bytes
//! than it was lent, which the library is proved not to do; [`Pool::words_for`] and [`Pool::saved_bytes_for`] panic outside
//! their range. Nothing else does.
//!
//! Lines that begin with "Proved:" name the library's theorems (docs/THEOREMS.md) that the sentence before rests on.
#![no_std]
#![deny(unsafe_op_in_unsafe_fn, missing_docs, missing_debug_implementations)]

#[cfg(feature = "std")]
extern crate std;

mod answer;
mod batch;
mod layout;
mod ledger;
mod pool;
pub mod raw;

pub use answer::{Answer, Deleted, Found, Inserted, Mark, Refused, Searched, Settled, Stepped};
pub use batch::{Batch, Command, Full, Kind, NoKind};
pub use ledger::{MaySend, Permit, Text};
pub use pool::{Answers, Pool, Report, Words};

#[cfg(doctest)]
#[doc = include_str!("../README.md")]
struct Readme;

#[cfg(doctest)]
#[doc = include_str!("../../README.md")]
struct RootReadme;
