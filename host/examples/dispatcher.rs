//! A dispatcher of texts, as a loop of polls, that lives through the accident of 5:04: the set is full, the loop asks again and
//! again, and its unit is restarted in the middle. Over all its lives no resident gets more texts about a notice than its limit.
//!
//! - **A text goes by a permit and by nothing else.** A permit is one attempt, and it is used up whether the text goes or not:
//!   after a failed one the next poll asks for the next attempt, while the limit allows one.
//! - **Marks are stored before their texts go,** so a restart forgets none. What it does forget is who is told already: it asks
//!   for everyone again, and the marks alone keep the limit. (Texts of a limit of 1 go at most once; a larger limit is for
//!   notices of which two texts are better than none.)
//! - **A full set sends nothing.** The desk is called, once, and no notice that stands is cleared to make room.
//! - **That a notice is over is stored before its marks are cleared,** and its number never stands again: its count begins
//!   afresh, and a dispatcher that came up with the notice and without the marks would send everything anew.
//!
//! Each line that it reads is a poll: the time, and what the desk says then, if it says something.

mod store;

use chromatic::{MaySend, Permit, Pool, Refused, Settled, Text};
use std::collections::{BTreeMap, BTreeSet};
use std::error::Error;
use std::fmt::Write as _;
use std::io::{self, Write as _};
use std::ops::RangeInclusive;
use std::process::ExitCode;
use std::{fs, mem};
use store::{Done, Service, Store};

/// 15 slots hold 8 marks, which is soon full. Take up to 16,383, which hold 8,192.
const SLOTS: usize = 15;
/// Steps of balancing that a poll has time for.
const SPARE_STEPS: u32 = 200;

const SERVES: &str = "reads a line for each poll: the time and, if there is news,
                           notice N residents FIRST to LAST limit L, over N, gateway down or gateway up";

/// A notice that stands: who is told of it, and by how many texts at most.
struct Notice {
    residents: RangeInclusive<u32>,
    limit: u32,
}

/// What the desk said of notices. It is kept beside the marks, in the desk's own words.
#[derive(Default)]
struct Book {
    standing: BTreeMap<u32, Notice>,
    over: BTreeSet<u32>,
}

impl Book {
    const FILE: &'static str = "notices";

    fn load(store: &Store) -> Result<Book, Box<dyn Error>> {
        let path = store.path(Book::FILE);
        let bad = |why: &dyn std::fmt::Display| format!("{}: {why}\nNo text goes out. Call the desk.", path.display());
        let mut book = Book::default();
        for line in fs::read_to_string(&path).map_err(|error| bad(&error))?.lines() {
            book.take(&line.split(' ').collect::<Vec<_>>()).map_err(|error| bad(&error))?;
        }
        Ok(book)
    }

    fn save(&self, store: &Store) -> Done {
        let mut lines = String::new();
        for (notice, Notice { residents, limit }) in &self.standing {
            writeln!(lines, "notice {notice} residents {} to {} limit {limit}", residents.start(), residents.end())?;
        }
        for notice in &self.over {
            writeln!(lines, "over {notice}")?;
        }
        Ok(store.put(Book::FILE, lines.as_bytes()).map_err(|error| format!("the book of notices cannot be saved, no text: {error}"))?)
    }

    fn take(&mut self, words: &[&str]) -> Done {
        match *words {
            ["notice", notice, "residents", first, "to", last, "limit", limit] => {
                let notice = number(notice, Text::NOTICES)?;
                if self.over.contains(&notice) {
                    return Err("this notice is over, and its number does not stand again".into());
                }
                let residents = number(first, Text::RESIDENTS)?..=number(last, Text::RESIDENTS)?;
                self.standing.insert(notice, Notice { residents, limit: number(limit, Text::LIMITS)? });
            }
            ["over", notice] => {
                let notice = number(notice, Text::NOTICES)?;
                self.standing.remove(&notice);
                self.over.insert(notice);
            }
            _ => return Err("not understood".into()),
        }
        Ok(())
    }
}

/// A slip of the desk's is refused when it is heard, and not at every poll.
fn number(word: &str, range: RangeInclusive<u32>) -> Result<u32, Box<dyn Error>> {
    let number = word.parse()?;
    if range.contains(&number) {
        Ok(number)
    } else {
        Err(Refused::OutOfRange.into())
    }
}

/// Where texts go out.
struct Gateway {
    up: bool,
}

impl Gateway {
    /// The only way to a text. It uses the permit up, whether the text goes or not.
    fn send(&self, permit: Permit) -> io::Result<()> {
        if !self.up {
            return Err(io::Error::other("the gateway is down"));
        }
        let (notice, resident, attempt) = (permit.notice(), permit.resident(), permit.attempt());
        // One write of a whole line: of a line that is written in parts, a failed write leaves parts that go out later.
        let line = format!("  text {notice}/{resident}/{attempt}: notice {notice} to resident {resident}, attempt {attempt}\n");
        io::stdout().write_all(line.as_bytes())
    }
}

/// What a poll's questions gave.
#[derive(Default)]
struct Asked {
    permits: Vec<Permit>,
    all_used: usize,
    no_room: usize,
}

struct Dispatcher<'s> {
    store: &'s Store,
    pool: Pool<Vec<u32>>,
    book: Book,
    gateway: Gateway,
    /// Whose text went, in this life. It spares residents further texts; the limit holds without it.
    told: BTreeSet<Text>,
    desk_called: bool,
}

impl Dispatcher<'_> {
    fn hear(&mut self, words: &[&str]) -> Done {
        match *words {
            [] => Ok(()),
            ["gateway", word @ ("up" | "down")] => {
                self.gateway.up = word == "up";
                Ok(())
            }
            _ => match self.book.take(words) {
                Ok(()) => self.book.save(self.store),
                Err(why) => {
                    println!("  {}: {why}", words.join(" "));
                    Ok(())
                }
            },
        }
    }

    fn poll(&mut self) -> Done {
        self.clear()?;
        let Asked { permits, all_used, no_room } = self.ask()?;
        if !permits.is_empty() {
            // One save for all of them, before the first text. Where it fails the dispatcher ends, and no text went.
            self.store.save(&self.pool).map_err(|error| format!("{} marks cannot be saved, no text: {error}", permits.len()))?;
        }
        let asked = permits.len();
        let sent = permits.into_iter().map(|permit| self.send(permit)).filter(|&went| went).count();
        println!("  {sent} texts; {} failed, {all_used} with all attempts used, {no_room} without room", asked - sent);
        let called_before = mem::replace(&mut self.desk_called, no_room > 0);
        if self.desk_called && !called_before {
            println!("  the desk is called: no text goes without room for its mark, end a notice");
        }
        self.settle()
    }

    /// Clears what is over, which the book on the disk says already. A kill before the save leaves the marks, for the next poll.
    fn clear(&mut self) -> Done {
        let mut cleared = 0;
        for &notice in &self.book.over {
            let marks = self.pool.clear_notice(notice)?;
            if marks > 0 {
                println!("  notice {notice} is over: {marks} marks cleared");
            }
            cleared += marks;
        }
        if cleared > 0 {
            self.store.save(&self.pool)?;
        }
        Ok(())
    }

    /// Asks for every resident of every notice that stands, but those who are known to be told.
    fn ask(&mut self) -> Result<Asked, Refused> {
        let mut asked = Asked::default();
        for (&notice, Notice { residents, limit }) in &self.book.standing {
            for resident in residents.clone() {
                let text = Text { notice, resident };
                if self.told.contains(&text) {
                    continue;
                }
                match self.pool.may_send(text, *limit)? {
                    MaySend::Yes(permit) => asked.permits.push(permit),
                    MaySend::AllUsed => asked.all_used += 1,
                    MaySend::NoRoom => asked.no_room += 1,
                }
            }
        }
        Ok(asked)
    }

    /// Whether it went. If not, the next poll asks for the next attempt.
    fn send(&mut self, permit: Permit) -> bool {
        let (notice, resident, attempt) = (permit.notice(), permit.resident(), permit.attempt());
        match self.gateway.send(permit) {
            Ok(()) => {
                self.told.insert(Text { notice, resident });
                true
            }
            Err(why) => {
                println!("  no text {notice}/{resident}/{attempt}: {why}");
                false
            }
        }
    }

    /// Balances within a budget that is planned from the report: the bound, and no more than this poll can spare.
    fn settle(&mut self) -> Done {
        let report = self.pool.report()?;
        let used = format!("{} of {} marks", report.keys(), self.pool.most_keys());
        if report.red_black() {
            println!("  {used}; nothing to settle");
            return Ok(());
        }
        match self.pool.settle(report.settle_budget().min(SPARE_STEPS))? {
            Settled::RedBlack { steps } => println!("  {used}; settled in {steps} steps"),
            Settled::BudgetSpent { steps } => println!("  {used}; {steps} steps, the rest at the next poll"),
            other => return Err(format!("not known: {other:?}").into()),
        }
        Ok(())
    }
}

/// The book first: where there are marks, there is a book.
fn begin(store: &Store) -> Done {
    if !store.path(Book::FILE).try_exists()? {
        Book::default().save(store)?;
    }
    store.begin()
}

fn serve(store: &Store) -> Done {
    let (pool, book) = (store.load()?, Book::load(store)?);
    println!("up with {} marks of {}", pool.keys()?, pool.most_keys());
    let mut dispatcher = Dispatcher { store, pool, book, gateway: Gateway { up: true }, told: BTreeSet::new(), desk_called: false };
    for line in io::stdin().lines() {
        let line = line.map_err(|error| format!("the next poll cannot be read: {error}"))?;
        println!("{line}");
        dispatcher.hear(&line.split(' ').skip(1).collect::<Vec<_>>())?;
        dispatcher.poll()?;
    }
    Ok(())
}

fn main() -> ExitCode {
    Service { name: "dispatcher", slots: SLOTS, serves: SERVES, begin, serve }.main()
}
