//! A service that keeps its marks in a file, over restarts, kills and power cuts. Each line that it reads is a key. It sends
//! the key's text, unless the key has its mark.
//!
//! - **A mark is in the file before its text goes out.** Killed at any moment, the service comes up again with the marks from
//!   before or with the new one too, and never with fewer than texts went.
//! - **It never begins empty by itself, and one service has the folder:** store/mod.rs, which is the part to copy.

mod store;

use chromatic::{Inserted, Mark};
use std::io;
use std::process::ExitCode;
use store::{Done, Service, Store};

/// Marks, saves, sends. (One save does for many keys: run a batch of them, save, and then send all its marks.)
fn serve(store: &Store) -> Done {
    let mut pool = store.load()?;
    println!("up with {} marks of {}", pool.keys()?, pool.most_keys());
    for line in io::stdin().lines() {
        let line = line.map_err(|error| format!("the next key cannot be read: {error}"))?;
        let Ok(key) = line.parse() else {
            println!("{line}: no key");
            continue;
        };
        match pool.insert(key)? {
            Inserted::NewlyMarked(mark) => {
                // Where this fails the service ends. The mark may be in the file or not, and no text went.
                store.save(&pool).map_err(|error| {
                    format!(
                        "{key}: its mark cannot be saved, no text: {error}\nIf the key then has its mark, its text is lost: call the desk."
                    )
                })?;
                send(mark);
            }
            Inserted::KeyPresent => println!("{key}: marked before, no text"),
            Inserted::NoRoom => println!("{key}: cannot be marked, no text; call the desk"),
        }
    }
    Ok(())
}

/// The one way to a text: it uses the mark up. (Where a gateway can fail, withdraw the mark and save again, or count the
/// attempts as the example dispatcher does.)
fn send(mark: Mark) {
    println!("{}: text sent", mark.key());
}

fn main() -> ExitCode {
    let serves = "reads keys, one a line, and sends each its text at most once";
    Service { name: "restart", slots: 127, serves, begin: Store::begin, serve }.main()
    // 127 slots hold 64 keys
}
