//! How the examples restart and dispatcher keep their marks in a folder, over restarts, kills and power cuts.
//!
//! - **What is put in a file is there whole**, the old or the new, at every moment; and when `put` returns, the new is on the disk.
//! - **No service begins empty by itself.** Where the marks are damaged, not there or of another number of slots, it says what to
//!   do and ends, and no text goes. A new installation is begun by hand, in a folder that is there.
//! - **One service has the folder.** A second one is kept out by a lock that goes away with its process, however that ends.

use chromatic::{Pool, Refused};
use std::error::Error;
use std::fmt::Display;
use std::fs::{self, File};
use std::io::{self, Write};
use std::os::fd::AsRawFd;
use std::path::{Path, PathBuf};
use std::process::ExitCode;

/// What to do where they are of another number of slots.
const OTHER_SLOTS: &str =
    "No text goes out. These marks have another number of slots: call the desk, and serve them with the program that saved them.";

/// What to do where a mark cannot be saved.
const NOT_SAVED: &str = "Look whether the folder can be written and its disk has room, and serve again.";

pub type Done = Result<(), Box<dyn Error>>;

/// A program with the two words `begin FOLDER` and `serve FOLDER`.
#[derive(Clone, Copy)]
pub struct Service {
    pub name: &'static str,
    /// Another number does not load what was saved with this one.
    pub slots: usize,
    /// What `serve` does, for whoever asks how it is used.
    pub serves: &'static str,
    pub begin: fn(&Store) -> Done,
    pub serve: fn(&Store) -> Done,
}

impl Service {
    pub fn main(self) -> ExitCode {
        let words: Vec<String> = std::env::args().skip(1).collect();
        let done = match words.iter().map(String::as_str).collect::<Vec<_>>()[..] {
            ["begin", folder] => Store::lock(self, Path::new(folder)).and_then(|store| (self.begin)(&store)),
            ["serve", folder] => Store::lock(self, Path::new(folder)).and_then(|store| (self.serve)(&store)),
            _ => Err(self.usage().into()),
        };
        match done {
            Ok(()) => ExitCode::SUCCESS,
            Err(why) => {
                eprintln!("{why}");
                ExitCode::FAILURE
            }
        }
    }

    fn usage(&self) -> String {
        let (name, serves) = (self.name, self.serves);
        format!(
            "usage: {name} begin FOLDER   makes an empty set of marks, once, for a new installation\n       {name} serve FOLDER   {serves}"
        )
    }

    /// What to do where the marks cannot be read. An older copy is no help: it lacks the marks of texts that went since.
    fn no_marks(&self) -> String {
        format!(
            "No text goes out. If there were marks here, call the desk: put back the file of the last save, and no older one.\n\
             Only for a new installation, or where every text may go again: move away what is there, and run '{} begin'.",
            self.name
        )
    }

    /// What to do where the folder cannot be opened.
    fn no_folder(&self) -> String {
        format!(
            "No text goes out. If there were marks here, call the desk: the disk may be missing, or not open to this user.\n\
             Only for a new installation: make the folder, and run '{} begin'.",
            self.name
        )
    }
}

/// The folder, locked for this process.
pub struct Store {
    service: Service,
    folder: File,
    path: PathBuf,
}

impl Store {
    fn lock(service: Service, path: &Path) -> Result<Store, Box<dyn Error>> {
        let folder = File::open(path).map_err(|error| format!("{}: {error}\n{}", path.display(), service.no_folder()))?;
        if !locked(&folder) {
            let why = "another service has this folder, or it cannot be locked. No text goes out here: use that one, or stop it first.";
            return Err(format!("{}: {why}", path.display()).into());
        }
        Ok(Store { service, folder, path: path.to_path_buf() })
    }

    /// Makes an empty set, unless there are marks.
    pub fn begin(&self) -> Done {
        if self.marks().try_exists().map_err(|error| self.at(&error))? {
            return Err(self.at(&"there are marks already, and an empty set would forget them").into());
        }
        self.save(&Pool::prepare(vec![0; Pool::words_for(self.service.slots)])?)
    }

    /// When this returns, the marks are on the disk, and their texts may go.
    pub fn save(&self, pool: &Pool<Vec<u32>>) -> Done {
        let mut room = vec![0; Pool::saved_bytes_for(self.service.slots)];
        let saved = pool.save(&mut room)?;
        Ok(self.put("marks", saved).map_err(|error| format!("{}\n{NOT_SAVED}", self.at(&error)))?)
    }

    pub fn load(&self) -> Result<Pool<Vec<u32>>, Box<dyn Error>> {
        let saved = fs::read(self.marks()).map_err(|error| format!("{}\n{}", self.at(&error), self.service.no_marks()))?;
        let loaded = Pool::load(vec![0; Pool::words_for(self.service.slots)], &saved);
        Ok(loaded.map_err(|refused| {
            let what_to_do = if refused == Refused::NoFit { OTHER_SLOTS.into() } else { self.service.no_marks() };
            // For damaged bytes it says where they go wrong, which is to be read beside how many there are.
            format!("{} ({} bytes): {refused}\n{what_to_do}", self.marks().display(), saved.len())
        })?)
    }

    /// Puts the bytes in a file of the folder. The old ones or the new ones are there at every moment, whole. When this returns,
    /// the new ones are on the disk.
    pub fn put(&self, name: &str, bytes: &[u8]) -> io::Result<()> {
        let (there, beside) = (self.path(name), self.path(&format!("{name}.new")));
        let mut file = File::create(&beside)?; // what a killed run left here goes
        file.write_all(bytes)?;
        file.sync_all()?; // the bytes are on the disk before they get the name
        fs::rename(&beside, &there)?;
        self.folder.sync_all()?; // and the name before a text goes out
        Ok(())
    }

    pub fn path(&self, name: &str) -> PathBuf {
        self.path.join(name)
    }

    fn marks(&self) -> PathBuf {
        self.path("marks")
    }

    /// What is said of the marks.
    fn at(&self, what: &dyn Display) -> String {
        format!("{}: {what}", self.marks().display())
    }
}

/// Takes the lock of an open folder without waiting. The system lets go of it when the process ends. (From Rust 1.89 on,
/// `File::try_lock` does this.)
fn locked(folder: &File) -> bool {
    extern "C" {
        fn flock(fd: i32, operation: i32) -> i32;
    }
    const EXCLUSIVE: i32 = 2;
    const AT_ONCE: i32 = 4;
    // SAFETY: the descriptor is open, and no memory is lent.
    unsafe { flock(folder.as_raw_fd(), EXCLUSIVE | AT_ONCE) == 0 }
}
