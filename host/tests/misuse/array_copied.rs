//! An array handed over is a copy, and so are its marks: each poll would send again. It is lent as `&mut words[..]`.
//! error: E0277
#![deny(warnings)]
use chromatic::Pool;

pub struct Dispatcher {
    pub words: [u32; Pool::words_for(127)],
}

impl Dispatcher {
    pub fn sound(&mut self) -> bool {
        Pool::resume(self.words).is_ok() // FAULT
        // MENDED Pool::resume(&mut self.words[..]).is_ok()
    }

    pub fn loaded(&mut self, saved: &[u8]) -> bool {
        Pool::load(self.words, saved).is_ok() // FAULT
        // MENDED Pool::load(&mut self.words[..], saved).is_ok()
    }
}
