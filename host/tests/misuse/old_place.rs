//! Code for 0.3.0: the number of code 3 was the byte where the first bad command begins. Now it is the byte at which the batch goes wrong.
//! error: E0026
#![deny(warnings)]
use chromatic::Refused;

pub fn fault_in(batch: &[u8], refused: Refused) -> String {
    match refused {
        Refused::BadCommand { byte, .. } => format!("the command {:02X?} is bad", &batch[byte as usize..]), // FAULT
        // MENDED Refused::BadCommand { wrong_at, .. } => format!("bad at byte {wrong_at}, after {:02X?}", &batch[..wrong_at as usize]),
        other => other.to_string(),
    }
}
