//! What the program `./marks` prints, made from the library: `host/test` compares the two on stored inputs.
use chromatic::Pool;
use std::io::Read;

/// No code of an answer: a word that no command has filled.
const UNFILLED: u32 = u32::MAX;

fn main() -> std::io::Result<()> {
    let mut bytes = Vec::new();
    std::io::stdin().lock().take(4096).read_to_end(&mut bytes)?;
    let mut words = [0; Pool::words_for(127)];
    let mut pool = Pool::prepare(&mut words[..]).expect("127 slots are a good length");
    let mut answers = [UNFILLED; 512];
    match pool.run_bytes(&bytes, &mut answers) {
        Ok(()) => {
            for answer in answers.chunks(2).take_while(|answer| answer[0] != UNFILLED) {
                println!("{} {}", answer[0], answer[1]);
            }
        }
        Err(refused) => println!("refused {} {}", refused.code(), refused.number()),
    }
    Ok(())
}
