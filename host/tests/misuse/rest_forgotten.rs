//! The report, the refusals of a call, commands and their answers can grow: a match has a rest.
//! error: E0004
#![deny(warnings)]
use chromatic::{Answer, Command, Deleted, Found, Refused, Searched, Settled, Stepped};

pub fn refusal(refused: Refused) -> u32 {
    match refused {
        Refused::WrongLength | Refused::RulesBroken | Refused::FewAnswers | Refused::NoFit | Refused::OutOfRange => 0,
        Refused::BadCommand { wrong_at } | Refused::BadSaved { wrong_at } => wrong_at,
        // MENDED _ => 0,
    }
}

pub fn command(command: Command) -> u32 {
    match command {
        Command::Search { key } | Command::Insert { key } | Command::Delete { key } | Command::AtOrAbove { key } => key,
        Command::Step { slot, .. } => slot,
        Command::Settle { budget } => budget,
        Command::Count { first, .. } | Command::DeleteSpan { first, .. } => first,
        // MENDED _ => 0,
    }
}

pub fn answer(answer: Answer) -> u32 {
    match answer {
        Answer::Search { key, .. } | Answer::Insert { key, .. } | Answer::Delete { key, .. } | Answer::AtOrAbove { key, .. } => key,
        Answer::Step { slot, .. } => slot,
        Answer::Settle { budget, .. } => budget,
        Answer::Count { answer, .. } | Answer::DeleteSpan { answer, .. } => answer,
        // MENDED _ => 0,
    }
}

pub fn searched(answer: Searched) -> u32 {
    match answer {
        Searched::Marked { slot } => slot,
        Searched::KeyAbsent => 0,
        // MENDED _ => 0,
    }
}

pub fn found(answer: Found) -> u32 {
    match answer {
        Found::Key(key) => key,
        Found::NoneAbove => 0,
        // MENDED _ => 0,
    }
}

pub fn deleted(answer: Deleted) -> u32 {
    match answer {
        Deleted::Cleared { keys_left } => keys_left,
        Deleted::KeyAbsent => 0,
        // MENDED _ => 0,
    }
}

pub fn stepped(answer: Stepped) -> u32 {
    match answer {
        Stepped::Taken => 1,
        Stepped::NoInnerNode | Stepped::ConditionFalse | Stepped::TooTall => 0,
        // MENDED _ => 0,
    }
}

pub fn settled(answer: Settled) -> u32 {
    match answer {
        Settled::RedBlack { steps } | Settled::BudgetSpent { steps } => steps,
        // MENDED _ => 0,
    }
}
