//! Nor is a list of answers, whose marks would come twice.
//! error: E0599
#![deny(warnings)]
use chromatic::Answers;

pub fn two(answers: Answers) -> Vec<Answers> {
    vec![
        answers.clone(), // FAULT
        answers,
    ]
}
