//! Counts the answers to a call.

use std::fmt::Debug;

use gwerniloc::Refusal;

use super::calls::{check, Adaption, Answers};
use super::leaves::Leaves;
use super::lent::foreign;

/// How often a call was accepted (at 0) and how often refused with each number.
#[derive(Default)]
pub struct Tally([u64; 25]);

/// An answer in so many letters, for one can hold a million leaves.
fn short(answer: &impl Debug) -> String {
    format!("{answer:?}").chars().take(2_000).collect()
}

impl Tally {
    /// Counts the answer that all three gave. `question` is written out if they differ.
    pub fn count<T: PartialEq + Debug>(&mut self, answers: Answers<T>, question: &impl Debug) -> Result<T, Refusal> {
        let [proved, plain, naive] = answers;
        if proved != plain || plain != naive {
            let [proved, plain, definition] = [&proved, &plain, &naive].map(short);
            panic!("{}\n proved: {proved}\n plain:  {plain}\n naive:  {definition}", short(question));
        }
        self.0[naive.as_ref().map_or_else(|refusal| refusal.number as usize, |_| 0)] += 1;
        naive
    }

    /// Counts the answer that all three gave and that must come out.
    pub fn expect<T: PartialEq + Debug>(
        &mut self,
        answers: Answers<T>,
        expected: Result<T, Refusal>,
        question: &impl Debug,
    ) {
        let answer = self.count(answers, question);
        if answer != expected {
            panic!("{}\n all:     {}\n must be: {}", short(question), short(&answer), short(&expected));
        }
    }

    /// Counts an adaption. Its result must be a valid list of the same roots.
    pub fn adapt(&mut self, question: &Adaption) -> Result<Leaves, Refusal> {
        let answer = self.count(question.ask(foreign), question);
        if let Ok(result) = &answer {
            assert_eq!(check(question.roots, result), [Ok(()); 3], "{}", short(question));
        }
        answer
    }

    /// How often the call was refused with a number, or with 0 accepted.
    pub fn times(&self, number: usize) -> u64 {
        self.0[number]
    }

    /// How often the call was put.
    pub fn total(&self) -> u64 {
        self.0.iter().sum()
    }

    /// Each of these answers, by number, was met so often, and no other at all.
    pub fn covers(&self, what: &str, numbers: &[usize], least: u64) {
        println!("{} {what} agreed: 0, 1, .. 24 were met {:?} times", self.total(), self.0);
        for (number, &times) in self.0.iter().enumerate() {
            let possible = numbers.contains(&number);
            assert!(if possible { times >= least } else { times == 0 }, "{number} was met {times} times");
        }
    }
}
