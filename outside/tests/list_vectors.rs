//! Runs the list lines of the outside sample through the proved library, the plain code and the naive definition. The
//! columns lent for a result are filled as the sample says, and compared before and after.

mod common;

use common::calls::{balanced, check, uniform, Adaption, Answers, Sharing};
use common::lent::sampled;
use common::sample::{run, segments, words, Fields, Lines};

fn all<T>(answers: Answers<T>, value: impl Fn(&T) -> Vec<i128>) -> Lines {
    Ok(Some(answers.iter().map(|answer| words(answer, &value)).collect()))
}

/// The answers to a list line.
fn list(op: &str, fields: &mut Fields) -> Lines {
    match op {
        "list" => all(check(fields.next()?, &fields.leaves()?), |()| vec![]),
        "balanced" => all(balanced(fields.next()?, &fields.leaves()?), |&yes| vec![yes as i128]),
        "uniform" => all(uniform(fields.next()?, fields.next()?, fields.lengths()?, sampled), segments),
        "adapt" => {
            let (roots, leaves) = (fields.next()?, fields.leaves()?);
            let (marks, room) = (fields.values()?, fields.lengths()?);
            all(Adaption { roots, leaves, marks, room }.ask(sampled), segments)
        }
        "shares" => {
            let (roots, leaves, weights) = (fields.next()?, fields.leaves()?, fields.values()?);
            let (shares, room) = (fields.next()?, fields.next()?);
            all(Sharing { roots, shares, leaves, weights, room }.ask(sampled), |boundaries| {
                [boundaries.len() as u32].iter().chain(boundaries).map(|&word| word as i128).collect()
            })
        }
        _ => Ok(None),
    }
}

/// Every line of a kind runs.
fn lines(kind: &str, count: usize) {
    let counts = run(kind, |op, fields| if op == kind { list(op, fields) } else { Ok(None) });
    assert_eq!(counts, [count, 0], "every {kind} line of base.txt runs");
}

#[test]
fn the_list_lines_of_the_sample() {
    lines("list", 244);
}

#[test]
fn the_uniform_lines_of_the_sample() {
    lines("uniform", 95);
}

#[test]
fn the_adaption_lines_of_the_sample() {
    lines("adapt", 401);
}

#[test]
fn the_balance_lines_of_the_sample() {
    lines("balanced", 158);
}

#[test]
fn the_shares_lines_of_the_sample() {
    lines("shares", 224);
}
