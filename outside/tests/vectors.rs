//! Runs the element lines of the outside sample through the proved library and through the plain code.

mod common;

use std::cmp::Ordering;
use std::fmt::Debug;

use common::sample::{run, words, Fields, Lines, Skip};
use common::{Both, Columns, Shape};
use gwerniloc::{Line, Prism, Triangle};

impl Fields<'_> {
    /// An element's fields, in the order level, x, y, z, kind.
    fn raw<S: Shape>(&mut self) -> Result<[u32; 5], Skip> {
        let mut fields = [0; 5];
        for &i in S::FIELDS {
            fields[i] = if i == 0 || i == 4 { self.next::<u8>()? as u32 } else { self.next()? };
        }
        Ok(fields)
    }

    fn element<S: Shape>(&mut self) -> Result<S, Skip> {
        Ok(S::from_fields(self.raw::<S>()?))
    }

    /// The lengths of the columns, the number of elements, the elements; each column cut or continued to its length.
    fn columns<S: Shape>(&mut self) -> Result<Columns, Skip> {
        let lengths = S::FIELDS.iter().map(|_| self.next()).collect::<Result<Vec<usize>, Skip>>()?;
        let count: usize = self.next()?;
        let mut columns = Columns::default();
        for _ in 0..count {
            columns.push(self.raw::<S>()?);
        }
        for (&column, length) in S::FIELDS.iter().zip(lengths) {
            columns.resize(column, length);
        }
        Ok(columns)
    }
}

fn both<T: Debug>(answers: Both<T>, value: impl Fn(&T) -> Vec<i128>) -> Vec<String> {
    answers.iter().map(|answer| words(answer, &value)).collect()
}

/// The answers to an element line.
fn element<S: Shape>(call: &str, fields: &mut Fields) -> Lines {
    let value = |e: &S| S::FIELDS.iter().map(|&i| e.fields()[i] as i128).collect::<Vec<i128>>();
    let answers = match call {
        "at" => both(S::at(fields.next()?, fields.next()?), value),
        "pos" => both(fields.element::<S>()?.position(), |p| vec![*p as i128]),
        "parent" => both(fields.element::<S>()?.parent(), value),
        "succ" => both(fields.element::<S>()?.successor(), value),
        "child" => both(fields.element::<S>()?.child(fields.next()?), value),
        "first" => both(fields.element::<S>()?.first_descendant(fields.next()?), value),
        "last" => both(fields.element::<S>()?.last_descendant(fields.next()?), value),
        "nbr" => both(fields.element::<S>()?.neighbour(fields.next()?), value),
        "cmp" => {
            let sign = |order: &Ordering| vec![*order as i128];
            both(fields.element::<S>()?.compare(fields.element::<S>()?), sign)
        }
        "family" => both(S::family(&fields.columns::<S>()?), |yes| vec![*yes as i128]),
        _ => return Ok(None),
    };
    Ok(Some(answers))
}

#[test]
fn the_element_lines_of_the_sample() {
    let [ran, _] = run("element", |op, fields| match op.split_once('_') {
        Some((Line::WORD, call)) => element::<Line>(call, fields),
        Some((Triangle::WORD, call)) => element::<Triangle>(call, fields),
        Some((Prism::WORD, call)) => element::<Prism>(call, fields),
        _ => Ok(None),
    });
    // The sample of base.txt has 2,997 of them.
    assert!(ran >= 2_900, "only {ran} element lines ran");
}
