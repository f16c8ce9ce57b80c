//! What queries were asked, by what is expected of them.

use super::{Kind, Query, Reply};
use crate::plain::maps::{self, Cause};
use std::collections::{BTreeMap, BTreeSet};
use std::fmt;

#[derive(Default)]
pub struct Queries {
    /// Queries by kind and by their case in words.
    pub cases: BTreeMap<(Kind, &'static str), u64>,
    /// Queries that a cause turns down, by kind, and those that nothing else would.
    pub causes: BTreeMap<(Kind, Cause), [u64; 2]>,
}

impl Queries {
    pub fn count(&mut self, query: &Query, expected: &Reply, causes: &[Cause]) {
        *self.cases.entry((query.kind, case(query, expected, causes))).or_default() += 1;
        for cause in causes {
            let [all, alone] = self.causes.entry((query.kind, *cause)).or_default();
            *all += 1;
            *alone += u64::from(causes.len() == 1);
        }
    }
}

fn case(query: &Query, expected: &Reply, causes: &[Cause]) -> &'static str {
    if !causes.is_empty() {
        return "refused under 25";
    }
    match (query.kind, expected.numbers) {
        (Kind::Nearest, [0, _]) => "none",
        (Kind::Nearest, _) => case_of_found(query),
        (_, [0, _]) => "empty",
        (_, [64, _]) => "lists 64",
        (_, [count, _]) if count == query.rows.len() as u64 => "lists all, below 64",
        (_, [1, _]) => "lists 1 of several",
        _ => "lists some",
    }
}

fn case_of_found(query: &Query) -> &'static str {
    let distances = maps::distances(&query.rows, query.first, query.cells).unwrap_or_default();
    let least = distances.iter().map(|(distance, _)| *distance).min().unwrap_or(0);
    let nearest = distances.iter().filter(|(distance, _)| *distance == least);
    let bases: BTreeSet<u16> = nearest.map(|(_, base)| *base).collect();
    match (least, bases.len()) {
        (0, _) => "the cell lies inside",
        (_, 1) => "one is nearest",
        _ => "a tie",
    }
}

fn name(kind: Kind) -> &'static str {
    match kind {
        Kind::Sharing => "sharing",
        Kind::Within => "within",
        Kind::Nearest => "nearest",
    }
}

fn words(cause: Cause) -> &'static str {
    match cause {
        Cause::NoRecords => "no records",
        Cause::Over64Records => "over 64 records",
        Cause::LengthZero => "a length 0",
        Cause::NotTiling => "the records do not tile",
        Cause::EndAbove4096 => "they end above 4,096",
        Cause::EmptyRange => "the range is empty",
        Cause::RangePastEnd => "the range runs past the end",
        Cause::NoCells => "0 cells wanted",
        Cause::SliceBelow64 => "the slice is below 64",
    }
}

impl fmt::Display for Queries {
    fn fmt(&self, out: &mut fmt::Formatter) -> fmt::Result {
        writeln!(out, "queries asked {}:", self.cases.values().sum::<u64>())?;
        for ((kind, words), count) in &self.cases {
            writeln!(out, "  {count:>10} {}, {words}", name(*kind))?;
        }
        writeln!(out, "refused for a cause, and for this one alone:")?;
        let mut causes = self.causes.iter();
        causes.try_for_each(|((kind, cause), [all, alone])| {
            writeln!(out, "  {all:>10} {alone:>10} {}, {}", name(*kind), words(*cause))
        })
    }
}
