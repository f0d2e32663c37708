//! Chooses books that reach something that no other one does, at little cost.

use std::collections::BTreeSet;

use oracle_bench_book::{trace, MOST_ROOM};
use oracle_paper as paper;

use crate::coverage::{closings, Coverage};
use crate::rng::Rng;

/// The smaller of the two rooms with which a sample is served.
const LITTLE: usize = 40;

/// Everything that a book reaches, as text.
fn reached(book: &[u8], rng: &mut Rng) -> BTreeSet<String> {
    let mut coverage = Coverage::default();
    coverage.add(book, rng);
    let mut all = BTreeSet::new();
    all.extend(coverage.calls.keys().map(|key| format!("call {key:?}")));
    all.extend(coverage.bad_books.keys().map(|key| format!("book {key:?}")));
    all.extend(coverage.hosts_refused.keys().map(|key| format!("host {key:?}")));
    all.extend(coverage.accepted.keys().map(|key| format!("accepted {key:?}")));
    all.extend(coverage.blocks.keys().map(|key| format!("blocks {key:?}")));
    all.extend(coverage.bodies.keys().map(|key| format!("body {key:?}")));
    all.extend(coverage.shortages.keys().map(|key| format!("shortage {key:?}")));
    all.extend(coverage.too_many.keys().map(|key| format!("too many {key:?}")));
    all.extend(coverage.protection.keys().map(|key| format!("protection {key:?}")));
    all.extend(coverage.arms.keys().map(|key| format!("arm {key:?}")));
    all.extend(coverage.ended.keys().map(|key| format!("ended {key:?}")));
    all.extend(closings(book, LITTLE).iter().map(|key| format!("closing {key:?}")));
    all
}

/// Bytes that a sample grows by with this book: itself and its traces.
fn cost(book: &[u8]) -> usize {
    let mut text = Vec::new();
    trace::<paper::Host>(book, MOST_ROOM, &mut text);
    trace::<paper::Host>(book, LITTLE, &mut text);
    book.len() + text.len()
}

/// A book that may be chosen, with what it would add.
struct Candidate {
    book: Vec<u8>,
    adds: BTreeSet<String>,
    cost: usize,
}

#[derive(Default)]
pub struct Sample {
    seen: BTreeSet<String>,
    candidates: Vec<Candidate>,
}

impl Sample {
    /// A book that is in the sample already.
    pub fn has(&mut self, book: &[u8], rng: &mut Rng) {
        self.seen.extend(reached(book, rng));
    }

    /// A book that may come to it, behind all that are there.
    pub fn may_have(&mut self, book: Vec<u8>, rng: &mut Rng) {
        let adds: BTreeSet<_> = reached(&book, rng).difference(&self.seen).cloned().collect();
        if !adds.is_empty() {
            let cost = cost(&book);
            self.candidates.push(Candidate { book, adds, cost });
        }
    }

    /// The books that are worth adding: each time the one that reaches most for its bytes, until nothing is left to reach;
    /// without those that the later ones made needless.
    pub fn chosen(mut self) -> Vec<Vec<u8>> {
        let mut chosen: Vec<(Vec<u8>, BTreeSet<String>)> = Vec::new();
        let mut candidates = std::mem::take(&mut self.candidates);
        // More for the same, or the same for less; of two that are as good, the first.
        let better = |one: &Candidate, two: &Candidate| {
            let (more, less) = (one.adds.len() * two.cost, two.adds.len() * one.cost);
            less.cmp(&more)
        };
        while let Some(best) = (0..candidates.len()).min_by(|a, b| better(&candidates[*a], &candidates[*b])) {
            let best = candidates.remove(best);
            for other in &mut candidates {
                other.adds.retain(|key| !best.adds.contains(key));
            }
            candidates.retain(|other| !other.adds.is_empty());
            let reaches = reached(&best.book, &mut Rng::new(0));
            chosen.push((best.book, reaches));
        }
        for at in (0..chosen.len()).rev() {
            let others = chosen.iter().enumerate().filter(|(other, _)| *other != at);
            let reached: BTreeSet<_> = others.flat_map(|(_, (_, reaches))| reaches).chain(&self.seen).collect();
            if chosen[at].1.iter().all(|key| reached.contains(key)) {
                chosen.remove(at);
            }
        }
        chosen.into_iter().map(|(book, _)| book).collect()
    }
}
