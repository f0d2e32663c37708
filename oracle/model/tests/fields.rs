//! The arms that answer 13 have one field each, every field has an arm, and the count sees a field that is not its arm's.

use std::collections::BTreeMap;

use oracle_model::coverage::Coverage;
use oracle_model::rng::Rng;
use oracle_model::{expected, generate};
use oracle_paper::telling;
use oracle_paper::unsupported::Field;

#[test]
fn every_field_has_its_arms() {
    let mut arms: BTreeMap<u8, Vec<_>> = BTreeMap::new();
    for arm in expected::arms() {
        if let Some(field) = expected::field(arm) {
            arms.entry(field).or_default().push(arm);
        }
    }
    let counts: Vec<_> = arms.iter().map(|(field, arms)| (*field, arms.len())).collect();
    assert_eq!(counts, [(1, 2), (2, 6), (3, 2), (4, 1), (5, 4), (6, 5), (7, 2), (8, 5)]);
}

/// What the first books of seed 1 reach, by cause.
fn causes() -> Vec<&'static str> {
    let mut coverage = Coverage::default();
    for k in 1..=120 {
        coverage.add(&generate::book(1, k), &mut Rng::nth(1, k));
    }
    coverage.arms.keys().map(|(_, cause)| *cause).collect()
}

#[test]
fn a_field_that_is_not_its_arms_shows() {
    let right = causes();
    assert!(right.iter().any(|cause| cause.starts_with("OCR high")));
    assert!(!right.contains(&"another field"));
    assert!(telling::with(|_| Some(Field::CsdVersion), causes).contains(&"another field"));
}
