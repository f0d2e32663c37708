//! The same seed gives the same books on every machine.

use oracle_model::generate;

/// FNV-1a over the books and their lengths.
fn sum(seed: u64, count: u64) -> u64 {
    let mut sum = 0xcbf2_9ce4_8422_2325u64;
    for k in 1..=count {
        let book = generate::book(seed, k);
        let length = (book.len() as u64).to_le_bytes();
        for byte in length.iter().chain(&book) {
            sum = (sum ^ u64::from(*byte)).wrapping_mul(0x0000_0100_0000_01b3);
        }
    }
    sum
}

#[test]
fn the_first_books_of_seed_1() {
    // A change of the generator changes this number; a machine must not.
    assert_eq!(sum(1, 200), 5_018_531_964_420_391_598);
}

#[test]
fn a_book_does_not_depend_on_those_before() {
    let alone = generate::book(3, 17);
    for k in 1..17 {
        generate::book(3, k);
    }
    assert_eq!(generate::book(3, 17), alone);
}
