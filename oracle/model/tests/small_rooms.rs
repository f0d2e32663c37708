//! Books served with one small room for all their calls meet 22 among the closing
//! rows, also of calls on a card that an initialisation had room enough to take; and
//! at each kind of row with which a write sends its data.

use std::collections::BTreeSet;

use oracle_model::coverage::{closings, sendings};
use oracle_model::{expected, generate};

/// Rows of the shortest initialisation that is accepted.
const LEAST: u64 = 68;

/// Rows of a write of one block, up to its last word; and of one of two.
const SENT: u64 = 144;
const TWO_SENT: u64 = 272;

/// Rows up to DCTRL of a write before which the card was not ready ten times.
const ARMED: u64 = 76;

/// Rows of a ready wait in which the card was not ready eleven times and is pulled out once it was asked again.
const PULLED: u64 = 70;

/// Rows for each time that a card is not ready.
const UNREADY: u64 = 6;

#[test]
fn closing_rows_of_every_shape_are_without_room_somewhere() {
    let mut met = BTreeSet::new();
    for k in 1..=8_000 {
        let book = generate::book(1, k);
        met.extend(closings(&book, (LEAST + k % 50) as usize));
        met.extend(closings(&book, (SENT + k % 50) as usize));
        met.extend(closings(&book, (PULLED + UNREADY * (k % 8)) as usize));
    }
    let shapes: BTreeSet<_> = met.iter().map(|(kind, shape, _)| (*kind, *shape)).collect();
    for (kind, shape, _) in ["initialise", "read", "write", "status"]
        .map(expected::closings)
        .concat()
    {
        // Before its closing wait a status call has fewer rows than LEAST: no room
        // takes the card and is too small for these.
        let beyond = kind == "status" && shape != "CLKCR off, reset";
        assert_eq!(shapes.contains(&(kind, shape)), !beyond, "{kind}: {shape}");
    }
    for kind in ["read", "write"] {
        let rows = met.iter().filter(|(of, ..)| *of == kind);
        assert!(rows.count() >= 6, "{met:?}");
    }
}

#[test]
fn each_kind_of_row_that_sends_is_without_room_somewhere() {
    let mut met = BTreeSet::new();
    for k in 1..=8_000 {
        let book = generate::book(1, k);
        let longer = UNREADY * (k % 8);
        for room in [ARMED - 1, ARMED, SENT - 1, TWO_SENT - 1] {
            met.extend(sendings(&book, (room + longer) as usize));
        }
    }
    for blocks in ["one block", "many blocks"] {
        for row in expected::SENDING {
            assert!(met.contains(&(blocks, row)), "{blocks}: {row}: {met:?}");
        }
    }
}
