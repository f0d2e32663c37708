//! Shows that the generated books and leaf inputs catch the wrong hosts.

use std::panic::{catch_unwind, set_hook, take_hook};

use oracle_bench_book::{events, trace, MOST_ROOM};
use oracle_driver::{switchable, wrong};
use oracle_model::leaves::{each, Leaf};
use oracle_model::{generate, rng::Rng, settings};
use oracle_paper as paper;
use oracle_paper::asked;
use oracle_paper::wrong::Wrong;

pub const SEED: u64 = 1;
pub const COUNT: u64 = 4_000;

/// Random leaf inputs of each kind.
const LEAVES: u64 = 2_000;

struct Case {
    book: Vec<u8>,
    /// Rows of room in the second run, so that 22 is met as well.
    room: usize,
    /// What the right host prints in both runs.
    right: Vec<u8>,
}

/// The Rust with its switches, asked as the right one is: a call in which neither is asked does not tell them apart.
type Switched = asked::Host<switchable::Host>;

/// What is printed of a book with this room.
type Print = fn(&[u8], usize, &mut Vec<u8>);

/// A book printed with much room and with little.
fn both(print: Print, book: &[u8], room: usize) -> Vec<u8> {
    let mut text = Vec::new();
    print(book, MOST_ROOM, &mut text);
    print(book, room, &mut text);
    text
}

fn case(seed: u64, k: u64) -> Case {
    let book = generate::book(seed, k);
    let room = settings::little_room(&mut Rng::nth(seed ^ 0x5eed, k));
    let right = both(trace::<asked::Host>, &book, room);
    Case { book, room, right }
}

/// Whether a switched host prints something else than the right one. A host that panics has been found out as well.
fn differs(which: u16, print: Print, case: &Case, right: &[u8]) -> bool {
    let run = || wrong::with(which, || both(print, &case.book, case.room));
    catch_unwind(run).map_or(true, |text| text != right)
}

/// Where a switched host first differs from the right one. Events come last, so that they are named only where nothing
/// else tells: the host reads another register, and a script has the same word for it.
fn caught(which: u16, cases: &[Case], leaves: &[(Leaf, u64)]) -> Option<String> {
    let traced = |case: &Case| differs(which, trace::<Switched>, case, &case.right);
    if let Some(at) = cases.iter().position(traced) {
        return Some(format!("book {}", at + 1));
    }
    let leaf = leaves.iter().find(|(leaf, right)| {
        let run = || wrong::with(which, || leaf.answer::<asked::Leaves<switchable::Leaves>>());
        catch_unwind(run).map_or(true, |answer| answer != *right)
    });
    if let Some((leaf, _)) = leaf {
        return Some(format!("leaf {leaf:?}"));
    }
    let stepped = |case: &Case| {
        let right = both(events::<asked::Host>, &case.book, case.room);
        differs(which, events::<Switched>, case, &right)
    };
    cases
        .iter()
        .position(stepped)
        .map(|at| format!("events of book {}", at + 1))
}

/// Where a wrong model first differs from the right one: a book, a leaf input, or one of each.
fn modelled_wrongly(wrong: &Wrong, cases: &[Case], leaves: &[(Leaf, u64)]) -> Option<String> {
    let text = |case: &Case| both(trace::<paper::Host>, &case.book, case.room);
    let book = cases.iter().position(|case| text(case) != wrong.with(|| text(case)));
    let answer = |leaf: Leaf| leaf.answer::<paper::Leaves>();
    let leaf = leaves
        .iter()
        .find(|(leaf, _)| answer(*leaf) != wrong.with(|| answer(*leaf)));
    let book = book.map(|at| format!("book {}", at + 1));
    let leaf = leaf.map(|(leaf, _)| format!("leaf {leaf:?}"));
    let places: Vec<String> = book.into_iter().chain(leaf).collect();
    (!places.is_empty()).then(|| places.join(" and "))
}

pub fn wrong(seed: u64, count: u64) -> Result<(), String> {
    let cases: Vec<Case> = (1..=count).map(|k| case(seed, k)).collect();
    let mut leaves = Vec::new();
    each(seed, LEAVES, |leaf| leaves.push((leaf, leaf.answer::<asked::Leaves>())));
    if let Some(place) = caught(0, &cases, &leaves) {
        return Err(format!(
            "oracle: the switchable host differs with no switch on: {place}"
        ));
    }
    println!(
        "with no switch on: equal on {count} books and {} leaf inputs",
        leaves.len()
    );

    let hook = take_hook();
    set_hook(Box::new(|_| {}));
    let hosts = wrong::ALL
        .iter()
        .map(|(which, name, what)| (*name, *what, caught(*which, &cases, &leaves)));
    let models = paper::wrong::all().map(|wrong| (wrong.name, wrong.what, modelled_wrongly(wrong, &cases, &leaves)));
    let found: Vec<_> = hosts.chain(models).collect();
    set_hook(hook);
    report(&found)
}

/// Name, what is wrong and where it shows, of each.
fn report(found: &[(&str, &str, Option<String>)]) -> Result<(), String> {
    for (name, what, place) in found {
        let place = place.as_deref().unwrap_or("NOT CAUGHT");
        println!("{name}: {what}: {place}");
    }
    let missed = found.iter().filter(|(_, _, place)| place.is_none()).count();
    println!("{} of {} wrong hosts caught", found.len() - missed, found.len());
    match missed {
        0 => Ok(()),
        _ => Err(format!("oracle: {missed} wrong hosts not caught")),
    }
}
