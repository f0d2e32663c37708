//! The proved host and the Rust in one native process: what calls cost, and books compared by the hundred thousand.

mod compare;
mod measure;
mod proved;
mod script;

use std::process::ExitCode;

use measure::{cost, Cost};
use script::{initialisation, read, status, stored, write, INITIALISE};

fn main() -> ExitCode {
    let words: Vec<String> = std::env::args().skip(1).collect();
    let words: Vec<&str> = words.iter().map(String::as_str).collect();
    let done = match words[..] {
        [] => {
            tables();
            true
        }
        ["compare", seed, count] => match (seed.parse(), count.parse()) {
            (Ok(seed), Ok(count)) => compare::compare(seed, count),
            _ => usage(),
        },
        _ => usage(),
    };
    match done {
        true => ExitCode::SUCCESS,
        false => ExitCode::FAILURE,
    }
}

fn usage() -> bool {
    eprintln!("meter: usage: meter [compare SEED COUNT], both numbers");
    false
}

fn tables() {
    let (get_status, status) = status();
    let mut calls = vec![
        ("initialisation".to_owned(), cost(INITIALISE, &initialisation(), 8)),
        ("SD status".to_owned(), cost(get_status, &status, 8)),
    ];
    for (blocks, times) in [(1, 8), (16, 4), (511, 1)] {
        let (call, script) = read(blocks, 0, 0);
        calls.push((format!("read of {blocks}"), cost(call, &script, times)));
    }
    for (blocks, times) in [(1, 8), (16, 4), (511, 1)] {
        let data = stored(blocks);
        let (call, script) = write(&data);
        calls.push((format!("write of {blocks}"), cost(call, &script, times)));
    }
    head("Call");
    for (name, cost) in &calls {
        line(name, *cost);
    }
    println!();
    head("Growth");
    for busy in [1_000, 10_000, 100_000] {
        let (call, script) = read(1, busy, 0);
        line(&format!("words: {busy} busy polls"), cost(call, &script, 1));
    }
    for unready in [10, 100, 1_000] {
        let (call, script) = read(1, 0, unready);
        line(&format!("rows: {unready} times not ready"), cost(call, &script, 1));
    }
    for times in [1, 8, 64] {
        line(
            &format!("calls: each of {times} SD status calls"),
            cost(get_status, &status, times),
        );
    }
    println!();
    steps(&calls);
}

fn head(name: &str) {
    println!(
        "| {name} | words | rows | Rust as the oracle runs it, ns | Rust, lean bench, ns | proved, ns | floor, ns \
         | proved / Rust | ns a word: Rust | proved | floor | proved / floor |"
    );
    println!("|---|---|---|---|---|---|---|---|---|---|---|---|");
}

fn line(name: &str, cost: Cost) {
    let Cost {
        words,
        rows,
        full,
        rust,
        proved,
        floor,
        ..
    } = cost;
    let each = words as f64;
    println!(
        "| {name} | {words} | {rows} | {full:.0} | {rust:.0} | {proved:.0} | {floor:.0} | {:.2} | {:.2} | {:.2} | {:.2} | {:.2} |",
        proved / rust,
        rust / each,
        proved / each,
        floor / each,
        proved / floor,
    );
}

/// The proved host on the script and one answer at a time; a step takes a word or gives a row.
fn steps(calls: &[(String, Cost)]) {
    println!(
        "| One answer at a time | words | rows | proved, ns | one answer at a time, ns | one at a time / proved \
         | ns a step: proved | one at a time | ns a word: proved | one at a time |"
    );
    println!("|---|---|---|---|---|---|---|---|---|---|");
    for (name, cost) in calls {
        let Cost {
            words,
            rows,
            proved,
            steps,
            ..
        } = *cost;
        let (each, word) = ((words + rows) as f64, words as f64);
        println!(
            "| {name} | {words} | {rows} | {proved:.0} | {steps:.0} | {:.2} | {:.2} | {:.2} | {:.2} | {:.2} |",
            steps / proved,
            proved / each,
            steps / each,
            proved / word,
            steps / word,
        );
    }
}
