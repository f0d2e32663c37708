//! What one call costs: the Rust on two benches, the proved host on the script and one answer at a time, and the floor, in
//! turns in one process.

use std::hint::black_box;
use std::time::{Duration, Instant};

use oracle_driver::bench::{lean, Feed};
use oracle_driver::{right, Block, Call, Host as _};

use crate::proved;
use crate::script::{initialisation, INITIALISE, SETTINGS};

/// Each thing is timed so often, in turns, and the least is taken: what else the machine does can only add to it.
const ROUNDS: usize = 25;
const ROUND: Duration = Duration::from_millis(4);
const ROOM: usize = 1 << 20;

/// Nanoseconds.
#[derive(Clone, Copy, Debug)]
pub struct Cost {
    pub words: usize,
    pub rows: usize,
    /// The Rust's call as the oracle runs it, on its full bench, and on a bench with nothing on it.
    pub full: f64,
    pub rust: f64,
    pub proved: f64,
    /// The proved host's call, one answer at a time.
    pub steps: f64,
    pub floor: f64,
}

/// One call on a host that has a card (an initialisation: on one that has none), `times` times in a list.
pub fn cost(call: Call<'_>, script: &[u32], times: usize) -> Cost {
    let first = initialisation();
    let initial = [(INITIALISE, &first[..])];
    let before = match call {
        Call::Initialise { .. } => &initial[..0],
        _ => &initial[..],
    };
    let count = match call {
        Call::Read { blocks, .. } => blocks,
        Call::Write { data, .. } => data.len(),
        _ => 0,
    };

    let mut host = right::Host::make(&SETTINGS).expect("good settings make a host");
    for (call, script) in before {
        assert_eq!(host.call(*call, Feed::Script(script), ROOM, false).answer, 0);
    }
    let snapshot = host.snapshot();
    let seen = host.call(call, Feed::Script(script), ROOM, false);
    assert_eq!((seen.answer, seen.words_used), (0, script.len()));
    host.restore(&snapshot);

    let mut list = before.to_vec();
    let short = proved::list(&SETTINGS, &list);
    list.extend(std::iter::repeat_n((call, script), times));
    let long = proved::list(&SETTINGS, &list);
    let mut rows = vec![0; seen.rows.len() + 128];
    let mut buffer = match call {
        Call::Write { data, .. } => bytes(data),
        _ => vec![0; 512 * count],
    };
    let told = proved::calls(&long, &mut rows, &mut buffer);
    assert_eq!((told.answer, told.words, told.rows), (0, script.len(), seen.rows.len()));
    let told_rows: Vec<(u32, u32)> = rows[..told.rows]
        .iter()
        .map(|row| ((row >> 32) as u32, *row as u32))
        .collect();
    assert_eq!(told_rows, seen.rows, "both write the same rows");
    match call {
        Call::Write { data, .. } => assert_eq!(buffer, bytes(data), "the data stays as it was"),
        _ => assert_eq!(buffer, seen.blocks, "both read the same bytes"),
    }
    let (mut step_rows, mut step_buffer) = (vec![0; rows.len()], vec![0; buffer.len()]);
    if let Call::Write { .. } = call {
        step_buffer.copy_from_slice(&buffer);
    }
    assert_eq!(proved::steps(&long, &mut step_rows, &mut step_buffer), told);
    assert_eq!(step_rows, rows, "one answer at a time writes the same rows");
    assert_eq!(step_buffer, buffer, "one answer at a time reads the same bytes");

    let clkcr = host.state().clkcr;
    let mut full = Timed::new(|| {
        host.restore(&snapshot);
        black_box(host.call(call, Feed::Script(script), ROOM, false));
    });
    let mut lean_host = right::Host::make(&SETTINGS).expect("good settings make a host");
    lean_host.restore(&snapshot);
    let mut blocks = match call {
        Call::Write { data, .. } => right::filled(data),
        _ => right::blocks(count),
    };
    let mut lean_rows = rows.clone();
    lean_rows.fill(0);
    let mut rust = Timed::new(|| {
        lean::during(script, &mut lean_rows, || {
            lean::rewind(clkcr);
            assert!(lean_host.bare(call, &mut blocks));
            assert_eq!(lean::counts(), (script.len(), seen.rows.len()));
        });
    });
    let (mut other_rows, mut other_buffer) = (rows.clone(), buffer.clone());
    let (mut other_step_rows, mut other_step_buffer) = (rows.clone(), buffer.clone());
    let mut whole = Timed::new(|| {
        black_box(proved::calls(black_box(&long), &mut rows, &mut buffer));
    });
    let mut start = Timed::new(|| {
        black_box(proved::calls(black_box(&short), &mut other_rows, &mut other_buffer));
    });
    let mut step_whole = Timed::new(|| {
        black_box(proved::steps(black_box(&long), &mut step_rows, &mut step_buffer));
    });
    let mut step_start = Timed::new(|| {
        black_box(proved::steps(
            black_box(&short),
            &mut other_step_rows,
            &mut other_step_buffer,
        ));
    });
    let mut floor = Timed::new(|| {
        black_box(tested(black_box(script)));
    });
    for _ in 0..ROUNDS {
        full.round();
        rust.round();
        whole.round();
        start.round();
        step_whole.round();
        step_start.round();
        floor.round();
    }
    let cost = Cost {
        words: script.len(),
        rows: seen.rows.len(),
        full: full.least,
        rust: rust.least,
        proved: (whole.least - start.least) / times as f64,
        steps: (step_whole.least - step_start.least) / times as f64,
        floor: floor.least,
    };
    assert_eq!(lean_rows[..told.rows], rows[..told.rows], "both write the same rows");
    assert_eq!(step_rows, rows, "one answer at a time writes the same rows");
    assert_eq!(step_buffer, buffer, "one answer at a time reads the same bytes");
    let read = blocks.iter().flat_map(|block| block.iter());
    assert!(
        matches!(call, Call::Write { .. }) || read.eq(&buffer),
        "both read the same bytes"
    );
    cost
}

/// Blocks as bytes, the low one of each word first.
fn bytes(data: &[Block]) -> Vec<u8> {
    data.as_flattened().iter().flat_map(|word| word.to_le_bytes()).collect()
}

/// The floor: each word of a script is loaded and tested, and that is all. Volatile, as a controller's register is.
#[inline(never)]
fn tested(script: &[u32]) -> usize {
    let mut place = 0;
    while place < script.len() {
        // SAFETY: the place lies in the slice.
        let word = unsafe { std::ptr::read_volatile(&script[place]) };
        if word == 0xffff_ffff {
            return place;
        }
        place += 1;
    }
    place
}

/// Something that is done again and again; the least time that it took.
struct Timed<F: FnMut()> {
    act: F,
    times: u32,
    least: f64,
}

impl<F: FnMut()> Timed<F> {
    fn new(mut act: F) -> Self {
        let began = Instant::now();
        let mut times = 0;
        while began.elapsed() < ROUND {
            act();
            times += 1;
        }
        Self {
            act,
            times,
            least: f64::INFINITY,
        }
    }

    fn round(&mut self) {
        let began = Instant::now();
        for _ in 0..self.times {
            (self.act)();
        }
        let once = began.elapsed().as_nanos() as f64 / f64::from(self.times);
        self.least = self.least.min(once);
    }
}
