//! Reads and writes larger than a book allows, up to and over 511 blocks.

use oracle_driver::bench::Feed;
use oracle_driver::script::{data as data_phase, initialisation, short};
use oracle_driver::{right, Block, Call, Host, Outcome, Settings};
use oracle_model::rng::Rng;
use oracle_paper as paper;

const SETTINGS: Settings = Settings {
    source: 48_000_000,
    poll_limit: 2,
    ready_attempts: 2,
    data_timeout: 7,
    software_timeout: 9,
    bypass: false,
    wide: true,
};

/// A card of 1,024 blocks.
fn card() -> Vec<u32> {
    initialisation(0)
}

const ROOM: usize = 1 << 17;

fn run<H: Host>(call: Call<'_>, script: &[u32]) -> Outcome {
    let mut host = H::make(&SETTINGS).ok().unwrap();
    let first = Call::Initialise { frequency: 24_000_000 };
    assert_eq!(host.call(first, Feed::Script(&card()), ROOM, false).answer, 0);
    host.call(call, Feed::Script(script), ROOM, true)
}

/// Blocks, index and the answer.
const LARGE: [(usize, u32, u8); 5] = [(17, 1_007, 0), (100, 3, 0), (511, 513, 0), (511, 514, 20), (512, 0, 19)];

#[test]
fn both_hosts_read_the_same_bytes_in_the_same_order() {
    let mut rng = Rng::new(5);
    for (blocks, index, answer) in LARGE {
        let call = Call::Read { index, blocks };
        let words: Vec<u32> = (0..blocks * 128).map(|_| rng.word()).collect();
        let script = [short(13, 0x900), data_phase(18, &words), short(12, 0), short(13, 0x900)].concat();
        let rust = run::<right::Host>(call, &script);
        assert_eq!(rust.answer, answer);
        assert_eq!(rust, run::<paper::Host>(call, &script));
        if answer == 0 {
            let bytes: Vec<u8> = words.iter().flat_map(|word| word.to_le_bytes()).collect();
            assert_eq!(rust.blocks, bytes);
        }
    }
}

#[test]
fn both_hosts_write_the_same_words_in_the_same_order() {
    let mut rng = Rng::new(6);
    for (blocks, index, answer) in LARGE {
        let data: Vec<Block> = (0..blocks).map(|_| std::array::from_fn(|_| rng.word())).collect();
        let call = Call::Write { index, data: &data };
        let script = [short(13, 0x900), data_phase(25, &[]), short(12, 0), short(13, 0x900)].concat();
        let rust = run::<right::Host>(call, &script);
        assert_eq!(rust.answer, answer);
        assert_eq!(rust, run::<paper::Host>(call, &script));
        let sent: Vec<u32> = rust.rows.iter().filter(|row| row.0 == 12).map(|row| row.1).collect();
        let due = if answer == 0 { data.as_flattened() } else { &[] };
        assert_eq!(sent, due);
        assert!(rust.blocks.is_empty());
    }
}
