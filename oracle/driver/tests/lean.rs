//! The bench with nothing on it, for measuring, keeps the rows of the full one, and takes as many words.

use oracle_driver::bench::{lean, Feed};
use oracle_driver::right::{blocks, filled, Host};
use oracle_driver::script::{data, initialisation, short};
use oracle_driver::{Block, Call, Host as _, Settings};

const SETTINGS: Settings = Settings {
    source: 48_000_000,
    poll_limit: 1,
    ready_attempts: 1,
    data_timeout: 7,
    software_timeout: 9,
    bypass: false,
    wide: true,
};
const ROOM: usize = 1 << 17;

/// A host with a card of 1,024 blocks.
fn taken() -> Host {
    let mut host = Host::make(&SETTINGS).ok().unwrap();
    let call = Call::Initialise { frequency: 24_000_000 };
    assert_eq!(host.call(call, Feed::Script(&initialisation(0)), ROOM, false).answer, 0);
    host
}

/// Both benches serve an accepted call; the blocks are what the lean one's reads fill and its writes send.
fn both(call: Call<'_>, script: &[u32], mut buffer: Vec<[u8; 512]>) -> Vec<[u8; 512]> {
    let full = taken().call(call, Feed::Script(script), ROOM, false);
    assert_eq!((full.answer, full.words_used), (0, script.len()));
    let mut host = taken();
    let mut given = blocks(buffer.len());
    for (block, bytes) in given.iter_mut().zip(&buffer) {
        block.0 = *bytes;
    }
    let mut rows = vec![0; full.rows.len()];
    let clkcr = host.state().clkcr;
    lean::during(script, &mut rows, || {
        lean::rewind(clkcr);
        assert!(host.bare(call, &mut given));
        assert_eq!(lean::counts(), (script.len(), full.rows.len()));
    });
    let rows: Vec<(u32, u32)> = rows.iter().map(|row| ((row >> 32) as u32, *row as u32)).collect();
    assert_eq!(rows, full.rows);
    for (bytes, block) in buffer.iter_mut().zip(&given) {
        *bytes = block.0;
    }
    buffer
}

fn words(blocks: usize) -> Vec<Block> {
    let word = |place: usize| (place as u32).wrapping_mul(0x9e37_79b9);
    (0..blocks)
        .map(|block| std::array::from_fn(|place| word(128 * block + place)))
        .collect()
}

fn bytes(data: &[Block]) -> Vec<[u8; 512]> {
    filled(data).iter().map(|block| block.0).collect()
}

#[test]
fn writes_of_1_16_and_511_blocks() {
    for count in [1, 2, 16, 511] {
        let data = words(count);
        let (index, stop) = if count == 1 { (24, vec![]) } else { (25, short(12, 0)) };
        let script = [short(13, 0x900), self::data(index, &[]), stop, short(13, 0x900)].concat();
        let call = Call::Write { index: 3, data: &data };
        // What is lent stays as it is.
        assert_eq!(both(call, &script, bytes(&data)), bytes(&data));
        let rows = taken().call(call, Feed::Script(&script), ROOM, false).rows;
        let sent: Vec<u32> = rows.iter().filter(|row| row.0 == 12).map(|row| row.1).collect();
        assert_eq!(sent, data.as_flattened());
    }
}

#[test]
fn reads_of_1_16_and_511_blocks() {
    for count in [1, 16, 511] {
        let data = words(count);
        let (index, stop) = if count == 1 { (17, vec![]) } else { (18, short(12, 0)) };
        let read = self::data(index, data.as_flattened());
        let script = [short(13, 0x900), read, stop, short(13, 0x900)].concat();
        let call = Call::Read {
            index: 3,
            blocks: count,
        };
        assert_eq!(both(call, &script, vec![[0; 512]; count]), bytes(&data));
    }
}
