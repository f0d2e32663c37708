//! Making a host, and calls beyond what a book can hold.

use oracle_driver::bench::Feed;
use oracle_driver::right::Host;
use oracle_driver::{Call, Host as _, Settings};

const GOOD: Settings = Settings {
    source: 8_000_000,
    poll_limit: 1,
    ready_attempts: 1,
    data_timeout: 1,
    software_timeout: 1,
    bypass: false,
    wide: false,
};

fn number(settings: Settings) -> u8 {
    Host::make(&settings).err().unwrap_or(0)
}

#[test]
fn a_setting_of_0_comes_before_the_source() {
    for source in [0, 1, 2, 8_000_000, 102_800_000, 102_800_001, u32::MAX] {
        let good = Settings { source, ..GOOD };
        let due = if (2..=102_800_000).contains(&source) { 0 } else { 17 };
        assert_eq!(number(good), due);
        assert_eq!(number(Settings { poll_limit: 0, ..good }), 18);
        assert_eq!(
            number(Settings {
                ready_attempts: 0,
                ..good
            }),
            18
        );
        assert_eq!(
            number(Settings {
                data_timeout: 0,
                ..good
            }),
            18
        );
        assert_eq!(
            number(Settings {
                software_timeout: 0,
                ..good
            }),
            18
        );
    }
}

#[test]
fn a_new_host_holds_the_first_clock_and_no_card() {
    let state = Host::make(&GOOD).ok().unwrap().state();
    assert_eq!(
        (state.clock, state.sdr25, state.gated, state.clkcr),
        (400_000, false, false, 0)
    );
    assert!(state.record.is_none());
}

#[test]
fn two_hosts_do_not_share_registers() {
    let mut one = Host::make(&GOOD).ok().unwrap();
    let two = Host::make(&Settings {
        source: 16_000_000,
        ..GOOD
    })
    .ok()
    .unwrap();
    // Idle, CMD0 never completes: the guard's reset leaves CLKCR at 0.
    let outcome = one.call(Call::Initialise { frequency: 1 }, Feed::Script(&[0, 0, 0]), 100, false);
    assert_eq!(
        (outcome.answer, outcome.words_used, outcome.rows.len()),
        (2, 3, 10 + 4 + 3 + 10)
    );
    assert_eq!(outcome.rows[10..14], [(2, 18), (1, 3), (2, 274), (11, 1_600)]);
    assert_eq!((one.state().clock, two.state().clock), (400_000, 400_000));
}
