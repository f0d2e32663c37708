//! The field of an answer 13, place by place.

mod card;

use oracle_bench_book::{events, lines, trace, Book, Entry};
use oracle_driver::host::Leaves;
use oracle_driver::script::{initialisation, long, short};
use oracle_driver::{right, Call};
use oracle_model::generate;
use oracle_paper as paper;
use oracle_paper::asked;
use oracle_paper::judging::{self, Judging};
use oracle_paper::telling::{self, without_fields};
use oracle_paper::unsupported::{Cause, Field};

use card::{run, Card, CALL, GOOD, SETTINGS};

/// 13 and its field, as the C functions have them.
fn refused(field: u64) -> u64 {
    13 << 56 | field
}

/// Answer and field; the Rust, where it is asked, has all but the field.
fn told(script: &[u32]) -> (u8, Option<u8>) {
    let document = run::<paper::Host>(script);
    let rust = run::<asked::Host>(script);
    assert_eq!(rust, without_fields(|| run::<paper::Host>(script)));
    assert_eq!(rust.field, None);
    (document.answer, document.field)
}

#[test]
fn the_numbers_are_one_to_eight_in_the_order_listed() {
    let fields = [
        Field::CsdVersion,
        Field::BlockLength,
        Field::RateUnit,
        Field::RateValue,
        Field::RateReservedBit,
        Field::CsdAgainstOcr,
        Field::Voltage,
        Field::ApplicationCommand,
    ];
    assert_eq!(fields.map(Field::number), [1, 2, 3, 4, 5, 6, 7, 8]);
}

#[test]
fn of_the_256_rates() {
    let count = |answer: u64| (0..=255).filter(|byte| paper::Leaves::rate(*byte) == answer).count();
    // Half have the reserved bit; of the rest half have a unit over 3; of those left 4 of 64 have no value.
    assert_eq!([5, 3, 4].map(|field| count(refused(field))), [128, 64, 4]);
    assert_eq!(
        (0..=255).filter(|byte| paper::Leaves::rate(*byte) >> 56 == 0).count(),
        60
    );
}

#[test]
fn of_a_rate_that_breaks_several_rules() {
    let rates = [
        (0x84, 5),
        (0x80, 5),
        (0x8c, 5),
        (0x8a, 5),
        (0x04, 3),
        (0x0c, 3),
        (0x02, 4),
    ];
    for (byte, field) in rates {
        assert_eq!(paper::Leaves::rate(byte), refused(field.into()), "{byte:#x}");
        let card = Card {
            csd: [0x4000_0000 | u32::from(byte), 0x0009_0000],
            ..GOOD
        };
        assert_eq!(told(&card.script()), (13, Some(field)), "{byte:#x}");
    }
}

#[test]
fn of_a_rate_that_is_no_byte() {
    assert_eq!(paper::Leaves::wide_rate(0x32), 25_000_000);
    assert_eq!(paper::Leaves::wide_rate(0x04), refused(3));
    for rate in [0x100, 0x104, 0x132, 0x8000_0032, u32::MAX] {
        assert_eq!(paper::Leaves::wide_rate(rate), refused(5), "{rate:#x}");
    }
}

/// Both come before the block length, so this may be any.
#[test]
fn of_csd_version_and_ocr() {
    let (version, comparison) = ((13, Some(1)), (13, Some(6)));
    for length in 0..16 {
        let of = |high, versions: [u32; 3]| versions.map(|version| told(&Card::of(high, version, length).script()));
        assert_eq!(of(true, [0, 2, 3]), [comparison; 3], "{length}");
        assert_eq!(of(false, [1, 2, 3]), [comparison, version, version], "{length}");
    }
}

#[test]
fn of_the_block_length() {
    for length in 0..16 {
        for (version, well) in [(0, (9..=11).contains(&length)), (1, length == 9)] {
            let due = if well { (0, None) } else { (13, Some(2)) };
            let script = Card::of(version == 1, version, length).script();
            assert_eq!(told(&script), due, "version {version}, {length}");
        }
    }
}

#[test]
fn of_version_and_block_length_in_the_plain_function() {
    for length in 0..16 {
        for size in [0, 0x3f_ffff] {
            let count = |version: u128| {
                let csd = version << 126 | length << 80 | size << 48;
                paper::Leaves::count((csd >> 64) as u64, csd as u64)
            };
            match length {
                9..=11 => assert_eq!(count(0) >> 56, 0, "{length}"),
                _ => assert_eq!(count(0), refused(2), "{length}"),
            }
            let high = match length {
                9 => (size as u64 + 1) * 1_024,
                _ => 0x0d00_0000_0000_0002,
            };
            assert_eq!(count(1), high, "{length}");
            assert_eq!([count(2), count(3)], [refused(1); 2], "{length}");
        }
    }
}

#[test]
fn of_the_voltage_powered_up_or_not() {
    for ocr in [0xc000_0000, 0x4000_0000, 0x400f_ff00] {
        assert_eq!(told(&Card { ocr, ..GOOD }.script()), (13, Some(7)), "{ocr:#x}");
    }
}

#[test]
fn of_an_application_command_at_each_cmd55() {
    for place in 0..3 {
        let mut card = GOOD;
        card.taken[place] = 0x900;
        assert_eq!(told(&card.script()), (13, Some(8)), "{place}");
    }
    // The second attempt of ACMD41.
    let busy = [short(55, 0x20), long([0x4030_0000, 0, 0, 0])].concat();
    let script = GOOD.script();
    let later = [&script[..10], &busy, &short(55, 0)].concat();
    assert_eq!(told(&later), (13, Some(8)));
}

/// A book of an initialisation that is refused, one that is not, and a status call that is.
fn book() -> Vec<u8> {
    let entry = |call: Call<'_>, script| Entry {
        call: call.kept(),
        script,
    };
    let voltage = Card {
        ocr: 0xc000_0000,
        ..GOOD
    };
    let entries = vec![
        entry(CALL, voltage.script()),
        entry(CALL, initialisation(0)),
        entry(Call::Status, short(55, 0)),
    ];
    let settings = SETTINGS;
    Book { settings, entries }.bytes()
}

#[test]
fn in_the_line_and_nowhere_else() {
    let (mut document, mut rust) = (Vec::new(), Vec::new());
    lines::<paper::Host>(&book(), &mut document);
    lines::<right::Host>(&book(), &mut rust);
    let document = String::from_utf8(document).unwrap();
    let lines: Vec<&str> = document.lines().collect();
    assert_eq!(lines[0], "host answer 0");
    assert_eq!(lines[1], "1 answer 13 field 7 words 23 rows 36");
    assert!(lines[2].starts_with("2 answer 0 words "));
    assert_eq!(lines[3], "3 answer 13 field 8 words 7 rows 5");
    let plain = document.replace(" 13 field 7 ", " 13 ").replace(" 13 field 8 ", " 13 ");
    assert_eq!(String::from_utf8(rust).unwrap(), plain);
}

#[test]
fn in_generated_books_at_13_and_at_no_other_answer() {
    for k in 1..=400 {
        let book = generate::book(97, k);
        for print in [trace::<paper::Host>, events::<paper::Host>] {
            let mut text = Vec::new();
            print(&book, 4_096, &mut text);
            for line in String::from_utf8(text).unwrap().lines() {
                let words: Vec<&str> = line.split(' ').collect();
                let field = words.get(3) == Some(&"field");
                assert_eq!(words.get(1..3) == Some(&["answer", "13"][..]), field, "{line}");
                assert_eq!(line.contains("field"), field, "{line}");
            }
        }
    }
}

#[test]
fn a_wrong_way_of_telling_ends_with_what_it_was_for() {
    let tell = |_: Cause| Some(Field::Voltage);
    let wrong = telling::with(tell, || paper::Leaves::rate(0x04));
    assert_eq!((wrong, paper::Leaves::rate(0x04)), (refused(7), refused(3)));
    let caught = std::panic::catch_unwind(|| telling::with::<u8>(tell, || panic!("within")));
    assert!(caught.is_err());
    assert_eq!(paper::Leaves::rate(0x04), refused(3));
}

#[test]
fn a_wrong_way_of_judging_ends_with_what_it_was_for() {
    let unseen = Judging {
        allows: |_, _| true,
        ..judging::RIGHTLY
    };
    let count = || paper::Leaves::count(1 << 62 | 10 << 16, 0);
    assert_eq!((judging::with(unseen, count), count()), (1_024, refused(2)));
    let caught = std::panic::catch_unwind(|| judging::with::<u8>(unseen, || panic!("within")));
    assert!(caught.is_err());
    assert_eq!(count(), refused(2));
}
