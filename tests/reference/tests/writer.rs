//! The writer of feed records: what it writes, what it refuses, and that its way and the reader's
//! undo each other.

mod common;

use common::{with, with_major, ALL, WIDE_MAP};
use reference::hall::{BOTH_WAYS, TAKEN, WRONG_KIND};
use reference::random::Random;
use reference::reader::look;
use reference::record::{Record, MAJOR_LENGTH, MINOR_LENGTH};
use reference::report::REPORT_LENGTH;
use reference::request_input::request;
use reference::writer::{write, LARGE_QUANTITY, RESERVED_BIT, SHORT_OUTBOX, WRITTEN};
use reference::Monitor;

/// Contents in which each place has its own byte, or nearly so.
fn outbox(length: usize) -> Vec<u8> {
    (0..length).map(|place| (place % 251) as u8).collect()
}

/// The answer and the outbox after it.
fn written(record: &Record, length: usize) -> (u8, Vec<u8>) {
    let mut outbox = outbox(length);
    (write(record, &mut outbox), outbox)
}

fn refused(record: &Record, length: usize, answer: u8) {
    assert_eq!(written(record, length), (answer, outbox(length)), "{record:?}");
}

fn length(record: &Record) -> usize {
    if record.major.is_some() {
        MAJOR_LENGTH
    } else {
        MINOR_LENGTH
    }
}

/// A quiet minor and a quiet major record, each of the right kind.
fn both_kinds() -> [Record; 2] {
    [Record::quiet(1), Record::quiet(25)]
}

/// Seeded records that are written, many of each kind.
fn written_records() -> Vec<Record> {
    let records = (0..2_000).map(|seed| request(seed).record);
    let written = records.filter(|record| written(record, 619).0 == WRITTEN).collect::<Vec<_>>();
    let majors = written.iter().filter(|record| record.major.is_some()).count();
    assert!(majors > 200 && written.len() - majors > 200, "{majors} of {}", written.len());
    written
}

/// As the document has it: added modulo 65,536.
fn added(bytes: &[u8]) -> u16 {
    bytes.iter().fold(0, |sum, byte| sum.wrapping_add((*byte).into()))
}

/// The record with one of the six quantities so.
fn with_quantity(mut record: Record, number: usize, quantity: u16) -> Record {
    record.major.as_mut().expect("a major record").quantities[number / 2][number % 2] = quantity;
    record
}

#[test]
fn first_record_of_the_nights_is_as_printed() {
    let mut printed = vec![0x52, 0x4D, 0x00, 0x01, 0x00];
    for _ in 0..4 {
        printed.extend([0; 12]);
        printed.push(0xFF);
    }
    printed.extend([0x04, 0x9C]);
    assert_eq!(written(&Record::quiet(1), 59), (WRITTEN, printed));
}

#[test]
fn each_value_stands_in_its_place() {
    for record in written_records() {
        let (_, bytes) = written(&record, length(&record));
        let word = |at: usize| u32::from_be_bytes(bytes[at..at + 4].try_into().unwrap());
        let half = |at: usize| u16::from_be_bytes(bytes[at..at + 2].try_into().unwrap());
        assert_eq!(half(0), if record.major.is_some() { 0x524A } else { 0x524D });
        assert_eq!((half(2), bytes[4]), (record.wire, record.path));
        for (s, string) in record.strings.iter().enumerate() {
            assert_eq!(word(5 + 13 * s), string.commanded);
            assert_eq!(word(9 + 13 * s), string.pressure);
            assert_eq!(word(13 + 13 * s), string.driver);
            assert_eq!(bytes[17 + 13 * s], string.valves);
        }
        let Some(major) = record.major else {
            assert_eq!(half(57), added(&bytes[..57]));
            continue;
        };
        for (s, string) in major.strings.iter().enumerate() {
            for (j, pair) in string.temperatures.iter().enumerate() {
                assert_eq!([half(57 + 128 * s + 4 * j), half(59 + 128 * s + 4 * j)], *pair);
            }
            assert_eq!(word(569 + 8 * s), string.inhibit);
            assert_eq!(word(573 + 8 * s), string.re_enable);
            assert_eq!(bytes[601 + s], string.drops);
        }
        for (m, pair) in major.quantities.iter().enumerate() {
            assert_eq!([half(605 + 4 * m), half(607 + 4 * m)], *pair);
        }
        assert_eq!(half(617), added(&bytes[..617]));
    }
}

#[test]
fn temperature_words_of_each_range_are_written_as_they_are() {
    for word in [0, 63, 64, 32_767, 32_768, 65_535_u16] {
        let record = with_major(25, 3, |major| major.temperatures[31] = [word, !word]);
        let (answer, outbox) = written(&record, 619);
        assert_eq!((answer, &outbox[565..567]), (WRITTEN, &word.to_be_bytes()[..]));
        assert_eq!(outbox[567..569], (!word).to_be_bytes());
    }
}

#[test]
fn drop_bytes_are_written_behind_the_re_enable_words_of_all_strings() {
    for drops in 0..=ALL {
        for s in 0..4 {
            let record = with_major(25, s, |major| (major.re_enable, major.drops) = (u32::MAX, drops));
            let (answer, outbox) = written(&record, 619);
            let mut wanted = [0; 4];
            wanted[s] = drops;
            assert_eq!((answer, &outbox[601..605]), (WRITTEN, &wanted[..]), "string {s}");
        }
    }
}

#[test]
fn a_sum_above_65535_loses_what_is_beyond() {
    let mut record = Record::quiet(25);
    for string in &mut record.major.as_mut().expect("a major record").strings {
        string.temperatures = [[0xFFFF; 2]; 32];
    }
    // 82 + 74 + 25 + 4 * 255 + 512 * 255 is 131,761, and twice 65,536 less is 689.
    assert_eq!(written(&record, 619).1[617..], 689_u16.to_be_bytes());
}

#[test]
fn each_reserved_bit_gets_1() {
    for record in both_kinds() {
        for bit in 4..8 {
            let mut path = record.clone();
            path.path |= 1 << bit;
            refused(&path, 700, RESERVED_BIT);
        }
    }
}

#[test]
fn no_bit_of_a_valve_byte_or_of_a_drop_byte_is_reserved() {
    for s in 0..4 {
        for byte in 0..=ALL {
            for mut record in both_kinds() {
                record.strings[s].valves = byte;
                assert_eq!(written(&record, length(&record)).1[17 + 13 * s], byte);
            }
            let record = with_major(25, s, |major| major.drops = byte);
            assert_eq!(written(&record, 619).0, WRITTEN, "string {s}, {byte:02x}");
        }
    }
}

#[test]
fn each_quantity_above_1000_gets_2() {
    for number in 0..6 {
        for quantity in [1_001, 1_024, 32_768, 65_535] {
            refused(&with_quantity(Record::quiet(25), number, quantity), 700, LARGE_QUANTITY);
        }
        let full = with_quantity(Record::quiet(25), number, 1_000);
        let (answer, outbox) = written(&full, 619);
        assert_eq!((answer, &outbox[605 + 2 * number..][..2]), (WRITTEN, &[0x03, 0xE8][..]));
    }
}

#[test]
fn each_short_outbox_gets_3() {
    for record in both_kinds() {
        for short in 0..length(&record) {
            refused(&record, short, SHORT_OUTBOX);
        }
    }
}

#[test]
fn bytes_behind_the_record_stay() {
    for record in both_kinds() {
        let (_, exact) = written(&record, length(&record));
        for longer in [0, 1, 2, 100, 1_000] {
            let all = length(&record) + longer;
            let wanted = [&exact[..], &outbox(all)[exact.len()..]].concat();
            assert_eq!(written(&record, all), (WRITTEN, wanted));
        }
    }
}

#[test]
fn of_several_faults_the_first_in_order_is_named() {
    let reserved = |mut record: Record| {
        record.path |= 0x80;
        record
    };
    let large = |record| with_quantity(record, 5, 1_001);
    let [minor, major] = both_kinds();
    refused(&reserved(minor), 58, RESERVED_BIT);
    refused(&reserved(large(major.clone())), 618, RESERVED_BIT);
    refused(&reserved(large(major.clone())), 619, RESERVED_BIT);
    refused(&reserved(major.clone()), 618, RESERVED_BIT);
    refused(&reserved(major.clone()), 0, RESERVED_BIT);
    refused(&large(major.clone()), 618, LARGE_QUANTITY);
    refused(&large(major), 0, LARGE_QUANTITY);
}

#[test]
fn what_the_monitor_may_refuse_is_written() {
    let mut major_of_1 = Record::quiet(25);
    major_of_1.wire = 1;
    let mut minor_of_25 = Record::quiet(1);
    minor_of_25.wire = 25;
    let both_ways = with_major(25, 2, |major| (major.inhibit, major.re_enable) = (6, 3));
    let no_valve_open = with(1, 0, |words| words.valves = 0);
    for (record, answer) in
        [(major_of_1, WRONG_KIND), (minor_of_25, WRONG_KIND), (both_ways, BOTH_WAYS), (no_valve_open, TAKEN)]
    {
        let (said, bytes) = written(&record, length(&record));
        assert_eq!(said, WRITTEN, "{record:?}");
        let (_, mut monitor) = Monitor::start(WIDE_MAP);
        assert_eq!(monitor.call(&bytes, &mut [0; REPORT_LENGTH]), (answer, bytes.len()), "{record:?}");
    }
}

#[test]
fn an_empty_reader_gives_back_what_was_written() {
    for record in written_records() {
        let (_, mut bytes) = written(&record, length(&record));
        assert_eq!(look(&mut bytes), Some(record));
        assert!(bytes.is_empty());
    }
}

#[test]
fn what_a_settled_record_held_is_written_as_its_bytes() {
    let mut random = Random(11);
    for number in 0..2_000 {
        let bytes = settled_bytes(number % 2 == 1, &mut random);
        let record = look(&mut bytes.clone()).expect("a good record");
        assert_eq!(written(&record, bytes.len()), (WRITTEN, bytes));
    }
}

/// Random bytes that are a good record.
fn settled_bytes(is_major: bool, random: &mut Random) -> Vec<u8> {
    let mut bytes = random.bytes(if is_major { 617 } else { 57 });
    bytes[..2].copy_from_slice(&[0x52, if is_major { 0x4A } else { 0x4D }]);
    bytes[4] %= 16;
    for place in (605..bytes.len()).step_by(2) {
        let any = random.below(1_001) as u16;
        bytes[place..place + 2].copy_from_slice(&random.pick(&[any, 0, 1_000]).to_be_bytes());
    }
    bytes.extend(added(&bytes).to_be_bytes());
    bytes
}
