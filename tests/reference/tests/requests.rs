//! Requests to write records: their format, and that the seeded ones meet every case.

use reference::dispatch::Dispatch;
use reference::feed::{masks_bytes, run};
use reference::record::Record;
use reference::request::{play, Request};
use reference::request_cases::Cases;
use reference::request_input::{broken_inputs, request};

/// A request for a quiet record, with its bytes written out.
fn quiet(kind: u8, outbox_length: [u8; 2], fill: u8) -> Vec<u8> {
    let bytes = Record::quiet(if kind == 0 { 1 } else { 25 }).bytes();
    [&[kind], &outbox_length[..], &[fill], &bytes[2..bytes.len() - 2]].concat()
}

/// What is said to such a request if it is written.
fn written(record: Record, behind: Vec<u8>) -> Vec<u8> {
    [vec![0], record.bytes(), behind].concat()
}

#[test]
fn the_answer_and_the_whole_outbox_are_said() {
    let input = [quiet(0, [0, 61], 0xEE), quiet(1, [0, 60], 0xAB), quiet(1, [2, 0x6C], 7)].concat();
    let minor = written(Record::quiet(1), vec![0xEE; 2]);
    let short = [vec![3], vec![0xAB; 60]].concat();
    let major = written(Record::quiet(25), vec![7]);
    assert_eq!(play(&input), [minor, short, major]);
}

#[test]
fn an_outbox_of_1024_is_filled_and_a_longer_one_ends_all() {
    let good = quiet(0, [0, 59], 0);
    let longest = quiet(0, [4, 0], 9);
    let said = play(&[longest, good.clone()].concat());
    assert_eq!(said[0], written(Record::quiet(1), vec![9; 965]));
    assert_eq!(said.len(), 2);
    for length in [[4, 1], [5, 0], [255, 255]] {
        let too_long = quiet(1, length, 9);
        assert_eq!(play(&[good.clone(), too_long, good.clone()].concat()).len(), 1);
    }
}

#[test]
fn another_kind_ends_all() {
    let good = quiet(0, [0, 59], 0);
    for kind in 2..=255 {
        let other = quiet(kind, [0, 59], 0);
        assert_eq!(play(&[good.clone(), other, good.clone()].concat()).len(), 1, "{kind}");
    }
}

#[test]
fn a_request_that_is_cut_off_gets_nothing() {
    let good = quiet(1, [0, 59], 0);
    for whole in [quiet(0, [0, 59], 0), good.clone()] {
        for place in 0..whole.len() {
            assert_eq!(play(&[&good, &whole[..place]].concat()).len(), 1, "{place}");
        }
        assert_eq!(play(&[good.clone(), whole].concat()).len(), 2);
    }
}

#[test]
fn requests_are_read_as_they_are_sent() {
    let requests: Vec<Request> = (0..300).map(request).collect();
    let input: Vec<u8> = requests.iter().flat_map(Request::bytes).collect();
    let said: Vec<Vec<u8>> = requests.iter().map(Request::said).collect();
    assert_eq!(play(&input), said);
}

#[test]
fn in_broken_inputs_bytes_are_left_that_get_nothing() {
    for (name, input) in broken_inputs().iter().skip(1) {
        let mut rest = &input[..];
        for _ in play(input) {
            rest = &rest[if rest[0] == 0 { 59 } else { 619 }..];
        }
        assert!(!rest.is_empty(), "{name}");
    }
}

#[test]
fn seeded_requests_meet_every_case() {
    let mut cases = Cases::default();
    (0..4_000).for_each(|seed| cases.add(&request(seed)));
    cases.each_met(1).unwrap();
    assert!(cases.each_met(4_000).is_err());
}

#[test]
fn a_night_brings_the_reports_of_its_values() {
    for seed in 0..12 {
        let mut night = Dispatch::of(seed, 120);
        let bytes = |request: &Request| request.record.bytes();
        let records: Vec<Vec<u8>> = night.requests.iter().map(bytes).collect();
        let (feed, noisy) = night.feed(&records, 4);
        assert!(noisy > 10);
        let input = [&masks_bytes(&night.masks)[..], &feed].concat();
        assert_eq!(run(&input), night.reports().concat(), "seed {seed}");
    }
}
