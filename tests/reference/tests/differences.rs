//! The modules' differences (document 02, order 10): fuel less oxidizer, signed, in the last six bytes of a report.

mod common;

use common::{Post, FULL_MAP, MAP};
use reference::hall::{
    Hall, BOTH_WAYS, COUNT_ENDED, NOTHING_SETTLED, OUTBOX_SHORT, REPEAT, STALE, TAKEN, WRONG_KIND,
};
use reference::monitor::STORE_LENGTH;
use reference::record::Record;
use reference::report::Report;
use reference::state::{hall_bytes, hall_from, HALL_LENGTH};
use reference::Monitor;

/// Module by module, fuel then oxidizer.
type Quantities = [[u16; 2]; 3];
/// They differ by 300, -120 and 4.
const EARLIER: Quantities = [[700, 400], [380, 500], [504, 500]];
const EARLIER_DIFFERENCES: [i16; 3] = [300, -120, 4];
/// They differ by -17, 1 and 0.
const LATER: Quantities = [[100, 117], [1, 0], [250, 250]];
const LATER_DIFFERENCES: [i16; 3] = [-17, 1, 0];

/// A quiet major record for cycle `n` but for its quantities.
fn weighing(n: u64, quantities: Quantities) -> Record {
    let mut record = Record::quiet(n);
    record.major.as_mut().expect("a major record").quantities = quantities;
    record
}

/// A post that has taken the earlier quantities at 25.
fn weighed() -> Post {
    let mut post = Post::over(MAP);
    assert_eq!(post.take(&weighing(25, EARLIER)).difference, EARLIER_DIFFERENCES);
    post
}

/// Places 34 to 39 of the report on these quantities.
fn last_bytes(quantities: Quantities) -> Vec<u8> {
    let mut outbox = [0xEE; 45];
    let (_, mut monitor) = Monitor::start(MAP);
    let bytes = weighing(25, quantities).bytes();
    assert_eq!(monitor.call(&bytes, &mut outbox), (TAKEN, bytes.len()));
    assert_eq!(outbox[40..], [0xEE; 5]);
    outbox[34..40].to_vec()
}

#[test]
fn they_are_0_when_fresh() {
    let mut post = Post::over(MAP);
    for record in [Record::quiet(0), Record { wire: 1, ..weighing(0, EARLIER) }, Record::quiet(1)] {
        assert_eq!(post.send(&record).difference, [0; 3]);
    }
    assert_eq!(hall_bytes(&Hall::fresh(&FULL_MAP))[600..], [0; 18]);
}

#[test]
fn fuel_above_is_positive_oxidizer_above_negative_and_equal_ones_give_0() {
    for (quantities, difference) in [
        (EARLIER, EARLIER_DIFFERENCES),
        (LATER, LATER_DIFFERENCES),
        ([[500, 516], [516, 500], [500, 500]], [-16, 16, 0]),
        ([[500, 517], [517, 500], [0, 0]], [-17, 17, 0]),
        ([[1_000, 0], [0, 1_000], [1_000, 1_000]], [1_000, -1_000, 0]),
    ] {
        assert_eq!(Post::over(MAP).take(&weighing(25, quantities)).difference, difference);
    }
}

#[test]
fn each_has_two_bytes_in_twos_complement_high_byte_first() {
    for (quantities, bytes) in [
        ([[1_000, 0], [0, 1_000], [500, 499]], [0x03, 0xE8, 0xFC, 0x18, 0x00, 0x01]),
        ([[0, 1], [0, 256], [256, 0]], [0xFF, 0xFF, 0xFF, 0x00, 0x01, 0x00]),
        ([[500, 245], [245, 500], [245, 502]], [0x00, 0xFF, 0xFF, 0x01, 0xFE, 0xFF]),
        ([[7, 7], [16, 0], [0, 16]], [0x00, 0x00, 0x00, 0x10, 0xFF, 0xF0]),
    ] {
        assert_eq!(last_bytes(quantities), bytes, "{quantities:?}");
    }
}

#[test]
fn each_module_has_its_own_place() {
    for module in 0..3 {
        for (banks, bytes) in [([777, 0], [0x03, 0x09]), ([0, 777], [0xFC, 0xF7])] {
            let mut quantities = [[0; 2]; 3];
            quantities[module] = banks;
            let mut expected = vec![0; 6];
            expected[2 * module..2 * module + 2].copy_from_slice(&bytes);
            assert_eq!(last_bytes(quantities), expected, "module {module}");
        }
    }
}

#[test]
fn they_are_held_over_minors_until_the_next_major() {
    let mut post = weighed();
    for n in 26..50 {
        assert_eq!(post.take(&Record::quiet(n)).difference, EARLIER_DIFFERENCES, "cycle {n}");
    }
    assert_eq!(post.take(&weighing(50, LATER)).difference, LATER_DIFFERENCES);
    assert_eq!(post.take(&Record::quiet(51)).difference, LATER_DIFFERENCES);
    // Nothing is added up: the same quantities again give the same.
    assert_eq!(post.take(&weighing(75, LATER)).difference, LATER_DIFFERENCES);
    assert_eq!(post.take(&weighing(100, EARLIER)).difference, EARLIER_DIFFERENCES);
}

#[test]
fn a_missed_major_leaves_them() {
    let mut post = weighed();
    for n in [49, 51, 124, 26 + 3_000] {
        assert_eq!(post.take(&Record::quiet(n)).difference, EARLIER_DIFFERENCES, "cycle {n}");
    }
    assert_eq!(post.take(&weighing(3_050, LATER)).difference, LATER_DIFFERENCES);
}

#[test]
fn a_record_that_is_refused_leaves_them() {
    let mut post = weighed();
    post.take(&Record::quiet(26));
    let both_ways = |mut record: Record| {
        let string = &mut record.major.as_mut().expect("a major record").strings[0];
        (string.inhibit, string.re_enable) = (1, 1);
        record
    };
    let at = |wire, record: Record| Record { wire, ..record };
    for (record, answer) in [
        (weighing(25, LATER), STALE),
        (Record::quiet(24), STALE),
        (at(26, weighing(25, LATER)), REPEAT),
        (Record::quiet(26), REPEAT),
        (at(27, weighing(25, LATER)), WRONG_KIND),
        (at(50, Record::quiet(49)), WRONG_KIND),
        (both_ways(weighing(50, LATER)), BOTH_WAYS),
    ] {
        let report = post.send(&record);
        assert_eq!((report.answer, report.difference), (answer, EARLIER_DIFFERENCES));
    }
    // The cycle that was refused, sent again.
    assert_eq!(post.take(&weighing(50, LATER)).difference, LATER_DIFFERENCES);
}

#[test]
fn the_end_of_the_count_leaves_them() {
    let mut post = weighed();
    post.monitor.hand_in(u32::MAX - 20, 0, [0; STORE_LENGTH]);
    // The multiple of 25 behind it is 4,294,967,300.
    let report = post.send(&weighing(4_294_967_300, LATER));
    assert_eq!((report.answer, report.difference), (COUNT_ENDED, EARLIER_DIFFERENCES));
}

#[test]
fn a_short_outbox_and_a_record_that_is_lost_leave_them() {
    let mut post = weighed();
    let before = post.monitor.clone();
    let bytes = weighing(50, LATER).bytes();
    assert_eq!(post.monitor.call(&bytes, &mut [0; 39]), (OUTBOX_SHORT, 0));
    assert_eq!(post.monitor, before);
    let mut wrong_sum = bytes.clone();
    wrong_sum[618] ^= 1;
    let reserved = Record { path: 0x10, ..weighing(50, LATER) }.bytes();
    let large = weighing(50, [[1_001, 0], [0, 0], [0, 0]]).bytes();
    for lost in [wrong_sum, reserved, large] {
        assert_eq!(post.monitor.call(&lost, &mut [0; 40]), (NOTHING_SETTLED, 619));
        assert_eq!(
            post.take(&Record::quiet(u64::from(post.monitor.hall.n) + 1)).difference,
            EARLIER_DIFFERENCES
        );
    }
}

#[test]
fn path_faults_do_not_matter() {
    for path in 0..16 {
        let mut post = weighed();
        post.take(&Record { path, ..Record::quiet(26) });
        let later = Record { path, ..weighing(50, LATER) };
        assert_eq!(post.take(&later).difference, LATER_DIFFERENCES, "{path:04b}");
        // Nor do paths that are back.
        assert_eq!(post.take(&Record::quiet(51)).difference, LATER_DIFFERENCES, "{path:04b}");
    }
}

/// Quantities all over the range, with those about its ends, the border and what a byte holds.
fn some_quantities() -> Vec<u16> {
    let ends = [1, 2, 15, 16, 17, 18, 255, 256, 257, 983, 984, 985, 998, 999, 1_000];
    (0..1_000).step_by(13).chain(ends).collect()
}

#[test]
fn the_difference_says_what_the_balance_and_the_lesser_say() {
    let all = some_quantities();
    let mut pairs = all.iter().flat_map(|fuel| all.iter().map(|oxidizer| [*fuel, *oxidizer])).cycle();
    for _ in 0..all.len() * all.len() / 3 + 1 {
        let quantities = [(); 3].map(|()| pairs.next().expect("a pair"));
        let mut hall = Hall::fresh(&MAP);
        assert_eq!(hall.settle(&weighing(25, quantities)), TAKEN);
        let report = Report::of(TAKEN, &hall);
        for (module, [fuel, oxidizer]) in quantities.into_iter().enumerate() {
            let difference = report.difference[module];
            assert!((-1_000..=1_000).contains(&difference));
            let is_out_of_balance = difference > 16 || difference < -16;
            assert_eq!(report.balance >> module & 1 == 1, is_out_of_balance, "{fuel} {oxidizer}");
            assert_eq!(report.balance >> (4 + module) & 1 == 1, difference > 0, "{fuel} {oxidizer}");
            // With the lesser it gives both back.
            let lesser = report.lesser[module];
            let banks = match difference > 0 {
                true => [lesser + difference.unsigned_abs(), lesser],
                false => [lesser, lesser + difference.unsigned_abs()],
            };
            assert_eq!(banks, [fuel, oxidizer]);
        }
    }
}

/// No feed brings these; the difference is what is left modulo 65,536.
#[test]
fn quantities_above_1000_handed_in() {
    for (quantities, difference) in [
        ([[65_535, 0], [0, 65_535], [65_535, 65_535]], [-1, 1, 0]),
        ([[32_767, 0], [32_768, 0], [0, 32_768]], [32_767, -32_768, -32_768]),
        ([[40_000, 1], [1, 40_000], [1_001, 0]], [-25_537, 25_537, 1_001]),
    ] {
        let mut hall = Hall::fresh(&MAP);
        assert_eq!(hall.settle(&weighing(25, quantities)), TAKEN);
        assert_eq!(Report::of(TAKEN, &hall).difference, difference, "{quantities:?}");
    }
}

/// The modules of a hall: balanced and 32,767 apart; out of balance and 0 apart; out of balance, the oxidizer the
/// lesser, and -2 apart.
const UNFIT: [u8; 18] = [0, 0, 0, 9, 0x7F, 0xFF, 1, 0, 0, 9, 0, 0, 1, 1, 0xFF, 0xFF, 0xFF, 0xFE];

#[test]
fn a_hall_handed_in_shows_its_differences_until_a_major_is_taken() {
    assert_eq!(HALL_LENGTH, 618);
    let mut bytes = hall_bytes(&Hall::fresh(&MAP));
    bytes[600..].copy_from_slice(&UNFIT);
    let mut post = Post::over(MAP);
    post.monitor.hall = hall_from(&bytes);
    let unfit = [32_767, 0, -2];
    let refused = Record { wire: 2, ..weighing(25, LATER) };
    for (record, answer) in [(Record::quiet(1), TAKEN), (refused, WRONG_KIND), (Record::quiet(26), TAKEN)] {
        let report = post.send(&record);
        assert_eq!((report.answer, report.balance, report.difference), (answer, 0x46, unfit));
        assert_eq!(hall_bytes(&post.monitor.hall)[600..], UNFIT);
    }
    assert_eq!(post.take(&weighing(50, LATER)).difference, LATER_DIFFERENCES);
    let after = [1, 0, 0, 100, 0xFF, 0xEF, 0, 1, 0, 0, 0, 1, 0, 0, 0, 250, 0, 0];
    assert_eq!(hall_bytes(&post.monitor.hall)[600..], after);
}

#[test]
fn a_report_takes_40_bytes_of_an_outbox_of_any_length() {
    for length in 0..=255 {
        let mut post = weighed();
        let before = post.monitor.clone();
        let record = weighing(50, LATER).bytes();
        let mut outbox = vec![0xEE; length];
        let said = post.monitor.call(&record, &mut outbox);
        if length < 40 {
            assert_eq!((said, &post.monitor), ((OUTBOX_SHORT, 0), &before), "{length}");
            assert!(outbox.iter().all(|byte| *byte == 0xEE), "{length}");
        } else {
            assert_eq!(said, (TAKEN, 619), "{length}");
            assert_eq!(outbox[34..40], [0xFF, 0xEF, 0, 1, 0, 0], "{length}");
            assert!(outbox[40..].iter().all(|byte| *byte == 0xEE), "{length}");
        }
    }
}
