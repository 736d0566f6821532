//! Pairs of nights that agree on what is one tenant's: the reports show it the same of its manifold, and where they
//! would not, that is seen.

use reference::feed::run;
use reference::hall::TAKEN;
use reference::report::REPORT_LENGTH;
use reference::tenant::{taken, Tenant};
use reference::tenant_cases::TenantCases;
use reference::tenants::pair;

#[test]
fn what_the_tenant_sees_does_not_depend_on_the_others() {
    let (mut compared, mut with_close_bit) = (0, 0);
    for seed in 0..64 {
        let pair = pair(seed);
        let [one, other] = pair.inputs.each_ref().map(|input| taken(input));
        pair.tenant.agree(&one, &other).unwrap_or_else(|place| panic!("seed {seed}: {place}"));
        let [one, other] = pair.inputs.map(|input| run(&input));
        compared +=
            pair.tenant.sees_the_same(&one, &other).unwrap_or_else(|why| panic!("seed {seed}: {why}"));
        let closes = |report| matches!(pair.tenant.sees(report), (1.., true));
        with_close_bit += u64::from(one.chunks(REPORT_LENGTH).any(closes));
    }
    assert!(compared > 5_000 && with_close_bit >= 16, "{compared}, {with_close_bit}");
}

#[test]
fn a_few_pairs_meet_each_case() {
    let mut cases = TenantCases::default();
    (1_000..1_096).for_each(|seed| cases.add(&pair(seed)));
    cases.each_met(2).unwrap();
    assert!(cases.each_met(90).is_err());
}

/// A report with this answer, and one bit of it set from its fail words on.
fn report(answer: u8, bit: usize) -> Vec<u8> {
    let mut report = vec![0; REPORT_LENGTH];
    report[2] = answer;
    report[bit / 8] |= 0x80 >> (bit % 8);
    report
}

const NOTHING_FAILED: usize = 3 * 8; // the highest bit of the cycle number

/// The tenant's fail bits and close bit are compared, each of them, and no other bit.
#[test]
fn each_bit_of_the_manifold_is_compared_and_no_other() {
    let tenant = Tenant { string: 2, manifold: 5, mask: 0x8010_0F01 };
    let quiet = report(TAKEN, NOTHING_FAILED);
    let is_compared = |bit| tenant.sees_the_same(&quiet, &report(TAKEN, bit)).is_err();
    let compared: Vec<usize> = (24..8 * REPORT_LENGTH).filter(|bit| is_compared(*bit)).collect();
    let fail_word = 8 * (7 + 5 * 2);
    let jets = [31, 20, 11, 10, 9, 8, 0].map(|jet| fail_word + 31 - jet);
    assert_eq!(compared, [&jets[..], &[fail_word + 32 + 7 - 5]].concat());
}

/// A report is compared with those of the other night that have as many records taken up to them, refused ones too,
/// and with no others.
#[test]
fn reports_of_equally_many_taken_are_compared() {
    let tenant = Tenant { string: 0, manifold: 0, mask: 1 };
    let failed = 8 * 7 + 31;
    let (quiet, refused) = (report(TAKEN, NOTHING_FAILED), report(1, NOTHING_FAILED));
    let (fails, refused_fails) = (report(TAKEN, failed), report(1, failed));
    let compare = |one: &[&Vec<u8>], other: &[&Vec<u8>]| {
        let reports =
            |reports: &[&Vec<u8>]| reports.iter().flat_map(|report| (*report).clone()).collect::<Vec<u8>>();
        tenant.sees_the_same(&reports(one), &reports(other))
    };
    assert_eq!(compare(&[&quiet, &fails], &[&quiet, &fails]), Ok(2));
    assert_eq!(compare(&[&refused, &quiet, &fails], &[&quiet, &refused, &fails, &refused_fails]), Ok(4));
    assert_eq!(compare(&[&refused, &refused, &quiet], &[&refused, &refused]), Ok(4));
    assert_eq!(compare(&[&quiet, &fails], &[&quiet]), Ok(1));
    assert!(compare(&[&quiet, &fails], &[&fails, &quiet]).is_err());
    assert!(compare(&[&quiet, &refused_fails], &[&quiet]).is_err());
    assert!(compare(&[&refused_fails], &[&refused]).is_err());
    assert!(compare(&[&quiet, &fails], &[&quiet, &fails, &refused]).is_err());
}
