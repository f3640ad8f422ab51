//! Final conditions: which are accepted, and where a run stops because of one.

mod common;
use common::*;
use terms::{Report, Settings};

/// The word of a group's joint.
const AND: u8 = 9;
const OR: u8 = 10;

/// Thread 0 ends with 5 in register 0, thread 1 with 0 and then with 1 in its register 3.
fn program() -> Vec<u8> {
    table(&[5], &[&[load(0, RELAXED, 0)], &[spurious(3)]])
}

fn compare(sign: u8, thread: u8, register: u8, number: u64) -> Vec<u8> {
    let mut words = vec![sign, thread, register];
    words.extend(number.to_le_bytes());
    words
}

fn join(joint: u8, members: &[&[u8]]) -> Vec<u8> {
    let mut words = vec![7];
    for (place, member) in members.iter().enumerate() {
        if place > 0 {
            words.push(joint);
        }
        words.extend_from_slice(member);
    }
    words.push(8);
    words
}

/// The answer, and how many executions it took.
fn answer(claim: &[u8]) -> (u64, u64) {
    let report = run_claimed(&program(), claim, &settings()).report;
    (report.answer, report.executions)
}

fn refused(claim: &[u8]) {
    let report = run_claimed(&program(), claim, &settings()).report;
    assert_eq!(report, Report::refusal(5, 255, 255), "{claim:?}");
}

#[test]
fn every_sign() {
    let (least, most) = (0, u64::MAX);
    for (sign, met) in [
        (1, [false, false, true, false, false]),
        (2, [true, true, false, true, true]),
        (3, [false, false, false, true, true]),
        (4, [false, false, true, true, true]),
        (5, [true, true, false, false, false]),
        (6, [true, true, true, false, false]),
    ] {
        for (number, met) in [least, 4, 5, 6, most].into_iter().zip(met) {
            let wanted = if met { (0, 2) } else { (18, 1) };
            assert_eq!(
                answer(&compare(sign, 0, 0, number)),
                wanted,
                "{sign} {number}"
            );
        }
    }
}

#[test]
fn it_is_tried_at_each_end() {
    assert_eq!(answer(&[]), (0, 2));
    assert_eq!(answer(&compare(1, 1, 3, 1)), (18, 1));
    assert_eq!(answer(&compare(1, 1, 3, 0)), (18, 2));
    let once = Settings {
        executions: 1,
        ..settings()
    };
    let report = |claim: &[u8]| run_claimed(&program(), claim, &once).report;
    assert_eq!(report(&compare(1, 1, 3, 0)).answer, 1);
    let stopped = report(&compare(1, 1, 3, 1));
    let without = report(&[]);
    assert_eq!((without.answer, without.opened, without.open), (1, 1, 1));
    assert_eq!(
        stopped,
        Report {
            answer: 18,
            ..without
        }
    );
}

#[test]
fn groups() {
    let [yes, no] = [compare(1, 0, 0, 5), compare(2, 0, 0, 5)];
    let (met, unmet) = ((0, 2), (18, 1));
    for (joint, members, wanted) in [
        (AND, [&yes, &yes, &yes], met),
        (AND, [&no, &yes, &yes], unmet),
        (AND, [&yes, &yes, &no], unmet),
        (OR, [&no, &no, &no], unmet),
        (OR, [&yes, &no, &no], met),
        (OR, [&no, &no, &yes], met),
    ] {
        let group = join(joint, &members.map(Vec::as_slice));
        assert_eq!(answer(&group), wanted);
        // A group counts as one member, whatever stands beside it.
        assert_eq!(answer(&join(OR, &[&no, &group])), wanted);
        assert_eq!(answer(&join(AND, &[&group, &yes])), wanted);
    }
}

#[test]
fn depth() {
    let mut claim = compare(1, 0, 0, 5);
    for _ in 0..8 {
        claim = join(AND, &[&claim]);
    }
    assert_eq!(answer(&claim), (0, 2));
    assert_eq!(
        answer(&join(
            AND,
            &[&claim[1..claim.len() - 1], &claim[1..claim.len() - 1]]
        )),
        (0, 2)
    );
    refused(&join(AND, &[&claim]));
}

#[test]
fn what_is_no_claim() {
    let yes = compare(1, 0, 0, 5);
    refused(&compare(0, 0, 0, 5));
    refused(&compare(11, 0, 0, 5));
    refused(&compare(1, 2, 0, 5));
    refused(&compare(1, 0, 4, 5));
    refused(&yes[..10]);
    refused(&[&yes[..], &[0]].concat());
    refused(&[&yes[..], &[8]].concat());
    refused(&[&yes[..], &[AND], &yes].concat());
    refused(&[&yes[..], &yes].concat());
    refused(&[7, 8]);
    refused(&[7]);
    refused(&[8]);
    refused(&[AND]);
    let group = join(OR, &[&yes, &yes]);
    refused(&group[1..]);
    refused(&group[..group.len() - 1]);
    refused(&[&group[..], &group].concat());
    let mixed = [&[7][..], &yes, &[AND], &yes, &[OR], &yes, &[8]].concat();
    refused(&mixed);
    let trailing = [&[7][..], &yes, &[AND, 8]].concat();
    refused(&trailing);
}

#[test]
fn length() {
    let yes = compare(1, 0, 0, 5);
    let mut members = vec![yes.as_slice(); 84];
    let inner = join(OR, &[&yes]);
    members.push(&inner);
    let longest = join(AND, &members);
    assert_eq!((longest.len(), answer(&longest)), (1_023, (0, 2)));
    members[0] = &inner;
    let longer = join(AND, &members);
    assert_eq!(longer.len(), 1_025);
    refused(&longer);
}
