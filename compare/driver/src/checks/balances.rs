//! Balances: boxes added and subtracted, at random and around 128 tokens and the limits of 64 bits.

use reference::segment::Segment;

use super::Size;
use crate::call::Call;
use crate::index::{Id, Lists};
use crate::random::Random;
use crate::report::{shrink, Report};
use crate::sides::Sides;

fn id(n: u64) -> Id {
    let mut id = [n as u8; 32];
    id[31] = (n >> 8) as u8;
    id
}

fn amount(random: &mut Random) -> i64 {
    match random.below(12) {
        0 => random.long(),
        1 => random.pick(&[i64::MAX, i64::MIN, i64::MAX / 2 + 1]),
        2 => -(random.below(4) as i64),
        _ => random.below(6) as i64,
    }
}

/// A box that draws its tokens from `ids` ids.
fn call(ids: u64, longest: u64, random: &mut Random) -> Call {
    let tokens = (0..random.below(longest + 1))
        .map(|_| (id(random.below(ids)), amount(random)))
        .collect();
    let nanos = amount(random);
    if random.once_in(2) {
        Call::Credit(nanos, tokens)
    } else {
        Call::Debit(nanos, tokens)
    }
}

/// The first difference of a list of boxes.
fn differs(calls: &[Call], report: &mut Report) -> Option<String> {
    let mut sides = Sides::new(Lists::new(0, 0, 0));
    sides.add_parent([0; 32], Segment::empty());
    calls.iter().find_map(|call| match sides.call(0, call, report) {
        Err(text) => Some(text),
        Ok(_) => sides.state_differs(),
    })
}

fn check(calls: &[Call], report: &mut Report) {
    if differs(calls, report).is_some() && report.wants("add_box, subtract_box") {
        let quiet = |calls: &[Call]| differs(calls, &mut Report::default());
        let small = shrink(calls, |c| quiet(c).is_some());
        report.difference("add_box, subtract_box", format!("{small:?}: {:?}", quiet(&small)));
    }
}

/// Every list of three boxes over a few nanoErgs and token lists.
fn short_lists(report: &mut Report) {
    let (a, b) = (id(1), id(2));
    let lists = [
        vec![],
        vec![(a, 1)],
        vec![(a, 2)],
        vec![(b, 1)],
        vec![(a, 0)],
        vec![(a, -1)],
        vec![(b, 1), (a, 1), (b, 1)],
    ];
    let mut boxes = Vec::new();
    for nanos in [0, 3, -2] {
        for tokens in &lists {
            boxes.push(Call::Credit(nanos, tokens.clone()));
            boxes.push(Call::Debit(nanos, tokens.clone()));
        }
    }
    for first in &boxes {
        for second in &boxes {
            for third in &boxes {
                check(&[first.clone(), second.clone(), third.clone()], report);
            }
        }
    }
}

pub fn run(size: Size, report: &mut Report) {
    report.phase("balances");
    short_lists(report);
    let mut random = Random::new(5);
    let sequences = size.many / 40;
    for i in 0..sequences {
        // a few ids that meet often; or as many as stand around the limit of 128
        let calls: Vec<Call> = if random.once_in(12) {
            let first = (0..126 + random.below(4))
                .map(|n| (id(n), 1 + amount(&mut random).saturating_abs().min(1 << 40)))
                .collect();
            let mut calls = vec![Call::Credit(5, first)];
            calls.extend((0..8).map(|_| call(135, 6, &mut random)));
            calls
        } else {
            let ids = 1 + random.below(5);
            (0..24).map(|_| call(ids, 4, &mut random)).collect()
        };
        check(&calls, report);
        report.progress(i, sequences);
    }
}
