//! The index with a summary beside itself without one.

use reference::calls;
use reference::segment::Segment;

use crate::index::{row_key, Batch, Direction, Head, Id, Kind, Lists, Summary};
use crate::measure::{alone, both, keep, line, Curve};

const PARENT: Id = [0x42; 32];

/// Rows that a block of spends reaches.
const ROWS: usize = 16;

/// Rows of 512 boxes, from this spill on.
fn rows(first: usize, count: usize) -> Lists {
    let mut lists = Lists::new(ROWS, count, 1);
    for number in first..first + count {
        let row = Segment {
            boxes: (0..512).map(|n| number as i64 * 512 + 1 + n).collect(),
            ..Segment::empty()
        };
        lists
            .table
            .push(&row_key(Kind::Box, &PARENT, number as i32), &calls::write_segment(&row));
    }
    lists
}

fn spent_and_unspent(targets: &[i64], lists: &mut Lists, mut flip: impl FnMut(&mut Lists, Direction, i64) -> u8) {
    for direction in [Direction::Spend, Direction::Unspend] {
        for target in targets {
            assert_eq!(flip(lists, direction, *target), 0);
        }
    }
    lists.staged.count = 0;
}

/// A line for each call, and a curve for tallies and spends with and without a summary.
pub fn lines() -> [Curve<'static>; 4] {
    let mut curves: [Curve; 4] = [
        ("tally", "#c0392b", Vec::new()),
        ("with a summary", "#1b6ca8", Vec::new()),
        ("spend in a batch", "#e67e22", Vec::new()),
        ("with a summary", "#27ae60", Vec::new()),
    ];
    for spills in [64, 512, 4096] {
        let mut lists = rows(0, spills);
        let mut head = Head::new(&[spills as i64 * 512 + 1], spills as i32);
        let mut summary = Summary::new(spills);
        let times = alone(1, || assert_eq!(summary.make(&lists, &PARENT, &head), 0));
        line(&format!("summary made from {spills} rows"), &times, None);

        let (with, without) = both(1, || keep(summary.tally(&head)), || keep(lists.tally(&PARENT, &head)));
        line(
            &format!("tally at {spills} spills, with a summary beside without"),
            &with,
            Some(&without),
        );
        curves[0].2.push((spills as f64, without.median()));
        curves[1].2.push((spills as f64, with.median()));

        let mut other = (lists.clone(), head.clone());
        for (name, target) in [("oldest", 1), ("newest", spills as i64 * 512)] {
            let (with, without) = both(
                2,
                || spent_and_unspent(&[target], &mut lists, |l, d, t| summary.flip(l, d, &PARENT, &mut head, t)),
                || spent_and_unspent(&[target], &mut other.0, |l, d, t| l.flip(d, &PARENT, &mut other.1, t)),
            );
            let name = format!("spend or unspend at {spills} spills, {name}, with a summary beside without");
            line(&name, &with, Some(&without));
        }

        // with a summary the rows that are searched suffice as a table; without one all rows, in one batch
        let first = (spills - ROWS) / 2;
        let targets: Vec<i64> = (first..first + ROWS).map(|row| row as i64 * 512 + 100).collect();
        let mut few = rows(first, ROWS);
        let mut batch = Batch::new(&PARENT, &head);
        targets.iter().for_each(|target| batch.flip(Direction::Spend, *target));
        targets.iter().for_each(|target| batch.flip(Direction::Unspend, *target));
        let (with, without) = both(
            2 * ROWS as u32,
            || spent_and_unspent(&targets, &mut few, |l, d, t| summary.flip(l, d, &PARENT, &mut head, t)),
            || {
                batch.run(&mut lists);
                lists.staged.count = 0;
            },
        );
        let name = format!(
            "spend or unspend at {spills} spills, with a summary and a table of the rows reached, beside a batch without"
        );
        line(&name, &with, Some(&without));
        curves[2].2.push((spills as f64, without.median()));
        curves[3].2.push((spills as f64, with.median()));
    }
    curves
}
