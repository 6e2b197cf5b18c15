//! The index with rows of edition 2 beside itself with rows of edition 1.

use ergo_index::{Edition, Second};
use reference::calls;
use reference::segment::Segment;

use crate::index::{convert_row, row_key, Direction, Head, Id, Kind, Lists, PAGE};
use crate::measure::{both, keep, line, Times};

const PARENT: Id = [0x42; 32];

/// A table of rows of 512 boxes, and a head of one number.
fn history(second: bool, rows: usize) -> (Lists, Head) {
    let new = if second { Lists::in_second } else { Lists::new };
    let mut lists = new(1, rows, 1);
    let mut out = vec![0; Second::ROW_LIMIT];
    for number in 0..rows {
        let first = number as i64 * 512 + 1;
        let row = calls::write_segment(&Segment {
            boxes: (first..first + 512).collect(),
            ..Segment::empty()
        });
        let key = row_key(Kind::Box, &PARENT, number as i32);
        if second {
            let written = convert_row(true, &row, &PARENT, 1, number as i32, &mut out).expect("a row");
            lists.table.push(&key, &out[..written]);
        } else {
            lists.table.push(&key, &row);
        }
    }
    (lists, Head::new(&[rows as i64 * 512 + 1], rows as i32))
}

/// The same calls in both editions, in turn: edition 2, then edition 1.
fn sides(rows: usize, calls: u32, mut body: impl FnMut(&mut Lists, &mut Head)) -> (Times, Times) {
    let (mut second, mut first) = (history(true, rows), history(false, rows));
    let body = std::cell::RefCell::new(&mut body);
    both(
        calls,
        || (body.borrow_mut())(&mut second.0, &mut second.1),
        || (body.borrow_mut())(&mut first.0, &mut first.1),
    )
}

/// Lines of edition 2 beside edition 1.
pub fn lines() {
    let told =
        |name: &str, (second, first): (Times, Times)| line(&format!("{name}, edition 2 beside edition 1"), &second, Some(&first));
    told(
        "append, a spill and a flush in 512",
        sides(1, 512, |lists, head| {
            lists.table.count = 0;
            (head.len, head.spills) = (1, 0);
            (0..512).for_each(|n| keep(lists.append(Kind::Box, &PARENT, head, n)));
            assert_eq!((lists.staged.count, lists.flush()), (1, 0));
        }),
    );
    told(
        "pop that brings a row back",
        sides(1, 1, |lists, head| {
            (head.len, head.spills, lists.deleted.count) = (0, 1, 0);
            assert!(lists.pop(Kind::Box, &PARENT, head).is_ok());
        }),
    );
    for rows in [64, 4096] {
        let last = rows as i64 * 512;
        for (name, target) in [("oldest", 1), ("newest", last), ("head", last + 1)] {
            told(
                &format!("spend or unspend at {rows} spills, {name}"),
                sides(rows, 2, |lists, head| {
                    assert_eq!(lists.flip(Direction::Spend, &PARENT, head, target), 0);
                    assert_eq!(lists.flip(Direction::Unspend, &PARENT, head, target), 0);
                    lists.staged.count = 0;
                }),
            );
        }
        told(
            &format!("tally at {rows} spills"),
            sides(rows, 1, |lists, head| keep(lists.tally(&PARENT, head))),
        );
        told(
            &format!("first page of unspent boxes at {rows} spills"),
            sides(rows, 1, |lists, head| {
                let mut page = [0; PAGE];
                assert_eq!(lists.unspent_page(&PARENT, head, 0, PAGE, &mut page), Ok(PAGE));
            }),
        );
        told(
            &format!("flush of nothing at {rows} rows"),
            sides(rows, 1, |lists, _| keep(lists.flush())),
        );
    }
}
