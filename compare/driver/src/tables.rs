//! The index alone over large tables: what a single call costs by the number of rows, a tally and a page by the number of spills, and what a flush pays for
//! the room of the staged spills.

use reference::calls;
use reference::segment::Segment;

use crate::index::{row_key, Direction, Head, Id, Kind, Lists, Records, PAGE};
use crate::measure::{alone, keep, line, Curve};

const PARENT: Id = [0x42; 32];

/// Rows in the table: a record is 10,288 bytes, so that the last is 1.03 GB.
const ROWS: [usize; 7] = [64, 512, 4_096, 8_192, 8_193, 20_000, 100_000];

/// A table of rows of 512 boxes, and a head of one number.
fn history(rows: usize) -> (Lists, Head) {
    let mut lists = Lists::new(1, rows, 1);
    for number in 0..rows {
        let first = number as i64 * 512 + 1;
        let row = Segment {
            boxes: (first..first + 512).collect(),
            ..Segment::empty()
        };
        lists
            .table
            .push(&row_key(Kind::Box, &PARENT, number as i32), &calls::write_segment(&row));
    }
    (lists, Head::new(&[rows as i64 * 512 + 1], rows as i32))
}

/// A line for each call and table, and a curve for each call.
pub fn by_rows() -> [Curve<'static>; 4] {
    let mut curves: [Curve; 4] = [
        ("refusal 25", "#1b6ca8", Vec::new()),
        ("pop from the head", "#27ae60", Vec::new()),
        ("spend of the oldest", "#c0392b", Vec::new()),
        ("flush of nothing", "#8e44ad", Vec::new()),
    ];
    for rows in ROWS {
        let (mut lists, mut head) = history(rows);
        let first = head.clone();
        let times = [
            alone(1, || keep(lists.inspect(&PARENT).is_ok())),
            alone(1, || {
                head.clone_from(&first);
                keep(lists.pop(Kind::Box, &PARENT, &mut head).is_ok())
            }),
            alone(2, || {
                keep(lists.flip(Direction::Spend, &PARENT, &mut head, 1));
                keep(lists.flip(Direction::Unspend, &PARENT, &mut head, 1));
                lists.staged.count = 0;
            }),
            alone(1, || keep(lists.flush())),
        ];
        for (curve, times) in curves.iter_mut().zip(&times) {
            line(&format!("{} at {rows} rows", curve.0), times, None);
            curve.2.push((rows as f64, times.median()));
        }
    }
    curves
}

/// A tally, the page of the newest boxes and that of the oldest.
pub fn pages() {
    for spills in [64, 512, 4_096] {
        let (lists, head) = history(spills);
        let times = alone(1, || keep(lists.tally(&PARENT, &head)));
        line(&format!("tally at {spills} spills"), &times, None);
        for (name, offset) in [("first", 0), ("last", spills * 512 + 1 - PAGE)] {
            let mut page = [0; PAGE];
            let times = alone(1, || {
                assert_eq!(lists.unspent_page(&PARENT, &head, offset, PAGE, &mut page), Ok(PAGE));
                keep(page);
            });
            line(&format!("{name} page of unspent boxes at {spills} spills"), &times, None);
        }
    }
}

/// A flush sets all room of the staged spills to zero, used or not.
pub fn by_room() {
    for room in [1, 16, 256, 4_096] {
        let (mut lists, _) = history(64);
        lists.staged = Records::new(room);
        let times = alone(1, || keep(lists.flush()));
        line(
            &format!("flush of nothing at 64 rows, room for staged spills: {room}"),
            &times,
            None,
        );
    }
}
