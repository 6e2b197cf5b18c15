//! Measures the index beside the reference, both in one run, and prints a table in Markdown. The times of a call are medians of 15 rounds in which
//! the sides take turns, in the thread's own running time; a ratio is the index's time by the reference's in the same round, its spread from the
//! 10th to the 90th of 100 parts.
//!
//!     bench FOLDER       also writes three plots there
//!     bench --editions   only the lines of edition 2 beside edition 1
//!     bench --summaries  only the lines with a summary beside those without

use std::io::Write;
use std::process::{Command, Stdio};
use std::time::Instant;
use std::{env, fs};

use driver::hashlib::Hashlib;
use driver::index::{
    blake2b256, row_key, write_segment, Balance, Batch, Direction, Head, Id, Kind, Lists, ReadLists, Records, ROW_LIMIT,
};
use driver::measure::{both, keep, line, plot, shown, thread_time, Curve, Times, ROUNDS};
use driver::sides::Sides;
use driver::{blocks, editions, loads, summaries, tables};
use reference::address::BalanceInfo;
use reference::segment::Segment;
use reference::{calls, Digest32, VlqWriter};

const PARENT: Id = [0x42; 32];

fn digests() {
    let Some(mut hashlib) = Hashlib::start() else {
        eprintln!("no python3: BLAKE2b is not compared");
        return;
    };
    for (size, times) in [(16 << 10, 200), (1 << 20, 4)] {
        let data = vec![0; size];
        let (mut ours, mut theirs) = (Vec::new(), Vec::new());
        for _ in 0..ROUNDS {
            let start = thread_time();
            (0..times).for_each(|_| keep(blake2b256(&data)));
            ours.push((thread_time() - start) / f64::from(times));
            theirs.push(hashlib.time(size, times));
        }
        line(
            &format!("BLAKE2b-256 of {} KiB, beside Python's hashlib", size >> 10),
            &Times::new(ours),
            Some(&Times::new(theirs)),
        );
    }
    hashlib.end();
}

fn keys() {
    let parent = Digest32::from_bytes(PARENT);
    let (mut n, mut m) = (0, 0);
    let (ours, theirs) = both(
        1,
        || {
            n += 1;
            keep(row_key(Kind::Box, &PARENT, n))
        },
        || {
            m += 1;
            keep(reference::segment_id::box_segment_id(&parent, m))
        },
    );
    line("row key", &ours, Some(&theirs));
}

/// A row of 512 box numbers that begin at `first`.
fn row(first: i64) -> Segment {
    Segment {
        boxes: (first..first + 512).collect(),
        ..Segment::empty()
    }
}

fn rows() {
    for (name, first) in [("1 to 2 byte", 0), ("4 byte", 5_000_000), ("10 byte", i64::MAX - 600)] {
        let segment = row(first);
        let mut out = vec![0; ROW_LIMIT];
        let mut writer = VlqWriter::new();
        let (ours, theirs) = both(
            1,
            || keep(write_segment(&segment, &mut out)),
            || {
                writer.clear();
                reference::segment::write_segment(&mut writer, &segment);
                keep(writer.as_slice().len());
            },
        );
        line(&format!("write a row of 512, {name} numbers"), &ours, Some(&theirs));
        let bytes = calls::write_segment(&segment);
        let mut lists = ReadLists::default();
        let (ours, theirs) = both(
            1,
            || keep(lists.read_segment(&bytes)),
            || keep(calls::read_persisted_segment(&bytes)),
        );
        line(&format!("read a row of 512, {name} numbers"), &ours, Some(&theirs));
    }
}

/// Rows that a batch of spends reaches.
const BATCH_ROWS: i32 = 16;

/// A parent with this many rows of boxes in the table and one number in the head.
fn history(spills: i32) -> Sides {
    let mut sides = Sides::new(Lists::new(BATCH_ROWS as usize, spills as usize, 4));
    for number in 0..spills {
        let row = row(i64::from(number) * 512 + 1);
        sides.put_row(&row_key(Kind::Box, &PARENT, number), &calls::write_segment(&row));
    }
    sides.add_parent(
        PARENT,
        Segment {
            boxes: vec![i64::from(spills) * 512 + 1],
            box_segment_count: spills,
            ..Segment::empty()
        },
    );
    sides
}

/// A spend and its unspend; what they stage is dropped, so that each pair starts alike.
fn flips(sides: &mut Sides, target: i64) -> (Times, Times) {
    let Sides {
        lists,
        parents,
        spills,
        addresses,
        ..
    } = sides;
    both(
        2,
        || {
            let head = &mut parents[0].boxes;
            assert_eq!(lists.flip(Direction::Spend, &PARENT, head, target), 0);
            assert_eq!(lists.flip(Direction::Unspend, &PARENT, head, target), 0);
            lists.staged.count = 0;
        },
        || {
            spills.flip(&mut addresses[0], target).expect("a spend");
            spills.unflip(&mut addresses[0], target).expect("an unspend");
            spills.staged.clear();
        },
    )
}

/// All targets spent and then unspent in one batch; what that stages is dropped.
fn flips_in_batch(sides: &mut Sides, targets: &[i64]) -> (Times, Times) {
    let Sides {
        lists,
        parents,
        spills,
        addresses,
        ..
    } = sides;
    let mut batch = Batch::new(&PARENT, &parents[0].boxes);
    targets.iter().for_each(|target| batch.flip(Direction::Spend, *target));
    targets.iter().for_each(|target| batch.flip(Direction::Unspend, *target));
    both(
        2 * targets.len() as u32,
        || {
            batch.run(lists);
            lists.staged.count = 0;
        },
        || {
            let address = &mut addresses[0];
            targets
                .iter()
                .for_each(|target| spills.flip(address, *target).expect("a spend"));
            targets
                .iter()
                .for_each(|target| spills.unflip(address, *target).expect("an unspend"));
            spills.staged.clear();
        },
    )
}

fn spends() {
    for count in [64, 4096] {
        let mut sides = history(count);
        let last = i64::from(count) * 512;
        for (name, target) in [("oldest", 1), ("middle", last / 2 + 1), ("newest", last), ("head", last + 1)] {
            let (ours, theirs) = flips(&mut sides, target);
            line(&format!("spend or unspend at {count} spills, {name}"), &ours, Some(&theirs));
        }
        for boxes in [1, 8] {
            for (name, row) in [
                ("oldest", 0),
                ("middle", (count - BATCH_ROWS) / 2),
                ("newest", count - BATCH_ROWS),
            ] {
                let first = i64::from(row) * 512 + 1;
                let targets: Vec<i64> = (0..i64::from(BATCH_ROWS) * boxes).map(|n| first + n * 512 / boxes).collect();
                let (ours, theirs) = flips_in_batch(&mut sides, &targets);
                let name = format!("the same in a batch, {name} 16 rows, boxes of a row: {boxes}");
                line(&name, &ours, Some(&theirs));
            }
        }
        let targets: Vec<i64> = (last + 1..last + 129).collect();
        sides.parents[0].boxes = Head::new(&targets, count);
        sides.addresses[0].segment.boxes.clone_from(&targets);
        let (ours, theirs) = flips_in_batch(&mut sides, &targets);
        line("the same in a batch, a head of 128", &ours, Some(&theirs));
    }
}

/// One number after the other into a head, with a flush of the staged row or none.
fn appends() {
    let mut sides = Sides::new(Lists::new(1, 1, 1));
    sides.add_parent(PARENT, Segment::empty());
    let Sides {
        lists,
        parents,
        spills,
        addresses,
        ..
    } = &mut sides;
    let (ours, theirs) = both(
        512,
        || {
            let head = &mut parents[0].boxes;
            head.len = 0;
            (0..512).for_each(|n| keep(lists.append(Kind::Box, &PARENT, head, n)));
        },
        || {
            let address = &mut addresses[0];
            address.segment.boxes.clear();
            (0..512).for_each(|n| keep(spills.append_box(address, n)));
        },
    );
    line("append, no spill", &ours, Some(&theirs));
    let (ours, theirs) = both(
        512,
        || {
            let head = &mut parents[0].boxes;
            (head.len, head.spills) = (1, 0);
            (0..512).for_each(|n| keep(lists.append(Kind::Box, &PARENT, head, n)));
            assert_eq!((lists.staged.count, lists.flush()), (1, 0));
        },
        || {
            let address = &mut addresses[0];
            address.segment.boxes.truncate(1);
            address.segment.box_segment_count = 0;
            (0..512).for_each(|n| keep(spills.append_box(address, n)));
            spills.flush().expect("a flush");
        },
    );
    line("append, a spill and a flush in 512", &ours, Some(&theirs));
    let (ours, theirs) = both(
        512,
        || {
            let head = &mut parents[0].boxes;
            head.len = 512;
            (0..512).for_each(|_| keep(lists.pop(Kind::Box, &PARENT, head)));
        },
        || {
            let boxes = &mut addresses[0].segment.boxes;
            boxes.resize(512, 7);
            (0..512).for_each(|_| keep(spills.pop_box(&mut addresses[0])));
        },
    );
    line("pop from the head", &ours, Some(&theirs));
    let mut batch = Batch::new(&PARENT, &Head::new(&[], 0));
    (0..512).for_each(|n| batch.append(Kind::Box, n));
    (0..512).for_each(|_| batch.pop(Kind::Box));
    let (ours, theirs) = both(
        1024,
        || batch.run(lists),
        || {
            let address = &mut addresses[0];
            address.segment.boxes.clear();
            (0..512).for_each(|n| keep(spills.append_box(address, n)));
            (0..512).for_each(|_| keep(spills.pop_box(address)));
        },
    );
    line("append or pop in a batch of 1,024", &ours, Some(&theirs));
    let (ours, theirs) = both(
        1,
        || {
            let head = &mut parents[0].boxes;
            (head.len, head.spills) = (0, 1);
            lists.deleted.count = 0;
            assert!(lists.pop(Kind::Box, &PARENT, head).is_ok());
        },
        || {
            let address = &mut addresses[0];
            address.segment.boxes.clear();
            address.segment.box_segment_count = 1;
            spills.deleted.clear();
            spills.pop_box(address).expect("a pop");
        },
    );
    line("pop that brings a row back", &ours, Some(&theirs));
}

/// The index's flush empties the staged spills, so that its side includes putting them back.
fn flushes() {
    for staged in [1, 16] {
        let mut sides = history(64);
        let mut filled = Records::new(staged);
        for number in 0..staged {
            let key = row_key(Kind::Box, &PARENT, number as i32);
            filled.push(&key, &calls::write_segment(&row(1000)));
            sides.spills.staged.insert(Digest32::from_bytes(key), row(1000));
        }
        sides.lists.staged = filled.clone();
        let (lists, spills) = (&mut sides.lists, &mut sides.spills);
        let (ours, theirs) = both(
            1,
            || {
                lists.staged.count = staged;
                lists.staged.bytes.copy_from_slice(&filled.bytes);
                assert_eq!(lists.flush(), 0);
            },
            || spills.write_staged().expect("a flush"),
        );
        line(&format!("flush into 64 rows, staged: {staged}"), &ours, Some(&theirs));
    }
}

fn balances() {
    for count in [1u8, 16, 128] {
        let ids: Vec<Id> = (0..count).map(|n| [n; 32]).collect();
        let tokens: Vec<(Digest32, i64)> = ids.iter().map(|id| (Digest32::from_bytes(*id), 5)).collect();
        let (flat, amounts) = (ids.concat(), vec![5; count.into()]);
        let (mut held, mut theirs) = (Balance::default(), BalanceInfo::default());
        // held above 0 throughout, so that no token is dropped
        for _ in 0..2 {
            held.add_box(1 << 40, &flat, &amounts);
            theirs.add_box(1 << 40, &tokens);
        }
        let (ours, reference) = both(
            2,
            || {
                keep(held.add_box(7, &flat, &amounts));
                keep(held.subtract_box(7, &flat, &amounts));
            },
            || {
                theirs.add_box(7, &tokens);
                theirs.subtract_box(7, &tokens);
                keep(&theirs);
            },
        );
        line(&format!("add_box or subtract_box, tokens: {count}"), &ours, Some(&reference));
    }
}

/// The runner's program on appends and spends of two parents, and on the load that can be repeated, if it is built.
fn runner() {
    let path = env::var("ERGO_RUNNER").unwrap_or_else(|_| "../crates/call_runner/out/call_runner".into());
    if !fs::exists(&path).unwrap_or(false) {
        eprintln!("no {path}: the runner is not measured (name it by ERGO_RUNNER)");
        return;
    }
    let mut input = Vec::new();
    let calls = 200_000;
    for n in 0..calls as i64 {
        // heads stay short: a number in, spent, and out again
        let (kind, parent) = ([1, 3, 4, 5][n as usize % 4], (n / 4 % 2) as u8);
        input.extend([kind, parent]);
        if kind != 5 {
            input.extend((n / 4).to_be_bytes());
        }
    }
    let times = runs(&path, &input, calls);
    line(&format!("runner, {:.0} calls per second", 1e9 / times.median()), &times, None);
    for calls in [2_000, calls] {
        let times = runs(&path, &loads::bytes(calls), calls);
        let name = format!(
            "runner on a load of {calls} calls, {:.0} calls per second",
            1e9 / times.median()
        );
        line(&name, &times, None);
    }
}

/// The runner's program on an input of so many calls, from its start to its end.
fn runs(path: &str, input: &[u8], calls: usize) -> Times {
    let times = (0..ROUNDS).map(|_| {
        let start = Instant::now();
        let mut child = Command::new(path)
            .stdin(Stdio::piped())
            .stdout(Stdio::null())
            .spawn()
            .expect("the runner starts");
        let mut pipe = child.stdin.take().expect("its input");
        pipe.write_all(input).expect("the runner reads");
        drop(pipe);
        child.wait().expect("the runner ends");
        start.elapsed().as_nanos() as f64 / calls as f64
    });
    Times::new(times.collect())
}

fn main() {
    let folder = env::args().nth(1);
    println!("| call | index | reference | ratio | spread |\n|---|---|---|---|---|");
    if folder.as_deref() == Some("--editions") {
        return editions::lines();
    }
    if folder.as_deref() == Some("--singles") {
        appends();
        return balances();
    }
    if folder.as_deref() == Some("--blocks") {
        return blocks::lines();
    }
    if folder.as_deref() == Some("--summaries") {
        summaries::lines();
        return;
    }
    digests();
    keys();
    rows();
    spends();
    appends();
    flushes();
    balances();
    let records = tables::by_rows();
    tables::by_room();
    loads::in_batches();
    blocks::lines();
    tables::pages();
    editions::lines();
    let with_summaries = summaries::lines();
    runner();
    let Some(folder) = folder else { return };
    let (mut ours, mut theirs) = (Vec::new(), Vec::new());
    for count in [16, 64, 256, 1024, 4096] {
        let (a, b) = flips(&mut history(count), 1);
        eprintln!(
            "spend at {count} spills, oldest: {} and {}",
            shown(a.median()),
            shown(b.median())
        );
        ours.push((f64::from(count), a.median()));
        theirs.push((f64::from(count), b.median()));
    }
    let curves: [Curve; 2] = [("index", "#1b6ca8", ours), ("reference", "#c0392b", theirs)];
    fs::write(
        format!("{folder}/cost-of-spills.svg"),
        plot("Spend of the oldest box", "spills", &curves),
    )
    .expect("a plot");
    fs::write(
        format!("{folder}/cost-of-records.svg"),
        plot("Single calls", "rows in the table", &records),
    )
    .expect("a plot");
    fs::write(
        format!("{folder}/cost-with-summaries.svg"),
        plot("Tallies and spends", "spills", &with_summaries),
    )
    .expect("a plot");
}
