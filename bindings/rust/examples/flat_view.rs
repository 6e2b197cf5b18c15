//! One account of the call runner's input as a flat list beside the segmented one, and where the two differ.
//!
//! ```text
//! flat_view [PARENT [ROWS]] < calls
//! ```
//!
//! The input is that of the call runner. Calls of all parents run on the index, whose table, staged spills and deleted spills have room for ROWS rows (64);
//! the box calls of PARENT (0) run on a flat list too. A line is printed for each call that the two answer differently, then a line for each entry: its
//! place, the flat list's entry, the entry of the index, and where that stands. The exit status is 1 if anything differs.
use ergo_index::*;
use std::io::{self, BufWriter, Read, Write};
use std::process::ExitCode;

// The bytes of a call by its kind, 1 to 9.
const BYTES: [usize; 9] = [10, 10, 10, 10, 2, 2, 1, 19, 19];

struct Index {
    segments: Vec<Segment>,
    staged: StagedSpills,
    table: SegmentTable,
    deleted: DeletedSpills,
}

impl Index {
    fn segment(&mut self, parent: u8) -> usize {
        for id in self.segments.len()..=usize::from(parent) {
            self.segments.push(Segment::new([id as u8; 32]));
        }
        usize::from(parent)
    }

    // The popped number of a pop, 0 of another call; calls of balances are passed over.
    fn call(&mut self, kind: u8, parent: u8, number: i64) -> Result<i64, Refusal> {
        let at = self.segment(parent);
        let Index { segments, staged, table, deleted } = self;
        let segment = &mut segments[at];
        match kind {
            1 => segment.append_box_entry(BoxNumber(number), staged).map(|()| 0),
            2 => segment.append_tx_entry(TxNumber(number), staged).map(|()| 0),
            3 => segment.flip_box_segment_entry(BoxNumber(number), staged, table).map(|()| 0),
            4 => segment.unflip_box_segment_entry(BoxNumber(number), staged, table).map(|()| 0),
            5 => segment.pop_box_entry(staged, table, deleted).map(|n| n.0),
            6 => segment.pop_tx_entry(staged, table, deleted).map(|n| n.0),
            7 => flush_staged_spills(staged, table, deleted).map(|()| 0),
            _ => Ok(0),
        }
    }

    // Every entry of a parent's boxes, and where it stands.
    fn entries(&mut self, parent: u8) -> Result<Vec<(i64, String)>, Refusal> {
        let at = self.segment(parent);
        let segment = &self.segments[at];
        let mut all = Vec::new();
        for spill in 0..segment.box_spills() {
            let key = box_segment_id(segment.parent(), spill);
            let row = Segment::from_row(*segment.parent(), inspect_spill(&self.staged, &self.table, &key)?.row())?;
            all.extend(row.boxes().iter().enumerate().map(|(i, n)| (n.0, format!("row {spill}, place {i}"))));
        }
        all.extend(segment.boxes().iter().enumerate().map(|(i, n)| (n.0, format!("head, place {i}"))));
        Ok(all)
    }
}

fn flat_call(flat: &mut FlatAccount, kind: u8, number: i64) -> Result<i64, Refusal> {
    match kind {
        1 => flat.append_box(BoxNumber(number)).map(|()| 0),
        3 => flat.spend_box(BoxNumber(number)).map(|()| 0),
        4 => flat.unspend_box(BoxNumber(number)).map(|()| 0),
        _ => flat.pop_box().map(|n| n.0),
    }
}

fn shown(answer: &Result<i64, Refusal>) -> String {
    match answer {
        Ok(number) => format!("accepted {number}"),
        Err(refusal) => refusal.to_string(),
    }
}

fn view(input: &[u8], parent: u8, rows: usize, out: &mut impl Write) -> io::Result<bool> {
    let (mut flat, mut same, mut at, mut made) = (FlatAccount::new(), true, 0, 0);
    let mut index = Index {
        segments: Vec::new(),
        staged: StagedSpills::with_capacity(rows),
        table: SegmentTable::with_capacity(rows),
        deleted: DeletedSpills::with_capacity(rows),
    };
    while at < input.len() {
        let kind = input[at];
        let bytes = match BYTES.get(usize::from(kind).wrapping_sub(1)) {
            Some(bytes) if at + bytes <= input.len() => *bytes,
            _ => {
                writeln!(out, "call {made}: no call, or a cut one, at byte {at}")?;
                return Ok(false);
            }
        };
        let whose = if bytes > 1 { input[at + 1] } else { 0 };
        let number = if bytes == 10 { i64::from_be_bytes(input[at + 2..at + 10].try_into().expect("eight bytes")) } else { 0 };
        let answer = index.call(kind, whose, number);
        if whose == parent && [1, 3, 4, 5].contains(&kind) {
            // a popped number is compared by its absolute value: which of several copies is marked may differ
            let flatly = flat_call(&mut flat, kind, number);
            if answer.as_ref().map(|n| n.unsigned_abs()) != flatly.as_ref().map(|n| n.unsigned_abs()) {
                writeln!(out, "call {made}: flat list: {}; index: {}", shown(&flatly), shown(&answer))?;
                same = false;
            }
        }
        at += bytes;
        made += 1;
    }
    let entries = match index.entries(parent) {
        Ok(entries) => entries,
        Err(refusal) => {
            writeln!(out, "the rows of parent {parent} cannot be read: {refusal}")?;
            return Ok(false);
        }
    };
    let spent = |all: &mut dyn Iterator<Item = i64>| all.filter(|n| *n < 0).count();
    for (place, (flatly, (entry, place_there))) in flat.entries().iter().map(|entry| entry.0).zip(&entries).enumerate() {
        let differs = if flatly == *entry {
            ""
        } else if flatly.unsigned_abs() == entry.unsigned_abs() {
            "  the mark stands at another copy"
        } else {
            same = false;
            "  DIFFERS"
        };
        writeln!(out, "{place} {flatly} {entry} {place_there}{differs}")?;
    }
    let (ours, theirs) = (spent(&mut flat.entries().iter().map(|entry| entry.0)), spent(&mut entries.iter().map(|(n, _)| *n)));
    same &= (flat.len(), ours) == (entries.len(), theirs);
    writeln!(
        out,
        "{made} calls; flat list: {} entries, {ours} spent; index: {} entries, {theirs} spent: {}",
        flat.len(),
        entries.len(),
        if same { "the same" } else { "DIFFERENT" }
    )?;
    Ok(same)
}

fn main() -> ExitCode {
    let mut words = std::env::args().skip(1);
    let mut word = |other: usize| words.next().map_or(Some(other), |text| text.parse().ok());
    let (Some(parent), Some(rows)) = (word(0).and_then(|n| u8::try_from(n).ok()), word(64)) else {
        eprintln!("usage: flat_view [PARENT [ROWS]] < calls");
        return ExitCode::from(2);
    };
    let mut input = Vec::new();
    let done = io::stdin().lock().read_to_end(&mut input).and_then(|_| {
        let mut out = BufWriter::new(io::stdout().lock());
        let same = view(&input, parent, rows, &mut out)?;
        out.flush()?;
        Ok(same)
    });
    match done {
        Ok(true) => ExitCode::SUCCESS,
        Ok(false) => ExitCode::from(1),
        Err(error) => {
            eprintln!("flat_view: {error}");
            ExitCode::from(2)
        }
    }
}
