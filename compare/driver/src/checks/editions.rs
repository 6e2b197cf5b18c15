//! Rows turned from one edition into the other: what is given is the header and the body, what is refused the reader's code for the body (which is compared
//! with the reference), then 35, then 32; and either converter takes back what the other did.

use ergo_index::{Edition, Second, VlqReader, VlqWriter};

use super::{damage, rows, Size};
use crate::index::{convert_row, Id, ReadLists, ROW_LIMIT};
use crate::random::Random;
use crate::report::{hex, Report};

/// Whose row it is.
struct Spill {
    parent: Id,
    kind: u8,
    number: i32,
}

impl Spill {
    fn new(random: &mut Random) -> Self {
        Self {
            parent: [random.pick(&[0, 1, 7, 0xff]); 32],
            kind: random.pick(&[1, 1, 2, 2, 0, 3]),
            number: random.int(),
        }
    }

    fn header(&self) -> Vec<u8> {
        let mut number = VlqWriter::new();
        number.put_i32(self.number);
        [&self.parent[..], &[self.kind], number.as_bytes()].concat()
    }

    fn has_kind(&self) -> bool {
        matches!(self.kind, 1 | 2)
    }

    fn convert(&self, to_second: bool, row: &[u8], room: usize) -> Result<Vec<u8>, u8> {
        let mut out = vec![0xa5; room];
        let written = convert_row(to_second, row, &self.parent, self.kind, self.number, &mut out);
        if written.is_err() && out.iter().any(|b| *b != 0xa5) {
            return Err(0);
        }
        out.truncate(written?);
        Ok(out)
    }

    /// What document 02 says of a row of edition 1.
    fn second(&self, row: &[u8], room: usize, lists: &mut ReadLists) -> Result<Vec<u8>, u8> {
        match lists.read_segment(row) {
            0 if !self.has_kind() => Err(35),
            0 => fitting([&self.header(), row].concat(), room),
            code => Err(code),
        }
    }

    /// What it says of a row of edition 2; nothing where the body alone is above the limit of edition 1.
    fn first(&self, row: &[u8], room: usize, lists: &mut ReadLists) -> Option<Result<Vec<u8>, u8>> {
        if row.len() > Second::ROW_LIMIT {
            return Some(Err(25));
        }
        let Some((_, number)) = row.split_at_checked(33) else {
            return Some(Err(1));
        };
        let mut reader = VlqReader::new(number);
        if let Err(refusal) = reader.get_i32() {
            return Some(Err(refusal.code()));
        }
        let (header, body) = row.split_at(33 + reader.position());
        if body.len() > ROW_LIMIT {
            return None;
        }
        Some(match lists.read_segment(body) {
            0 if !self.has_kind() || header != self.header() => Err(35),
            0 => fitting(body.to_vec(), room),
            code => Err(code),
        })
    }
}

fn fitting(bytes: Vec<u8>, room: usize) -> Result<Vec<u8>, u8> {
    if room < bytes.len() {
        Err(32)
    } else {
        Ok(bytes)
    }
}

fn tell(name: &'static str, row: &[u8], ours: &Result<Vec<u8>, u8>, due: &Result<Vec<u8>, u8>, report: &mut Report) {
    report.call(name);
    if ours != due {
        report.difference(name, format!("{}: {ours:?}, due {due:?}", hex(row)));
    }
    if let Err(code) = ours {
        report.refused(name, *code);
    }
}

pub fn run(size: Size, report: &mut Report) {
    report.phase("rows in the other edition");
    let mut lists = ReadLists::default();
    let mut random = Random::new(7);
    for i in 0..size.some / 4 {
        let spill = Spill::new(&mut random);
        let mut row = match i % 16 {
            0 => rows::long(&mut random),
            _ => reference::calls::write_segment(&rows::segment(&mut random)),
        };
        if random.once_in(3) {
            damage(&mut row, &mut random);
        }
        let room = match random.below(4) {
            0 => row.len() + random.index(44),
            _ => Second::ROW_LIMIT,
        };
        let second = spill.convert(true, &row, room);
        tell("row_to_second", &row, &second, &spill.second(&row, room, &mut lists), report);
        let Ok(mut second) = second else { continue };
        tell(
            "row_to_first",
            &second,
            &spill.convert(false, &second, row.len()),
            &Ok(row),
            report,
        );
        for _ in 0..3 {
            damage(&mut second, &mut random);
            if let Some(due) = spill.first(&second, room, &mut lists) {
                tell("row_to_first", &second, &spill.convert(false, &second, room), &due, report);
            }
        }
        report.progress(i, size.some / 4);
    }
}
