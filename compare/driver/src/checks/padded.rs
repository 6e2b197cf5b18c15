//! Numbers in a longer form than the shortest: the reference reads them, the index refuses them with 34.

use reference::VlqReader;

use crate::index::TOKENS;

/// The difference that docs/DIFFERENCES.md names.
pub const NAME: &str = "coded numbers: 34, padded";

/// Reads field by field, as the reference does, up to the first one that it refuses or that is padded.
struct Fields<'a> {
    bytes: &'a [u8],
    reader: VlqReader<'a>,
    padded: bool,
}

impl<'a> Fields<'a> {
    fn new(bytes: &'a [u8]) -> Self {
        Self {
            bytes,
            reader: VlqReader::new(bytes),
            padded: false,
        }
    }

    /// Whether the number that was read from a position on is longer than one byte and its last byte is 00.
    fn shortest(&mut self, from: usize) -> Option<()> {
        let next = self.reader.position();
        self.padded = next - from > 1 && self.bytes[next - 1] == 0;
        (!self.padded).then_some(())
    }

    fn long(&mut self) -> Option<i64> {
        let from = self.reader.position();
        let n = self.reader.get_i64().ok()?;
        self.shortest(from).map(|()| n)
    }

    fn int(&mut self) -> Option<i32> {
        let from = self.reader.position();
        let n = self.reader.get_i32().ok()?;
        self.shortest(from).map(|()| n)
    }

    fn list(&mut self) -> Option<()> {
        let length = usize::try_from(self.int()?).ok()?;
        (length <= 512 && length <= self.reader.remaining()).then_some(())?;
        (0..length).try_for_each(|_| self.long().map(|_| ()))
    }

    fn segment(&mut self) -> Option<()> {
        self.list()?;
        self.list()?;
        self.int()?;
        self.int().map(|_| ())
    }

    fn record(&mut self) -> Option<()> {
        self.reader.get_bytes(32).ok()?;
        match self.reader.get_u8().ok()? {
            0 => {}
            1 => {
                self.long()?;
                let count = usize::try_from(self.int()?).ok()?;
                (count <= self.reader.remaining() / 33 && count <= TOKENS).then_some(())?;
                for _ in 0..count {
                    self.reader.get_bytes(32).ok()?;
                    self.long()?;
                }
            }
            _ => return None,
        }
        self.segment()
    }
}

/// Whether the 64-bit number at a position is padded.
pub fn long(bytes: &[u8], from: usize) -> bool {
    let mut fields = Fields::new(&bytes[from..]);
    fields.long();
    fields.padded
}

/// Whether the 32-bit number at a position is padded.
pub fn int(bytes: &[u8], from: usize) -> bool {
    let mut fields = Fields::new(&bytes[from..]);
    fields.int();
    fields.padded
}

/// Whether the first thing amiss in a segment row is a padded number.
pub fn row(bytes: &[u8]) -> bool {
    let mut fields = Fields::new(bytes);
    fields.segment();
    fields.padded
}

/// Whether the first thing amiss in an address record is a padded number.
pub fn record(bytes: &[u8]) -> bool {
    let mut fields = Fields::new(bytes);
    fields.record();
    fields.padded
}
