#[derive(Default)]
pub struct VlqWriter {
    bytes: Vec<u8>,
}

impl VlqWriter {
    pub fn new() -> Self {
        Self::default()
    }

    pub fn clear(&mut self) {
        self.bytes.clear();
    }

    pub fn as_slice(&self) -> &[u8] {
        &self.bytes
    }

    pub fn result(self) -> Vec<u8> {
        self.bytes
    }

    pub fn put_u8(&mut self, byte: u8) {
        self.bytes.push(byte);
    }

    pub fn put_bytes(&mut self, bytes: &[u8]) {
        self.bytes.extend_from_slice(bytes);
    }

    /// Groups of 7 bits, lowest first, the top bit set on all but the last.
    fn put_groups(&mut self, mut value: u64) {
        while value > 0x7f {
            self.bytes.push(value as u8 | 0x80);
            value >>= 7;
        }
        self.bytes.push(value as u8);
    }

    pub fn put_i64(&mut self, n: i64) {
        self.put_groups(((n << 1) ^ (n >> 63)) as u64);
    }

    pub fn put_i32(&mut self, n: i32) {
        self.put_groups(u64::from(((n << 1) ^ (n >> 31)) as u32));
    }
}
