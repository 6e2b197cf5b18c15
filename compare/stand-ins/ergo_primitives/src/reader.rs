use std::fmt;

#[derive(Debug, Clone, PartialEq, Eq)]
pub enum ReadError {
    /// The bytes end inside a field.
    UnexpectedEnd,
    /// A tenth byte above 1, or a 32-bit value not below 2^32.
    Overflow,
    InvalidData(String),
}

impl fmt::Display for ReadError {
    fn fmt(&self, f: &mut fmt::Formatter<'_>) -> fmt::Result {
        fmt::Debug::fmt(self, f)
    }
}

impl std::error::Error for ReadError {}

pub struct VlqReader<'a> {
    bytes: &'a [u8],
    at: usize,
}

impl<'a> VlqReader<'a> {
    pub fn new(bytes: &'a [u8]) -> Self {
        Self { bytes, at: 0 }
    }

    pub fn position(&self) -> usize {
        self.at
    }

    pub fn remaining(&self) -> usize {
        self.bytes.len() - self.at
    }

    pub fn is_empty(&self) -> bool {
        self.remaining() == 0
    }

    pub fn get_u8(&mut self) -> Result<u8, ReadError> {
        let byte = *self.bytes.get(self.at).ok_or(ReadError::UnexpectedEnd)?;
        self.at += 1;
        Ok(byte)
    }

    pub fn get_bytes(&mut self, n: usize) -> Result<&'a [u8], ReadError> {
        if n > self.remaining() {
            return Err(ReadError::UnexpectedEnd);
        }
        let part = &self.bytes[self.at..self.at + n];
        self.at += n;
        Ok(part)
    }

    /// Groups of 7 bits, lowest first, at most ten of them.
    fn get_groups(&mut self) -> Result<u64, ReadError> {
        let mut value = 0u64;
        for group in 0..10 {
            let byte = self.get_u8()?;
            if group == 9 && byte > 1 {
                return Err(ReadError::Overflow);
            }
            value |= u64::from(byte & 0x7f) << (7 * group);
            if byte & 0x80 == 0 {
                break;
            }
        }
        Ok(value)
    }

    pub fn get_i64(&mut self) -> Result<i64, ReadError> {
        let coded = self.get_groups()?;
        Ok((coded >> 1) as i64 ^ -((coded & 1) as i64))
    }

    pub fn get_i32(&mut self) -> Result<i32, ReadError> {
        let coded = u32::try_from(self.get_groups()?).map_err(|_| ReadError::Overflow)?;
        Ok((coded >> 1) as i32 ^ -((coded & 1) as i32))
    }
}
