//! A page of bytes that grows at its end.

pub struct Page<const ROOM: usize> {
    bytes: [u8; ROOM],
    size: usize,
}

impl<const ROOM: usize> Page<ROOM> {
    pub fn new() -> Page<ROOM> {
        Page {
            bytes: [0; ROOM],
            size: 0,
        }
    }

    pub fn push(&mut self, bytes: &[u8]) {
        self.bytes[self.size..self.size + bytes.len()].copy_from_slice(bytes);
        self.size += bytes.len();
    }

    /// The number of bytes on the page, which fill the front of the lent ones; 18 where these have no room for them.
    pub fn hand_over(&self, lent: &mut [u8]) -> Result<usize, u8> {
        let front = lent.get_mut(..self.size).ok_or(18)?;
        front.copy_from_slice(&self.bytes[..self.size]);
        Ok(self.size)
    }
}
