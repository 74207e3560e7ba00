//! Buffers as they are lent to the port: between guard bytes, with a copy of how they were.
use oracle::generate::Rng;

pub struct Lent {
    bytes: Vec<u8>,
    before: Vec<u8>,
    /// The guard bytes before the buffer. Their number varies, and so the buffer's alignment.
    start: usize,
    length: usize,
}

impl Lent {
    /// A buffer of other bytes in each call, as are its guards.
    pub fn room(rng: &mut Rng, length: usize) -> Lent {
        let start = 32 + rng.below(16);
        let (first, step) = (rng.below(256), 1 + 2 * rng.below(128));
        let bytes: Vec<u8> = (0..start + length + 48)
            .map(|i| (first + i * step) as u8)
            .collect();
        Lent {
            before: bytes.clone(),
            bytes,
            start,
            length,
        }
    }

    /// A buffer that holds an input. A port that read its guards would give other answers.
    pub fn input(rng: &mut Rng, input: &[u8]) -> Lent {
        let mut lent = Lent::room(rng, input.len());
        lent.slice().copy_from_slice(input);
        lent.before.clone_from(&lent.bytes);
        lent
    }

    pub fn slice(&mut self) -> &mut [u8] {
        &mut self.bytes[self.start..self.start + self.length]
    }

    pub fn unchanged(&self) -> bool {
        self.bytes == self.before
    }

    /// Whether nothing changed but the buffer's first bytes, `until` of them.
    pub fn kept_behind(&self, until: usize) -> bool {
        let behind = self.start + until;
        self.bytes[..self.start] == self.before[..self.start]
            && self.bytes[behind..] == self.before[behind..]
    }

    /// Whether the buffer starts with these bytes and nothing else changed.
    pub fn holds(&self, text: &[u8]) -> bool {
        self.bytes[self.start..].starts_with(text) && self.kept_behind(text.len())
    }

    /// Whether all of the buffer is zeros and nothing else changed.
    pub fn is_zeros(&self) -> bool {
        let buffer = &self.bytes[self.start..self.start + self.length];
        buffer.iter().all(|byte| *byte == 0) && self.kept_behind(self.length)
    }
}
