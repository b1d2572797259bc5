//! Buffers that hold places or bytes, filled with a pattern before each call.

/// The 64-bit places as the bytes that they are in memory.
pub fn bytes_of(places: &[i64]) -> &[u8] {
    // SAFETY: any i64 is eight bytes, and the length in bytes is the slice's own.
    unsafe { std::slice::from_raw_parts(places.as_ptr().cast(), 8 * places.len()) }
}

/// So many bytes, which may be looked at as 64-bit places too.
#[derive(Default)]
pub struct Buffer {
    places: Vec<i64>,
    length: usize,
}

impl Buffer {
    /// So many bytes of a pattern that goes with the word.
    pub fn fill(&mut self, length: usize, word: u64) {
        self.length = length;
        self.places.clear();
        let words = (0..length.div_ceil(8) as u64).map(|k| word.wrapping_add(k.wrapping_mul(0x0101_0301_0701_0F03)));
        self.places.extend(words.map(|word| word as i64));
    }

    /// Makes this buffer hold what the other holds.
    pub fn copy(&mut self, other: &Buffer) {
        self.length = other.length;
        self.places.clone_from(&other.places);
    }

    /// Turns every bit from this byte on.
    pub fn turn(&mut self, from: usize) {
        for byte in &mut self.bytes_mut()[from..] {
            *byte = !*byte;
        }
    }

    pub fn bytes(&self) -> &[u8] {
        &bytes_of(&self.places)[..self.length]
    }

    pub fn bytes_mut(&mut self) -> &mut [u8] {
        let length = self.length;
        // SAFETY: as in `bytes_of`; `length` is at most the bytes of all places.
        unsafe { std::slice::from_raw_parts_mut(self.places.as_mut_ptr().cast(), length) }
    }

    /// The places, where the buffer has whole ones.
    pub fn places_mut(&mut self) -> &mut [i64] {
        &mut self.places[..self.length / 8]
    }
}
