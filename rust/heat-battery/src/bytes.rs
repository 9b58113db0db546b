//! Big-endian numbers read from the front of bytes, and bytes gathered in place.

use std::ops::Deref;

/// Bytes that are read from the front; None where they end too early.
pub(crate) struct Cursor<'a>(pub &'a [u8]);

impl<'a> Cursor<'a> {
    fn take<const N: usize>(&mut self) -> Option<[u8; N]> {
        let (taken, rest) = self.0.split_first_chunk::<N>()?;
        self.0 = rest;
        Some(*taken)
    }

    pub fn slice(&mut self, length: usize) -> Option<&'a [u8]> {
        let (taken, rest) = self.0.split_at_checked(length)?;
        self.0 = rest;
        Some(taken)
    }

    pub fn byte(&mut self) -> Option<u8> {
        self.take().map(u8::from_be_bytes)
    }

    pub fn short(&mut self) -> Option<u16> {
        self.take().map(u16::from_be_bytes)
    }

    pub fn count(&mut self) -> Option<u32> {
        self.take().map(u32::from_be_bytes)
    }

    /// An f64 by its bits.
    pub fn number(&mut self) -> Option<f64> {
        self.take().map(|bytes| f64::from_bits(u64::from_be_bytes(bytes)))
    }
}

/// At most N bytes, held in place.
#[derive(Clone, Copy)]
pub(crate) struct Buffer<const N: usize> {
    bytes: [u8; N],
    used: usize,
}

impl<const N: usize> Buffer<N> {
    pub fn new() -> Self {
        Buffer { bytes: [0; N], used: 0 }
    }

    /// As many zero bytes, at most N.
    pub fn zeros(length: usize) -> Self {
        Buffer { bytes: [0; N], used: length.min(N) }
    }

    /// Adds bytes at the end; what has no place is left out.
    pub fn push(&mut self, bytes: &[u8]) {
        for (place, byte) in self.bytes.iter_mut().skip(self.used).zip(bytes) {
            *place = *byte;
        }
        self.used = (self.used + bytes.len()).min(N);
    }

    /// Adds as many bytes as their type says; nothing where they have no place.
    #[inline]
    pub fn put<const M: usize>(&mut self, bytes: [u8; M]) {
        let free = self.bytes.get_mut(self.used..).unwrap_or_default();
        if let Some(place) = free.first_chunk_mut() {
            *place = bytes;
            self.used += M;
        }
    }

    /// Adds an f64 by its bits.
    #[inline]
    pub fn put_number(&mut self, x: f64) {
        self.put(x.to_bits().to_be_bytes());
    }

    pub fn as_mut(&mut self) -> &mut [u8] {
        self.bytes.get_mut(..self.used).unwrap_or_default()
    }
}

impl<const N: usize> Deref for Buffer<N> {
    type Target = [u8];

    fn deref(&self) -> &[u8] {
        self.bytes.get(..self.used).unwrap_or_default()
    }
}
