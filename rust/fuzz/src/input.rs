//! The bytes of an input of the entries' target, and what they stand for.
//!
//! Numbers are u16, big-endian; a slice is its length and its bytes. In order: the version (a byte),
//! the card (a slice), the lengths of record and sheet that opening is lent; then for each call the
//! call (a slice), the length of its sheet, the count of the caller's own record (0: the card's
//! layers), and a record handed in (a slice; empty: the one that the last call left). Bytes that end
//! early stand for zeros and for slices that are cut; what stands after 24 calls is left out.

/// The most bytes of a record or sheet that are lent.
const MOST_LENT: u16 = 2048;
/// The most calls of a list.
pub const MOST_CALLS: usize = 24;

pub struct Input {
    /// Of the opening and of every call.
    pub version: u8,
    pub card: Vec<u8>,
    /// Bytes of the record that opening is lent.
    pub record: u16,
    /// Bytes of its sheet.
    pub room: u16,
    pub calls: Vec<Called>,
}

#[derive(Clone, Default)]
pub struct Called {
    pub call: Vec<u8>,
    /// Bytes of the sheet.
    pub room: u16,
    /// Zones that the caller's own record says it has; 0 for the card's layers.
    pub count: u16,
    /// A record handed in; empty for the one that the last call left.
    pub record: Vec<u8>,
}

struct Cursor<'a>(&'a [u8]);

impl Cursor<'_> {
    fn byte(&mut self) -> u8 {
        let (byte, rest) = self.0.split_first().unwrap_or((&0, &[]));
        self.0 = rest;
        *byte
    }

    fn number(&mut self) -> u16 {
        let (number, rest) = match *self.0 {
            [] => (0, self.0),
            [last] => (u16::from(last) << 8, &self.0[1..]),
            [high, low, ..] => (u16::from_be_bytes([high, low]), &self.0[2..]),
        };
        self.0 = rest;
        number
    }

    fn slice(&mut self) -> Vec<u8> {
        let length = usize::from(self.number()).min(self.0.len());
        let (slice, rest) = self.0.split_at(length);
        self.0 = rest;
        slice.to_vec()
    }
}

fn put_number(bytes: &mut Vec<u8>, number: u16) {
    bytes.extend(number.to_be_bytes());
}

fn put_slice(bytes: &mut Vec<u8>, slice: &[u8]) {
    let length = u16::try_from(slice.len()).unwrap_or(u16::MAX);
    put_number(bytes, length);
    bytes.extend(&slice[..usize::from(length)]);
}

impl Input {
    pub fn read(bytes: &[u8]) -> Self {
        let mut cursor = Cursor(bytes);
        let mut input = Input {
            version: cursor.byte(),
            card: cursor.slice(),
            record: cursor.number() % MOST_LENT,
            room: cursor.number() % MOST_LENT,
            calls: Vec::new(),
        };
        while !cursor.0.is_empty() && input.calls.len() < MOST_CALLS {
            input.calls.push(Called {
                call: cursor.slice(),
                room: cursor.number() % MOST_LENT,
                count: cursor.number(),
                record: cursor.slice(),
            });
        }
        input
    }

    pub fn bytes(&self) -> Vec<u8> {
        let mut bytes = vec![self.version];
        put_slice(&mut bytes, &self.card);
        put_number(&mut bytes, self.record);
        put_number(&mut bytes, self.room);
        for called in &self.calls {
            put_slice(&mut bytes, &called.call);
            put_number(&mut bytes, called.room);
            put_number(&mut bytes, called.count);
            put_slice(&mut bytes, &called.record);
        }
        bytes
    }
}

/// Lent bytes of which none is like its neighbours.
pub fn filled(length: u16) -> Vec<u8> {
    (0..length).map(|at| (at as u8).wrapping_mul(37) ^ 0x5a).collect()
}
