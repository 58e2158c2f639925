//! Memory lent to the library, between guards that must stay as they are.

/// What lent memory and its guards hold before a call.
pub const FILL: u8 = 0xAA;
const GUARD: usize = 32;

pub struct Lent {
    bytes: Vec<u8>,
}

impl Lent {
    /// An output of this room.
    pub fn filled(room: usize) -> Lent {
        Lent { bytes: vec![FILL; room + 2 * GUARD] }
    }

    /// Memory with these bytes.
    pub fn holding(bytes: &[u8]) -> Lent {
        let mut lent = Lent::filled(bytes.len());
        lent.memory().copy_from_slice(bytes);
        lent
    }

    pub fn memory(&mut self) -> &mut [u8] {
        let end = self.bytes.len() - GUARD;
        &mut self.bytes[GUARD..end]
    }

    pub fn bytes(&self) -> &[u8] {
        &self.bytes[GUARD..self.bytes.len() - GUARD]
    }

    pub fn guards_hold(&self) -> bool {
        let (front, rest) = self.bytes.split_at(GUARD);
        let back = &rest[rest.len() - GUARD..];
        front.iter().chain(back).all(|byte| *byte == FILL)
    }

    /// Whether an output is as it was past so many bytes, guards included.
    pub fn holds_past(&self, written: usize) -> bool {
        let rest = self.bytes().get(written..);
        self.guards_hold() && rest.is_some_and(|rest| rest.iter().all(|byte| *byte == FILL))
    }
}
