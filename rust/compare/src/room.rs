//! A room to lend: filled so that a byte written shows, between borders that no call may touch.

/// Bytes before and after the room; an odd number, so that rooms stand at any place in memory.
const BORDER: usize = 19;

/// A room and its borders. Two are equal if all their bytes are.
#[derive(Clone, Debug, PartialEq, Eq)]
pub struct Room {
    bytes: Vec<u8>,
}

impl Room {
    /// A room of a length.
    pub fn new(length: u64) -> Room {
        let length = 2 * BORDER + length as usize;
        // The high bit is set, as in no value, bound, sign or mark.
        let filling = (0..length).map(|place| 0x80 | (place ^ length) as u8);
        Room {
            bytes: filling.collect(),
        }
    }

    /// The room without its borders.
    pub fn lent(&mut self) -> &mut [u8] {
        let end = self.bytes.len() - BORDER;
        &mut self.bytes[BORDER..end]
    }

    /// The bytes of the room.
    pub fn bytes(&self) -> &[u8] {
        &self.bytes[BORDER..self.bytes.len() - BORDER]
    }

    /// Whether the borders are as they were made.
    pub fn borders_stand(&self) -> bool {
        let fresh = Room::new(self.bytes().len() as u64);
        let outside = |room: &Room| {
            let (before, after) = (&room.bytes[..BORDER], room.bytes.len() - BORDER);
            [before, &room.bytes[after..]].concat()
        };
        outside(self) == outside(&fresh)
    }
}

#[cfg(test)]
mod tests {
    use super::*;

    #[test]
    fn a_byte_written_in_or_outside_the_room_shows() {
        for place in 0..2 * BORDER + 3 {
            let mut room = Room::new(3);
            room.bytes[place] = 0;
            assert_ne!(room, Room::new(3));
            let inside = (BORDER..BORDER + 3).contains(&place);
            assert_eq!(room.borders_stand(), inside);
        }
        assert_eq!(Room::new(3).lent().len(), 3);
    }
}
