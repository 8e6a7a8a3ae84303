//! The log: the unmapped transfers that clocks finished and that nobody has taken out yet.

/// The entries that the log has space for.
pub const LOG_LENGTH: usize = 8;

/// Who transferred, where to and in which direction.
#[derive(Clone, Copy, Default, PartialEq, Eq, Debug)]
pub struct Entry {
    pub master: u8,
    pub address: u32,
    pub write: bool,
}

/// The first `count` entries stand, the oldest first; what the others hold does not count.
#[derive(Clone, Copy, Default, PartialEq, Eq, Debug)]
pub struct Log {
    pub entries: [Entry; LOG_LENGTH],
    /// A state set by hand may have any number here, and it is refused as it stands.
    pub count: u32,
    /// Whether an entry was dropped since the reset, because the log was full.
    pub lost: bool,
}

impl Log {
    /// Puts an entry behind those that stand, or drops it where there is no space.
    pub fn enter(&mut self, entry: Entry) {
        match self.entries.get_mut(self.count as usize) {
            Some(place) => {
                *place = entry;
                self.count += 1;
            }
            None => self.lost = true,
        }
    }

    /// Takes the first entry out. All others move one place down, those behind the count too, and the last place becomes 0.
    pub fn take_oldest(&mut self) -> Entry {
        let oldest = self.entries[0];
        self.entries.rotate_left(1);
        self.entries[LOG_LENGTH - 1] = Entry::default();
        self.count -= 1;
        oldest
    }
}
