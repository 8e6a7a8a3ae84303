//! A board: its masters, its slaves, the shares of each pair, and whether unmapped addresses are answered.

pub const MASTER_LIMIT: usize = 8;
pub const SLAVE_LIMIT: usize = 16;
/// The most bytes that the spans of a board total.
pub const MEMORY_LIMIT: u64 = 65_536;
/// The most clocks of a slave's latency.
pub const LATENCY_LIMIT: u64 = 63;

/// The widths of a word, in bytes.
pub const WIDTHS: [u64; 4] = [1, 2, 4, 8];
/// The burst lengths, in beats.
pub const BURSTS: [u64; 7] = [1, 2, 4, 8, 16, 32, 64];

#[derive(Clone, Copy, Default, PartialEq, Eq, Debug)]
pub struct Master {
    pub width: u8,
    pub burst: u8,
}

#[derive(Clone, Copy, Default, PartialEq, Eq, Debug)]
pub struct Slave {
    pub base: u32,
    pub span: u32,
    pub width: u8,
    pub burst: u8,
    pub read_wait: u8,
    pub write_wait: u8,
    /// 0 for bus sizing, 1 for native alignment; a board set by hand may have any number, and it is refused as it stands.
    pub native: u32,
    /// The clocks that a read's master stays busy behind the last access; a board set by hand may have any number here too.
    pub latency: u32,
}

impl Slave {
    /// Whether word k of the slave is word k of the master, whatever the two widths.
    pub fn is_native(&self) -> bool {
        self.native == 1
    }

    /// The clocks that each access of this direction waits.
    pub fn wait(&self, write: bool) -> u8 {
        if write {
            self.write_wait
        } else {
            self.read_wait
        }
    }

    /// The clocks from the last access of a transfer of this direction to its finish: a write has none.
    pub fn transfer_latency(&self, write: bool) -> u32 {
        if write {
            0
        } else {
            self.latency
        }
    }
}

/// A share of 0 says that the pair has no share line.
#[derive(Clone, Copy, Default, PartialEq, Eq, Debug)]
pub struct Board {
    pub master_count: u8,
    pub slave_count: u8,
    pub masters: [Master; MASTER_LIMIT],
    pub slaves: [Slave; SLAVE_LIMIT],
    pub shares: [[u8; SLAVE_LIMIT]; MASTER_LIMIT],
    /// Whether transfers to addresses that no connected slave has are taken, and answered with an error.
    pub default: bool,
}

impl Board {
    pub fn total_span(&self) -> u64 {
        self.slaves[..self.slave_count as usize]
            .iter()
            .map(|slave| slave.span as u64)
            .sum()
    }

    pub fn connected(&self, master: usize, slave: usize) -> bool {
        self.shares[master][slave] > 0
    }

    /// Whether some slave is connected with the master.
    pub fn has_share(&self, master: usize) -> bool {
        self.shares[master].iter().any(|&shares| shares > 0)
    }

    /// Every master with every slave, connected or not, by master.
    pub fn pairs(&self) -> impl Iterator<Item = (usize, usize)> {
        let slaves = self.slave_count as usize;
        (0..self.master_count as usize)
            .flat_map(move |master| (0..slaves).map(move |slave| (master, slave)))
    }

    /// Whether bytes of the slave's word would have no lane of the master's: a native slave cannot be joined to such a master.
    pub fn too_narrow(&self, master: usize, slave: usize) -> bool {
        self.slaves[slave].is_native() && self.masters[master].width < self.slaves[slave].width
    }

    /// The most accesses of one beat: more than 1 only for a master wider than a slave with bus sizing. A write has fewer where
    /// it leaves words out.
    pub fn ratio(&self, master: usize, slave: usize) -> u64 {
        let master_width = self.masters[master].width as u64;
        let slave_width = self.slaves[slave].width as u64;
        if master_width > slave_width && !self.slaves[slave].is_native() {
            master_width / slave_width
        } else {
            1
        }
    }
}
