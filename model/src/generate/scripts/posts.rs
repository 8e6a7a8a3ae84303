//! Posts, good ones and such as are refused.

use super::lines::hex;
use super::{slave_at, Author, Style};
use crate::board::MASTER_LIMIT;
use crate::fabric::{BUFFER_LENGTH, PART_LENGTH};
use crate::lanes::{all_lanes, lanes_legal};

/// A post to be written; its numbers need not be good.
pub struct Post {
    pub master: u64,
    pub write: bool,
    pub address: u64,
    pub lanes: u8,
    pub beats: usize,
    /// How many bytes are handed in.
    pub length: usize,
}

impl Author {
    pub fn connected_slaves(&self, master: usize) -> Vec<usize> {
        (0..self.slaves())
            .filter(|&slave| self.board.connected(master, slave))
            .collect()
    }

    /// A slave connected to the master, mostly the hot one.
    fn target(&mut self, master: usize, style: &Style) -> Option<usize> {
        let slaves = self.connected_slaves(master);
        if slaves.is_empty() {
            return None;
        }
        match style.hot {
            Some(hot) if slaves.contains(&hot) && self.random.chance(7, 8) => Some(hot),
            _ => Some(self.random.pick(&slaves)),
        }
    }

    fn beats(&mut self, master: usize, slave: usize, style: &Style) -> usize {
        let master = &self.board.masters[master];
        let most = (master.burst as usize)
            .min(self.board.slaves[slave].span as usize / master.width as usize);
        if most == 1 || !self.random.chance(style.bursts, 8) {
            return 1;
        }
        match self.random.below(4) {
            0 => most,
            1 => self.random.between(2, most.min(4)),
            _ => self.random.between(2, most),
        }
    }

    /// An offset at which `length` bytes fit; often near an end of the span.
    pub fn offset(&mut self, slave: usize, width: usize, length: usize) -> usize {
        let last = (self.board.slaves[slave].span as usize - length) / width;
        let word = match self.random.below(6) {
            0 => 0,
            1 => last,
            2 | 3 => self.random.between(0, last.min(15)),
            4 => last - self.random.between(0, last.min(15)),
            _ => self.random.between(0, last),
        };
        word * width
    }

    pub fn lanes(&mut self, width: u8, beats: usize) -> u8 {
        if beats > 1 || self.random.chance(1, 3) {
            return all_lanes(width);
        }
        let legal: Vec<u8> = (0..=255)
            .filter(|&lanes| lanes_legal(lanes, width))
            .collect();
        self.random.pick(&legal)
    }

    pub fn good_post(&mut self, master: usize, style: &Style) -> Option<Post> {
        let slave = self.target(master, style)?;
        let width = self.board.masters[master].width;
        let beats = self.beats(master, slave, style);
        let length = beats * width as usize;
        let offset = self.offset(slave, width as usize, length);
        let write = self.random.chance(1, 2);
        Some(Post {
            master: master as u64,
            write,
            address: self.board.slaves[slave].base as u64 + offset as u64,
            lanes: self.lanes(width, beats),
            beats,
            length: if write { length } else { 0 },
        })
    }

    /// A write of the master's word at the address, with all lanes.
    pub fn put_write(&mut self, master: usize, address: u32) {
        let width = self.board.masters[master].width;
        let post = Post {
            master: master as u64,
            write: true,
            address: (address / width as u32 * width as u32) as u64,
            lanes: all_lanes(width),
            beats: 1,
            length: width as usize,
        };
        self.put_post(&post);
    }

    pub fn idle_masters(&self) -> Vec<usize> {
        (0..self.masters())
            .filter(|&master| !self.holds(master))
            .collect()
    }

    /// A post by any master, mostly an idle one; where it is not connected, one at slave 0.
    pub fn some_post(&mut self, style: &Style) -> Post {
        let idle = self.idle_masters();
        let master = match !idle.is_empty() && self.random.chance(7, 8) {
            true => self.random.pick(&idle),
            false => self.random.below(self.masters()),
        };
        let width = self.board.masters[master].width;
        let post = match self.board.default && self.random.chance(1, 8) {
            true => self.unmapped_post(master, style),
            false => self.good_post(master, style),
        };
        post.unwrap_or(Post {
            master: master as u64,
            write: false,
            address: self.board.slaves[0].base as u64,
            lanes: all_lanes(width),
            beats: 1,
            length: 0,
        })
    }

    pub fn post_line(&mut self, post: &Post) -> String {
        let direction = if post.write { "write" } else { "read" };
        let data = hex(&self.random.bytes(post.length));
        let Post {
            master,
            address,
            lanes,
            beats,
            ..
        } = post;
        let address = *address as u32;
        format!("post,{master},{direction},{address},{lanes},{beats},{data}")
    }

    pub fn put_post(&mut self, post: &Post) {
        let line = self.post_line(post);
        self.put(&line);
    }

    fn wrong_master(&mut self, master: u64) -> u64 {
        let count = self.board.master_count as u64;
        let any = self.random.draw() >> 32;
        let wrong = [
            count,
            count + 1,
            8,
            255,
            256 + master,
            65_536 + master,
            u32::MAX as u64,
            any,
        ];
        self.random.pick(&wrong).max(count)
    }

    fn holding_master(&mut self) -> Option<u64> {
        let holding: Vec<usize> = (0..self.masters())
            .filter(|&master| self.holds(master))
            .collect();
        if holding.is_empty() {
            return None;
        }
        Some(self.random.pick(&holding) as u64)
    }

    fn wrong_beats(&mut self, burst: u8) -> usize {
        let burst = burst as usize;
        let wrong = [
            0,
            0,
            burst + 1,
            burst + 1,
            burst * 2,
            burst + burst / 2 + 1,
            128,
            255,
        ];
        self.random.pick(&wrong)
    }

    fn wrong_lanes(&mut self, width: u8, beats: usize) -> u8 {
        loop {
            let lane = self.random.below(width as usize);
            let lanes = match self.random.below(8) {
                0 => 0,
                1 => all_lanes(width) << 1,
                2 => all_lanes(self.random.between(1, 8) as u8) << self.random.below(8),
                3 | 4 => (all_lanes(self.random.between(1, 7) as u8) << lane) & all_lanes(width),
                5 | 6 => self.random.byte() & all_lanes(width),
                _ => self.random.byte(),
            };
            if !lanes_legal(lanes, width) || (beats > 1 && lanes != all_lanes(width)) {
                return lanes;
            }
        }
    }

    /// An address at which the master has most likely no connected slave.
    fn wrong_address(&mut self, master: usize, address: u64) -> u64 {
        let width = self.board.masters[master].width as u64;
        let slave = self.board.slaves[self.random.below(self.slaves())];
        let unconnected: Vec<usize> = (0..self.slaves())
            .filter(|&slave| !self.board.connected(master, slave))
            .collect();
        let address = match self.random.below(6) {
            0 => (slave.base as u64).wrapping_sub(width),
            1 => slave.base as u64 + slave.span as u64,
            2 => address ^ (1 << self.random.below(32)),
            3 if !unconnected.is_empty() => {
                self.board.slaves[self.random.pick(&unconnected)].base as u64
            }
            4 => address ^ slave.span as u64,
            _ => self.random.draw(),
        };
        address % (1 << 32) / width * width
    }

    /// Puts a burst at the end of its slave, so that it passes it.
    fn pass_the_end(&mut self, post: &mut Post, master: usize) {
        let Some(slave) = slave_at(&self.board, post.address as u32) else {
            return;
        };
        let width = self.board.masters[master].width;
        let burst = self.board.masters[master].burst as usize;
        if burst == 1 {
            return;
        }
        let slave = self.board.slaves[slave];
        post.beats = self.random.between(2, burst);
        post.lanes = all_lanes(width);
        let words = slave.span as usize / width as usize;
        let inside = self.random.between(1, (post.beats - 1).min(words));
        let end = slave.base as u64 + slave.span as u64;
        post.address = end - (inside * width as usize) as u64;
    }

    fn wrong_length(&mut self, right: usize, width: usize) -> usize {
        let wrong = [
            0,
            1,
            right + 1,
            right.saturating_sub(1),
            right + width,
            width,
            right * 2,
            512,
        ];
        self.random.pick(&wrong)
    }

    /// Damages a post so that it is, with some luck, refused with the number of the fault.
    pub fn damage(&mut self, post: &mut Post, master: usize, fault: u8) {
        let width = self.board.masters[master].width;
        match fault {
            11 => post.master = self.wrong_master(master as u64),
            12 => post.master = self.holding_master().unwrap_or(post.master),
            13 => post.beats = self.wrong_beats(self.board.masters[master].burst),
            14 => post.address += self.random.below(width as usize) as u64,
            15 => post.lanes = self.wrong_lanes(width, post.beats),
            16 => post.address = self.wrong_address(master, post.address),
            17 => self.pass_the_end(post, master),
            _ => {}
        }
    }

    /// Faults that need luck to show come more often.
    fn fault(&mut self) -> u8 {
        let faults = [
            11, 12, 13, 13, 14, 14, 15, 15, 15, 16, 17, 17, 17, 18, 18, 18,
        ];
        self.random.pick(&faults)
    }

    /// Mostly one fault, sometimes more.
    fn faults(&mut self) -> Vec<u8> {
        let mut faults = vec![self.fault()];
        while self.random.chance(1, 4) {
            faults.push(self.fault());
        }
        faults
    }

    fn damaged_post(&mut self, mut post: Post, faults: &[u8]) -> Post {
        let master = post.master as usize;
        let width = self.board.masters[master].width as usize;
        for &fault in faults {
            self.damage(&mut post, master, fault);
        }
        post.length = if faults.contains(&18) {
            self.wrong_length(post.beats * width, width)
        } else if post.write {
            post.beats * width
        } else {
            0
        };
        post
    }

    pub fn put_damaged_post(&mut self, post: Post) {
        let faults = self.faults();
        self.put_post_with(post, &faults);
    }

    pub fn put_post_with(&mut self, post: Post, faults: &[u8]) {
        let post = self.damaged_post(post, faults);
        self.put_post(&post);
        let part = (post.master as usize % MASTER_LIMIT) * PART_LENGTH;
        if self.lent("buffer") >= BUFFER_LENGTH && self.random.chance(1, 16) {
            self.put(&format!("show,buffer,{part},{PART_LENGTH}"));
        }
    }

    /// The idle masters post, in any order; a post that is refused comes first, where there is one.
    pub fn posts(&mut self, style: &Style) {
        let mut order: Vec<usize> = (0..self.masters()).collect();
        self.random.shuffle(&mut order);
        for master in order {
            if self.holds(master) || !self.random.chance(style.eager, 8) {
                continue;
            }
            if self.random.chance(1, 2) {
                if let Some(post) = self.good_post(master, style) {
                    self.put_damaged_post(post);
                }
            }
            let post = match self.board.default && self.random.chance(style.unmapped, 8) {
                true => self.unmapped_post(master, style),
                false => self.good_post(master, style),
            };
            if let Some(post) = post {
                self.put_post(&post);
            }
        }
        if self.random.chance(1, 24) {
            let post = self.some_post(style);
            self.put_damaged_post(post);
        }
    }
}
