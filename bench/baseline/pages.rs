//! The pages of the running process: its tables, translation, and pages that come, go and are shared.

use crate::machine::Machine;
use crate::memory::{Access, Cache, FRAME};

const V: u64 = 1;
pub const R: u64 = 2;
pub const W: u64 = 4;
pub const X: u64 = 8;
pub const U: u64 = 16;
const A: u64 = 64;
const D: u64 = 128;

/// The page may be written by right, though W may be missing as long as others share its frame.
const RIGHT: u64 = 256;

fn frame_of(entry: u64) -> u32 {
    (entry >> 10) as u32
}

fn index_of(address: u64, level: u32) -> u64 {
    address >> (12 + 9 * level) & 511
}

impl Machine {
    // The table of level 0 for an address, made where it is missing.
    fn table(&mut self, address: u64) -> Option<u32> {
        let mut table = self.root;
        for level in [2, 1] {
            let index = index_of(address, level);
            let entry = self.memory.entry(table, index);
            if entry & V == 0 {
                let next = self.memory.take()?;
                self.memory.set_entry(table, index, (next as u64) << 10 | V);
                table = next;
            } else {
                table = frame_of(entry);
            }
        }
        Some(table)
    }

    // One page more at the end, on a frame, with these marks.
    fn map_frame(&mut self, frame: u32, marks: u64) -> Option<()> {
        let table = self.table(self.size)?;
        let index = index_of(self.size, 0);
        self.memory.set_entry(table, index, (frame as u64) << 10 | marks | V | A | D);
        self.size += FRAME as u64;
        Some(())
    }

    /// One page of zeros more at the end.
    pub fn map(&mut self, marks: u64) -> Option<u32> {
        let frame = self.memory.take()?;
        let right = if marks & W == 0 { 0 } else { RIGHT };
        self.map_frame(frame, marks | right)?;
        Some(frame)
    }

    /// One page less at the end.
    pub fn unmap(&mut self) -> Option<()> {
        self.fence();
        self.size -= FRAME as u64;
        let table = self.table(self.size)?;
        let index = index_of(self.size, 0);
        let entry = self.memory.entry(table, index);
        self.memory.set_entry(table, index, 0);
        self.memory.give(frame_of(entry));
        Some(())
    }

    /// Forgets every translation.
    pub fn fence(&mut self) {
        if let Some(kept) = &mut self.kept {
            *kept = Cache::new();
        }
    }

    /// Where an address lies, by a walk of the tables.
    pub fn translate(&self, address: u64, access: Access) -> Option<usize> {
        let high = address as i64 >> 38;
        if high != 0 && high != -1 {
            return None;
        }
        let mut table = self.root;
        for level in [2, 1, 0] {
            let entry = self.memory.entry(table, index_of(address, level));
            if entry & V == 0 || entry & (R | W) == W || entry >> 54 != 0 {
                return None;
            }
            let frame = frame_of(entry);
            if frame as usize >= self.memory.frames() {
                return None;
            }
            if entry & (R | W | X) == 0 {
                table = frame;
                continue;
            }
            let wanted = match access {
                Access::Fetch => X | U | A,
                Access::Load => R | U | A,
                Access::Store => W | U | A | D,
            };
            if entry & wanted != wanted || level != 0 {
                return None;
            }
            return Some(frame as usize * FRAME + address as usize % FRAME);
        }
        None
    }

    /// Where an address lies, by what is remembered where there is room for that.
    #[inline(always)]
    pub fn locate(&mut self, address: u64, access: Access) -> Option<usize> {
        let page = address >> 12;
        if let Some(kept) = &self.kept {
            if let Some(frame) = kept.find(page, self.root, access) {
                return Some(frame as usize * FRAME + address as usize % FRAME);
            }
        }
        let at = self.translate(address, access)?;
        if let Some(kept) = &mut self.kept {
            kept.keep(page, self.root, access, (at / FRAME) as u32);
        }
        Some(at)
    }

    /// Where an address can be stored to, once its page is the process's own again. `None`: it may not.
    #[inline(never)]
    pub fn open(&mut self, address: u64) -> Option<usize> {
        let (table, index) = self.leaf_at(self.root, address)?;
        let entry = self.memory.entry(table, index);
        if entry & (RIGHT | U) != RIGHT | U {
            return None;
        }
        let frame = self.memory.split(frame_of(entry))?;
        let marks = entry & 1023 | W;
        self.memory.set_entry(table, index, (frame as u64) << 10 | marks);
        self.fence();
        self.translate(address, Access::Store)
    }

    // The table of level 0 and the index in it of the entry for an address, which maps a page.
    fn leaf_at(&self, root: u32, address: u64) -> Option<(u32, u64)> {
        if address >> 38 != 0 {
            return None;
        }
        let mut table = root;
        for level in [2, 1] {
            let entry = self.memory.entry(table, index_of(address, level));
            if entry & V == 0 {
                return None;
            }
            table = frame_of(entry);
        }
        let index = index_of(address, 0);
        (self.memory.entry(table, index) & V != 0).then_some((table, index))
    }

    /// The pages of another root up to a size, as further pages of the running process.
    pub fn add_pages_of(&mut self, root: u32, size: u64) -> Option<()> {
        while self.size < size {
            let (table, index) = self.leaf_at(root, self.size)?;
            let entry = self.memory.entry(table, index);
            let frame = frame_of(entry);
            if self.copies {
                let to = self.memory.take()?;
                self.memory.copy(frame, to);
                self.map_frame(to, entry & 1023)?;
            } else {
                self.memory.share(frame)?;
                self.memory.set_entry(table, index, entry & !W);
                self.map_frame(frame, entry & 1023 & !W)?;
            }
        }
        Some(())
    }

    /// Gives back the frames of a table and of all below it.
    pub fn give_tables(&mut self, table: u32) {
        for index in 0..512 {
            let entry = self.memory.entry(table, index);
            if entry & V == 0 {
                continue;
            }
            if entry & (R | W | X) == 0 {
                self.give_tables(frame_of(entry));
            } else {
                self.memory.give(frame_of(entry));
            }
        }
        self.memory.give(table);
    }
}
