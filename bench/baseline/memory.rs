//! The frames: which are free, how many hold each, and what is remembered of translations.

pub const FRAME: usize = 4096;

#[derive(Clone, Copy)]
pub enum Access {
    Fetch,
    Load,
    Store,
}

/// How many pages are remembered for each access.
const KEPT: usize = 64;

/// A page has a frame under a root.
#[derive(Clone, Copy)]
struct Kept {
    page: u64,
    root: u32,
    frame: u32,
}

/// No address is on this page.
const NOTHING: Kept = Kept { page: u64::MAX, root: 0, frame: 0 };

/// Translations that are remembered.
pub struct Cache([[Kept; KEPT]; 3]);

impl Cache {
    pub fn new() -> Cache {
        Cache([[NOTHING; KEPT]; 3])
    }

    #[inline(always)]
    pub fn find(&self, page: u64, root: u32, access: Access) -> Option<u32> {
        let kept = self.0[access as usize][page as usize % KEPT];
        (kept.page == page && kept.root == root).then_some(kept.frame)
    }

    pub fn keep(&mut self, page: u64, root: u32, access: Access, frame: u32) {
        self.0[access as usize][page as usize % KEPT] = Kept { page, root, frame };
    }
}

/// The bytes of all frames, the free ones, and how many hold each of the others.
pub struct Memory {
    pub bytes: Vec<u8>,
    free: Vec<u32>,
    holders: Vec<u16>,
    // The sum of all holders beyond the first of a frame: that many free frames are spoken for.
    extra: usize,
}

impl Memory {
    pub fn new(frames: u32) -> Memory {
        Memory {
            bytes: vec![0; frames as usize * FRAME],
            free: (0..frames).rev().collect(),
            holders: vec![0; frames as usize],
            extra: 0,
        }
    }

    pub fn frames(&self) -> usize {
        self.holders.len()
    }

    /// How many frames a new holder may still have.
    pub fn room(&self) -> usize {
        self.free.len() - self.extra
    }

    /// A frame of zeros with one holder.
    pub fn take(&mut self) -> Option<u32> {
        let frame = self.take_any()?;
        let at = frame as usize * FRAME;
        self.bytes[at..at + FRAME].fill(0);
        Some(frame)
    }

    // A frame whose bytes are left from before.
    fn take_any(&mut self) -> Option<u32> {
        if self.room() == 0 {
            return None;
        }
        let frame = self.free.pop()?;
        self.holders[frame as usize] = 1;
        Some(frame)
    }

    /// One holder more.
    pub fn share(&mut self, frame: u32) -> Option<()> {
        if self.room() == 0 {
            return None;
        }
        self.holders[frame as usize] += 1;
        self.extra += 1;
        Some(())
    }

    /// One holder fewer.
    pub fn give(&mut self, frame: u32) {
        let holders = &mut self.holders[frame as usize];
        *holders -= 1;
        if *holders == 0 {
            self.free.push(frame);
        } else {
            self.extra -= 1;
        }
    }

    /// For a holder that wants a frame alone: the same one where nobody else holds it, and else a copy.
    pub fn split(&mut self, frame: u32) -> Option<u32> {
        if self.holders[frame as usize] == 1 {
            return Some(frame);
        }
        self.give(frame);
        let own = self.take_any()?;
        self.copy(frame, own);
        Some(own)
    }

    pub fn copy(&mut self, from: u32, to: u32) {
        let from = from as usize * FRAME;
        self.bytes.copy_within(from..from + FRAME, to as usize * FRAME);
    }

    pub fn entry(&self, table: u32, index: u64) -> u64 {
        let at = place_of(table, index);
        u64::from_le_bytes(self.bytes[at..at + 8].try_into().unwrap())
    }

    pub fn set_entry(&mut self, table: u32, index: u64, entry: u64) {
        let at = place_of(table, index);
        self.bytes[at..at + 8].copy_from_slice(&entry.to_le_bytes());
    }
}

fn place_of(table: u32, index: u64) -> usize {
    table as usize * FRAME + index as usize * 8
}
