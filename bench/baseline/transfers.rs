//! Pipes, the console, and the bytes that calls move.

use crate::machine::{Machine, Mode, Pending};
use crate::memory::{Access, FRAME};
use std::io::Write;
use std::ops::Range;

const ROOM: usize = 512;
const LINE: usize = 128;
const END_OF_INPUT: u8 = 0x04;

/// What a descriptor names.
#[derive(Clone, Copy, PartialEq)]
pub enum Open {
    Console,
    ReadEnd(usize),
    WriteEnd(usize),
}

/// A read or a write that waits: what is left of its buffer, and how long that was.
#[derive(Clone, Copy, PartialEq)]
pub struct Transfer {
    pub open: Open,
    at: u64,
    left: u64,
    count: u64,
}

/// A pipe: its bytes are the `held` ones from index `first` on of a ring in a frame.
pub struct Pipe {
    frame: u32,
    first: usize,
    held: usize,
    readers: usize,
    writers: usize,
}

impl Machine {
    fn pipe_at(&self, pipe: usize) -> &Pipe {
        self.pipes[pipe].as_ref().expect("a pipe")
    }

    /// Whether a read that waits can go on.
    pub fn can_read(&self, open: Open) -> bool {
        match open {
            Open::Console => !self.committed.is_empty(),
            Open::ReadEnd(pipe) => self.pipe_at(pipe).held > 0 || self.pipe_at(pipe).writers == 0,
            Open::WriteEnd(_) => false,
        }
    }

    /// Whether a write that waits can go on.
    pub fn can_write(&self, open: Open) -> bool {
        match open {
            Open::WriteEnd(pipe) => {
                self.pipe_at(pipe).held < ROOM || self.pipe_at(pipe).readers == 0
            }
            _ => false,
        }
    }

    /// One descriptor more or fewer names an end of a pipe.
    pub fn count(&mut self, open: Open, by: isize) {
        match open {
            Open::Console => {}
            Open::ReadEnd(at) => {
                let pipe = self.pipes[at].as_mut().expect("a pipe");
                pipe.readers = pipe.readers.wrapping_add_signed(by);
            }
            Open::WriteEnd(at) => {
                let pipe = self.pipes[at].as_mut().expect("a pipe");
                pipe.writers = pipe.writers.wrapping_add_signed(by);
            }
        }
    }

    /// The call close.
    pub fn close(&mut self, descriptor: usize) -> Option<u64> {
        let open = self.descriptors.get_mut(descriptor)?.take()?;
        self.count(open, -1);
        if let Open::ReadEnd(at) | Open::WriteEnd(at) = open {
            let Pipe { frame, readers, writers, .. } = *self.pipe_at(at);
            if readers + writers == 0 {
                self.memory.give(frame);
                self.pipes[at] = None;
            }
        }
        Some(0)
    }

    fn free_descriptor(&self) -> Option<usize> {
        self.descriptors.iter().position(Option::is_none)
    }

    /// The call pipe, with the address for its two descriptors.
    pub fn pipe(&mut self, address: u64) -> Option<u64> {
        let at = self.pipes.iter().position(Option::is_none)?;
        let first = self.free_descriptor()?;
        self.descriptors[first] = Some(Open::ReadEnd(at));
        let Some(second) = self.free_descriptor() else {
            self.descriptors[first] = None;
            return None;
        };
        self.descriptors[second] = Some(Open::WriteEnd(at));
        let frame = self.memory.take()?;
        self.pipes[at] = Some(Pipe { frame, first: 0, held: 0, readers: 1, writers: 1 });
        self.store(address, 4, first as u64).ok()?;
        self.store(address + 4, 4, second as u64).ok()?;
        Some(0)
    }

    // Where the kernel reads or writes an address; a page that is written is the process's own then.
    fn reach(&mut self, address: u64, access: Access) -> Option<usize> {
        match (self.translate(address, access), access) {
            (None, Access::Store) => self.open(address),
            (found, _) => found,
        }
    }

    // The bytes from an address on, to the end of its page at most.
    fn piece(&mut self, address: u64, most: u64, access: Access) -> Option<Range<usize>> {
        let from = self.reach(address, access)?;
        let rest = FRAME - from % FRAME;
        Some(from..from + rest.min(most as usize))
    }

    /// A read or a write whose buffer may be used whole.
    pub fn transfer(
        &mut self,
        descriptor: u64,
        at: u64,
        count: u64,
        access: Access,
    ) -> Option<Transfer> {
        let open = (*self.descriptors.get(descriptor as usize)?)?;
        let count = u64::try_from(count as i32).ok()?;
        let mut done = 0;
        while done < count {
            done += self.piece(at + done, count - done, access)?.len() as u64;
        }
        Some(Transfer { open, at, left: count, count })
    }

    /// A read goes on, or waits.
    pub fn read_on(&mut self, mut transfer: Transfer) {
        let answer = match transfer.open {
            Open::ReadEnd(at) => self.read_pipe(at, &transfer),
            Open::Console => self.read_line(&mut transfer),
            Open::WriteEnd(_) => Some(u64::MAX),
        };
        match answer {
            Some(answer) => self.registers[10] = answer,
            None => self.leave(Mode::Waiting(Pending::Read(transfer))),
        }
    }

    fn read_pipe(&mut self, at: usize, transfer: &Transfer) -> Option<u64> {
        let Pipe { frame, held, writers, .. } = *self.pipe_at(at);
        if held == 0 {
            return (writers == 0).then_some(0);
        }
        let count = transfer.left.min(held as u64);
        let mut done = 0;
        while done < count {
            let to = self.piece(transfer.at + done, count - done, Access::Store)?;
            let pipe = self.pipes[at].as_mut()?;
            let most = to.len().min(ROOM - pipe.first);
            let from = frame as usize * FRAME + pipe.first;
            pipe.first = (pipe.first + most) % ROOM;
            pipe.held -= most;
            self.memory.bytes.copy_within(from..from + most, to.start);
            done += most as u64;
        }
        Some(count)
    }

    // What a read takes of the line that is there; it waits for the line's end.
    fn read_line(&mut self, transfer: &mut Transfer) -> Option<u64> {
        while transfer.left > 0 {
            let done = transfer.count - transfer.left;
            let Some(byte) = self.committed.pop_front() else {
                return None;
            };
            if byte == END_OF_INPUT {
                if done > 0 {
                    self.committed.push_front(byte);
                }
                return Some(done);
            }
            let to = self.reach(transfer.at + done, Access::Store)?;
            self.memory.bytes[to] = byte;
            transfer.left -= 1;
            if byte == b'\n' {
                return Some(done + 1);
            }
        }
        Some(transfer.count)
    }

    /// A write goes on, or waits.
    pub fn write_on(&mut self, mut transfer: Transfer) {
        let answer = match transfer.open {
            Open::Console => self.print(&transfer),
            Open::WriteEnd(at) => self.write_pipe(at, &mut transfer),
            Open::ReadEnd(_) => Some(u64::MAX),
        };
        match answer {
            Some(answer) => self.registers[10] = answer,
            None => self.leave(Mode::Waiting(Pending::Write(transfer))),
        }
    }

    fn write_pipe(&mut self, at: usize, transfer: &mut Transfer) -> Option<u64> {
        if self.pipe_at(at).readers == 0 {
            return Some(u64::MAX);
        }
        while transfer.left > 0 && self.pipe_at(at).held < ROOM {
            let done = transfer.count - transfer.left;
            let from = self.piece(transfer.at + done, transfer.left, Access::Load)?;
            let pipe = self.pipes[at].as_mut()?;
            let end = (pipe.first + pipe.held) % ROOM;
            let most = from.len().min(ROOM - pipe.held).min(ROOM - end);
            pipe.held += most;
            let to = pipe.frame as usize * FRAME + end;
            self.memory.bytes.copy_within(from.start..from.start + most, to);
            transfer.left -= most as u64;
        }
        (transfer.left == 0).then_some(transfer.count)
    }

    fn print(&mut self, transfer: &Transfer) -> Option<u64> {
        let mut done = 0;
        while done < transfer.count {
            let from = self.piece(transfer.at + done, transfer.count - done, Access::Load)?;
            done += from.len() as u64;
            std::io::stdout().write_all(&self.memory.bytes[from]).ok()?;
        }
        Some(transfer.count)
    }

    /// A typed key: it is echoed, and with the end of a line the line can be read.
    pub fn key(&mut self, byte: u8) {
        if self.committed.len() + self.edited.len() == LINE {
            return;
        }
        self.edited.push(byte);
        let _ = std::io::stdout().write_all(&[byte]);
        if byte == b'\n' || byte == END_OF_INPUT {
            self.committed.extend(self.edited.drain(..));
        }
    }
}
