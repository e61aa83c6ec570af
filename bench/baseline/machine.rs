//! What a machine holds, and how it starts.

use crate::memory::{Cache, Memory, FRAME};
use crate::pages::{R, U, W, X};
use crate::transfers::{Open, Pipe, Transfer};
use std::collections::VecDeque;

#[derive(Clone, Copy, PartialEq)]
pub enum Pending {
    Wait,
    Read(Transfer),
    Write(Transfer),
}

#[derive(Clone, Copy, PartialEq)]
pub enum Mode {
    Ready,
    Running,
    Waiting(Pending),
    Zombie(i32),
}

/// A process; what the hart holds of the running one isn't up to date here.
#[derive(Clone, Copy)]
pub struct Process {
    pub pid: u32,
    pub parent: u32,
    pub mode: Mode,
    pub registers: [u64; 32],
    pub pc: u64,
    pub root: u32,
    pub size: u64,
    pub descriptors: [Option<Open>; 16],
}

pub struct Machine {
    pub memory: Memory,
    /// Translations, where they are remembered.
    pub kept: Option<Cache>,
    /// Whether a fork copies each page at once.
    pub copies: bool,
    pub places: [Option<Process>; 64],
    pub running: Option<usize>,
    pub last: usize,
    pub pids: u32,
    pub pipes: [Option<Pipe>; 100],
    pub committed: VecDeque<u8>,
    pub edited: Vec<u8>,
    // of the running process
    pub registers: [u64; 32],
    pub pc: u64,
    pub root: u32,
    pub size: u64,
    pub descriptors: [Option<Open>; 16],
}

impl Machine {
    /// One process with this program. `None`: too few frames.
    pub fn new(frames: u32, program: &[u8], keeps: bool, copies: bool) -> Option<Machine> {
        let mut machine = Machine {
            memory: Memory::new(frames),
            kept: keeps.then(Cache::new),
            copies,
            places: [None; 64],
            running: None,
            last: 63,
            pids: 1,
            pipes: [const { None }; 100],
            committed: VecDeque::new(),
            edited: Vec::new(),
            registers: [0; 32],
            pc: 0,
            root: 0,
            size: 0,
            descriptors: [None; 16],
        };
        machine.descriptors[..3].fill(Some(Open::Console));
        machine.root = machine.memory.take()?;
        for chunk in program.chunks(FRAME) {
            let frame = machine.map(R | W | X | U)?;
            let at = frame as usize * FRAME;
            machine.memory.bytes[at..at + chunk.len()].copy_from_slice(chunk);
        }
        machine.map(R | W)?;
        machine.map(R | W | U)?;
        machine.registers[2] = machine.size - 16;
        machine.places[0] = Some(machine.process(1, 0, Mode::Ready));
        Some(machine)
    }

    /// A process with what the hart holds.
    pub fn process(&self, pid: u32, parent: u32, mode: Mode) -> Process {
        let Machine { registers, pc, root, size, descriptors, .. } = *self;
        Process { pid, parent, mode, registers, pc, root, size, descriptors }
    }
}
