//! Processes: turns, calls, and how a process comes and goes.

use crate::hart::Trap;
use crate::machine::{Machine, Mode, Pending, Process};
use crate::memory::{Access, FRAME};
use crate::pages::{R, U, W};

impl Machine {
    /// The running process runs no more.
    pub fn leave(&mut self, mode: Mode) {
        if let Some(at) = self.running.take() {
            let process = self.places[at].expect("the running process");
            self.places[at] = Some(self.process(process.pid, process.parent, mode));
        }
    }

    fn enter(&mut self, at: usize) {
        self.fence();
        let process = self.places[at].as_mut().expect("a process");
        process.mode = Mode::Running;
        self.registers = process.registers;
        self.pc = process.pc;
        self.root = process.root;
        self.size = process.size;
        self.descriptors = process.descriptors;
        self.running = Some(at);
    }

    fn find(&self, test: impl Fn(&Process) -> bool) -> Option<usize> {
        self.places.iter().position(|place| place.as_ref().is_some_and(&test))
    }

    fn zombie_child(&self, pid: u32) -> Option<usize> {
        self.find(|p| p.parent == pid && matches!(p.mode, Mode::Zombie(_)))
    }

    fn is_ready(&self, at: usize) -> bool {
        self.places[at].as_ref().is_some_and(|process| match process.mode {
            Mode::Ready => true,
            Mode::Waiting(Pending::Wait) => self.zombie_child(process.pid).is_some(),
            Mode::Waiting(Pending::Read(transfer)) => self.can_read(transfer.open),
            Mode::Waiting(Pending::Write(transfer)) => self.can_write(transfer.open),
            Mode::Running | Mode::Zombie(_) => false,
        })
    }

    // The process whose turn it is runs, or goes on with its call.
    fn turn(&mut self) {
        let Some(at) = (1..=64).map(|k| (self.last + k) % 64).find(|&at| self.is_ready(at)) else {
            return;
        };
        self.last = at;
        let mode = self.places[at].expect("a process").mode;
        self.enter(at);
        match mode {
            Mode::Waiting(Pending::Wait) => self.wait(),
            Mode::Waiting(Pending::Read(transfer)) => self.read_on(transfer),
            Mode::Waiting(Pending::Write(transfer)) => self.write_on(transfer),
            _ => {}
        }
    }

    /// The running process stops.
    pub fn tick(&mut self) {
        self.leave(Mode::Ready);
    }

    // A status where process 1 ends.
    fn end(&mut self, status: i32) -> Option<i32> {
        let pid = self.places[self.running?]?.pid;
        for descriptor in 0..16 {
            self.close(descriptor);
        }
        self.leave(Mode::Zombie(status));
        for process in self.places.iter_mut().flatten().filter(|p| p.parent == pid) {
            process.parent = 1;
        }
        (pid == 1).then_some(status)
    }

    // One call; a status where process 1 ends.
    fn call(&mut self) -> Option<i32> {
        self.pc = self.pc.wrapping_add(4);
        let [a0, a1, a2] = [10, 11, 12].map(|register| self.registers[register]);
        let answer = match self.registers[17] as i32 {
            1 => self.fork(),
            2 => return self.end(a0 as i32),
            3 => {
                self.wait();
                return None;
            }
            4 => self.pipe(a0),
            5 => match self.transfer(a0, a1, a2, Access::Store) {
                Some(transfer) => {
                    self.read_on(transfer);
                    return None;
                }
                None => None,
            },
            12 => self.sbrk(a0 as i32 as i64),
            16 => match self.transfer(a0, a1, a2, Access::Load) {
                Some(transfer) => {
                    self.write_on(transfer);
                    return None;
                }
                None => None,
            },
            21 => self.close(a0 as usize),
            _ => None,
        };
        self.registers[10] = answer.unwrap_or(u64::MAX);
        None
    }

    fn fork(&mut self) -> Option<u64> {
        let place = self.places.iter().position(Option::is_none)?;
        let pages = self.size / FRAME as u64;
        if (self.memory.room() as u64) < pages + 2 + pages.div_ceil(512) {
            return None;
        }
        let parent = self.process(0, 0, Mode::Ready);
        self.root = self.memory.take()?;
        self.size = 0;
        self.add_pages_of(parent.root, parent.size)?;
        self.fence();
        self.pids += 1;
        let pid = self.places[self.running?]?.pid;
        let mut child = self.process(self.pids, pid, Mode::Ready);
        child.registers[10] = 0;
        for open in child.descriptors.iter().flatten() {
            self.count(*open, 1);
        }
        self.places[place] = Some(child);
        self.root = parent.root;
        Some(self.pids as u64)
    }

    // Wait without an address for the status.
    fn wait(&mut self) {
        let pid = self.running.and_then(|at| self.places[at]).map_or(0, |process| process.pid);
        if self.find(|p| p.parent == pid).is_none() {
            self.registers[10] = u64::MAX;
            return;
        }
        let Some(at) = self.zombie_child(pid) else {
            self.leave(Mode::Waiting(Pending::Wait));
            return;
        };
        if let Some(child) = self.places[at].take() {
            self.give_tables(child.root);
            self.registers[10] = child.pid as u64;
        }
    }

    fn sbrk(&mut self, by: i64) -> Option<u64> {
        let old = self.size;
        let new = old.checked_add_signed(by)?;
        while self.size > new {
            self.unmap()?;
        }
        while self.size < new {
            self.map(R | W | U)?;
        }
        Some(old)
    }

    /// A step; a status where process 1 ends.
    pub fn go(&mut self) -> Option<i32> {
        if self.running.is_none() {
            self.turn();
            return None;
        }
        match self.step() {
            Ok(()) => None,
            Err(Trap::Call) => self.call(),
            Err(Trap::Fault) => self.end(-1),
        }
    }
}
