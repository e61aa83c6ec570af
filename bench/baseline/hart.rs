//! The hart: one instruction, decoded from its word.

use crate::machine::Machine;
use crate::memory::Access;

pub enum Trap {
    Fault,
    Call,
}

impl Machine {
    #[inline(always)]
    fn load(&mut self, address: u64, size: u64, access: Access) -> Result<u64, Trap> {
        if address % size != 0 {
            return Err(Trap::Fault);
        }
        let at = self.locate(address, access).ok_or(Trap::Fault)?;
        let bytes = &self.memory.bytes[at..at + size as usize];
        Ok(match size {
            1 => bytes[0] as u64,
            2 => u16::from_le_bytes(bytes.try_into().unwrap()) as u64,
            4 => u32::from_le_bytes(bytes.try_into().unwrap()) as u64,
            _ => u64::from_le_bytes(bytes.try_into().unwrap()),
        })
    }

    pub fn store(&mut self, address: u64, size: u64, value: u64) -> Result<(), Trap> {
        if address % size != 0 {
            return Err(Trap::Fault);
        }
        let at = match self.locate(address, Access::Store) {
            Some(at) => at,
            None => self.open(address).ok_or(Trap::Fault)?,
        };
        let bytes = &mut self.memory.bytes[at..at + size as usize];
        bytes.copy_from_slice(&value.to_le_bytes()[..size as usize]);
        Ok(())
    }

    fn set(&mut self, register: usize, value: u64) {
        if register != 0 {
            self.registers[register] = value;
        }
    }

    /// One instruction.
    pub fn step(&mut self) -> Result<(), Trap> {
        let word = self.load(self.pc, 4, Access::Fetch)? as u32;
        let rd = (word >> 7 & 31) as usize;
        let a = self.registers[(word >> 15 & 31) as usize];
        let b = self.registers[(word >> 20 & 31) as usize];
        let funct3 = word >> 12 & 7;
        let address = a.wrapping_add(immediate(word));
        let next = self.pc.wrapping_add(4);
        match word & 0x7f {
            0x37 => self.set(rd, upper(word)),
            0x17 => self.set(rd, self.pc.wrapping_add(upper(word))),
            0x6f => return self.jump(rd, self.pc.wrapping_add(jump_offset(word)), next),
            0x67 if funct3 == 0 => return self.jump(rd, address & !1, next),
            0x63 => {
                if is_taken(funct3, a, b)? {
                    return self.jump(0, self.pc.wrapping_add(branch_offset(word)), next);
                }
            }
            0x03 => {
                let value = self.load_as(funct3, address)?;
                self.set(rd, value);
            }
            0x23 if funct3 < 4 => self.store(a.wrapping_add(store_offset(word)), 1 << funct3, b)?,
            0x13 => self.set(rd, with_immediate(word, a)?),
            0x33 => self.set(rd, with_register(word, a, b)?),
            0x1b => self.set(rd, with_immediate_32(word, a as i32)? as i64 as u64),
            0x3b => self.set(rd, with_register_32(word, a as i32, b as u32)? as i64 as u64),
            0x0f if funct3 == 0 => {}
            0x73 if word == 0x73 => return Err(Trap::Call),
            _ => return Err(Trap::Fault),
        }
        self.pc = next;
        Ok(())
    }

    #[inline(always)]
    fn load_as(&mut self, funct3: u32, address: u64) -> Result<u64, Trap> {
        Ok(match funct3 {
            0 => self.load(address, 1, Access::Load)? as i8 as i64 as u64,
            1 => self.load(address, 2, Access::Load)? as i16 as i64 as u64,
            2 => self.load(address, 4, Access::Load)? as i32 as i64 as u64,
            3 => self.load(address, 8, Access::Load)?,
            4 => self.load(address, 1, Access::Load)?,
            5 => self.load(address, 2, Access::Load)?,
            6 => self.load(address, 4, Access::Load)?,
            _ => return Err(Trap::Fault),
        })
    }

    #[inline(always)]
    fn jump(&mut self, rd: usize, target: u64, next: u64) -> Result<(), Trap> {
        if target % 4 != 0 {
            return Err(Trap::Fault);
        }
        self.set(rd, next);
        self.pc = target;
        Ok(())
    }
}

fn upper(word: u32) -> u64 {
    (word & 0xffff_f000) as i32 as i64 as u64
}

fn immediate(word: u32) -> u64 {
    (word as i32 >> 20) as i64 as u64
}

fn store_offset(word: u32) -> u64 {
    ((word as i32 >> 25 << 5) as i64 | (word >> 7 & 31) as i64) as u64
}

fn jump_offset(word: u32) -> u64 {
    let sign = (word as i32 >> 31 << 20) as u32;
    let offset = sign | word & 0xff000 | word >> 9 & 0x800 | word >> 20 & 0x7fe;
    offset as i32 as i64 as u64
}

fn branch_offset(word: u32) -> u64 {
    let sign = (word as i32 >> 31 << 12) as u32;
    let offset = sign | word << 4 & 0x800 | word >> 20 & 0x7e0 | word >> 7 & 0x1e;
    offset as i32 as i64 as u64
}

#[inline(always)]
fn is_taken(funct3: u32, a: u64, b: u64) -> Result<bool, Trap> {
    Ok(match funct3 {
        0 => a == b,
        1 => a != b,
        4 => (a as i64) < b as i64,
        5 => a as i64 >= b as i64,
        6 => a < b,
        7 => a >= b,
        _ => return Err(Trap::Fault),
    })
}

#[inline(always)]
fn with_immediate(word: u32, a: u64) -> Result<u64, Trap> {
    let b = immediate(word);
    let amount = word >> 20 & 63;
    Ok(match (word >> 12 & 7, word >> 26) {
        (0, _) => a.wrapping_add(b),
        (1, 0) => a << amount,
        (2, _) => ((a as i64) < b as i64) as u64,
        (3, _) => (a < b) as u64,
        (4, _) => a ^ b,
        (5, 0) => a >> amount,
        (5, 16) => (a as i64 >> amount) as u64,
        (6, _) => a | b,
        (7, _) => a & b,
        _ => return Err(Trap::Fault),
    })
}

#[inline(always)]
fn with_register(word: u32, a: u64, b: u64) -> Result<u64, Trap> {
    Ok(match (word >> 12 & 7, word >> 25) {
        (0, 0) => a.wrapping_add(b),
        (0, 32) => a.wrapping_sub(b),
        (1, 0) => a << (b & 63),
        (2, 0) => ((a as i64) < b as i64) as u64,
        (3, 0) => (a < b) as u64,
        (4, 0) => a ^ b,
        (5, 0) => a >> (b & 63),
        (5, 32) => (a as i64 >> (b & 63)) as u64,
        (6, 0) => a | b,
        (7, 0) => a & b,
        (0, 1) => a.wrapping_mul(b),
        (1, 1) => (a as i64 as i128 * b as i64 as i128 >> 64) as u64,
        (2, 1) => (a as i64 as i128 * b as i128 >> 64) as u64,
        (3, 1) => (a as u128 * b as u128 >> 64) as u64,
        (4, 1) if b == 0 => u64::MAX,
        (4, 1) => (a as i64).wrapping_div(b as i64) as u64,
        (5, 1) => a.checked_div(b).unwrap_or(u64::MAX),
        (6, 1) if b == 0 => a,
        (6, 1) => (a as i64).wrapping_rem(b as i64) as u64,
        (7, 1) => a.checked_rem(b).unwrap_or(a),
        _ => return Err(Trap::Fault),
    })
}

#[inline(always)]
fn with_immediate_32(word: u32, a: i32) -> Result<i32, Trap> {
    let amount = word >> 20 & 31;
    Ok(match (word >> 12 & 7, word >> 25) {
        (0, _) => a.wrapping_add(immediate(word) as i32),
        (1, 0) => a << amount,
        (5, 0) => (a as u32 >> amount) as i32,
        (5, 32) => a >> amount,
        _ => return Err(Trap::Fault),
    })
}

#[inline(always)]
fn with_register_32(word: u32, a: i32, b: u32) -> Result<i32, Trap> {
    Ok(match (word >> 12 & 7, word >> 25) {
        (0, 0) => a.wrapping_add(b as i32),
        (0, 32) => a.wrapping_sub(b as i32),
        (1, 0) => a << (b & 31),
        (5, 0) => (a as u32 >> (b & 31)) as i32,
        (5, 32) => a >> (b & 31),
        (0, 1) => a.wrapping_mul(b as i32),
        (4, 1) if b == 0 => -1,
        (4, 1) => a.wrapping_div(b as i32),
        (5, 1) => (a as u32).checked_div(b).unwrap_or(u32::MAX) as i32,
        (6, 1) if b == 0 => a,
        (6, 1) => a.wrapping_rem(b as i32),
        (7, 1) => (a as u32).checked_rem(b).unwrap_or(a as u32) as i32,
        _ => return Err(Trap::Fault),
    })
}
