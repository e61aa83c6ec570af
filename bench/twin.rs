//! The fastest plain interpreter of this machine that we know, for one process, to measure `xv6 flat`
//! against: it shows what a loop of this shape can do. Nothing else depends on it.
//!
//! As in the plain interpreter in `baseline`, memory is frames, in which Sv39 tables lie, and with its
//! `--tlb` pages are remembered for each kind of access. Beyond that
//!
//! - words are decoded once, into blocks: operations of one page that follow each other, through branches
//!   that aren't taken, up to a jump, a call or the page's end. A frame with decoded words isn't remembered
//!   for stores, so each store there goes a slow way; one to such a word forgets all blocks;
//! - a block takes its count of steps where it begins, and what leaves it early gives back the rest;
//! - a branch leads to its target's block once it was taken. So nothing but a new block needs a
//!   translation of a pc: the tables of a process stay as they are;
//! - what a step touches comes as an argument of its own, so the compiler knows that they are apart;
//! - an operation has eight bytes; what only a branch or a fault looks at lies elsewhere;
//! - x0 as a target is decoded to a register that nobody reads;
//! - one comparison shows that an address is aligned and that its page is remembered.
//!
//! It knows RV64IM and the call exit; every other call returns -1. A script's lines `step N` say how
//! far it goes, and the first step is the turn in which the process gets the hart.
//!
//!     rustc -O -C codegen-units=1 -o twin twin.rs
//!     ./twin FRAMES FILE SCRIPT

const FRAME: usize = 4096;
type Frame = [u8; FRAME];

// ---- the tables

const ROOT: usize = 0;
const V: u64 = 1;
const R: u64 = 2;
const W: u64 = 4;
const X: u64 = 8;
const U: u64 = 16;
const A: u64 = 64;
const D: u64 = 128;

#[derive(Clone, Copy)]
enum Access {
    Fetch,
    Load,
    Store,
}

fn index_of(address: u64, level: u32) -> usize {
    address as usize >> (12 + 9 * level) & 511
}

fn entry_at(frames: &[Frame], table: usize, index: usize) -> u64 {
    u64::from_le_bytes(frames[table].as_chunks().0[index])
}

fn set_entry(frames: &mut [Frame], table: usize, index: usize, entry: u64) {
    frames[table].as_chunks_mut().0[index] = entry.to_le_bytes();
}

/// The frame of an address, by a walk of the tables.
fn walk(frames: &[Frame], address: u64, access: Access) -> Option<usize> {
    let high = address as i64 >> 38;
    if high != 0 && high != -1 {
        return None;
    }
    let mut table = ROOT;
    for level in [2, 1] {
        let entry = entry_at(frames, table, index_of(address, level));
        if entry & (V | R | W | X) != V {
            return None;
        }
        table = (entry >> 10) as usize;
    }
    let wanted = match access {
        Access::Fetch => V | X | U | A,
        Access::Load => V | R | U | A,
        Access::Store => V | W | U | A | D,
    };
    let entry = entry_at(frames, table, index_of(address, 0));
    (entry & wanted == wanted).then_some((entry >> 10) as usize)
}

/// A program from address 0 on, a page that can't be touched, and a page of stack; and where that ends.
fn load_program(count: usize, program: &[u8]) -> Option<(Vec<Frame>, u64)> {
    let mut frames = vec![[0; FRAME]; count];
    let pages = program.len().div_ceil(FRAME);
    let (middle, table, first) = (1, 2, 3);
    if pages + 2 > 512 || first + pages + 2 > count {
        return None;
    }
    set_entry(&mut frames, ROOT, 0, middle << 10 | V);
    set_entry(&mut frames, middle as usize, 0, table << 10 | V);
    for page in 0..pages + 2 {
        let marks = if page == pages { R | W } else { R | W | X | U };
        let entry = ((first + page) as u64) << 10 | marks | V | A | D;
        set_entry(&mut frames, table as usize, page, entry);
    }
    for (frame, bytes) in frames[first..].iter_mut().zip(program.chunks(FRAME)) {
        frame[..bytes.len()].copy_from_slice(bytes);
    }
    Some((frames, ((pages + 2) * FRAME) as u64))
}

// ---- what is remembered of translations

const KEPT: usize = 256;

/// The page that begins at an address has a frame.
#[derive(Clone, Copy)]
struct Kept {
    page: u64,
    frame: u32,
}

/// No page begins at this address.
const NOTHING: Kept = Kept { page: u64::MAX, frame: 0 };

struct Translations {
    loads: [Kept; KEPT],
    stores: [Kept; KEPT],
}

fn place_of(address: u64) -> usize {
    address as usize / FRAME % KEPT
}

fn keep(kept: &mut [Kept; KEPT], address: u64, frame: usize) {
    let page = address & !(FRAME as u64 - 1);
    kept[place_of(address)] = Kept { page, frame: frame as u32 };
}

/// The frame of an address that is a multiple of `size`, where it is remembered.
#[inline(always)]
fn find(kept: &[Kept; KEPT], address: u64, size: usize) -> Option<usize> {
    let Kept { page, frame } = kept[place_of(address)];
    let begins = address & !((FRAME - size) as u64);
    (page == begins).then_some(frame as usize)
}

// ---- operations

#[derive(Clone, Copy, PartialEq)]
#[rustfmt::skip]
enum Kind {
    Begin, Next, Illegal, Lui, Auipc, Jal, Jalr, Beq, Bne, Blt, Bge, Bltu, Bgeu,
    Lb, Lh, Lw, Ld, Lbu, Lhu, Lwu, Sb, Sh, Sw, Sd,
    Addi, Slti, Sltiu, Xori, Ori, Andi, Slli, Srli, Srai, Addiw, Slliw, Srliw, Sraiw,
    Add, Sub, Sll, Slt, Sltu, Xor, Srl, Sra, Or, And, Addw, Subw, Sllw, Srlw, Sraw,
    Mul, Mulh, Mulhsu, Mulhu, Div, Divu, Rem, Remu, Mulw, Divw, Divuw, Remw, Remuw, Fence, Ecall,
}

/// A decoded word. The value is the immediate operand; of `lui` and `auipc` what the target gets; where a
/// block begins how many steps it has.
#[derive(Clone, Copy)]
struct Operation {
    kind: Kind,
    target: u8,
    left: u8,
    right: u8,
    value: i32,
}

/// So many registers that a byte names one of them without a test.
type Registers = [u64; 256];

/// The register that nobody reads.
const NOBODY: u8 = 32;

#[rustfmt::skip]
fn kind_of(word: u32) -> Kind {
    use Kind::*;
    match (word & 0x7f, word >> 12 & 7, word >> 25) {
        (0x37, ..) => Lui, (0x17, ..) => Auipc, (0x6f, ..) => Jal, (0x67, 0, _) => Jalr,
        (0x63, 0, _) => Beq, (0x63, 1, _) => Bne, (0x63, 4, _) => Blt, (0x63, 5, _) => Bge,
        (0x63, 6, _) => Bltu, (0x63, 7, _) => Bgeu,
        (0x03, 0, _) => Lb, (0x03, 1, _) => Lh, (0x03, 2, _) => Lw, (0x03, 3, _) => Ld,
        (0x03, 4, _) => Lbu, (0x03, 5, _) => Lhu, (0x03, 6, _) => Lwu,
        (0x23, 0, _) => Sb, (0x23, 1, _) => Sh, (0x23, 2, _) => Sw, (0x23, 3, _) => Sd,
        (0x13, 0, _) => Addi, (0x13, 2, _) => Slti, (0x13, 3, _) => Sltiu, (0x13, 4, _) => Xori,
        (0x13, 6, _) => Ori, (0x13, 7, _) => Andi,
        (0x13, 1, 0 | 1) => Slli, (0x13, 5, 0 | 1) => Srli, (0x13, 5, 32 | 33) => Srai,
        (0x1b, 0, _) => Addiw, (0x1b, 1, 0) => Slliw, (0x1b, 5, 0) => Srliw, (0x1b, 5, 32) => Sraiw,
        (0x33, 0, 0) => Add, (0x33, 0, 32) => Sub, (0x33, 1, 0) => Sll, (0x33, 2, 0) => Slt,
        (0x33, 3, 0) => Sltu, (0x33, 4, 0) => Xor, (0x33, 5, 0) => Srl, (0x33, 5, 32) => Sra,
        (0x33, 6, 0) => Or, (0x33, 7, 0) => And,
        (0x33, 0, 1) => Mul, (0x33, 1, 1) => Mulh, (0x33, 2, 1) => Mulhsu, (0x33, 3, 1) => Mulhu,
        (0x33, 4, 1) => Div, (0x33, 5, 1) => Divu, (0x33, 6, 1) => Rem, (0x33, 7, 1) => Remu,
        (0x3b, 0, 0) => Addw, (0x3b, 0, 32) => Subw, (0x3b, 1, 0) => Sllw, (0x3b, 5, 0) => Srlw,
        (0x3b, 5, 32) => Sraw,
        (0x3b, 0, 1) => Mulw, (0x3b, 4, 1) => Divw, (0x3b, 5, 1) => Divuw, (0x3b, 6, 1) => Remw,
        (0x3b, 7, 1) => Remuw,
        (0x0f, 0, _) => Fence,
        (0x73, 0, 0) if word == 0x73 => Ecall,
        _ => Illegal,
    }
}

fn value_of(word: u32) -> i32 {
    let (signed, sign) = (word as i32, word as i32 >> 31);
    match word & 0x7f {
        0x37 | 0x17 => (word & 0xffff_f000) as i32,
        0x6f => sign << 20 | (word & 0xff000 | word >> 9 & 0x800 | word >> 20 & 0x7fe) as i32,
        0x63 => sign << 12 | (word << 4 & 0x800 | word >> 20 & 0x7e0 | word >> 7 & 0x1e) as i32,
        0x23 => signed >> 25 << 5 | (word >> 7 & 31) as i32,
        _ => signed >> 20,
    }
}

/// What a word at a pc does.
fn decode(word: u32, pc: u64) -> Operation {
    let register = |lowest: u32| (word >> lowest & 31) as u8;
    let (kind, value) = (kind_of(word), value_of(word));
    let target = if register(7) == 0 { NOBODY } else { register(7) };
    let (left, right) = (register(15), register(20));
    match kind {
        Kind::Auipc => Operation { kind: Kind::Lui, target, left, right, value: pc as i32 + value },
        Kind::Jal if value % 4 != 0 => {
            Operation { kind: Kind::Illegal, target, left, right, value }
        }
        _ => Operation { kind, target, left, right, value },
    }
}

fn is_branch(kind: Kind) -> bool {
    use Kind::*;
    matches!(kind, Beq | Bne | Blt | Bge | Bltu | Bgeu)
}

// ---- blocks

/// An index among the operations of all blocks.
type Slot = u16;
const SLOTS: usize = 1 << 16;

/// No block begins here.
const NOWHERE: Slot = 0;

/// How many steps a block has at most.
const LONGEST: usize = 120;

/// What an operation has beside its eight bytes.
#[derive(Clone, Copy)]
struct Beside {
    pc: u64,
    /// Where the block begins that a taken branch leads to, if that is known.
    to: Slot,
    /// How many steps of the block follow this operation.
    rest: u16,
}

const END: Operation =
    Operation { kind: Kind::Begin, target: NOBODY, left: 0, right: 0, value: i32::MAX };
const NONE: Beside = Beside { pc: u64::MAX, to: NOWHERE, rest: 0 };

/// How many targets of indirect jumps are remembered.
const JUMPS: usize = 1024;

/// The decoded words. Blocks lie one after the other; each has a first operation that is no step.
struct Code {
    operations: Box<[Operation; SLOTS]>,
    beside: Box<[Beside; SLOTS]>,
    /// The first free index.
    end: usize,
    /// Of each frame where the blocks of its words begin, and which of them are decoded.
    begins: Vec<[Slot; FRAME / 4]>,
    is_decoded: Vec<[bool; FRAME / 4]>,
    has_decoded: Vec<bool>,
    jumps: Box<[Slot; JUMPS]>,
}

impl Code {
    fn new(count: usize) -> Option<Code> {
        Some(Code {
            operations: vec![END; SLOTS].try_into().ok()?,
            beside: vec![NONE; SLOTS].try_into().ok()?,
            end: 1,
            begins: vec![[NOWHERE; FRAME / 4]; count],
            is_decoded: vec![[false; FRAME / 4]; count],
            has_decoded: vec![false; count],
            jumps: vec![NOWHERE; JUMPS].try_into().ok()?,
        })
    }

    fn forget(&mut self) {
        for frame in (0..self.has_decoded.len()).filter(|frame| self.has_decoded[*frame]) {
            self.begins[frame].fill(NOWHERE);
            self.is_decoded[frame].fill(false);
        }
        self.has_decoded.fill(false);
        self.jumps.fill(NOWHERE);
        self.end = 1;
    }

    fn push(&mut self, operation: Operation, beside: Beside) {
        self.operations[self.end] = operation;
        self.beside[self.end] = beside;
        self.end += 1;
    }

    /// The block at a pc of at most that many steps, which is made if need be; none where nothing may be executed.
    fn block(
        &mut self,
        frames: &[Frame],
        translations: &mut Translations,
        pc: u64,
        most: usize,
    ) -> Option<Slot> {
        let frame = walk(frames, pc, Access::Fetch)?;
        let word = pc as usize % FRAME / 4;
        let begin = self.begins[frame][word];
        if begin != NOWHERE && self.operations[begin as usize].value as usize <= most {
            return Some(begin);
        }
        if self.end + LONGEST + 2 > SLOTS {
            self.forget();
        }
        if !self.has_decoded[frame] {
            self.has_decoded[frame] = true;
            forget_stores(translations, frame);
        }
        let begin = self.end as Slot;
        if most >= LONGEST {
            self.begins[frame][word] = begin;
        }
        self.add_block(&frames[frame], frame, pc, most.min(LONGEST));
        Some(begin)
    }

    fn add_block(&mut self, bytes: &Frame, frame: usize, pc: u64, most: usize) {
        let begin = self.end;
        self.push(END, Beside { pc, ..NONE });
        let words = &bytes.as_chunks().0[pc as usize % FRAME / 4..];
        let mut next = pc;
        let mut is_ended = false;
        for word in words.iter().take(most) {
            let operation = decode(u32::from_le_bytes(*word), next);
            self.is_decoded[frame][next as usize % FRAME / 4] = true;
            self.push(operation, Beside { pc: next, ..NONE });
            next += 4;
            is_ended =
                matches!(operation.kind, Kind::Jal | Kind::Jalr | Kind::Ecall | Kind::Illegal);
            if is_ended {
                break;
            }
        }
        let steps = self.end - begin - 1;
        self.operations[begin].value = steps as i32;
        for (at, beside) in self.beside[begin + 1..self.end].iter_mut().enumerate() {
            beside.rest = (steps - at - 1) as u16;
        }
        if !is_ended {
            self.push(Operation { kind: Kind::Next, ..END }, Beside { pc: next, ..NONE });
        }
    }

    /// Where a branch, a jump or the end of a block leads to.
    fn target(&self, at: Slot) -> u64 {
        let (Operation { kind, value, .. }, pc) =
            (self.operations[at as usize], self.beside[at as usize].pc);
        if is_branch(kind) || kind == Kind::Jal {
            pc.wrapping_add(value as i64 as u64)
        } else {
            pc
        }
    }
}

/// A frame isn't remembered for stores any more.
fn forget_stores(translations: &mut Translations, frame: usize) {
    for kept in translations.stores.iter_mut().filter(|kept| kept.frame as usize == frame) {
        *kept = NOTHING;
    }
}

// ---- one operation

/// Why the next operation isn't the one after this one.
enum Leave {
    Taken,
    Jump(u64),
    Call,
    Slow,
}

#[inline(always)]
fn load<const N: usize>(
    frames: &[Frame],
    loads: &[Kept; KEPT],
    address: u64,
) -> Result<[u8; N], Leave> {
    let frame = find(loads, address, N).and_then(|frame| frames.get(frame)).ok_or(Leave::Slow)?;
    Ok(frame.as_chunks().0[address as usize % FRAME / N])
}

#[inline(always)]
fn store<const N: usize>(
    frames: &mut [Frame],
    stores: &[Kept; KEPT],
    address: u64,
    bytes: [u8; N],
) -> Result<(), Leave> {
    let found = find(stores, address, N).and_then(|frame| frames.get_mut(frame));
    found.ok_or(Leave::Slow)?.as_chunks_mut().0[address as usize % FRAME / N] = bytes;
    Ok(())
}

#[inline(always)]
fn branch(is_taken: bool) -> Result<(), Leave> {
    if is_taken {
        Err(Leave::Taken)
    } else {
        Ok(())
    }
}

fn divide(left: i64, right: i64) -> i64 {
    if right == 0 {
        -1
    } else {
        left.wrapping_div(right)
    }
}

fn remainder(left: i64, right: i64) -> i64 {
    if right == 0 {
        left
    } else {
        left.wrapping_rem(right)
    }
}

fn high(product: i128) -> u64 {
    (product >> 64) as u64
}

/// Does an operation that isn't slow.
#[inline(always)]
fn act(
    operation: &Operation,
    pc: impl Fn() -> u64,
    registers: &mut Registers,
    frames: &mut [Frame],
    translations: &Translations,
) -> Result<(), Leave> {
    use Kind::*;
    // Each kind looks at what it needs alone.
    let a = || registers[operation.left as usize];
    let b = || registers[operation.right as usize];
    let value = || operation.value as i64 as u64;
    let sum = || a().wrapping_add(value());
    let loads = &translations.loads;
    let stores = &translations.stores;
    let result = match operation.kind {
        Begin | Illegal | Auipc => return Err(Leave::Slow),
        Next => return Err(Leave::Taken),
        Ecall => return Err(Leave::Call),
        Fence => return Ok(()),
        Beq => return branch(a() == b()),
        Bne => return branch(a() != b()),
        Blt => return branch((a() as i64) < b() as i64),
        Bge => return branch(a() as i64 >= b() as i64),
        Bltu => return branch(a() < b()),
        Bgeu => return branch(a() >= b()),
        Jal => {
            registers[operation.target as usize] = pc().wrapping_add(4);
            return Err(Leave::Taken);
        }
        Jalr => {
            let to = sum() & !1;
            if to % 4 != 0 {
                return Err(Leave::Slow);
            }
            registers[operation.target as usize] = pc().wrapping_add(4);
            return Err(Leave::Jump(to));
        }
        Sb => return store(frames, stores, sum(), (b() as u8).to_le_bytes()),
        Sh => return store(frames, stores, sum(), (b() as u16).to_le_bytes()),
        Sw => return store(frames, stores, sum(), (b() as u32).to_le_bytes()),
        Sd => return store(frames, stores, sum(), b().to_le_bytes()),
        Lb => i8::from_le_bytes(load(frames, loads, sum())?) as u64,
        Lh => i16::from_le_bytes(load(frames, loads, sum())?) as u64,
        Lw => i32::from_le_bytes(load(frames, loads, sum())?) as u64,
        Ld => u64::from_le_bytes(load(frames, loads, sum())?),
        Lbu => u8::from_le_bytes(load(frames, loads, sum())?) as u64,
        Lhu => u16::from_le_bytes(load(frames, loads, sum())?) as u64,
        Lwu => u32::from_le_bytes(load(frames, loads, sum())?) as u64,
        Lui => value(),
        Addi => sum(),
        Slti => ((a() as i64) < value() as i64) as u64,
        Sltiu => (a() < value()) as u64,
        Xori => a() ^ value(),
        Ori => a() | value(),
        Andi => a() & value(),
        Slli => a() << (value() & 63),
        Srli => a() >> (value() & 63),
        Srai => (a() as i64 >> (value() & 63)) as u64,
        Addiw => sum() as i32 as u64,
        Slliw => ((a() as i32) << (value() & 31)) as u64,
        Srliw => (a() as u32 >> (value() & 31)) as i32 as u64,
        Sraiw => (a() as i32 >> (value() & 31)) as u64,
        Add => a().wrapping_add(b()),
        Sub => a().wrapping_sub(b()),
        Sll => a() << (b() & 63),
        Slt => ((a() as i64) < b() as i64) as u64,
        Sltu => (a() < b()) as u64,
        Xor => a() ^ b(),
        Srl => a() >> (b() & 63),
        Sra => (a() as i64 >> (b() & 63)) as u64,
        Or => a() | b(),
        And => a() & b(),
        Addw => a().wrapping_add(b()) as i32 as u64,
        Subw => a().wrapping_sub(b()) as i32 as u64,
        Sllw => ((a() as i32) << (b() & 31)) as u64,
        Srlw => (a() as u32 >> (b() & 31)) as i32 as u64,
        Sraw => (a() as i32 >> (b() & 31)) as u64,
        Mul => a().wrapping_mul(b()),
        Mulh => high(a() as i64 as i128 * b() as i64 as i128),
        Mulhsu => high(a() as i64 as i128 * b() as i128),
        Mulhu => (a() as u128 * b() as u128 >> 64) as u64,
        Div => divide(a() as i64, b() as i64) as u64,
        Divu => a().checked_div(b()).unwrap_or(u64::MAX),
        Rem => remainder(a() as i64, b() as i64) as u64,
        Remu => a().checked_rem(b()).unwrap_or(a()),
        Mulw => a().wrapping_mul(b()) as i32 as u64,
        Divw => divide(a() as i32 as i64, b() as i32 as i64) as i32 as u64,
        Divuw => (a() as u32).checked_div(b() as u32).unwrap_or(u32::MAX) as i32 as u64,
        Remw => remainder(a() as i32 as i64, b() as i32 as i64) as i32 as u64,
        Remuw => (a() as u32).checked_rem(b() as u32).unwrap_or(a() as u32) as i32 as u64,
    };
    registers[operation.target as usize] = result;
    Ok(())
}

/// How an operation ended that is slow.
enum Slow {
    Again,
    Done,
    Overwritten,
    Fault,
}

fn access_of(kind: Kind) -> Option<(Access, usize)> {
    use Kind::*;
    Some(match kind {
        Lb | Lbu => (Access::Load, 1),
        Lh | Lhu => (Access::Load, 2),
        Lw | Lwu => (Access::Load, 4),
        Ld => (Access::Load, 8),
        Sb => (Access::Store, 1),
        Sh => (Access::Store, 2),
        Sw => (Access::Store, 4),
        Sd => (Access::Store, 8),
        _ => return None,
    })
}

/// An access whose page isn't remembered. If it can be it is, and then the operation is to be done again.
#[cold]
#[inline(never)]
fn go_slowly(
    operation: Operation,
    registers: &Registers,
    frames: &mut [Frame],
    translations: &mut Translations,
    is_decoded: &[[bool; FRAME / 4]],
    has_decoded: &[bool],
) -> Slow {
    let address = registers[operation.left as usize].wrapping_add(operation.value as i64 as u64);
    let Some((access, size)) = access_of(operation.kind) else {
        return Slow::Fault;
    };
    let Some(frame) = walk(frames, address, access).filter(|_| address % size as u64 == 0) else {
        return Slow::Fault;
    };
    if !matches!(access, Access::Store) {
        keep(&mut translations.loads, address, frame);
        return Slow::Again;
    }
    if !has_decoded[frame] {
        keep(&mut translations.stores, address, frame);
        return Slow::Again;
    }
    let offset = address as usize % FRAME;
    let bytes = &registers[operation.right as usize].to_le_bytes()[..size];
    frames[frame][offset..offset + size].copy_from_slice(bytes);
    let words = &is_decoded[frame][offset / 4..(offset + size).div_ceil(4)];
    if words.contains(&true) {
        Slow::Overwritten
    } else {
        Slow::Done
    }
}

// ---- many operations

/// Why a run of blocks ended.
enum Stop {
    /// A branch was taken here, whose target's block isn't known.
    Taken(Slot),
    /// An indirect jump came to this pc, whose block isn't known.
    Jump(u64),
    /// It goes on at this pc, whose block may be longer than what is left.
    At(u64),
    /// It goes on at this pc, and a decoded word was overwritten.
    Overwritten(u64),
    Call(u64),
    Fault(u64),
}

fn jump_of(pc: u64) -> usize {
    pc as usize / 4 % JUMPS
}

/// At most that many steps from a block on, which isn't longer; how many of them are left.
#[inline(never)]
#[allow(clippy::too_many_arguments)]
fn run(
    operations: &[Operation; SLOTS],
    beside: &[Beside; SLOTS],
    jumps: &[Slot; JUMPS],
    is_decoded: &[[bool; FRAME / 4]],
    has_decoded: &[bool],
    registers: &mut Registers,
    frames: &mut [Frame],
    translations: &mut Translations,
    begin: Slot,
    mut left: usize,
) -> (Stop, usize) {
    left -= operations[begin as usize].value as usize;
    let mut from = begin as usize + 1;
    loop {
        let mut coming = operations[from..].iter();
        let leave = 'block: {
            while let Some(operation) = coming.next() {
                let pc = || beside[SLOTS - 1 - coming.len()].pc;
                if let Err(leave) = act(operation, pc, registers, frames, translations) {
                    break 'block leave;
                }
            }
            unreachable!("each block ends with a jump, a call or where it goes on")
        };
        let at = SLOTS - 1 - coming.len();
        let Beside { pc, to, rest } = beside[at];
        left += rest as usize;
        let next = match leave {
            Leave::Taken if to == NOWHERE => return (Stop::Taken(at as Slot), left),
            Leave::Taken => to,
            Leave::Jump(to) => {
                let next = jumps[jump_of(to)];
                if beside[next as usize].pc != to {
                    return (Stop::Jump(to), left);
                }
                next
            }
            Leave::Call => return (Stop::Call(pc + 4), left),
            Leave::Slow => {
                match go_slowly(
                    operations[at],
                    registers,
                    frames,
                    translations,
                    is_decoded,
                    has_decoded,
                ) {
                    Slow::Fault => return (Stop::Fault(pc), left),
                    Slow::Overwritten => return (Stop::Overwritten(pc + 4), left),
                    Slow::Done => from = at + 1,
                    Slow::Again => from = at,
                }
                left -= rest as usize;
                continue;
            }
        };
        let steps = operations[next as usize].value as usize;
        if steps > left {
            return (Stop::At(beside[next as usize].pc), left);
        }
        left -= steps;
        from = next as usize + 1;
    }
}

// ---- the process

struct Process {
    registers: Registers,
    frames: Vec<Frame>,
    translations: Translations,
    code: Code,
    pc: u64,
}

const EXIT: u64 = 2;

impl Process {
    fn new(count: usize, program: &[u8]) -> Option<Process> {
        let (frames, end) = load_program(count, program)?;
        let mut registers = [0; 256];
        registers[2] = end - 16;
        let translations = Translations { loads: [NOTHING; KEPT], stores: [NOTHING; KEPT] };
        Some(Process { registers, frames, translations, code: Code::new(count)?, pc: 0 })
    }

    /// Notes at a branch or a jump where the block of its target begins, if the longest fits in what is left.
    fn link(&mut self, from: Stop, left: usize) {
        let Process { frames, translations, code, .. } = self;
        match from {
            Stop::Taken(at) if left >= LONGEST => {
                let end = code.end;
                if let Some(begin) = code.block(frames, translations, code.target(at), left) {
                    // Where all blocks were forgotten there is nothing to link.
                    if code.end >= end {
                        code.beside[at as usize].to = begin;
                    }
                }
            }
            Stop::Jump(pc) if left >= LONGEST => {
                if let Some(begin) = code.block(frames, translations, pc, left) {
                    code.jumps[jump_of(pc)] = begin;
                }
            }
            _ => {}
        }
    }

    /// At most that many steps; how many are left, and the status where it ends.
    fn go(&mut self, mut left: usize) -> (usize, Option<i32>) {
        while left > 0 {
            let Process { registers, frames, translations, code, pc } = self;
            let Some(begin) = code.block(frames, translations, *pc, left) else {
                return (left - 1, Some(-1));
            };
            let Code { operations, beside, jumps, is_decoded, has_decoded, .. } = code;
            let (stop, rest) = run(
                operations,
                beside,
                jumps,
                is_decoded,
                has_decoded,
                registers,
                frames,
                translations,
                begin,
                left,
            );
            left = rest;
            match stop {
                Stop::Taken(at) => {
                    self.pc = self.code.target(at);
                    if self.pc % 4 != 0 {
                        return (left, Some(-1));
                    }
                    self.link(stop, left);
                }
                Stop::Jump(pc) => {
                    self.pc = pc;
                    self.link(stop, left);
                }
                Stop::At(pc) => self.pc = pc,
                Stop::Overwritten(pc) => {
                    self.code.forget();
                    self.pc = pc;
                }
                Stop::Fault(pc) => {
                    self.pc = pc;
                    return (left, Some(-1));
                }
                Stop::Call(pc) => {
                    self.pc = pc;
                    if self.registers[17] == EXIT {
                        return (left, Some(self.registers[10] as i32));
                    }
                    self.registers[10] = u64::MAX;
                }
            }
        }
        (left, None)
    }
}

fn main() {
    let words: Vec<String> = std::env::args().collect();
    let count = words[1].parse().expect("a number of frames");
    let program = std::fs::read(&words[2]).expect("a program");
    let script = std::fs::read_to_string(&words[3]).expect("a script");
    let mut process = Process::new(count, &program).expect("frames for the program");
    let mut done = 0;
    for line in script.lines() {
        let number = line.strip_prefix("step ").expect("step N");
        let steps = number.parse::<u32>().expect("a number of steps") as usize;
        let turns = usize::from(done == 0).min(steps);
        let (left, status) = process.go(steps - turns);
        done += steps - left;
        if let Some(status) = status {
            eprintln!("exit {status} after {done} steps");
            return;
        }
    }
    eprintln!("running after {done} steps");
}
