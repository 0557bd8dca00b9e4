// SPDX-License-Identifier: MIT OR Apache-2.0
//! What runs code.

use crate::interpreter::Interpreter;
use crate::layout::{MEMORY, MEMORY_LEN};
use crate::random::noise;
use crate::unicorn::Machine;
use linker_utils::elf::Architecture;
use std::ops::Range;

/// A part of a section that is executed, by addresses.
#[derive(Clone, Copy)]
pub struct Piece {
    pub start: u64,
    pub end: u64,
    /// One instruction, wherever it leads. Else all up to the end, with what they call.
    pub is_single: bool,
}

/// By numbers in instructions, those of floating point behind the others.
#[derive(Clone)]
pub struct State {
    pub registers: Vec<u64>,
    pub flags: u64,
}

#[derive(PartialEq, Eq, Clone, Copy, Debug)]
pub struct Write {
    pub address: u64,
    pub len: i32,
    pub value: i64,
}

pub struct Outcome {
    pub state: State,
    pub pc: u64,
    /// But for those below the stack pointer.
    pub writes: Vec<Write>,
    /// Why it stopped, or 0.
    pub error: i32,
}

/// The stack pointer before each sequence.
pub const STACK: u64 = MEMORY + MEMORY_LEN - 0x8000;

/// What is written below it counts as nothing.
pub const BELOW_STACK: Range<u64> = STACK - 0x1000..STACK;

/// Where a function returns to. Below it are the linker's own functions.
pub const RETURN: u64 = MEMORY + 0x200;

/// The numbers of a state: registers, and behind them flags, or PowerPC64's LR, CTR and CR.
pub const FLAGS: usize = 64;
pub type Numbers = [u64; FLAGS + 3];

/// The number that a call leaves its return address in, if any, and by bits those that it may change.
pub fn calls(architecture: Architecture) -> (Option<usize>, u64) {
    match architecture {
        Architecture::X86_64 => (None, 0x0fc7),
        Architecture::AArch64 => (Some(30), 0x7_ffff),
        Architecture::RiscV => (Some(1), 0xf003_fce0),
        Architecture::LoongArch64 => (Some(1), 0x1f_fff0),
        _ => (Some(FLAGS), 0x1ff9),
    }
}

/// How a run of a function begins.
#[derive(Clone)]
pub struct Start {
    pub architecture: Architecture,
    pub pc: u64,
    pub numbers: Numbers,
    /// What is written before it.
    pub writes: Vec<Write>,
    /// All code of the object.
    pub code: Range<u64>,
    /// How many states it has at most.
    pub limit: usize,
}

impl Start {
    /// Whether code of others is there, which isn't executed.
    pub fn is_outside(&self, pc: u64) -> bool {
        !self.code.contains(&pc) && !(MEMORY..RETURN).contains(&pc)
    }

    /// What the n-th call of a function of others leaves in registers.
    pub fn results(&self, call: u64) -> impl Iterator<Item = (usize, u64)> {
        let changed = calls(self.architecture).1;
        let number = move |register: usize| noise(call << 8 | register as u64);
        (0..64).filter(move |n| changed >> n & 1 == 1).map(move |n| (n, number(n)))
    }
}

/// A state before an instruction.
pub struct Step {
    pub pc: u64,
    pub numbers: Numbers,
    /// How many writes are before it.
    pub writes: usize,
}

/// Why a run ends.
#[derive(PartialEq, Eq, PartialOrd, Ord, Clone, Copy, Debug)]
pub enum End {
    Returned,
    /// It has as many states as it may.
    Long,
    /// It reads or writes where no memory can be.
    Fault,
    /// It reads or writes code.
    Code,
    /// An instruction that the processor doesn't have.
    Lacks,
    /// A rewritten instruction of which there is no sequence.
    Without,
    /// It jumps to an instruction of a group that isn't its first.
    Enters,
    /// It computes with a number that a group may leave otherwise, or with one that is of addresses
    /// but none, as of an index beyond a table.
    Uses,
}

pub struct Trace {
    pub steps: Vec<Step>,
    pub writes: Vec<Write>,
    pub end: End,
}

pub trait Processor {
    fn stack_pointer(&self) -> usize;

    fn write(&mut self, address: u64, bytes: &[u8]);

    /// Writes code where other code may have been.
    fn write_code(&mut self, address: u64, bytes: &[u8]);

    /// Sets the thread pointer, and makes `__tls_get_addr` return the second word beside a module's
    /// block.
    fn set_thread(&mut self, thread_pointer: u64, module_block: u64);

    /// Runs code, and puts memory back.
    fn run(&mut self, pieces: &[Piece], before: &State) -> Outcome;

    /// Gives functions fresh memory for code and for what is behind it.
    fn place(&mut self, code: Range<u64>, end: u64);

    /// Runs a function, and puts memory back. Others that it calls return at once.
    fn trace(&mut self, start: &Start) -> Trace;
}

/// unicorn, or the interpreter for the architectures that it doesn't have.
pub fn processor(architecture: Architecture, traces: bool) -> Box<dyn Processor> {
    match Machine::new(architecture, traces) {
        Some(machine) => Box::new(machine),
        None => Box::new(Interpreter::new(architecture)),
    }
}
