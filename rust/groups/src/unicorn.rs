// SPDX-License-Identifier: MIT OR Apache-2.0
//! The emulator unicorn, which is made of qemu's.

use crate::layout::{CODE, DESCRIPTOR_FUNCTION, MEMORY, MEMORY_LEN, TLS_GET_ADDR};
use crate::processor::{
    BELOW_STACK, End, FLAGS, Outcome, Piece, Processor, RETURN, STACK, Start, State, Step, Trace,
    Write, calls,
};
use crate::random::noise_at;
use linker_utils::elf::Architecture;
use std::ffi::c_void;
use std::ops::Range;
use std::ptr;

mod ffi {
    use std::ffi::c_void;

    pub type OnAccess = extern "C" fn(*mut c_void, i32, u64, i32, i64, *mut c_void);
    pub type OnUnmapped = extern "C" fn(*mut c_void, i32, u64, i32, i64, *mut c_void) -> bool;
    pub type OnCode = extern "C" fn(*mut c_void, u64, u32, *mut c_void);

    #[link(name = "libunicorn.so.2", kind = "dylib", modifiers = "+verbatim")]
    unsafe extern "C" {
        pub fn uc_open(arch: i32, mode: i32, engine: *mut *mut c_void) -> i32;
        pub fn uc_mem_map(engine: *mut c_void, address: u64, len: usize, rights: u32) -> i32;
        pub fn uc_mem_unmap(engine: *mut c_void, address: u64, len: usize) -> i32;
        pub fn uc_mem_write(
            engine: *mut c_void,
            address: u64,
            bytes: *const c_void,
            len: usize,
        ) -> i32;
        pub fn uc_mem_read(
            engine: *mut c_void,
            address: u64,
            bytes: *mut c_void,
            len: usize,
        ) -> i32;
        pub fn uc_reg_write(engine: *mut c_void, register: i32, value: *const c_void) -> i32;
        pub fn uc_reg_read(engine: *mut c_void, register: i32, value: *mut c_void) -> i32;
        pub fn uc_context_alloc(engine: *mut c_void, context: *mut *mut c_void) -> i32;
        pub fn uc_context_save(engine: *mut c_void, context: *mut c_void) -> i32;
        pub fn uc_context_restore(engine: *mut c_void, context: *mut c_void) -> i32;
        pub fn uc_emu_stop(engine: *mut c_void) -> i32;
        pub fn uc_emu_start(
            engine: *mut c_void,
            begin: u64,
            until: u64,
            timeout: u64,
            count: usize,
        ) -> i32;
        pub fn uc_ctl(engine: *mut c_void, control: i32, ...) -> i32;
        pub fn uc_hook_add(
            engine: *mut c_void,
            hook: *mut usize,
            kind: i32,
            callback: *mut c_void,
            data: *mut c_void,
            begin: u64,
            end: u64,
            ...
        ) -> i32;
    }
}

/// What unicorn.h calls them.
struct Kind {
    arch: i32,
    mode: i32,
    registers: &'static [i32],
    stack_pointer: usize,
    pc: i32,
    flags: i32,
    /// The bits of the flags that are compared.
    flag_mask: u64,
    thread_pointer: i32,
    /// Returns to the caller.
    return_code: &'static [u8],
    /// The function of a descriptor: the second word of it.
    descriptor_code: &'static [u8],
}

const X86_64: Kind = Kind {
    arch: 4,
    mode: 8,
    // by their numbers in instructions
    registers: &[35, 38, 40, 37, 44, 36, 43, 39, 106, 107, 108, 109, 110, 111, 112, 113],
    stack_pointer: 4,
    pc: 41,
    flags: 25,
    flag_mask: 0x8d5,
    thread_pointer: 250,
    return_code: &[0xc3],
    // mov 8(%rax), %rax; ret
    descriptor_code: &[0x48, 0x8b, 0x40, 8, 0xc3],
};

const AARCH64: Kind = Kind {
    arch: 2,
    mode: 0,
    registers: &[
        199, 200, 201, 202, 203, 204, 205, 206, 207, 208, 209, 210, 211, 212, 213, 214, 215, 216,
        217, 218, 219, 220, 221, 222, 223, 224, 225, 226, 227, 1, 2, 4,
    ],
    stack_pointer: 31,
    pc: 260,
    flags: 3,
    flag_mask: 0xf000_0000,
    thread_pointer: 262,
    return_code: &[0xc0, 0x03, 0x5f, 0xd6],
    // ldr x0, [x0, #8]; ret
    descriptor_code: &[0x00, 0x04, 0x40, 0xf9, 0xc0, 0x03, 0x5f, 0xd6],
};

const RISC_V: Kind = Kind {
    arch: 8,
    mode: 8,
    registers: &[
        1, 2, 3, 4, 5, 6, 7, 8, 9, 10, 11, 12, 13, 14, 15, 16, 17, 18, 19, 20, 21, 22, 23, 24, 25,
        26, 27, 28, 29, 30, 31, 32,
    ],
    stack_pointer: 2,
    pc: 190,
    flags: 0,
    flag_mask: 0,
    thread_pointer: 5,
    return_code: &[0x67, 0x80, 0, 0],
    // ld a0, 8(a0); jr t0
    descriptor_code: &[0x03, 0x35, 0x85, 0, 0x67, 0x80, 0x02, 0],
};

pub struct Machine {
    engine: *mut c_void,
    kind: &'static Kind,
    // unicorn has its address
    watched: Box<Watched>,
    /// The state in which functions begin, but for their registers.
    context: *mut c_void,
}

/// What the code does that runs.
struct Watched {
    kind: &'static Kind,
    writes: Vec<Overwritten>,
    /// Of a function.
    start: Option<Start>,
    steps: Vec<Step>,
    accesses_code: bool,
    /// The memory of functions, by addresses and lengths.
    mapped: Vec<(u64, u64)>,
}

/// A write and the bytes that were there.
struct Overwritten {
    write: Write,
    old: [u8; 16],
}

const CHUNK: u64 = 0x1_0000;
const STACKS: (u64, u64, u32) = (STACK - 0x8_0000, 0x8_8000, 3);

impl Watched {
    /// Gives a function memory where it has none, if a process of Linux could have it there.
    fn give(&mut self, engine: *mut c_void, address: u64) -> bool {
        let chunk = address / CHUNK * CHUNK;
        self.start.is_some() && address >> 47 == 0 && self.map(engine, chunk, CHUNK, 3) && {
            let bytes = noise_at(chunk, CHUNK);
            unsafe { ffi::uc_mem_write(engine, chunk, bytes.as_ptr().cast(), bytes.len()) == 0 }
        }
    }

    fn map(&mut self, engine: *mut c_void, at: u64, len: u64, rights: u32) -> bool {
        self.mapped.push((at, len));
        unsafe { ffi::uc_mem_map(engine, at, len as usize, rights) == 0 }
    }

    /// Takes memory away but for the first so many pieces.
    fn unmap(&mut self, engine: *mut c_void, kept: usize) {
        for (at, len) in self.mapped.drain(kept..) {
            unsafe { ffi::uc_mem_unmap(engine, at, len as usize) };
        }
    }

    /// Stops a function that accesses code.
    fn guard(&mut self, engine: *mut c_void, address: u64, len: i32) {
        let is_code = |code: &Range<u64>| address < code.end && address + len as u64 > code.start;
        if self.start.as_ref().is_some_and(|start| is_code(&start.code)) {
            self.accesses_code = true;
            expect(unsafe { ffi::uc_emu_stop(engine) }, "stop");
        }
    }

    /// Notes the state before an instruction, and returns whether it is executed.
    fn note(&mut self, engine: *mut c_void, pc: u64) -> bool {
        let mut step = Step { pc, numbers: [0; _], writes: self.writes.len() };
        for (number, &register) in step.numbers.iter_mut().zip(self.kind.registers) {
            *number = read(engine, register);
        }
        if self.kind.flag_mask != 0 {
            step.numbers[FLAGS] = read(engine, self.kind.flags) & self.kind.flag_mask;
        }
        self.steps.push(step);
        self.start.as_ref().is_none_or(|it| self.steps.len() < it.limit && !it.is_outside(pc))
    }
}

// unicorn calls these while instructions run; `watched` is the machine's own, which isn't used then

extern "C" fn on_write(
    engine: *mut c_void,
    _: i32,
    address: u64,
    len: i32,
    value: i64,
    watched: *mut c_void,
) {
    let watched = unsafe { &mut *watched.cast::<Watched>() };
    let mut old = [0; 16];
    let mut read =
        || unsafe { ffi::uc_mem_read(engine, address, old.as_mut_ptr().cast(), len as usize) };
    // this is before the write, and before memory is given for it
    if read() != 0 {
        watched.give(engine, address);
        watched.give(engine, address.wrapping_add(len as u64 - 1));
        read();
    }
    watched.writes.push(Overwritten { write: Write { address, len, value }, old });
    watched.guard(engine, address, len);
}

extern "C" fn on_read(
    engine: *mut c_void,
    _: i32,
    address: u64,
    len: i32,
    _: i64,
    watched: *mut c_void,
) {
    unsafe { &mut *watched.cast::<Watched>() }.guard(engine, address, len);
}

extern "C" fn on_unmapped(
    engine: *mut c_void,
    _: i32,
    address: u64,
    _: i32,
    _: i64,
    watched: *mut c_void,
) -> bool {
    unsafe { &mut *watched.cast::<Watched>() }.give(engine, address)
}

extern "C" fn on_code(engine: *mut c_void, address: u64, _: u32, watched: *mut c_void) {
    let watched = unsafe { &mut *watched.cast::<Watched>() };
    if watched.start.is_some() && !watched.accesses_code && !watched.note(engine, address) {
        expect(unsafe { ffi::uc_emu_stop(engine) }, "stop");
    }
}

fn expect(status: i32, what: &str) {
    assert_eq!(status, 0, "unicorn: {what}");
}

fn read(engine: *mut c_void, register: i32) -> u64 {
    let mut value = 0u64;
    let status = unsafe { ffi::uc_reg_read(engine, register, ptr::from_mut(&mut value).cast()) };
    expect(status, "register");
    value
}

impl Machine {
    /// None where unicorn doesn't have the architecture.
    pub fn new(architecture: Architecture, traces: bool) -> Option<Machine> {
        let kind = match architecture {
            Architecture::X86_64 => &X86_64,
            Architecture::AArch64 => &AARCH64,
            Architecture::RiscV => &RISC_V,
            _ => return None,
        };
        let (mut engine, mut context) = (ptr::null_mut(), ptr::null_mut());
        let mut watched = Box::new(Watched {
            kind,
            writes: Vec::new(),
            start: None,
            steps: Vec::new(),
            accesses_code: false,
            mapped: Vec::new(),
        });
        let mut hook = |engine, kind: i32, callback: *mut c_void| unsafe {
            let data = ptr::from_mut(watched.as_mut()).cast();
            expect(ffi::uc_hook_add(engine, &mut 0, kind, callback, data, 1, 0), "hook");
        };
        unsafe {
            expect(ffi::uc_open(kind.arch, kind.mode, &mut engine), "open");
            let parts: &[(u64, u64, u32)] = match traces {
                false => &[(MEMORY, MEMORY_LEN, 7)],
                // functions of other objects aren't executed
                true => {
                    &[(MEMORY, 0x1000, 7), (MEMORY + 0x1000, CODE - MEMORY - 0x1000, 3), STACKS]
                }
            };
            for &(at, len, rights) in parts {
                expect(ffi::uc_mem_map(engine, at, len as usize, rights), "map");
            }
            expect(ffi::uc_context_alloc(engine, &mut context), "context");
        }
        hook(engine, 1 << 11, on_write as ffi::OnAccess as *mut c_void);
        if traces {
            hook(engine, 1 << 10, on_read as ffi::OnAccess as *mut c_void);
            hook(engine, 1 << 2, on_code as ffi::OnCode as *mut c_void);
            hook(engine, 1 << 4 | 1 << 5, on_unmapped as ffi::OnUnmapped as *mut c_void);
        }
        let mut machine = Machine { engine, kind, watched, context };
        if kind.arch == RISC_V.arch {
            // mstatus, with registers of floating point
            let mstatus = machine.get(116);
            machine.set(116, mstatus | 0x6000);
        }
        let len = if traces { (RETURN - MEMORY) as usize } else { 0x0100_0000 };
        let functions: Vec<u8> = kind.return_code.iter().copied().cycle().take(len).collect();
        machine.write(MEMORY, &functions);
        if traces {
            machine.write(RETURN, &noise_at(RETURN, CODE - RETURN));
            machine.write(STACKS.0, &noise_at(STACKS.0, STACKS.1));
        }
        machine.write(DESCRIPTOR_FUNCTION, kind.descriptor_code);
        expect(unsafe { ffi::uc_context_save(engine, context) }, "save");
        Some(machine)
    }

    fn set(&mut self, register: i32, value: u64) {
        let status =
            unsafe { ffi::uc_reg_write(self.engine, register, ptr::from_ref(&value).cast()) };
        expect(status, "register");
    }

    fn get(&self, register: i32) -> u64 {
        read(self.engine, register)
    }

    /// What was written, of which nothing is left in memory.
    fn take_writes(&mut self) -> Vec<Write> {
        let writes = std::mem::take(&mut self.watched.writes);
        for Overwritten { write, old } in writes.iter().rev() {
            // one where no memory is has ended the run
            let (from, len) = (old.as_ptr().cast(), write.len as usize);
            unsafe { ffi::uc_mem_write(self.engine, write.address, from, len) };
        }
        writes.into_iter().map(|overwritten| overwritten.write).collect()
    }

    /// x86-64's return address.
    fn pop(&mut self) -> u64 {
        let stack_pointer = self.kind.registers[self.kind.stack_pointer];
        let (at, mut value) = (self.get(stack_pointer), 0u64);
        unsafe { ffi::uc_mem_read(self.engine, at, ptr::from_mut(&mut value).cast(), 8) };
        self.set(stack_pointer, at.wrapping_add(8));
        value
    }
}

impl Processor for Machine {
    fn stack_pointer(&self) -> usize {
        self.kind.stack_pointer
    }

    fn write(&mut self, address: u64, bytes: &[u8]) {
        let status =
            unsafe { ffi::uc_mem_write(self.engine, address, bytes.as_ptr().cast(), bytes.len()) };
        expect(status, "write");
    }

    /// Only so what is translated of other code is forgotten.
    fn write_code(&mut self, address: u64, bytes: &[u8]) {
        self.write(address, bytes);
        // UC_CTL_TB_REMOVE_CACHE with two arguments
        let control = 9 | 2 << 26 | 1 << 30;
        let end = address + bytes.len() as u64;
        let status = unsafe { ffi::uc_ctl(self.engine, control, address, end) };
        expect(status, "remove");
    }

    fn set_thread(&mut self, thread_pointer: u64, module_block: u64) {
        expect(unsafe { ffi::uc_context_restore(self.engine, self.context) }, "restore");
        self.set(self.kind.thread_pointer, thread_pointer);
        if self.kind.arch == X86_64.arch {
            // mov 8(%rdi), %rax; movabs $block, %r11; add %r11, %rax; ret
            let mut code = vec![0x48, 0x8b, 0x47, 8, 0x49, 0xbb];
            code.extend(module_block.to_le_bytes());
            code.extend([0x4c, 0x01, 0xd8, 0xc3]);
            self.write_code(TLS_GET_ADDR, &code);
            self.write(thread_pointer, &thread_pointer.to_le_bytes());
        }
        expect(unsafe { ffi::uc_context_save(self.engine, self.context) }, "save");
    }

    fn run(&mut self, pieces: &[Piece], before: &State) -> Outcome {
        for (&register, &value) in self.kind.registers.iter().zip(&before.registers) {
            self.set(register, value);
        }
        if self.kind.flag_mask != 0 {
            self.set(self.kind.flags, before.flags & self.kind.flag_mask | 2);
        }
        self.watched.writes.clear();
        let mut error = 0;
        for piece in pieces {
            let count = if piece.is_single { 1 } else { 64 };
            error = unsafe { ffi::uc_emu_start(self.engine, piece.start, piece.end, 0, count) };
            if error != 0 {
                break;
            }
        }
        let registers: Vec<u64> =
            self.kind.registers.iter().map(|&register| self.get(register)).collect();
        let writes = self.take_writes();
        Outcome {
            state: State {
                registers,
                flags: match self.kind.flag_mask {
                    0 => 0,
                    mask => self.get(self.kind.flags) & mask,
                },
            },
            pc: self.get(self.kind.pc),
            writes: writes
                .into_iter()
                .filter(|write| !BELOW_STACK.contains(&write.address))
                .collect(),
            error,
        }
    }

    fn place(&mut self, code: Range<u64>, end: u64) {
        self.watched.unmap(self.engine, 0);
        let middle = code.end.next_multiple_of(0x1000);
        let len = end.next_multiple_of(CHUNK) - middle;
        let mut map = |at, len, rights| self.watched.map(self.engine, at, len, rights);
        assert!(map(code.start, middle - code.start, 7) && map(middle, len, 3), "unicorn: map");
    }

    fn trace(&mut self, start: &Start) -> Trace {
        let architecture = start.architecture;
        let return_register = calls(architecture).0.map(|number| self.kind.registers[number]);
        expect(unsafe { ffi::uc_context_restore(self.engine, self.context) }, "restore");
        for (&register, &value) in self.kind.registers.iter().zip(&start.numbers) {
            self.set(register, value);
        }
        if self.kind.flag_mask != 0 {
            self.set(self.kind.flags, start.numbers[FLAGS] & self.kind.flag_mask | 2);
        }
        (self.watched.start, self.watched.accesses_code) = (Some(start.clone()), false);
        for it in &start.writes {
            let watched = ptr::from_mut(self.watched.as_mut()).cast();
            on_write(self.engine, 0, it.address, it.len, it.value, watched);
            self.write(it.address, &it.value.to_le_bytes()[..it.len.min(8) as usize]);
        }
        let (mut pc, mut count) = (start.pc, 0);
        let end = loop {
            let error = unsafe { ffi::uc_emu_start(self.engine, pc, 1, 0, 0) };
            if let 8 | 14 = error {
                // what it jumps to can't be executed
                let at = self.get(self.kind.pc);
                self.watched.note(self.engine, at);
            }
            pc = self.watched.steps.last().map_or(pc, |step| step.pc);
            if self.watched.accesses_code {
                break End::Code;
            } else if self.watched.steps.len() >= start.limit {
                break End::Long;
            } else if pc == RETURN {
                break End::Returned;
            } else if !start.is_outside(pc) {
                break if let 6 | 7 | 12 | 13 = error { End::Fault } else { End::Lacks };
            }
            count += 1;
            for (number, value) in start.results(count) {
                self.set(self.kind.registers[number], value);
            }
            pc = match return_register {
                Some(register) => self.get(register),
                None => self.pop(),
            };
        };
        self.watched.start = None;
        let writes = self.take_writes();
        if self.watched.mapped.len() > 64 {
            self.watched.unmap(self.engine, 2);
        }
        Trace { steps: std::mem::take(&mut self.watched.steps), writes, end }
    }
}
