// SPDX-License-Identifier: MIT OR Apache-2.0
//! Each export, and each reader of the crate, with arguments that are made of bytes. No call may
//! panic, whatever the bytes are.

use exports::*;
use linker_utils::runs::{Shape, Shapes};
use linker_utils::runs::shapes::{fixed, loongarch64, riscv64};
use linker_utils::utils;

/// Bytes of which arguments are made: zeros after the last.
struct Input<'a> {
    data: &'a [u8],
}

/// An argument, as `rust/compare` has one for each side.
struct Pair<T> {
    ours: T,
}

impl Input<'_> {
    fn byte(&mut self) -> u8 {
        let (first, rest) = self.data.split_first().unwrap_or((&0, &[]));
        self.data = rest;
        *first
    }

    fn below(&mut self, bound: u8) -> u64 {
        u64::from(self.byte() % bound)
    }

    fn bytes<const N: usize>(&mut self) -> [u8; N] {
        [(); N].map(|()| self.byte())
    }

    /// Small numbers, those at powers of two and at the ends, and any.
    fn number(&mut self) -> u64 {
        let first = self.byte();
        let power = 1u64 << (first & 63);
        match first >> 6 {
            0 => u64::from(first),
            1 => power.wrapping_sub(self.below(3)),
            2 => 0u64.wrapping_sub(power).wrapping_add(self.below(3)),
            _ if first & 1 == 0 => u64::from(u16::from_le_bytes(self.bytes())),
            _ => u64::from_le_bytes(self.bytes()),
        }
    }

    fn value<T: Made>(&mut self, name: &str) -> Pair<T> {
        Pair { ours: T::made(self, name) }
    }

    fn slice<T: Made>(&mut self, name: &str) -> Pair<Vec<T>> {
        Pair { ours: T::several(self, name) }
    }
}

/// An argument, by its type and its name.
trait Made: Sized {
    fn made(input: &mut Input, name: &str) -> Self;

    fn several(input: &mut Input, name: &str) -> Vec<Self> {
        (0..input.below(9)).map(|_| Self::made(input, name)).collect()
    }
}

macro_rules! made {
    ($($kind:ty),*) => {
        $(
            impl Made for $kind {
                fn made(input: &mut Input, name: &str) -> $kind {
                    let number = match name {
                        "machine" => [183, 243, 258, 21, 62, 3][input.below(6) as usize],
                        "architecture" => input.below(6),
                        "form" => input.below(16),
                        "rewrite" => input.below(64),
                        "relocation" | "r_type" => u64::from(u16::from_le_bytes(input.bytes()) % 1200),
                        "handle" => {
                            input.below(7) << 16 | u64::from(u16::from_le_bytes(input.bytes()) % 1200)
                        }
                        _ => input.number(),
                    };
                    number as $kind
                }
            }
        )*
    };
}

made!(u16, u32, u64, usize, i32, i64);

impl Made for bool {
    fn made(input: &mut Input, _name: &str) -> bool {
        input.byte() & 1 == 1
    }
}

impl Made for u8 {
    fn made(input: &mut Input, _name: &str) -> u8 {
        input.byte()
    }

    /// Relocations near the beginning of a section, or any bytes.
    fn several(input: &mut Input, name: &str) -> Vec<u8> {
        let len = input.byte();
        if matches!(name, "relocations" | "words") && len < 192 {
            let relocation = |_| {
                let offset = input.number();
                let info = input.below(8) << 32 | u64::from(u16::from_le_bytes(input.bytes()) % 1200);
                [offset, info, input.number()].map(u64::to_le_bytes).concat()
            };
            return (0..len % 12).flat_map(relocation).collect();
        }
        (0..len).map(|_| input.byte()).collect()
    }
}

impl<const N: usize> Made for [u8; N] {
    fn made(input: &mut Input, _name: &str) -> [u8; N] {
        input.bytes()
    }
}

impl Made for Shapes {
    fn made(input: &mut Input, name: &str) -> Shapes {
        let any = |input: &mut Input| Shape {
            max_backward: input.number(),
            max_forward: input.number(),
            kept: u32::made(input, name),
            granularity: u32::made(input, name),
        };
        match input.below(6) {
            0 => riscv64::CALL,
            1 => riscv64::CALL_WITHOUT_C,
            2 => riscv64::TAIL_C,
            3 => loongarch64::PCALA,
            4 => fixed(u32::made(input, name)),
            _ => Shapes {
                short: [any(input), any(input)],
                longest: u32::made(input, name),
                count: input.byte(),
            },
        }
    }
}

macro_rules! fields {
    ($name:ident: $($field:ident,)*) => {
        impl Made for $name {
            fn made(input: &mut Input, _name: &str) -> $name {
                $name { $($field: Made::made(input, stringify!($field))),* }
            }
        }
    };
}

include!("../../compare/src/fields.rs");

macro_rules! compare {
    ($module:ident, $name:ident, [$($c:tt)*] -> $result:ty, |$input:ident| { $($made:tt)* },
     [$($ours:tt)*], [$($theirs:tt)*], [$($after:tt)*]) => {
        #[allow(unused_mut, unused_variables)]
        fn $name($input: &mut Input) {
            $($made)*
            let _ = $module::$name($($ours)*);
        }
    };
}

macro_rules! all {
    ($($name:ident)*) => {
        const CALLS: &[fn(&mut Input)] = &[read_numbers, read_texts, $($name),*];
    };
}

include!(concat!(env!("OUT_DIR"), "/exports.rs"));

fn read_numbers(input: &mut Input) {
    let mut rest = input.data;
    while linker_utils::readers::read_uleb128(&mut rest).is_ok() {}
    while linker_utils::readers::read_u32(&mut rest).is_ok() {}
}

fn read_texts(input: &mut Input) {
    let mut rest = input.data;
    while utils::read_string(&mut rest).is_ok() {}
    while utils::read_uleb128(&mut rest).is_ok() {}
    while utils::read_u32(&mut rest).is_ok() {}
}

/// How many functions `call` calls.
pub const FUNCTIONS: usize = CALLS.len();

/// Calls the function that the first two bytes choose, with arguments of the others.
pub fn call(data: &[u8]) {
    let mut input = Input { data };
    let chosen = usize::from(u16::from_le_bytes(input.bytes()));
    CALLS[chosen % CALLS.len()](&mut input);
}

/// What libFuzzer calls.
///
/// # Safety
///
/// The bytes are readable.
#[unsafe(no_mangle)]
pub unsafe extern "C" fn LLVMFuzzerTestOneInput(data: *const u8, len: usize) -> i32 {
    // SAFETY: as above
    call(if len == 0 { &[] } else { unsafe { std::slice::from_raw_parts(data, len) } });
    0
}
