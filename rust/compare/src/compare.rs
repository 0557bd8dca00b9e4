// SPDX-License-Identifier: MIT OR Apache-2.0
//! Each export with random arguments: the static library's and the one of ordinary Rust return the
//! same, leave the same behind and allocate as often.

use exports::*;
use linker_utils::runs::{Shape, Shapes};
use linker_utils::runs::shapes::{fixed, loongarch64, riscv64};
use std::cell::Cell;
use std::ffi::c_void;

/// Else both sides are of ordinary Rust.
#[test]
fn the_static_library_is_proved() {
    let folder = "LINKER_UTILS_FOLDER names its folder, which bindings/archive prints";
    assert!(sathunne::is_proved(), "{folder}");
}

#[test]
fn allocations_are_counted() {
    assert_eq!(counted(|| Vec::<u64>::with_capacity(8)).1, 1);
}

/// How often each export is called: `COMPARED_CALLS` times, or 100,000.
fn calls() -> usize {
    std::env::var("COMPARED_CALLS").map_or(100_000, |number| number.parse().expect("a number"))
}

thread_local! {
    /// How many calls of `malloc` and `realloc` this thread has made.
    static TAKEN: Cell<u64> = const { Cell::new(0) };
}

unsafe extern "C" {
    fn __real_malloc(size: usize) -> *mut c_void;
    fn __real_realloc(block: *mut c_void, size: usize) -> *mut c_void;
}

// SAFETY: they are the C library's, and count.
#[unsafe(no_mangle)]
unsafe extern "C" fn __wrap_malloc(size: usize) -> *mut c_void {
    TAKEN.set(TAKEN.get() + 1);
    unsafe { __real_malloc(size) }
}

#[unsafe(no_mangle)]
unsafe extern "C" fn __wrap_realloc(block: *mut c_void, size: usize) -> *mut c_void {
    TAKEN.set(TAKEN.get() + 1);
    unsafe { __real_realloc(block, size) }
}

/// What a call returns, and how often it takes memory.
fn counted<T>(call: impl FnOnce() -> T) -> (T, u64) {
    let before = TAKEN.get();
    let returned = call();
    (returned, TAKEN.get() - before)
}

/// An argument for each side.
struct Pair<T> {
    ours: T,
    theirs: T,
}

/// What a value prints, field by field.
trait Seen {
    fn seen(&self) -> String;
}

impl<T: Seen> Pair<T> {
    fn seen(&self) -> (String, String) {
        (self.ours.seen(), self.theirs.seen())
    }
}

struct Random {
    state: u64,
    /// While deletions are listed, the offset after the last and the bytes of all.
    listed: Option<(u64, u64)>,
    /// How many items or relocations of a run there are, as many as most arrays then have elements.
    run: usize,
    /// How many bytes a section has, of which an output then has mostly as many or a few less.
    section: usize,
    /// The window to which the next one is compared.
    window: Vec<u8>,
}

impl Random {
    /// Marsaglia's xorshift.
    fn word(&mut self) -> u64 {
        self.state ^= self.state << 13;
        self.state ^= self.state >> 7;
        self.state ^= self.state << 17;
        self.state
    }

    fn below(&mut self, bound: u64) -> u64 {
        self.word() % bound
    }

    /// Numbers of all sizes: below 64, at powers of two and one off, at the ends, and any.
    fn number(&mut self) -> u64 {
        let power = 1u64 << self.below(64);
        match self.below(8) {
            0..3 => self.below(64),
            3 => power,
            4 => power.wrapping_sub(1 + self.below(2)),
            5 => 0u64.wrapping_sub(power),
            6 => self.below(power),
            _ => self.word(),
        }
    }

    /// A number for a field of a list of deletions, mostly such as a section may have.
    fn listed(&mut self, (next, sum): (u64, u64), name: &str) -> u64 {
        let number = match name {
            _ if self.below(60) == 0 => self.number(),
            "offset" | "input_offset" => next + self.below(9),
            "bytes" | "bytes_deleted" => self.below(5),
            "cumulative_deleted" => sum,
            "site" => next + 4 * self.below(3),
            "target" => self.below(48),
            "len" => [8, 8, 14, 12, 6][self.below(5) as usize],
            "kind" => self.below(3),
            "power" => 4 << self.below(3),
            "most" => self.below(20),
            "addend" => 2 * self.below(8),
            "r_type" => [18, 19, 51, 43, 110, 71, 72, 100, 102][self.below(9) as usize],
            _ => self.number(),
        };
        self.listed = Some(match name {
            "bytes" | "bytes_deleted" => (next + (number & 7), sum.wrapping_add(number)),
            "offset" | "input_offset" => ((number & 0xff) + self.below(2), sum),
            "site" => ((number & 0xff) + 4, sum),
            "len" => (next.wrapping_add(number & 63) & !1, sum),
            _ => (next, sum),
        });
        number
    }

    /// How many elements a slice has, by its name.
    fn len(&mut self, name: &str) -> usize {
        let is_of_run = self.below(8) != 0;
        match name {
            "items" | "shapes" | "kept" | "places" if is_of_run => self.run,
            "freed" if is_of_run => self.run + 1,
            "found" if is_of_run => 6,
            "memory" if is_of_run => 12,
            _ => self.below(5) as usize,
        }
    }

    fn value<T: Made>(&mut self, name: &str) -> Pair<T> {
        let state = self.state;
        let ours = T::made(self, name);
        self.state = state;
        let theirs = T::made(self, name);
        Pair { ours, theirs }
    }

    fn slice<T: Made>(&mut self, name: &str) -> Pair<Vec<T>> {
        let (state, run) = (self.state, self.run);
        let ours = T::several(self, name);
        (self.state, self.run) = (state, run);
        let theirs = T::several(self, name);
        Pair { ours, theirs }
    }
}

/// A random argument, by its type and its name.
trait Made: Sized {
    fn made(random: &mut Random, name: &str) -> Self;

    fn several(random: &mut Random, name: &str) -> Vec<Self> {
        let len = random.len(name);
        (0..len).map(|_| Self::made(random, name)).collect()
    }
}

macro_rules! made {
    ($($kind:ty),*) => {
        $(
            impl Made for $kind {
                fn made(random: &mut Random, name: &str) -> $kind {
                    if let Some(listed) = random.listed {
                        return random.listed(listed, name) as $kind;
                    }
                    let number = match name {
                        "machine" => [183, 243, 258, 21, 62, 3][random.below(6) as usize],
                        "architecture" => random.below(6),
                        "form" => random.below(12),
                        "rewrite" => random.below(24),
                        "relocation" | "r_type" => random.below(1200),
                        "handle" => random.below(7) << 16 | random.below(1200),
                        "rd" => random.below(34),
                        "link" => random.below(3),
                        "base" if random.below(2) == 0 => 0,
                        "bits" if random.below(2) == 0 => random.below(4),
                        "rounding" if random.below(2) == 0 => 0,
                        _ => random.number(),
                    };
                    number as $kind
                }
            }

            impl Seen for $kind {
                fn seen(&self) -> String {
                    format!("{self:?}")
                }
            }
        )*
    };
}

made!(u16, u32, u64, usize, i32, i64);

impl Made for bool {
    fn made(random: &mut Random, _name: &str) -> bool {
        random.below(2) == 1
    }
}

impl Seen for bool {
    fn seen(&self) -> String {
        format!("{self:?}")
    }
}

impl Made for u8 {
    fn made(random: &mut Random, name: &str) -> u8 {
        match name {
            "n" => random.below(8) as u8,
            "first_bit" | "end_bit" => [0, 0, 12, 12, 32, 64, 65][random.below(7) as usize],
            _ => random.word() as u8,
        }
    }

    /// Instructions that some call takes, relocations, and any bytes.
    fn several(random: &mut Random, name: &str) -> Vec<u8> {
        if matches!(name, "relocations" | "words") {
            let mut bytes: Vec<u8> = (0..random.below(6)).flat_map(|_| relocation(random)).collect();
            bytes.truncate(bytes.len().saturating_sub(random.below(3) as usize));
            return bytes;
        }
        if name == "shapes" {
            let len = random.len(name);
            return (0..len).map(|_| random.word() as u8).collect();
        }
        if matches!(name, "linked" | "b") && random.below(2) == 0 {
            let mut bytes = random.window.clone();
            let changed = random.below(2) as usize;
            bytes.iter_mut().take(changed).for_each(|byte| *byte ^= 1);
            return bytes;
        }
        const WORDS: [u32; 6] = [0x97, 0x80e7, 0xf940_0000, 0xf280_0021, 0x0080_8080, 0x0001_0537];
        let len = match name {
            "packed" if random.below(8) != 0 => {
                random.section.saturating_sub(2 * random.below(4) as usize)
            }
            _ => random.below(40) as usize,
        };
        if name == "section" {
            random.section = len;
        }
        let mut bytes: Vec<u8> = (0..len).map(|_| random.word() as u8).collect();
        if random.below(2) == 0 {
            let is_of_calls = random.below(2) == 0;
            for (index, word) in bytes.chunks_exact_mut(4).enumerate() {
                let chosen = if is_of_calls { index % 2 } else { random.below(6) as usize };
                word.copy_from_slice(&WORDS[chosen].to_le_bytes());
            }
        }
        if matches!(name, "original" | "a") {
            random.window.clone_from(&bytes);
        }
        bytes
    }
}

/// A relocation as files have it, mostly near the beginning of a section and of a symbol that is there.
fn relocation(random: &mut Random) -> Vec<u8> {
    let any = [random.below(1200), random.below(60)];
    let r_type = [any[0], any[1], 60, 61, 35, 39, 38, 64, 4, 10][random.below(10) as usize];
    let symbol = [random.below(4), random.below(1 << 32)][usize::from(random.below(8) == 0)];
    let offset = [4 * random.below(8), random.number()][usize::from(random.below(8) == 0)];
    let words = [offset, symbol << 32 | r_type, random.number()];
    words.iter().flat_map(|word| word.to_le_bytes()).collect()
}

impl Seen for u8 {
    fn seen(&self) -> String {
        format!("{self:02x}")
    }
}

impl<const N: usize> Made for [u8; N] {
    fn made(random: &mut Random, _name: &str) -> [u8; N] {
        [0; N].map(|_: u8| random.word() as u8)
    }
}

impl<const N: usize> Seen for [u8; N] {
    fn seen(&self) -> String {
        format!("{self:02x?}")
    }
}

impl<T: Seen> Seen for Vec<T> {
    fn seen(&self) -> String {
        self.iter().map(|item| item.seen() + " ").collect()
    }
}

macro_rules! fields {
    ($name:ident: $($field:ident,)*) => {
        impl Made for $name {
            fn made(random: &mut Random, _name: &str) -> $name {
                $name { $($field: Made::made(random, stringify!($field))),* }
            }

            fn several(random: &mut Random, name: &str) -> Vec<$name> {
                random.listed = Some(if name == "additional" { (3, 0) } else { (0, 0) });
                random.run = random.len(name);
                let items = (0..random.run).map(|_| Made::made(random, "")).collect();
                random.listed = None;
                items
            }
        }

        impl Seen for $name {
            fn seen(&self) -> String {
                [$(self.$field.seen() + " "),*].concat()
            }
        }
    };
}

include!("fields.rs");

/// Shapes of an architecture, or others.
impl Made for Shapes {
    fn made(random: &mut Random, _name: &str) -> Shapes {
        use riscv64::{CALL, CALL_WITHOUT_C, TAIL_C};
        match random.below(9) {
            0..4 => CALL,
            4 => CALL_WITHOUT_C,
            5 => TAIL_C,
            6 => loongarch64::PCALA,
            7 => fixed(random.below(10) as u32),
            _ => Shapes {
                short: [0; 2].map(|_| Shape {
                    max_backward: random.number(),
                    max_forward: random.number(),
                    kept: random.below(8) as u32,
                    granularity: random.below(5) as u32,
                }),
                longest: random.below(10) as u32,
                count: random.below(4) as u8,
            },
        }
    }
}

impl Seen for Shapes {
    fn seen(&self) -> String {
        format!("{self:?}")
    }
}

macro_rules! compare {
    ($module:ident, $name:ident, [$($c:tt)*] -> $result:ty, |$random:ident| { $($made:tt)* },
     [$($ours:tt)*], [$($theirs:tt)*], [$($after:tt)*]) => {
        #[test]
        #[allow(unused_mut)]
        fn $name() {
            unsafe extern "C" {
                fn $name($($c)*) -> $result;
            }
            let mut $random = Random {
                state: 0x9e37_79b9_7f4a_7c15,
                listed: None,
                run: 0,
                section: 0,
                window: Vec::new(),
            };
            let mut returned = Vec::new();
            for _ in 0..calls() {
                $($made)*
                #[allow(clippy::unit_arg)]
                let (ours, taken): ($result, u64) = counted(|| $module::$name($($ours)*));
                // SAFETY: a slice's pointer and length are its own, a reference is of one value, and
                // the declaration is made of the export's own head.
                let (theirs, taken_by_theirs) = counted(|| unsafe { $name($($theirs)*) });
                let after: &[(String, String)] = &[$($after)*];
                assert_eq!(ours, theirs, "{after:?}");
                assert_eq!(taken, taken_by_theirs, "allocations: {after:?}");
                for (ours, theirs) in after {
                    assert_eq!(ours, theirs, "{after:?}");
                }
                returned.push(ours);
            }
            is_met(stringify!($name), &returned);
        }
    };
}

/// The arguments were such that the call does not always return the same, and its 0 is met.
fn is_met<T: PartialEq + Default>(name: &str, returned: &[T]) {
    assert!(returned.contains(&T::default()), "{name} never returns 0");
    let is_varied = returned.iter().any(|other| *other != returned[0]);
    assert!(is_varied || size_of::<T>() == 0, "{name} always returns the same");
}

/// The names of all, which rust/fuzz needs.
macro_rules! all {
    ($($name:ident)*) => {};
}

include!(concat!(env!("OUT_DIR"), "/exports.rs"));
