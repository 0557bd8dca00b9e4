// SPDX-License-Identifier: MIT OR Apache-2.0
// Made by tools/generate of crates/linker_elf/src/elf/engine.rt.
//! Writes the bits of a value into the window of an instruction, and reads them.

use crate::linker_elf::elf::AnyForm;
use crate::linker_base::bit_misc::BitRange;

/// Runs of a value's bits that move to the window by the same distance.
#[derive(Clone, Copy)]
pub(crate) struct Step {
    /// What is added to the value first.
    pub(crate) added: u64,
    /// How far up the bits move, modulo 64.
    pub(crate) up: u32,
    /// The window's bits that they are moved to.
    pub(crate) mask: u64,
}

/// How a row writes a value into an instruction, if its form has at most two steps and a window of
/// 4 or 8 bytes.
#[derive(Clone, Copy)]
pub(crate) struct WritePlan {
    /// Whether the window has 4 bytes.
    pub(crate) is_word: bool,
    /// The lowest of the value's bits that are taken.
    pub(crate) start: u32,
    /// The bits that are taken of the value from there up.
    pub(crate) taken: u64,
    /// The window's bits that are cleared first.
    pub(crate) replaced: u64,
    pub(crate) first: Step,
    pub(crate) second: Step,
}

/// What a form is beside its steps.
#[derive(Clone, Copy)]
pub(crate) struct Encoding {
    pub(crate) window: Window,
    /// Which bits of its number the immediate has.
    pub(crate) bits: BitRange,
    /// The window's bits that become the value's, or 0 where no step has them.
    pub(crate) replaced: u64,
    /// The window's bits that the value's are only ORed to.
    pub(crate) ored: u64,
    /// The bits of the number in the window that stand for what they are worth below 0, as the
    /// highest in two's complement.
    pub(crate) signs: u64,
    /// What a read takes off the number.
    pub(crate) rounded: u64,
    /// The bits that a read returns of what is left.
    pub(crate) returned: u64,
    /// A read's flag is whether the number is at least this.
    pub(crate) flag: u64,
}

/// What is read without a sign, and what each form is except for what `form!` says of it.
pub(crate) const UNSIGNED: Encoding = Encoding {
    window: Window::Four,
    bits: BitRange { start: 0, end: 0 },
    replaced: 0,
    ored: 0,
    signs: 0,
    rounded: 0,
    returned: !0,
    flag: !0,
};

/// A part of a form, which each architecture's `form_of` gives by its name: with `code` what it is
/// beside its steps; with `2 steps` or `6 steps` these, and as many that move nothing as are left;
/// with `variant` and the forms' enum its variant; with `window` the length of its window in bytes;
/// with `plan`, the runs that are cleared first and a row's bits, the row's plan if there is one. A
/// form is its name, its window, which bits of its number the immediate has, its steps and how it
/// is read. A step is its runs, each a bit of the value, one of the window, and their length; with
/// `or` a run is only ORed.
macro_rules! form {
    ([plan $cleared:ident $first:tt $last:tt] (
        $name:ident $window:ident, $start:literal .. $end:literal,
        $([$(added $added:literal:)? $($from:literal, $to:literal, $len:literal $($or:ident)?);+])+
        $(clear $clear:literal, $clear_len:literal)?
        $(; $($field:ident: $read:expr),+)?
    )) => {
        $crate::linker_elf::elf::engine::plan!(
            $window $first $last
            [$($($crate::linker_elf::elf::engine::run!($cleared $to, $len $($or)?) |)+)+
                $($crate::linker_elf::elf::engine::run!(bits $clear, $clear_len) |)? 0]
            $([0 $(+ $added)?; $($from, $to, $len);+])+
        )
    };
    ([variant $forms:ident] ($name:ident $($part:tt)+)) => { $forms::$name };
    ([window] ($name:ident Two, $($part:tt)+)) => { 2 };
    ([window] ($name:ident Four, $($part:tt)+)) => { 4 };
    ([window] ($name:ident Eight, $($part:tt)+)) => { 8 };
    ([code] (
        $name:ident $window:ident, $start:literal .. $end:literal,
        $([$(added $added:literal:)? $($from:literal, $to:literal, $len:literal $($or:ident)?);+])+
        $(clear $clear:literal, $clear_len:literal)?
        $(; $($field:ident: $read:expr),+)?
    )) => {
        $crate::linker_elf::elf::engine::Encoding {
            window: $crate::linker_elf::elf::engine::Window::$window,
            bits: BitRange { start: $start, end: $end },
            replaced: $($($crate::linker_elf::elf::engine::run!(replaced $to, $len $($or)?) |)+)+
                $($crate::linker_elf::elf::engine::run!(bits $clear, $clear_len) |)? 0,
            ored: $($($crate::linker_elf::elf::engine::run!(ored $to, $len $($or)?) |)+)+ 0,
            $($($field: $read,)+)?
            ..$crate::linker_elf::elf::engine::UNSIGNED
        }
    };
    ([$slots:tt steps] (
        $name:ident $window:ident, $start:literal .. $end:literal,
        $([$(added $added:literal:)? $($from:literal, $to:literal, $len:literal $($or:ident)?);+])+
        $(clear $clear:literal, $clear_len:literal)?
        $(; $($field:ident: $read:expr),+)?
    )) => {
        $crate::linker_elf::elf::engine::steps!($slots [] $([0 $(+ $added)?; $($from, $to, $len);+])+)
    };
}

/// A plan, or none where the window has 2 bytes or there are more than two steps.
macro_rules! plan {
    (Four) => { true };
    (Eight) => { false };
    (Two $($row:tt)+) => { None };
    ($window:ident $start:tt $end:tt [$replaced:expr] $first:tt $($second:tt)?) => {
        Some($crate::linker_elf::elf::engine::WritePlan {
            is_word: $crate::linker_elf::elf::engine::plan!($window),
            start: $start,
            taken: u64::MAX >> (64 - ($end - $start)),
            replaced: $replaced,
            first: $crate::linker_elf::elf::engine::steps!($first),
            second: $crate::linker_elf::elf::engine::steps!($($second)? none),
        })
    };
    ($($row:tt)+) => { None };
}

/// The steps, and in the slots that are left such as move nothing. A step moves by the distance of
/// its first run. The mask would be another if that of a further run were another.
macro_rules! steps {
    (2 $($rest:tt)*) => { $crate::linker_elf::elf::engine::steps!([none none] $($rest)*) };
    (6 $($rest:tt)*) => { $crate::linker_elf::elf::engine::steps!([none none none none none none] $($rest)*) };
    ([$($slot:ident)*] [$($step:expr,)*]) => {
        [$($step,)* $($crate::linker_elf::elf::engine::steps!($slot)),*]
    };
    (none) => { $crate::linker_elf::elf::engine::Step { added: 0, up: 0, mask: 0 } };
    (
        [
            $added:expr; $from:literal, $to:literal, $len:literal
            $(; $more:literal, $more_to:literal, $more_len:literal)*
        ]
        $(none)?
    ) => {
        $crate::linker_elf::elf::engine::Step {
            added: $added,
            up: (64 + $to - $from) % 64,
            mask: $crate::linker_elf::elf::engine::run!(bits $to, $len)
                $(| $crate::linker_elf::elf::engine::run!(bits $more_to, $more_len)
                    << ((128 + $more_to - $more - (64 + $to - $from) % 64) % 64))*,
        }
    };
    ([none $($slot:ident)*] [$($step:expr,)*] $next:tt $($rest:tt)*) => {
        $crate::linker_elf::elf::engine::steps!(
            [$($slot)*] [$($step,)* $crate::linker_elf::elf::engine::steps!($next),] $($rest)*
        )
    };
}

/// A run's bits of the window: all, those that are replaced, and those that are only ORed.
macro_rules! run {
    (bits $to:literal, $len:literal $(or)?) => { (((1 << $len) - 1) << $to) };
    (replaced $to:literal, $len:literal) => { $crate::linker_elf::elf::engine::run!(bits $to, $len) };
    (replaced $to:literal, $len:literal or) => { 0 };
    (ored $to:literal, $len:literal) => { 0 };
    (ored $to:literal, $len:literal or) => { $crate::linker_elf::elf::engine::run!(bits $to, $len) };
}

pub(crate) use form;
pub(crate) use plan;
pub(crate) use run;
pub(crate) use steps;

/// The length of a window in bytes.
#[derive(Clone, Copy)]
pub(crate) enum Window {
    Two,
    Four,
    Eight,
}

impl Window {
    /// The little-endian number in the window that `bytes` begins with.
    #[inline(always)]
    pub(crate) fn load(self, bytes: &[u8]) -> u64 {
        match self {
            Window::Two => {
                let mut half = [0u8; 2];
                half.copy_from_slice(&bytes[..2]);
                u16::from_le_bytes(half) as u64
            }
            Window::Four => {
                let mut word = [0u8; 4];
                word.copy_from_slice(&bytes[..4]);
                u32::from_le_bytes(word) as u64
            }
            Window::Eight => {
                let mut pair = [0u8; 8];
                pair.copy_from_slice(&bytes[..8]);
                u64::from_le_bytes(pair)
            }
        }
    }

    /// Sets the window that `bytes` begins with to a number.
    #[inline(always)]
    pub(crate) fn store(self, window: u64, bytes: &mut [u8]) {
        match self {
            Window::Two => bytes[..2].copy_from_slice(&(window as u16).to_le_bytes()),
            Window::Four => bytes[..4].copy_from_slice(&(window as u32).to_le_bytes()),
            Window::Eight => bytes[..8].copy_from_slice(&window.to_le_bytes()),
        }
    }
}

/// The window after a value is written. A step that moves nothing ORs nothing.
#[inline(always)]
pub(crate) fn window_with(replaced: u64, steps: &[Step], value: u64, window: u64) -> u64 {
    let mut written = window & !replaced;
    for step in steps {
        written |= value.wrapping_add(step.added).rotate_left(step.up) & step.mask;
    }
    written
}

/// The number in the bits of a window.
#[inline(always)]
pub(crate) fn number_in(steps: &[Step], window: u64) -> u64 {
    let mut number = 0;
    for step in steps {
        number |= (window & step.mask).rotate_right(step.up);
    }
    number
}

/// Writes a value into the instruction that `dest` begins with. The contract alone uses `_insn` and
/// `_negative`.
#[inline(always)]
pub(crate) fn write(
    _insn: AnyForm,
    code: &Encoding,
    steps: &[Step],
    value: u64,
    _negative: bool,
    dest: &mut [u8],
) {
    let window = window_with(code.replaced, steps, value, code.window.load(dest));
    code.window.store(window, dest);
}

/// The value in the instruction that `bytes` begins with, modulo 2^64, and a flag. The contract
/// alone uses `_insn`.
#[inline(always)]
pub(crate) fn read(_insn: AnyForm, code: &Encoding, steps: &[Step], bytes: &[u8]) -> (u64, bool) {
    let number = number_in(steps, code.window.load(bytes));
    // no branch, since the sign of what is read is unpredictable
    let value = number.wrapping_sub((number & code.signs) << 1);
    (
        value.wrapping_sub(code.rounded) & code.returned,
        number >= code.flag,
    )
}
