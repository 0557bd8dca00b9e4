// SPDX-License-Identifier: MIT OR Apache-2.0
// Made by tools/generate of crates/linker_utils_c/src/routes.rt.
//! How branches go to their targets.

use crate::relocate::status_of;
use crate::sections::value_status_of;
use crate::status::{Status, or_return};
use linker_utils::source::output::Target;
use linker_utils::source::output::{Route, RouteError};
use linker_utils::source::output::StubKind;
use linker_utils::source::section::{Addresses, Symbol};
use linker_utils::source::section::relocation_at;
use linker_utils::elf::Architecture;

/// How a branch goes.
#[repr(C)]
#[derive(Clone, Copy)]
pub struct RouteNumbers {
    /// What the stub goes to, as `linker_utils_write_stub` takes it.
    pub target: u64,
    /// The offset at which the branch enters the stub.
    pub entry: u64,
    /// The kind of the stub.
    pub kind: u32,
    /// 1 where it goes by a stub; 0 where it goes directly, and then all others are 0.
    pub is_by_stub: u8,
}

/// The number of a kind.
#[inline(always)]
fn kind_number(kind: StubKind) -> u32 {
    match kind {
        StubKind::Load => 0,
        StubKind::Jump => 1,
        StubKind::Far => 2,
        StubKind::FarRelative => 3,
        StubKind::LandingLoad => 4,
        StubKind::TocLoad => 5,
        StubKind::TocFar => 6,
        StubKind::PrefixedLoad => 7,
        StubKind::PrefixedJump => 8,
    }
}

/// A route in numbers.
#[inline(always)]
fn in_numbers(route: Route) -> RouteNumbers {
    match route {
        Route::Direct => RouteNumbers {
            target: 0,
            entry: 0,
            kind: 0,
            is_by_stub: 0,
        },
        Route::Stub {
            kind,
            entry,
            target,
        } => RouteNumbers {
            target,
            entry,
            kind: kind_number(kind),
            is_by_stub: 1,
        },
    }
}

/// Why a branch goes no way.
fn route_status_of(error: RouteError) -> u32 {
    match error {
        RouteError::NotABranch => Status::NotABranch as u32,
        RouteError::Value(error) => value_status_of(error),
        RouteError::NoRoom => Status::NoRoom as u32,
        RouteError::NoStub => Status::UnknownStub as u32,
        RouteError::Write(error) => status_of(Err(error)),
    }
}

/// Writes a route in numbers, or returns why there is none.
#[inline(always)]
fn put_route(found: Result<Route, RouteError>, route: &mut RouteNumbers) -> u32 {
    match found {
        Ok(found) => {
            *route = in_numbers(found);
            Status::Success as u32
        }
        Err(error) => route_status_of(error),
    }
}

/// How the branch of the relocation at an index goes to its symbol, as `Target::route`. The first
/// that applies of `UnknownArchitecture`; `TooShort`, where there is no relocation at the index;
/// `NoSymbol`; `NotABranch`; `NoEntry`; `NoRoom`; and the errors of `linker_utils_relocate`.
pub fn linker_utils_route_at_nonnull(
    machine: u16,
    addresses: &Addresses,
    relocations: &[u8],
    symbols: &[Symbol],
    index: usize,
    section: &[u8],
    route: &mut RouteNumbers,
) -> u32 {
    let architecture = or_return!(Architecture::from_machine(machine), UnknownArchitecture);
    let target = Target::of(architecture);
    route_at(
        target,
        addresses,
        relocations,
        symbols,
        index,
        section,
        route,
    )
}

fn route_at(
    target: &Target,
    addresses: &Addresses,
    relocations: &[u8],
    symbols: &[Symbol],
    index: usize,
    section: &[u8],
    route: &mut RouteNumbers,
) -> u32 {
    let relocation = or_return!(relocation_at(relocations, index), TooShort);
    let symbol = or_return!(symbols.get(relocation.symbol as usize), NoSymbol);
    put_route(target.route(addresses, symbol, &relocation, section), route)
}

/// How the branch of the relocation at an index goes to the function whose address a word has, as
/// `Target::route_by_word`. The first that applies of `UnknownArchitecture`; `TooShort`, where
/// there is no relocation at the index; `NotABranch`; `NoRoom`.
pub fn linker_utils_route_by_word_nonnull(
    machine: u16,
    word: u64,
    relocations: &[u8],
    index: usize,
    section: &[u8],
    route: &mut RouteNumbers,
) -> u32 {
    let architecture = or_return!(Architecture::from_machine(machine), UnknownArchitecture);
    route_by_word(
        Target::of(architecture),
        word,
        relocations,
        index,
        section,
        route,
    )
}

fn route_by_word(
    target: &Target,
    word: u64,
    relocations: &[u8],
    index: usize,
    section: &[u8],
    route: &mut RouteNumbers,
) -> u32 {
    let relocation = or_return!(relocation_at(relocations, index), TooShort);
    put_route(target.route_by_word(word, &relocation, section), route)
}
