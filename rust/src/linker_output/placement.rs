// SPDX-License-Identifier: MIT OR Apache-2.0
// Made by tools/generate of crates/linker_output/src/placement.rt.
//! Places of stubs between sections, so that each branch reaches its target or a stub of it.
//!
//! Offsets are input offsets of a run of sections, or their addresses before there are stubs. Stubs
//! stand at boundaries between sections, and move all that stands after them. Of the stubs at a
//! boundary the first are those of branches before it that no other boundary is nearer to, the last
//! those of such branches after it, and those in between serve branches farther away. So a stub of
//! the nearest boundary stays where it is as seen from its branch, however many stubs are added.
//!
#![doc = include_str!("../../doc/placement.md")]

mod adding;
mod checking;
mod laying;
mod sweeping;

use alloc::vec::Vec;
use crate::support::*;
use crate::linker_base::relaxation::OutOfMemory;

/// A branch that may need a stub.
#[repr(C)]
#[derive(Clone, Copy, Debug, PartialEq, Eq, Hash)]
pub struct Branch {
    /// Its offset.
    pub offset: u64,
    /// Its target, as an index of [`Code::targets`](crate::placement::Code::targets).
    pub target: usize,
    /// How far below the branch what it reaches may lie, in bytes.
    pub max_backward: u64,
    /// What it reaches has to lie less than this many bytes above the branch, or at it.
    pub max_forward: u64,
}

/// What a stub is like.
#[repr(C)]
#[derive(Clone, Copy, Debug, PartialEq, Eq, Hash)]
pub struct StubShape {
    /// How many bytes it has.
    pub len: u64,
    /// The stubs at a boundary take a multiple of this many bytes, so that the sections after them
    /// stay aligned.
    pub unit: u64,
    /// How far below the stub its target may lie, in bytes.
    pub max_backward: u64,
    /// The target has to lie less than this many bytes above the stub.
    pub max_forward: u64,
}

/// The code between which stubs are placed.
#[derive(Clone, Copy, Debug, PartialEq, Eq, Hash)]
pub struct Code<'a> {
    /// The branches. Where their offsets ascend, more of them share a stub.
    pub branches: &'a [Branch],
    /// The offsets of the targets.
    pub targets: &'a [u64],
    /// The offsets at which stubs may stand, which ascend. What has such an offset is after the
    /// stubs.
    pub boundaries: &'a [u64],
    /// What each stub is like.
    pub shape: StubShape,
}

/// Which of the stubs at a boundary a stub is one of.
#[derive(Clone, Copy, PartialEq, Eq, Debug, Hash)]
pub enum Part {
    /// The first ones, which are counted from the first one on.
    Front,
    /// Those after the first ones.
    Middle,
    /// The last ones, which are counted from the last one down.
    Back,
}

/// A stub.
#[derive(Clone, Copy, Debug, PartialEq, Eq, Hash)]
pub struct StubAt {
    /// The index of the boundary at which it stands.
    pub boundary: usize,
    /// Which of the stubs there it is one of.
    pub part: Part,
    /// Its index among these.
    pub index: u64,
    /// The index of its target.
    pub target: usize,
}

/// How many stubs there are at a boundary.
#[derive(Clone, Copy, Debug, PartialEq, Eq, Hash)]
pub struct StubCounts {
    /// The first ones.
    pub front: u64,
    /// Those in between.
    pub middle: u64,
    /// The last ones.
    pub back: u64,
}

/// By what a branch goes.
#[derive(Clone, Copy, Debug, PartialEq, Eq, Hash)]
enum Way {
    /// To its target.
    Direct,
    /// By the stub of an index.
    Far(usize),
    /// By the stub of an index, at the boundary next to it.
    Near(usize),
}

/// Stubs between sections.
#[derive(Debug, Clone, PartialEq, Eq)]
pub struct Layout {
    /// The stubs.
    pub stubs: Vec<StubAt>,
    /// Where each stub is.
    pub places: Vec<u64>,
    /// How many stubs there are at each boundary.
    pub groups: Vec<StubCounts>,
    /// How many bytes of stubs there are before those at each boundary, and at the end how many in
    /// all.
    pub before: Vec<u64>,
}

/// Stubs with which each branch reaches what it goes by.
#[derive(Debug, Clone, PartialEq, Eq)]
pub struct Placement {
    /// The stubs.
    pub layout: Layout,
    /// For each branch the index of the stub that it goes by, or none if it goes to its target.
    pub stubs: Vec<Option<usize>>,
}

/// Why no stubs are placed.
#[cfg_attr(not(exhaustive), non_exhaustive)]
#[derive(Debug, Clone, PartialEq, Eq)]
pub enum PlaceError {
    /// Out of memory.
    OutOfMemory,
    /// A stub has no bytes, or the unit is 0.
    NoLength,
    /// The boundary after the one at an index is below it.
    NotAscending(usize),
    /// The target of the branch at an index isn't in the table.
    NoTarget(usize),
    /// An offset isn't below 2^62, or the bytes of two stubs for each branch and one more, with a
    /// unit for each boundary.
    TooLong,
    /// The branch at an index reaches neither its target nor a boundary, in the layout with the
    /// stubs that were added before.
    NoBoundary(usize, Layout),
    /// The stub at an index of the layout doesn't reach its target. Each branch reaches its target
    /// or a stub of it.
    StubTooFar(usize, Layout),
}

impl From<OutOfMemory> for PlaceError {
    fn from(_error: OutOfMemory) -> PlaceError {
        PlaceError::OutOfMemory
    }
}

/// What changes while stubs are added.
struct State {
    /// The stubs so far.
    stubs: Vec<StubAt>,
    /// How many of them are at each boundary.
    groups: Vec<StubCounts>,
    /// By what each branch goes.
    ways: Vec<Way>,
    /// For each target the stub that was used last.
    last: Vec<usize>,
    /// The lists in which stubs are found by boundary and target: for each the last stub of it and
    /// one, or 0.
    heads: Vec<usize>,
    /// For each stub the one before it in its list and one, or 0.
    nexts: Vec<usize>,
    /// Whether stubs may be placed at boundaries that aren't next to a branch.
    may_share: bool,
}

/// What offsets and the bytes of stubs are below.
const LIMIT: u64 = 1 << 62;

/// How many passes there are at most before branches go by stubs that they may not need. Code has a
/// few: each adds the stubs that are needed for those of the pass before.
const MOST_PASSES: u32 = 32;

/// What became of a branch in a sweep.
#[derive(Clone, Copy)]
enum Visit {
    /// It reaches what it goes by, or goes by a stub at the boundary next to it, which stays in
    /// reach.
    Served,
    /// It goes by another stub.
    Raised,
    /// It is lost, and no boundary next to it is in reach.
    Lost,
}

/// What a sweep over the branches did.
#[derive(Clone, Copy, Debug, PartialEq, Eq)]
enum Sweep {
    /// Each branch reaches what it goes by.
    Settled,
    /// A branch goes by another stub.
    Changed,
    /// The branch at an index reaches nothing, and no boundary for a stub.
    Stuck(usize),
}

impl State {
    /// No stubs, where each branch goes to its target.
    fn new(code: &Code<'_>, may_share: bool) -> Result<State, OutOfMemory> {
        let none = StubCounts {
            front: 0,
            middle: 0,
            back: 0,
        };
        Ok(State {
            stubs: Vec::new(),
            groups: try_vec![none; code.boundaries.len()]?,
            ways: try_vec![Way::Direct; code.branches.len()]?,
            last: try_vec![usize::MAX; code.targets.len()]?,
            heads: try_vec![0; code.branches.len()]?,
            nexts: Vec::new(),
            may_share,
        })
    }

    /// The stub by which each branch goes.
    fn stubs_of(
        &self,
        code: &Code<'_>,
        before: &[u64],
    ) -> Result<Vec<Option<usize>>, OutOfMemory> {
        let mut stubs = Vec::fallible_with_capacity(code.branches.len())?;
        for index in 0..code.branches.len() {
            stubs.fallible_push(match self.ways[index] {
                Way::Direct => None,
                Way::Near(stub) => Some(stub),
                Way::Far(stub) => {
                    let branch = code.branches[index];
                    let target = code.moved(before, code.targets[branch.target]);
                    if code.reaches_at(before, &branch, target) {
                        None
                    } else {
                        Some(stub)
                    }
                }
            })?;
        }
        Ok(stubs)
    }
}

/// Whether a branch goes by each of `len` stubs.
fn are_used(stubs: &[Option<usize>], len: usize) -> Result<bool, OutOfMemory> {
    let mut used = try_vec![false; len]?;
    for stub in stubs {
        if let Some(index) = *stub {
            if index < len {
                used[index] = true;
            }
        }
    }
    for index in 0..len {
        if !used[index] {
            return Ok(false);
        }
    }
    Ok(true)
}

/// `len` + 1 zeros.
fn zeros(len: usize) -> Result<Vec<u64>, OutOfMemory> {
    Ok(try_vec![0; len + 1]?)
}

/// Places stubs at boundaries, and returns by which one each branch goes. Where branches may share
/// stubs that aren't at a boundary next to them, a stub may be left that no branch goes by.
fn place_by(code: &Code<'_>, may_share: bool) -> Result<Placement, PlaceError> {
    let mut state = State::new(code, may_share)?;
    let mut before = zeros(code.boundaries.len())?;
    let mut places = Vec::new();
    let stuck = state.settle(code, &mut before, &mut places)?;
    let stubs = state.stubs_of(code, &before)?;
    let layout = Layout {
        stubs: state.stubs,
        places,
        groups: state.groups,
        before,
    };
    match stuck {
        Some(index) => Err(PlaceError::NoBoundary(index, layout)),
        None => match layout.first_short(code) {
            Some(index) => Err(PlaceError::StubTooFar(index, layout)),
            None => Ok(Placement { layout, stubs }),
        },
    }
}

/// Places stubs at boundaries, so that each branch reaches its target or a stub of it, and returns
/// the layout and by which stub each branch goes. An error is the first that applies of `NoLength`,
/// `NotAscending`, `NoTarget`, `TooLong`, `OutOfMemory`, `NoBoundary` and `StubTooFar`, with the
/// first index of it. One that is about a layout has it.
///
/// A branch that doesn't reach its target shares the stub of it that was used last, if that is in
/// reach. Else a stub is placed for it at the last boundary within half of its reach ahead, if that
/// is beyond the next one, or at a boundary next to it, unless the target has one there. Each stub
/// has a branch that goes by it, and a branch goes by none that reaches its target with the bytes
/// of all stubs that there may be in between.
///
/// Offsets move by the stubs before them, so that this is done again until each branch is in reach.
/// A pass takes O((n + s) log b) for n branches, s stubs and b boundaries, and there are a few.
/// Where no branch goes by a stub any more, all stubs are placed once more, and only at boundaries
/// next to branches.
///
/// It allocates arrays of as many elements as there are branches, targets, boundaries and stubs.
///
/// ```
/// use linker_utils::placement::{Branch, Code, StubShape, place_stubs};
///
/// const MIB: u64 = 1 << 20;
/// let reach = 128 * MIB;
/// let call = Branch { offset: 4, target: 0, max_backward: reach, max_forward: reach };
/// let shape = StubShape { len: 12, unit: 16, max_backward: 1 << 32, max_forward: 1 << 32 };
/// let code = Code { branches: &[call], targets: &[200 * MIB], boundaries: &[64 * MIB], shape };
/// let placement = place_stubs(&code)?;
/// assert_eq!(placement.stubs, [Some(0)]);
/// assert_eq!(placement.layout.places, [64 * MIB]);
/// # Ok::<(), linker_utils::placement::PlaceError>(())
/// ```
pub fn place_stubs(code: &Code<'_>) -> Result<Placement, PlaceError> {
    code.check()?;
    let placement = place_by(code, true)?;
    if are_used(&placement.stubs, placement.layout.stubs.len())? {
        Ok(placement)
    } else {
        place_by(code, false)
    }
}
