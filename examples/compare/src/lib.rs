// SPDX-License-Identifier: MIT OR Apache-2.0
//! Compares what two linkers made of each relocation of the same objects.

mod align;
pub mod elf;
mod forms;
mod hash;
mod made;
mod map;
mod recognise;
pub mod report;
mod side;
mod stubs;
mod symbols;
mod tables;
mod targets;
mod threads;
mod walk;

use elf::{Object, Relocation};
use linker_utils::elf::Architecture;
use map::Anchors;
use side::{Made, Side};
use std::mem::ManuallyDrop;
use std::panic::resume_unwind;
use std::sync::atomic::{AtomicU64, Ordering};
use std::time::Duration;

/// A relocation that was compared. Most are the same in both files, and nobody reads their text.
pub struct Compared<'m, 'a> {
    pub object: &'a Object<'a>,
    /// The symbol before it, or the section, and the distance.
    pub function: &'a str,
    distance: u64,
    relocation: &'a Relocation,
    maps: [&'m Anchors; 2],
    made: [Made; 2],
}

impl Compared<'_, '_> {
    pub fn is_same(&self) -> bool {
        self.made[0] == self.made[1]
    }

    /// The same with its text.
    pub fn line(&self) -> Line {
        let (object, one) = (self.object, self.relocation);
        Line {
            object: object.path.clone(),
            place: format!("{}+{:#x}", self.function, self.distance),
            architecture: object.architecture,
            relocation: one.r_type,
            addresses: self.maps.map(|map| map::address_in(map, one.offset)),
            symbol: report::symbol(object, one),
            made: self.made.clone(),
        }
    }
}

/// A relocation, and what each linker made of it.
pub struct Line {
    pub object: String,
    /// The symbol before it and the distance, or the section and the offset.
    pub place: String,
    pub architecture: Architecture,
    pub relocation: u32,
    /// Where it is in each file.
    pub addresses: [Option<u64>; 2],
    /// The symbol and the addend.
    pub symbol: String,
    pub made: [Made; 2],
}

impl Line {
    pub fn is_same(&self) -> bool {
        self.made[0] == self.made[1]
    }
}

/// What was compared.
#[derive(Default)]
pub struct Counts {
    pub relocations: usize,
    pub different: usize,
    /// Those whose place is known in neither file.
    pub nowhere: usize,
}

/// Compares the relocations of the objects in two linked files. `step` is called with how much is
/// done and how much there is. The error is of the first file or the second.
pub fn compare<'a>(
    objects: &'a [elf::Object<'a>],
    files: [&'a elf::Linked<'a>; 2],
    step: &dyn Fn(u64, u64),
    mut each: impl FnMut(Compared<'_, 'a>),
) -> Result<Counts, (usize, elf::Reason)> {
    let sections: usize = objects.iter().map(|object| object.sections.len()).sum();
    let (total, done) = (4 * sections as u64, AtomicU64::new(0));
    let (main, ended) = (std::thread::current(), AtomicU64::new(0));
    let side = |which: usize| {
        let mut side = Side::new(files[which], objects);
        if let Ok(side) = &mut side {
            side.locate(&|| _ = done.fetch_add(1, Ordering::Relaxed));
        }
        ended.fetch_add(1, Ordering::Relaxed);
        main.unpark();
        side.map_err(|reason| (which, reason))
    };
    let sides = std::thread::scope(|scope| {
        let both = [0, 1].map(|which| scope.spawn(move || side(which)));
        while ended.load(Ordering::Relaxed) < 2 && !both.iter().all(|one| one.is_finished()) {
            step(done.load(Ordering::Relaxed).min(total), total);
            std::thread::park_timeout(Duration::from_millis(50));
        }
        both.map(|one| one.join().unwrap_or_else(|panic| resume_unwind(panic)))
    });
    let [first, second] = sides;
    // what is known of the files is large, and stays until the program ends
    let mut sides = ManuallyDrop::new([first?, second?]);
    let mut counts = Counts::default();
    for (at, object) in objects.iter().enumerate() {
        let names = report::names_of(object);
        for (index, section) in object.sections.iter().enumerate() {
            step((done.fetch_add(1, Ordering::Relaxed) + 1).min(total), total);
            if !section.is_allocated || section.relocations.is_empty() {
                continue;
            }
            let [a, b] = &mut *sides;
            let both = a.take_made(at, index).into_iter().zip(b.take_made(at, index));
            let maps = [&a.maps[at][index], &b.maps[at][index]];
            for (relocation, (a, b)) in section.relocations.iter().zip(both) {
                if made::is_mark(object.architecture, relocation.r_type) {
                    continue;
                }
                if a == Made::Nowhere && b == Made::Nowhere {
                    counts.nowhere += 1;
                    continue;
                }
                let names = &names[index];
                let (function, distance) = report::place(names, &section.name, relocation.offset);
                let made = [a, b];
                let one = Compared { object, function, distance, relocation, maps, made };
                counts.relocations += 1;
                counts.different += usize::from(!one.is_same());
                each(one);
            }
        }
    }
    Ok(counts)
}
