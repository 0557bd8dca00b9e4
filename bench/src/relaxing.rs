// SPDX-License-Identifier: MIT OR Apache-2.0
//! Runs of RISC-V calls with alignments between them, relaxed.

use crate::calls_apart;
use crate::inputs::Random;
use crate::measure::{Beside, Report, Side};
use erased_crate::runs as erased;
use erased_crate::runs::shapes::riscv64::CALL;
use sathunne::{Item, Relaxed, ShapesName, standard_shapes};

/// What is written: shapes, kept bytes, places and freed bytes.
type Arrays = (Vec<u8>, Vec<u64>, Vec<usize>, Vec<u64>);

/// The same items for the exports and for the erased crate.
struct Run {
    exports: Vec<Item>,
    erased: Vec<erased::ItemNumbers>,
}

impl Run {
    fn new() -> Run {
        let (exports, erased) = (Vec::new(), Vec::new());
        Run { exports, erased }
    }

    fn call(&mut self, offset: u64, target: u64) {
        let shapes = standard_shapes(ShapesName::RiscVCall);
        self.exports.push(Item::site(offset, 8, target, shapes));
        let (len, shapes) = (8, CALL);
        let site = erased::Site {
            offset,
            len,
            target,
            shapes,
        };
        self.erased
            .push(erased::ItemNumbers::from_item(erased::Item::Site(site)));
    }

    /// Nops of 14 bytes, which align to 16.
    fn align(&mut self, offset: u64) {
        let (nops, alignment, max_skip) = (14, 16, None);
        self.exports
            .push(Item::alignment(offset, nops, alignment, max_skip));
        let aligned = erased::Alignment {
            offset,
            nops,
            alignment,
            max_skip,
        };
        self.erased
            .push(erased::ItemNumbers::from_item(erased::Item::Aligned(aligned)));
    }

    fn arrays(&self) -> Arrays {
        let count = self.exports.len();
        (
            vec![0; count],
            vec![0; count],
            vec![0; count],
            vec![0; count + 1],
        )
    }

    fn line(&self, report: &mut Report, name: &str, calls: usize) {
        let gives =
            |(shapes, kept, _, freed): &Arrays| (shapes.clone(), kept.clone(), freed.clone());
        let exports = Side::over(
            self.arrays(),
            |_| (),
            |(shapes, kept, places, freed)| {
                let relaxed = Relaxed {
                    shapes,
                    kept,
                    places,
                    freed,
                };
                assert_eq!(sathunne::relax(&self.exports, 0, relaxed), Ok(()));
            },
            gives,
        );
        let erased = Side::over(
            self.arrays(),
            |_| (),
            |(shapes, kept, places, freed)| {
                assert_eq!(erased::first_faulty(&self.erased, 0), None);
                erased::relax_into(&self.erased, 0, shapes, kept, places, freed);
            },
            gives,
        );
        report.line(name, calls, true, [Some(exports), None, Some(erased), None]);
    }
}

/// The original crate relaxes no runs. Both test the items; the exports also copy them.
pub fn relaxing(report: &mut Report) {
    const COUNT: usize = 200_000;
    let mut random = Random::new(14);
    report.heading(
        "Runs tested and relaxed by `linker_utils_relax`, a call",
        Beside::Nothing,
    );
    for gap in [64, 32] {
        let mut run = Run::new();
        for (k, call) in (0..).zip(calls_apart(&mut random, COUNT, gap)) {
            run.call(call.site, call.target);
            if k % 8 == 7 {
                run.align(call.site + 8);
            }
        }
        let name = format!("{COUNT} calls {gap} bytes apart, an alignment each 8");
        run.line(report, &name, COUNT);
    }

    // functions of ten calls and a `ret`, aligned, and shrunk calls of the same without alignments
    const FUNCTIONS: u64 = 6_000;
    let (mut run, mut calls) = (Run::new(), Vec::new());
    for function in 0..FUNCTIONS {
        for k in 0..10 {
            let site = 98 * function + 8 * k;
            let target = 98 * random.below(u128::from(FUNCTIONS));
            run.call(site, target);
            calls.push(sathunne::Call { site, target });
        }
        run.align(98 * function + 84);
    }
    run.line(report, "60000 calls in 6000 aligned functions", calls.len());
    let shrunk = Side::writes(vec![0u8; calls.len()], |chosen| {
        assert_eq!(sathunne::shrink_calls(&[], &calls, chosen), Ok(()));
    });
    let name = "the same by `shrink_calls`, which takes no alignments";
    report.line(name, calls.len(), true, [Some(shrunk), None, None, None]);
}
