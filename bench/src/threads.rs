// SPDX-License-Identifier: MIT OR Apache-2.0
//! What takes less time with threads: relocations of sections, each by one thread, and translations
//! by one array of deltas, which all threads read. Steps that use no memory show how many times as
//! fast the machine itself is with threads.

use crate::inputs::{Random, deletions};
use crate::library::RelocateAll;
use crate::measure::{Report, Rounds, mean_of_medians, quantile, ratios};
use crate::table::{AARCH64, MIXES};
use crate::{LIBRARIES, stream};
use std::time::Instant;

const SECTIONS: usize = 16;
const QUERIES: usize = 1 << 20;
const THREADS: [usize; 3] = [1, 2, 4];
const STEPS: usize = 1 << 23;

pub fn threads(report: &mut Report) {
    report.head("Threads", "| | threads |", |ours| {
        format!(" {ours}, ns | times as fast | spread |")
    });
    let random = &mut Random::new(21);
    let (relocations, section, _) = stream(random, MIXES[0]);
    let (list, len) = deletions(random, 1 << 16);
    let queries: Vec<u64> = (0..QUERIES).map(|_| random.below(len.into())).collect();
    let sections = &mut vec![section; SECTIONS];
    let ours = [0, 2].map(|side| {
        let count = if report.times(side) {
            report.rounds()
        } else {
            0
        };
        (LIBRARIES[side].expect("ours"), count)
    });

    let relocated = ours.map(|(library, count)| {
        let run: RelocateAll = match library.relocate_all(AARCH64, &relocations) {
            Some(run) => run,
            None => Box::new(|section| {
                library.relocate_each(AARCH64, &relocations, section) == Some(true)
            }),
        };
        rounds(count, SECTIONS * relocations.len(), |threads| {
            std::thread::scope(|scope| {
                for part in sections.chunks_mut(SECTIONS / threads) {
                    let run = &run;
                    scope.spawn(move || assert!(part.iter_mut().all(|section| run(section))));
                }
            });
        })
    });
    print(
        report,
        "relocations of 16 sections of 4 MiB, each",
        relocated,
    );
    let translated = ours.map(|(library, count)| {
        let deltas = &library.deltas(&list);
        rounds(count, QUERIES, |threads| {
            std::thread::scope(|scope| {
                for part in queries.chunks(QUERIES / threads) {
                    scope.spawn(move || std::hint::black_box(deltas.inputs(part)));
                }
            });
        })
    });
    print(
        report,
        "translations by one array of 65536 deltas, each",
        translated,
    );
    let computed = ours.map(|(_, count)| {
        rounds(count, STEPS, |threads| {
            std::thread::scope(|scope| {
                for _ in 0..threads {
                    scope.spawn(move || std::hint::black_box(compute(STEPS / threads)));
                }
            });
        })
    });
    print(report, "steps that use no memory, each", computed);
}

/// So many steps of a generator of random numbers, which read and write no memory.
fn compute(steps: usize) -> u64 {
    let mut state = std::hint::black_box(1u64);
    for _ in 0..steps {
        state ^= state << 13;
        state ^= state >> 7;
        state ^= state << 17;
    }
    state
}

/// The nanoseconds for each of so many calls in each round, with each number of threads in turn.
fn rounds(count: usize, calls: usize, mut round: impl FnMut(usize)) -> Rounds {
    let mut times = vec![Vec::new(); THREADS.len()];
    for _ in 0..count {
        for (threads, times) in THREADS.into_iter().zip(&mut times) {
            let begin = Instant::now();
            round(threads);
            times.push(begin.elapsed().as_secs_f64() * 1e9 / calls as f64);
        }
    }
    times
}

/// A line for each number of threads: the means of the processes' medians, how much faster than one
/// thread that is, and the 10th and the 90th percentile of the same of the rounds.
fn print(report: &mut Report, name: &str, given: [Rounds; 2]) {
    let shared = report.share(name, given);
    for (which, threads) in THREADS.into_iter().enumerate() {
        print!("| {name} | {threads} |");
        for processes in &shared {
            let medians = [0, which].map(|side| mean_of_medians(processes, side));
            let [Some(alone), Some(time)] = medians else {
                print!(" | | |");
                continue;
            };
            let mut faster = ratios(processes, 0, which);
            let [low, high] = [1, 9].map(|tenths| quantile(&mut faster, tenths));
            print!(" {time:.2} | {:.2} | {low:.2} to {high:.2} |", alone / time);
        }
        println!();
    }
}
