// SPDX-License-Identifier: MIT OR Apache-2.0
//! What differs by function, and a summary that fits a screen of 24 lines and 80 columns.

use compare::{Compared, Counts, Line, report};
use std::cmp::Reverse;
use std::collections::HashMap;

/// The most functions, and the most differences, that the summary lists.
const LISTED: usize = 9;
const COLUMNS: usize = 80;

/// The relocations of a function, or of what else a symbol stands for.
#[derive(Default)]
struct Function {
    relocations: usize,
    different: Vec<Line>,
}

/// The relocations that were compared, by object and function.
#[derive(Default)]
pub struct Functions<'a> {
    places: HashMap<(&'a str, &'a str), usize>,
    functions: Vec<((&'a str, &'a str), Function)>,
    /// Where the last one is that a relocation was of.
    last: usize,
}

impl<'a> Functions<'a> {
    /// Counts a relocation, and keeps it if it differs.
    pub fn add(&mut self, one: &Compared<'_, 'a>) {
        let key = (&one.object.path[..], one.function);
        // most are of the same function as the one before
        if self.functions.get(self.last).is_none_or(|(last, _)| *last != key) {
            self.last = *self.places.entry(key).or_insert_with(|| {
                self.functions.push((key, Function::default()));
                self.functions.len() - 1
            });
        }
        let function = &mut self.functions[self.last].1;
        function.relocations += 1;
        if !one.is_same() {
            function.different.push(one.line());
        }
    }

    /// Puts those with the most differences first, and leaves out those without.
    pub fn worst_first(&mut self) {
        self.functions.retain(|(_, function)| !function.different.is_empty());
        self.functions.sort_by_key(|(_, function)| Reverse(function.different.len()));
    }

    /// For each function a line with its name and how much of it differs, and what differs.
    pub fn differences(&self) -> impl Iterator<Item = (String, &[Line])> {
        self.functions.iter().map(|((object, name), function)| {
            let (different, all) = (function.different.len(), function.relocations);
            let name = report::printable(&format!("{name} of {object}"));
            (format!("{different} of {all} differ in {name}"), &function.different[..])
        })
    }

    /// The lines of the summary, without the counts of all relocations.
    pub fn summary(&self) -> Vec<String> {
        let mut lines = Vec::new();
        if self.functions.is_empty() {
            return lines;
        }
        let heads = self.differences().map(|(head, _)| head);
        lines.push(format!("Functions that differ, the worst first ({}):", self.functions.len()));
        list(heads.collect(), "functions", &mut lines);
        let mut kinds: HashMap<String, usize> = HashMap::new();
        for line in self.functions.iter().flat_map(|(_, function)| &function.different) {
            let [a, b] = &line.made;
            let kind = format!("{} | {}", report::kind(line, a), report::kind(line, b));
            *kinds.entry(kind).or_default() += 1;
        }
        let counted = kinds.into_iter().map(|(kind, count)| (Reverse(count), kind));
        let mut kinds: Vec<_> = counted.collect();
        kinds.sort_unstable();
        lines.push("How often, what A has, and what B has there:".into());
        let kinds = kinds.into_iter().map(|(count, kind)| format!("{}: {kind}", count.0));
        list(kinds.collect(), "kinds", &mut lines);
        lines
    }
}

/// The first few of some lines, and how many more there are.
fn list(all: Vec<String>, what: &str, lines: &mut Vec<String>) {
    let more = all.len().saturating_sub(LISTED);
    lines.extend(all.into_iter().take(LISTED).map(|line| cut(&format!("  {line}"))));
    if more > 0 {
        lines.push(format!("  and {more} more {what}"));
    }
}

/// The beginning of a line that is too long for the screen.
fn cut(line: &str) -> String {
    if line.chars().count() <= COLUMNS {
        return line.to_string();
    }
    line.chars().take(COLUMNS - 2).chain("..".chars()).collect()
}

/// How many relocations there are, and how many differ.
pub fn counts(counts: &Counts) -> Vec<String> {
    let mut lines = vec![format!("{} relocations, {} differ", counts.relocations, counts.different)];
    if counts.nowhere > 0 {
        lines.push(format!("{} more are in sections that no symbol leads to", counts.nowhere));
    }
    lines
}
