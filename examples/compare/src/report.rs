// SPDX-License-Identifier: MIT OR Apache-2.0
//! Places, symbols and choices as text and as JSON.

use crate::elf::{Home, Object, Relocation, is_label};
use crate::side::{Made, Target};
use crate::{Counts, Line};
use linker_utils::elf::Architecture;
use object::elf::{STT_FILE, STT_SECTION};
use serde_json::{Value, json};

/// Offset and name of the symbols of each section, by offset.
pub fn names_of<'a>(object: &'a Object<'a>) -> Vec<Vec<(u64, &'a str)>> {
    let mut names = vec![Vec::new(); object.sections.len()];
    for one in &object.symbols {
        let Home::Section(section) = one.home else { continue };
        let is_other = matches!(one.kind, STT_SECTION | STT_FILE);
        if !is_other && !one.name.is_empty() && !is_label(&one.name) {
            names[section].push((one.value, &*one.name));
        }
    }
    names.iter_mut().for_each(|names| names.sort_unstable());
    names
}

/// The last symbol up to an offset of a section, or the section, and how far it is behind it.
pub fn place<'a>(names: &[(u64, &'a str)], section: &'a str, offset: u64) -> (&'a str, u64) {
    let after = names.partition_point(|(start, _)| *start <= offset);
    names[..after].last().map_or((section, offset), |(start, name)| (name, offset - start))
}

pub fn symbol(object: &Object, one: &Relocation) -> String {
    let symbol = &object.symbols[one.symbol];
    let name = match symbol.home {
        Home::Section(section) if symbol.name.is_empty() => &object.sections[section].name,
        _ => &symbol.name,
    };
    match one.addend {
        0 => name.to_string(),
        addend if addend < 0 => format!("{name}-{:#x}", addend.unsigned_abs()),
        addend => format!("{name}+{addend:#x}"),
    }
}

fn name(architecture: Architecture, r_type: u32) -> String {
    architecture.name(r_type).map_or_else(|| format!("relocation {r_type}"), str::to_string)
}

/// A text without control characters, which names may have: the local labels of LoongArch's
/// assembler do.
pub fn printable(text: &str) -> String {
    let mut shown = String::with_capacity(text.len());
    for one in text.chars() {
        match one.is_control() {
            true => shown.extend(one.escape_default()),
            false => shown.push(one),
        }
    }
    shown
}

/// What a linker made of a relocation, without where it leads.
pub fn kind(line: &Line, made: &Made) -> String {
    match made {
        Made::Chosen { target: Target::Other(_), .. } => {
            said(line, made).split(" to ").next().unwrap_or_default().to_string() + " elsewhere"
        }
        Made::Chosen { .. } => said(line, made).split(": ").next().unwrap_or_default().to_string(),
        Made::Unknown(_) => "not recognised".into(),
        _ => said(line, made),
    }
}

/// What a linker made of a relocation, in words.
pub fn words(line: &Line, made: &Made) -> String {
    printable(&said(line, made))
}

fn said(line: &Line, made: &Made) -> String {
    match made {
        Made::Chosen { rewrite, relocation, is_through_got, target } => {
            let mut said = match rewrite {
                Some(rewrite) => rewrite.clone(),
                None if *relocation == line.relocation => "as it was".into(),
                None => format!("as {}", name(line.architecture, *relocation)),
            };
            if *target != Target::Nothing {
                said += if *is_through_got { " (through the GOT)" } else { " (direct)" };
            }
            match target {
                Target::Other(to) => said + " to " + to,
                Target::Bits(bits) => said + ": " + bits,
                Target::AsWritten | Target::Nothing => said,
            }
        }
        Made::Part => "part of another's rewrite".into(),
        Made::Unknown(bytes) => {
            let bytes: Vec<String> = bytes.iter().map(|byte| format!("{byte:02x}")).collect();
            format!("not recognised: {}", bytes.join(" "))
        }
        Made::Nowhere => "not in the file".into(),
    }
}

fn as_json(line: &Line, made: &Made) -> Value {
    match made {
        Made::Chosen { rewrite, relocation, is_through_got, target } => {
            let (target, known) = match target {
                Target::AsWritten => (Some(line.symbol.as_str()), None),
                Target::Other(to) => (Some(to.as_str()), None),
                Target::Bits(bits) => (None, Some(bits.as_str())),
                Target::Nothing => (None, None),
            };
            json!({
                "rewrite": rewrite, "relocation": name(line.architecture, *relocation),
                "through_got": is_through_got, "target": target, "known": known,
            })
        }
        _ => json!({ "other": said(line, made) }),
    }
}

pub fn line_as_json(line: &Line) -> Value {
    json!({
        "object": line.object, "place": line.place, "symbol": line.symbol,
        "relocation": name(line.architecture, line.relocation), "same": line.is_same(),
        "addresses": line.addresses,
        "a": as_json(line, &line.made[0]), "b": as_json(line, &line.made[1]),
    })
}

pub fn counts_as_json(counts: &Counts) -> Value {
    json!({
        "relocations": counts.relocations, "different": counts.different,
        "not_located": counts.nowhere,
    })
}

/// `PLACE  RELOCATION SYMBOL`, without what was made of it.
pub fn head(line: &Line) -> String {
    let relocation = name(line.architecture, line.relocation);
    printable(&format!("{}: {}  {relocation} {}", line.object, line.place, line.symbol))
}
