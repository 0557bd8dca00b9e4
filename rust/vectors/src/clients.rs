// SPDX-License-Identifier: MIT OR Apache-2.0
// Made by tools/generate of crates/vectors/src/clients.rt.
//! What a user of the library writes over it, proved from the public contracts of `linker_utils`
//! alone: no function here has a proof of its own.

use linker_utils::bit_misc::{BitExtraction, BitRange};
use linker_utils::elf::{InstructionForm, Ppc64Instruction};
use linker_utils::relaxation::{
    OutOfMemory, PackError, SectionRelaxDeltas, laws, pack_section, shrink_calls,
};
use linker_utils::riscv64::{CallError, jal_site, relax_call};

/// Makes the call at a site of a section a jump to another offset of the same section, from which
/// no byte is deleted.
pub fn jump_to(section: &mut [u8], site: u64, target: u64) -> Result<(), CallError> {
    jal_site(section, site, i64::from_le_bytes(target.wrapping_sub(site).to_le_bytes()))
}

/// Writes a number into an instruction and reads it back.
pub fn written_and_read<F: InstructionForm>(form: F, value: u64, insn: &mut [u8]) -> (u64, bool) {
    form.write(value, false, insn);
    form.read(insn)
}

/// The output offset and the size of what stands in a section at an offset, as a symbol has them.
pub fn moved_symbol(deltas: &SectionRelaxDeltas, offset: u64, size: u64) -> (u64, u64) {
    laws::output_offsets_never_decrease();
    let start = deltas.input_to_output_offset(offset);
    (start, deltas.input_to_output_offset(offset + size) - start)
}

/// Whether a relocation's field is still there, so that its value has to be written.
pub fn is_field_kept(deltas: &SectionRelaxDeltas, offset: u64, size: u64) -> bool {
    deltas.kept_output_offset(offset, size).is_some()
}

/// To the input section and back.
pub fn there_and_back(deltas: &SectionRelaxDeltas, output_offset: u64) -> Option<u64> {
    laws::in_after_out_returns();
    if !deltas.output_fits(output_offset) {
        return None;
    }
    let input = deltas.output_to_input_offset(output_offset);
    Some(deltas.input_to_output_offset(input))
}

/// How many bytes of a section of a length are left.
pub fn packed_len(deletions: &[(u64, u32)], len: u64) -> Result<u64, OutOfMemory> {
    let deltas = SectionRelaxDeltas::new(deletions)?;
    Ok(deltas.input_to_output_offset(len))
}

/// Deletes further bytes if they overlap none that are deleted.
pub fn delete(deltas: &mut SectionRelaxDeltas, offset: u64, bytes: u32) -> Result<bool, OutOfMemory> {
    let further = [(offset, bytes)];
    if !deltas.is_mergeable(&further) {
        return Ok(false);
    }
    deltas.merge_additional(&further)?;
    Ok(true)
}

/// The bytes of a section that stay, with one call made a jump.
pub fn pack_call(
    section: &[u8],
    deltas: &SectionRelaxDeltas,
    site: u64,
    target: u64,
) -> Result<Vec<u8>, PackError> {
    pack_section(section, deltas, &[(site, target)])
}

/// The jump at a site, made where the bytes still stand as in the input.
pub fn relaxed_distance(
    section: &mut [u8],
    deltas: &SectionRelaxDeltas,
    site: u64,
    target: u64,
) -> Result<(), CallError> {
    relax_call(section, deltas, site, target)
}

/// How many calls become jumps.
pub fn count_shrunk(
    deltas: &SectionRelaxDeltas,
    calls: &[(u64, u64)],
) -> Result<usize, OutOfMemory> {
    let chosen = shrink_calls(deltas, calls)?;
    Ok(chosen.iter().filter(|is_chosen| **is_chosen).count())
}

/// The high 20 and low 12 bits of a value, as LoongArch's absolute addresses have them.
pub fn halves(value: u64) -> (u64, u64) {
    (
        value.extract_bit_range(12..32),
        value.extract_bit_range(0..12),
    )
}

/// Which bits of a displacement a PowerPC64 instruction holds: a match of the forms of the original
/// crate needs no last arm.
pub fn displacement_bits(insn: Ppc64Instruction) -> BitRange {
    let (start, end) = match insn {
        Ppc64Instruction::D => (0, 16),
        Ppc64Instruction::Ds => (2, 16),
        Ppc64Instruction::Branch14 => (2, 16),
        Ppc64Instruction::Branch24 => (2, 26),
    };
    BitRange { start, end }
}
