// SPDX-License-Identifier: MIT OR Apache-2.0
//! Calls that become jumps, worked by hand from the RISC-V unprivileged ISA's `jal`.

use linker_utils::riscv64::{CallError, JumpError, LinkRegister, jal_site_with};
use linker_utils::utils::u32_from_slice;

/// `auipc ra, 0` and `jalr ra, 0(ra)`, and `nop`.
const CALL: [u8; 12] = [0x97, 0x00, 0x00, 0x00, 0xe7, 0x80, 0x00, 0x00, 0x13, 0x00, 0x00, 0x00];

/// `tail f` and `call t0, f`: `auipc t1, 0`, and `jalr` with the base t1 and the destination x0 or
/// t0.
const TAIL: [u8; 8] = [0x17, 0x03, 0x00, 0x00, 0x67, 0x00, 0x03, 0x00];

const CALL_T0: [u8; 8] = [0x17, 0x03, 0x00, 0x00, 0xe7, 0x02, 0x03, 0x00];

#[test]
fn a_jump_links_the_register_that_gnu_ld_takes() {
    let plain = [CALL[0], CALL[1], CALL[2], CALL[3], CALL[4], CALL[5], CALL[6], CALL[7]];
    for (call, distance, word) in
        [(TAIL, 8194, 0x0020_206f), (CALL_T0, 4098, 0x0020_12ef), (plain, 8, 0x0080_00ef)]
    {
        let mut section = call;
        assert_eq!(
            jal_site_with(&mut section, 0, distance, LinkRegister::OfJalr),
            Ok(()),
            "{call:?}"
        );
        assert_eq!(u32_from_slice(&section), word, "{call:?}");
        assert_eq!(&section[4..], &call[4..], "{call:?}");
    }
    let mut section = TAIL;
    let auipc = LinkRegister::OfAuipc;
    assert_eq!(jal_site_with(&mut section, 0, 8194, auipc), Ok(()));
    assert_eq!(u32_from_slice(&section), 0x0020_236f);
}

#[test]
fn only_a_call_has_a_jalr() {
    // `jalr` from another base, and with 1 in its bits 12 to 14; two of `auipc`; two of `jalr`.
    let rows = [
        [0x17, 0x03, 0x00, 0x00, 0x67, 0x80, 0x03, 0x00],
        [0x17, 0x03, 0x00, 0x00, 0x67, 0x10, 0x03, 0x00],
        [0x17, 0x03, 0x00, 0x00, 0x17, 0x03, 0x03, 0x00],
        [0x67, 0x03, 0x03, 0x00, 0x67, 0x00, 0x03, 0x00],
    ];
    for row in rows {
        let mut section = row;
        let result = jal_site_with(&mut section, 0, 1_048_577, LinkRegister::OfJalr);
        assert_eq!(result, Err(JumpError::NotACall), "{row:?}");
        assert_eq!(section, row, "{row:?}");
    }
    let rows = [
        (1, 8, CallError::OutOfSection),
        (u64::MAX, 8, CallError::OutOfSection),
        (0, 7, CallError::OddDistance),
        (0, 1_048_576, CallError::TooFar),
    ];
    for (site, distance, error) in rows {
        let mut section = TAIL;
        let result = jal_site_with(&mut section, site, distance, LinkRegister::OfJalr);
        assert_eq!(result, Err(JumpError::Call(error)), "{site:?}, {distance:?}");
        assert_eq!(section, TAIL, "{site:?}, {distance:?}");
    }
}
