// SPDX-License-Identifier: MIT OR Apache-2.0
//! Sections that are packed, worked by hand: the kept bytes in order, and `jal` by the RISC-V
//! unprivileged ISA.

use linker_utils::relaxation::{
    RejectedCall, SectionRelaxDeltas, calls_apart, pack_into, packed_len,
};
use linker_utils::riscv64::{CallError, JumpError, LinkRegister};

/// `auipc ra, 0` and `jalr ra, 0(ra)`, twice, and `nop`.
const TWO_CALLS: [u8; 20] = [
    0x97, 0x00, 0x00, 0x00, 0xe7, 0x80, 0x00, 0x00, 0x97, 0x00, 0x00, 0x00, 0xe7, 0x80, 0x00, 0x00,
    0x13, 0x00, 0x00, 0x00,
];

/// `auipc t1, 0` and `jalr zero, 0(t1)`, which is `tail`, and `nop`.
const TAIL: [u8; 12] = [0x17, 0x03, 0x00, 0x00, 0x67, 0x00, 0x03, 0x00, 0x13, 0x00, 0x00, 0x00];

#[test]
fn packed_jumps_link_the_register_that_is_chosen() {
    let deletions = [(4, 4)];
    assert!(SectionRelaxDeltas::is_valid(&deletions));
    let listed = SectionRelaxDeltas::new(&deletions).unwrap();
    let deltas = listed.deltas();
    let calls = [(0u64, 8u64)];
    assert!(calls_apart(&calls));
    for (link, jal) in [
        (LinkRegister::OfJalr, [0x6f, 0x00, 0x40, 0x00]),
        (LinkRegister::OfAuipc, [0x6f, 0x03, 0x40, 0x00]),
    ] {
        let mut out = [0; 8];
        assert_eq!(packed_len(&TAIL, deltas), out.len());
        let packed = pack_into(&TAIL, deltas, &calls, link, &mut out);
        assert_eq!(packed, Ok(()), "{link:?}");
        assert_eq!(&out[..4], jal, "{link:?}");
        assert_eq!(&out[4..], &TAIL[8..], "{link:?}");
    }
}

#[test]
fn rejected_calls_leave_the_output() {
    let deletions = [(4, 4)];
    assert!(SectionRelaxDeltas::is_valid(&deletions));
    let listed = SectionRelaxDeltas::new(&deletions).unwrap();
    let deltas = listed.deltas();
    // Of the second call only `nop` lies in the section.
    for (calls, index, error) in [
        ([(0u64, 8u64), (8, 0)], 1, JumpError::Call(CallError::OutOfSection)),
        ([(0, 9), (8, 0)], 0, JumpError::Call(CallError::OddDistance)),
    ] {
        let mut out = [0xaa; 8];
        assert!(calls_apart(&calls));
        assert_eq!(packed_len(&TAIL, deltas), out.len());
        let packed = pack_into(&TAIL, deltas, &calls, LinkRegister::OfJalr, &mut out);
        assert_eq!(packed, Err(RejectedCall { index, error }), "{index:?}");
        assert_eq!(out, [0xaa; 8], "{index:?}");
    }
    let mut out = [0xaa; 16];
    let calls = [(8u64, 16u64)];
    assert!(calls_apart(&calls));
    assert_eq!(packed_len(&TWO_CALLS, deltas), out.len());
    let packed = pack_into(&TWO_CALLS, deltas, &calls, LinkRegister::OfJalr, &mut out);
    assert_eq!(packed, Ok(()));
    let calls = [(12u64, 16u64)];
    assert!(calls_apart(&calls));
    let packed = pack_into(&TWO_CALLS, deltas, &calls, LinkRegister::OfJalr, &mut out);
    assert_eq!(packed, Err(RejectedCall { index: 0, error: JumpError::NotACall }));
}
