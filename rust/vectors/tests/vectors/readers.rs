// SPDX-License-Identifier: MIT OR Apache-2.0
//! Words, masks, ULEB128 numbers and texts of a section, and their errors.

use linker_utils::utils::{Uleb128Error, write_uleb128};

// the numbers are those of DWARF 5, "Variable Length Data"
#[test]
fn writes_uleb128_in_as_many_bytes() {
    let mut dest = [0x80, 0x01, 9];
    assert_eq!(write_uleb128(&mut dest, 12857), Ok(()));
    assert_eq!(dest, [0xb9, 0x64, 9]);
    assert_eq!(write_uleb128(&mut dest, 127), Ok(()));
    assert_eq!(dest, [0xff, 0x00, 9]);
    let too_short = Err(Uleb128Error::DoesNotFit);
    assert_eq!(write_uleb128(&mut dest, 1 << 14), too_short);
    assert_eq!(dest, [0xff, 0x00, 9]);
    assert_eq!(write_uleb128(&mut dest[..1], 1), Err(Uleb128Error::Ended));
}
