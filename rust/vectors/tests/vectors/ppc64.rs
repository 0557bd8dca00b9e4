// SPDX-License-Identifier: MIT OR Apache-2.0
//! PowerPC64: words that LLVM 19.1.7's and GNU binutils 2.40's assemblers and linkers wrote, and
//! worked values.

mod choices;
pub(crate) mod linked;

use linker_utils::bit_misc::BitExtraction;
use linker_utils::elf::{
    AllowedRange, Bias, InstructionForm, InstructionRewrite, Ppc64Form, Ppc64Instruction,
    RelocationKind, RelocationKindInfo, RelocationSize,
};
use linker_utils::ppc64::{Ppc64Relocation, RewriteKind, relocation_type_from_raw, write_ha_lo};
use linker_utils::relaxation::RelocationModifier;

/// `addi` and other D-forms: the word before, the value, the word after, and the number that the
/// machine reads.
static D_WORDS: [(u32, u64, u32, i64); 71] = [
    (0x3864_0000, 0x924b, 0x3864_924b, -28085),
    (0x3864_0000, 0xc000, 0x3864_c000, -16384),
    (0x3864_0000, 0xefff, 0x3864_efff, -4097),
    (0x3864_0000, 0xfbff, 0x3864_fbff, -1025),
    (0x3864_0000, 0xff01, 0x3864_ff01, -255),
    (0x3864_0000, 0xffe0, 0x3864_ffe0, -32),
    (0x3864_0000, 0xfffb, 0x3864_fffb, -5),
    (0x3864_0000, 0x3, 0x3864_0003, 3),
    (0x3864_0000, 0x11, 0x3864_0011, 17),
    (0x3864_0000, 0x80, 0x3864_0080, 128),
    (0x3864_0000, 0x3ff, 0x3864_03ff, 1023),
    (0x3864_0000, 0x1001, 0x3864_1001, 4097),
    (0x3864_0000, 0x2ad0, 0x3864_2ad0, 10960),
    (0x3864_0000, 0x74b3, 0x3864_74b3, 29875),
    (0x3fe2_0000, 0x8001, 0x3fe2_8001, -32767),
    (0x3fe2_0000, 0xe000, 0x3fe2_e000, -8192),
    (0x3fe2_0000, 0xf801, 0x3fe2_f801, -2047),
    (0x3fe2_0000, 0xfeff, 0x3fe2_feff, -257),
    (0x3fe2_0000, 0xffc1, 0x3fe2_ffc1, -63),
    (0x3fe2_0000, 0xfff8, 0x3fe2_fff8, -8),
    (0x3fe2_0000, 0x1, 0x3fe2_0001, 1),
    (0x3fe2_0000, 0xf, 0x3fe2_000f, 15),
    (0x3fe2_0000, 0x41, 0x3fe2_0041, 65),
    (0x3fe2_0000, 0x200, 0x3fe2_0200, 512),
    (0x3fe2_0000, 0x801, 0x3fe2_0801, 2049),
    (0x3fe2_0000, 0x2000, 0x3fe2_2000, 8192),
    (0x3fe2_0000, 0x4000, 0x3fe2_4000, 16384),
    (0x3fe2_0000, 0x5f08, 0x3fe2_5f08, 24328),
    (0x3fe2_0000, 0xfffffffffffffffe, 0x3fe2_fffe, -2),
    (0x80be_0000, 0xae52, 0x80be_ae52, -20910),
    (0x80be_0000, 0xdfff, 0x80be_dfff, -8193),
    (0x80be_0000, 0xf800, 0x80be_f800, -2048),
    (0x80be_0000, 0xfeff, 0x80be_feff, -257),
    (0x80be_0000, 0xffc1, 0x80be_ffc1, -63),
    (0x80be_0000, 0xfff8, 0x80be_fff8, -8),
    (0x80be_0000, 0x1, 0x80be_0001, 1),
    (0x80be_0000, 0xf, 0x80be_000f, 15),
    (0x80be_0000, 0x41, 0x80be_0041, 65),
    (0x80be_0000, 0x200, 0x80be_0200, 512),
    (0x80be_0000, 0x801, 0x80be_0801, 2049),
    (0x80be_0000, 0x1f30, 0x80be_1f30, 7984),
    (0x80be_0000, 0x4000, 0x80be_4000, 16384),
    (0x80be_0000, 0xffffffffffffffff, 0x80be_ffff, -1),
    (0x9921_0000, 0xa928, 0x9921_a928, -22232),
    (0x9921_0000, 0xc771, 0x9921_c771, -14479),
    (0x9921_0000, 0xf001, 0x9921_f001, -4095),
    (0x9921_0000, 0xfe00, 0x9921_fe00, -512),
    (0x9921_0000, 0xff81, 0x9921_ff81, -127),
    (0x9921_0000, 0xfff0, 0x9921_fff0, -16),
    (0x9921_0000, 0xfffe, 0x9921_fffe, -2),
    (0x9921_0000, 0x7, 0x9921_0007, 7),
    (0x9921_0000, 0x21, 0x9921_0021, 33),
    (0x9921_0000, 0x100, 0x9921_0100, 256),
    (0x9921_0000, 0x7ff, 0x9921_07ff, 2047),
    (0x9921_0000, 0x1526, 0x9921_1526, 5414),
    (0x9921_0000, 0x4001, 0x9921_4001, 16385),
    (0x9921_0000, 0x7fff, 0x9921_7fff, 32767),
    (0xc867_0000, 0x9c75, 0xc867_9c75, -25483),
    (0xc867_0000, 0xdfff, 0xc867_dfff, -8193),
    (0xc867_0000, 0xf4f9, 0xc867_f4f9, -2823),
    (0xc867_0000, 0xfe00, 0xc867_fe00, -512),
    (0xc867_0000, 0xffbf, 0xc867_ffbf, -65),
    (0xc867_0000, 0xfff1, 0xc867_fff1, -15),
    (0xc867_0000, 0xffff, 0xc867_ffff, -1),
    (0xc867_0000, 0x8, 0xc867_0008, 8),
    (0xc867_0000, 0x3f, 0xc867_003f, 63),
    (0xc867_0000, 0x101, 0xc867_0101, 257),
    (0xc867_0000, 0x800, 0xc867_0800, 2048),
    (0xc867_0000, 0x2000, 0xc867_2000, 8192),
    (0xc867_0000, 0x4457, 0xc867_4457, 17495),
    (0xc867_0000, 0x7e0f, 0xc867_7e0f, 32271),
];

/// `ld` and other DS-forms: the word before, the value, the word after, and the number that the
/// machine reads.
static DS_WORDS: [(u32, u64, u32, i64); 50] = [
    (0xe864_0000, 0x9838, 0xe864_9838, -26568),
    (0xe864_0000, 0xc2b4, 0xe864_c2b4, -15692),
    (0xe864_0000, 0xe4ec, 0xe864_e4ec, -6932),
    (0xe864_0000, 0xfbfc, 0xe864_fbfc, -1028),
    (0xe864_0000, 0xff04, 0xe864_ff04, -252),
    (0xe864_0000, 0xffe0, 0xe864_ffe0, -32),
    (0xe864_0000, 0x4, 0xe864_0004, 4),
    (0xe864_0000, 0x3c, 0xe864_003c, 60),
    (0xe864_0000, 0x104, 0xe864_0104, 260),
    (0xe864_0000, 0x7fc, 0xe864_07fc, 2044),
    (0xe864_0000, 0x13b0, 0xe864_13b0, 5040),
    (0xe864_0000, 0x3ffc, 0xe864_3ffc, 16380),
    (0xfbe1_0000, 0x8000, 0xfbe1_8000, -32768),
    (0xfbe1_0000, 0xc004, 0xfbe1_c004, -16380),
    (0xfbe1_0000, 0xeffc, 0xfbe1_effc, -4100),
    (0xfbe1_0000, 0xf804, 0xfbe1_f804, -2044),
    (0xfbe1_0000, 0xfefc, 0xfbe1_fefc, -260),
    (0xfbe1_0000, 0xffc4, 0xfbe1_ffc4, -60),
    (0xfbe1_0000, 0xfffc, 0xfbe1_fffc, -4),
    (0xfbe1_0000, 0x20, 0xfbe1_0020, 32),
    (0xfbe1_0000, 0xfc, 0xfbe1_00fc, 252),
    (0xfbe1_0000, 0x400, 0xfbe1_0400, 1024),
    (0xfbe1_0000, 0x1728, 0xfbe1_1728, 5928),
    (0xfbe1_0000, 0x32f8, 0xfbe1_32f8, 13048),
    (0xfbe1_0000, 0x774c, 0xfbe1_774c, 30540),
    (0xe8a6_0002, 0x9ed8, 0xe8a6_9eda, -24872),
    (0xe8a6_0002, 0xd764, 0xe8a6_d766, -10396),
    (0xe8a6_0002, 0xf7fc, 0xe8a6_f7fe, -2052),
    (0xe8a6_0002, 0xfdfc, 0xe8a6_fdfe, -516),
    (0xe8a6_0002, 0xff80, 0xe8a6_ff82, -128),
    (0xe8a6_0002, 0xffe4, 0xe8a6_ffe6, -28),
    (0xe8a6_0002, 0x8, 0xe8a6_000a, 8),
    (0xe8a6_0002, 0x40, 0xe8a6_0042, 64),
    (0xe8a6_0002, 0x1fc, 0xe8a6_01fe, 508),
    (0xe8a6_0002, 0x804, 0xe8a6_0806, 2052),
    (0xe8a6_0002, 0x2004, 0xe8a6_2006, 8196),
    (0xe8a6_0002, 0x5eec, 0xe8a6_5eee, 24300),
    (0xf821_0001, 0x964c, 0xf821_964d, -27060),
    (0xf821_0001, 0xc000, 0xf821_c001, -16384),
    (0xf821_0001, 0xf000, 0xf821_f001, -4096),
    (0xf821_0001, 0xfc00, 0xf821_fc01, -1024),
    (0xf821_0001, 0xff7c, 0xf821_ff7d, -132),
    (0xf821_0001, 0xffe4, 0xf821_ffe5, -28),
    (0xf821_0001, 0x8, 0xf821_0009, 8),
    (0xf821_0001, 0x40, 0xf821_0041, 64),
    (0xf821_0001, 0x1fc, 0xf821_01fd, 508),
    (0xf821_0001, 0x800, 0xf821_0801, 2048),
    (0xf821_0001, 0x2000, 0xf821_2001, 8192),
    (0xf821_0001, 0x448c, 0xf821_448d, 17548),
    (0xf821_0001, 0x7ffc, 0xf821_7ffd, 32764),
];

/// `bc`: the word before, the value, the word after, and the number that the machine reads.
static BRANCH14_WORDS: [(u32, u64, u32, i64); 37] = [
    (0x4182_0000, 0x9e1c, 0x4182_9e1c, -25060),
    (0x4182_0000, 0xcbe0, 0x4182_cbe0, -13344),
    (0x4182_0000, 0xe730, 0x4182_e730, -6352),
    (0x4182_0000, 0xfbfc, 0x4182_fbfc, -1028),
    (0x4182_0000, 0xff00, 0x4182_ff00, -256),
    (0x4182_0000, 0xffdc, 0x4182_ffdc, -36),
    (0x4182_0000, 0x0, 0x4182_0000, 0),
    (0x4182_0000, 0x24, 0x4182_0024, 36),
    (0x4182_0000, 0x100, 0x4182_0100, 256),
    (0x4182_0000, 0x7fc, 0x4182_07fc, 2044),
    (0x4182_0000, 0x2000, 0x4182_2000, 8192),
    (0x4182_0000, 0x42f4, 0x4182_42f4, 17140),
    (0x409e_0000, 0x8000, 0x409e_8000, -32768),
    (0x409e_0000, 0xb00c, 0x409e_b00c, -20468),
    (0x409e_0000, 0xd6cc, 0x409e_d6cc, -10548),
    (0x409e_0000, 0xf004, 0x409e_f004, -4092),
    (0x409e_0000, 0xfe00, 0x409e_fe00, -512),
    (0x409e_0000, 0xffbc, 0x409e_ffbc, -68),
    (0x409e_0000, 0xfff4, 0x409e_fff4, -12),
    (0x409e_0000, 0x14, 0x409e_0014, 20),
    (0x409e_0000, 0x80, 0x409e_0080, 128),
    (0x409e_0000, 0x3fc, 0x409e_03fc, 1020),
    (0x409e_0000, 0x1000, 0x409e_1000, 4096),
    (0x409e_0000, 0x4004, 0x409e_4004, 16388),
    (0x409e_0000, 0x720c, 0x409e_720c, 29196),
    (0x429f_0001, 0xab58, 0x429f_ab59, -21672),
    (0x429f_0001, 0xdffc, 0x429f_dffd, -8196),
    (0x429f_0001, 0xf800, 0x429f_f801, -2048),
    (0x429f_0001, 0xfefc, 0x429f_fefd, -260),
    (0x429f_0001, 0xffc4, 0x429f_ffc5, -60),
    (0x429f_0001, 0xfffc, 0x429f_fffd, -4),
    (0x429f_0001, 0x20, 0x429f_0021, 32),
    (0x429f_0001, 0x9c, 0x429f_009d, 156),
    (0x429f_0001, 0x3fc, 0x429f_03fd, 1020),
    (0x429f_0001, 0x1000, 0x429f_1001, 4096),
    (0x429f_0001, 0x29cc, 0x429f_29cd, 10700),
    (0x429f_0001, 0x60f0, 0x429f_60f1, 24816),
];

/// `b` and `bl`: the word before, the value, the word after, and the number that the machine reads.
static BRANCH24_WORDS: [(u32, u64, u32, i64); 40] = [
    (0x4800_0000, 0x2ab9dfc, 0x4aab_9dfc, -22307332),
    (0x4800_0000, 0x37ffffc, 0x4b7f_fffc, -8388612),
    (0x4800_0000, 0x3c00004, 0x4bc0_0004, -4194300),
    (0x4800_0000, 0x3effffc, 0x4bef_fffc, -1048580),
    (0x4800_0000, 0x3fc0004, 0x4bfc_0004, -262140),
    (0x4800_0000, 0x3ff8000, 0x4bff_8000, -32768),
    (0x4800_0000, 0x3ffeffc, 0x4bff_effc, -4100),
    (0x4800_0000, 0x3fffc04, 0x4bff_fc04, -1020),
    (0x4800_0000, 0x3ffff80, 0x4bff_ff80, -128),
    (0x4800_0000, 0x3ffffec, 0x4bff_ffec, -20),
    (0x4800_0000, 0xc, 0x4800_000c, 12),
    (0x4800_0000, 0x44, 0x4800_0044, 68),
    (0x4800_0000, 0x200, 0x4800_0200, 512),
    (0x4800_0000, 0xffc, 0x4800_0ffc, 4092),
    (0x4800_0000, 0x4004, 0x4800_4004, 16388),
    (0x4800_0000, 0x20000, 0x4802_0000, 131072),
    (0x4800_0000, 0xffffc, 0x480f_fffc, 1048572),
    (0x4800_0000, 0x400000, 0x4840_0000, 4194304),
    (0x4800_0000, 0xfffffc, 0x48ff_fffc, 16777212),
    (0x4800_0000, 0x173cde4, 0x4973_cde4, 24366564),
    (0x4800_0001, 0x2fffffc, 0x4aff_fffd, -16777220),
    (0x4800_0001, 0x3812ad4, 0x4b81_2ad5, -8312108),
    (0x4800_0001, 0x3c2df44, 0x4bc2_df45, -4006076),
    (0x4800_0001, 0x3f00000, 0x4bf0_0001, -1048576),
    (0x4800_0001, 0x3fdfffc, 0x4bfd_fffd, -131076),
    (0x4800_0001, 0x3ff8000, 0x4bff_8001, -32768),
    (0x4800_0001, 0x3ffeffc, 0x4bff_effd, -4100),
    (0x4800_0001, 0x3fffc04, 0x4bff_fc05, -1020),
    (0x4800_0001, 0x3ffff80, 0x4bff_ff81, -128),
    (0x4800_0001, 0x3ffffec, 0x4bff_ffed, -20),
    (0x4800_0001, 0xc, 0x4800_000d, 12),
    (0x4800_0001, 0x44, 0x4800_0045, 68),
    (0x4800_0001, 0x200, 0x4800_0201, 512),
    (0x4800_0001, 0xffc, 0x4800_0ffd, 4092),
    (0x4800_0001, 0x4004, 0x4800_4005, 16388),
    (0x4800_0001, 0x20000, 0x4802_0001, 131072),
    (0x4800_0001, 0xffffc, 0x480f_fffd, 1048572),
    (0x4800_0001, 0x223bfc, 0x4822_3bfd, 2243580),
    (0x4800_0001, 0xef1284, 0x48ef_1285, 15667844),
    (0x4800_0001, 0x19a2544, 0x499a_2545, 26879300),
];

/// `addis` and `addi`: both words before, the value, and both words after.
static ADDI_PAIRS: [(u32, u32, u64, u32, u32); 30] = [
    (0x3c60_0000, 0x3863_0000, 0x7fff7ffe, 0x3c60_7fff, 0x3863_7ffe),
    (0x3c60_0000, 0x3863_0000, 0xfffffffffffffffb, 0x3c60_0000, 0x3863_fffb),
    (0x3c60_0000, 0x3863_0000, 0x9, 0x3c60_0000, 0x3863_0009),
    (0x3c60_0000, 0x3863_0000, 0x1f, 0x3c60_0000, 0x3863_001f),
    (0x3c60_0000, 0x3863_0000, 0x40, 0x3c60_0000, 0x3863_0040),
    (0x3c60_0000, 0x3863_0000, 0x81, 0x3c60_0000, 0x3863_0081),
    (0x3c60_0000, 0x3863_0000, 0x1ff, 0x3c60_0000, 0x3863_01ff),
    (0x3c60_0000, 0x3863_0000, 0x400, 0x3c60_0000, 0x3863_0400),
    (0x3c60_0000, 0x3863_0000, 0x801, 0x3c60_0000, 0x3863_0801),
    (0x3c60_0000, 0x3863_0000, 0x1fff, 0x3c60_0000, 0x3863_1fff),
    (0x3c60_0000, 0x3863_0000, 0x4000, 0x3c60_0000, 0x3863_4000),
    (0x3c60_0000, 0x3863_0000, 0x8001, 0x3c60_0001, 0x3863_8001),
    (0x3c60_0000, 0x3863_0000, 0x1ffff, 0x3c60_0002, 0x3863_ffff),
    (0x3c60_0000, 0x3863_0000, 0x40000, 0x3c60_0004, 0x3863_0000),
    (0x3c60_0000, 0x3863_0000, 0x80001, 0x3c60_0008, 0x3863_0001),
    (0x3c60_0000, 0x3863_0000, 0x1fffff, 0x3c60_0020, 0x3863_ffff),
    (0x3c60_0000, 0x3863_0000, 0x400000, 0x3c60_0040, 0x3863_0000),
    (0x3c60_0000, 0x3863_0000, 0x800001, 0x3c60_0080, 0x3863_0001),
    (0x3c60_0000, 0x3863_0000, 0x1ffffff, 0x3c60_0200, 0x3863_ffff),
    (0x3c60_0000, 0x3863_0000, 0x4000000, 0x3c60_0400, 0x3863_0000),
    (0x3c60_0000, 0x3863_0000, 0x8000001, 0x3c60_0800, 0x3863_0001),
    (0x3c60_0000, 0x3863_0000, 0x1fffffff, 0x3c60_2000, 0x3863_ffff),
    (0x3c60_0000, 0x3863_0000, 0x40000000, 0x3c60_4000, 0x3863_0000),
    (0x3c60_0000, 0x3863_0000, 0x1800, 0x3c60_0000, 0x3863_1800),
    (0x3c60_0000, 0x3863_0000, 0x1fffe, 0x3c60_0002, 0x3863_fffe),
    (0x3c60_0000, 0x3863_0000, 0xffffffff85203541, 0x3c60_8520, 0x3863_3541),
    (0x3c60_0000, 0x3863_0000, 0x1a50598b, 0x3c60_1a50, 0x3863_598b),
    (0x3c60_0000, 0x3863_0000, 0xffffffffadfbc4b7, 0x3c60_adfc, 0x3863_c4b7),
    (0x3c60_0000, 0x3863_0000, 0x15d7f036, 0x3c60_15d8, 0x3863_f036),
    (0x3c60_0000, 0x3863_0000, 0xffffffff8cbfb939, 0x3c60_8cc0, 0x3863_b939),
];

/// `addis` and `ld`: both words before, the value, and both words after.
static LD_PAIRS: [(u32, u32, u64, u32, u32); 27] = [
    (0x3c60_0000, 0xe863_0000, 0x7fff7ff8, 0x3c60_7fff, 0xe863_7ff8),
    (0x3c60_0000, 0xe863_0000, 0xffffffffffffffec, 0x3c60_0000, 0xe863_ffec),
    (0x3c60_0000, 0xe863_0000, 0x24, 0x3c60_0000, 0xe863_0024),
    (0x3c60_0000, 0xe863_0000, 0x7c, 0x3c60_0000, 0xe863_007c),
    (0x3c60_0000, 0xe863_0000, 0x100, 0x3c60_0000, 0xe863_0100),
    (0x3c60_0000, 0xe863_0000, 0x204, 0x3c60_0000, 0xe863_0204),
    (0x3c60_0000, 0xe863_0000, 0x7fc, 0x3c60_0000, 0xe863_07fc),
    (0x3c60_0000, 0xe863_0000, 0x1000, 0x3c60_0000, 0xe863_1000),
    (0x3c60_0000, 0xe863_0000, 0x2004, 0x3c60_0000, 0xe863_2004),
    (0x3c60_0000, 0xe863_0000, 0x7ffc, 0x3c60_0000, 0xe863_7ffc),
    (0x3c60_0000, 0xe863_0000, 0x10000, 0x3c60_0001, 0xe863_0000),
    (0x3c60_0000, 0xe863_0000, 0x20004, 0x3c60_0002, 0xe863_0004),
    (0x3c60_0000, 0xe863_0000, 0x7fffc, 0x3c60_0008, 0xe863_fffc),
    (0x3c60_0000, 0xe863_0000, 0x100000, 0x3c60_0010, 0xe863_0000),
    (0x3c60_0000, 0xe863_0000, 0x200004, 0x3c60_0020, 0xe863_0004),
    (0x3c60_0000, 0xe863_0000, 0x7ffffc, 0x3c60_0080, 0xe863_fffc),
    (0x3c60_0000, 0xe863_0000, 0x1000000, 0x3c60_0100, 0xe863_0000),
    (0x3c60_0000, 0xe863_0000, 0x2000004, 0x3c60_0200, 0xe863_0004),
    (0x3c60_0000, 0xe863_0000, 0x7fffffc, 0x3c60_0800, 0xe863_fffc),
    (0x3c60_0000, 0xe863_0000, 0x10000000, 0x3c60_1000, 0xe863_0000),
    (0x3c60_0000, 0xe863_0000, 0x20000004, 0x3c60_2000, 0xe863_0004),
    (0x3c60_0000, 0xe863_0000, 0x1800, 0x3c60_0000, 0xe863_1800),
    (0x3c60_0000, 0xe863_0000, 0xd216470, 0x3c60_0d21, 0xe863_6470),
    (0x3c60_0000, 0xe863_0000, 0xffffffffe48f5ac4, 0x3c60_e48f, 0xe863_5ac4),
    (0x3c60_0000, 0xe863_0000, 0x5d888d80, 0x3c60_5d89, 0xe863_8d80),
    (0x3c60_0000, 0xe863_0000, 0xfffffffff4e1e8f4, 0x3c60_f4e2, 0xe863_e8f4),
    (0x3c60_0000, 0xe863_0000, 0xffffffff90ae5e6c, 0x3c60_90ae, 0xe863_5e6c),
];

// The words are in windows of 8 bytes, which is room for each form.
fn written(form: impl InstructionForm, value: u64, word: u32) -> u32 {
    let mut bytes = u64::from(word).to_le_bytes();
    form.write(value, false, &mut bytes);
    u32::from_le_bytes([bytes[0], bytes[1], bytes[2], bytes[3]])
}

fn machine_number(insn: Ppc64Instruction, word: u32) -> i64 {
    let bits = if insn == Ppc64Instruction::Branch24 { 26 } else { 16 };
    insn.read_value(&u64::from(word).to_le_bytes()).0.low_bits_signed(bits) as i64
}

fn pair_written(ha: u32, lo: u32, value: u64) -> (u32, u32) {
    let mut high = ha.to_le_bytes();
    let mut low = lo.to_le_bytes();
    write_ha_lo(&mut high, &mut low, value);
    (u32::from_le_bytes(high), u32::from_le_bytes(low))
}

#[test]
fn d_words_match_assemblers() {
    for &(before, value, after, machine) in &D_WORDS {
        assert_eq!(written(Ppc64Instruction::D, value, before), after, "{value:?}");
        assert!(!Ppc64Instruction::D.read_value(&after.to_le_bytes()).1, "{value}");
        assert_eq!(machine_number(Ppc64Instruction::D, after), machine, "{value:?}");
    }
}

/// `ori 3,3,VALUE` and `oris 3,3,VALUE` by llvm-mc 19.
#[test]
fn unsigned_words_match_assemblers() {
    for (before, value, after) in [
        (0x6063_0000, 0, 0x6063_0000),
        (0x6063_0000, 0x7fff, 0x6063_7fff),
        (0x6063_0000, 0x8000, 0x6063_8000),
        (0x6463_0000, 0xffff, 0x6463_ffff),
    ] {
        assert_eq!(written(Ppc64Form::DUnsigned, value, before), after, "{value:?}");
        let read = Ppc64Form::DUnsigned.read_value(&after.to_le_bytes());
        assert_eq!(read, (value, false));
    }
}

#[test]
fn ds_words_match_assemblers() {
    for &(before, value, after, machine) in &DS_WORDS {
        assert_eq!(written(Ppc64Instruction::Ds, value, before), after, "{value:?}");
        assert!(!Ppc64Instruction::Ds.read_value(&after.to_le_bytes()).1, "{value}");
        assert_eq!(machine_number(Ppc64Instruction::Ds, after), machine, "{value:?}");
    }
}

#[test]
fn branch14_words_match_assemblers() {
    for &(before, value, after, machine) in &BRANCH14_WORDS {
        assert_eq!(written(Ppc64Instruction::Branch14, value, before), after, "{value:?}");
        assert!(!Ppc64Instruction::Branch14.read_value(&after.to_le_bytes()).1, "{value}");
        assert_eq!(machine_number(Ppc64Instruction::Branch14, after), machine, "{value:?}");
    }
}

#[test]
fn branch24_words_match_assemblers() {
    for &(before, value, after, machine) in &BRANCH24_WORDS {
        assert_eq!(written(Ppc64Instruction::Branch24, value, before), after, "{value:?}");
        assert!(!Ppc64Instruction::Branch24.read_value(&after.to_le_bytes()).1, "{value}");
        assert_eq!(machine_number(Ppc64Instruction::Branch24, after), machine, "{value:?}");
    }
}

#[test]
fn ha_lo_pairs_match_linkers() {
    for &(ha, lo, value, high, low) in &ADDI_PAIRS {
        assert_eq!(pair_written(ha, lo, value), (high, low), "{value:?}");
    }
}

#[test]
fn ha_lo_ds_pairs_match_linkers() {
    for &(ha, lo, value, high, low) in &LD_PAIRS {
        let adjusted = value.wrapping_add(0x8000).extract_bit_range(16..32);
        assert_eq!(written(Ppc64Instruction::D, adjusted, ha), high, "{value:?}");
        assert_eq!(written(Ppc64Instruction::Ds, value.low_bits(16), lo), low, "{value:?}");
    }
}

#[test]
fn no_ops_change_nothing() {
    let mut section = [1, 2, 3, 4];
    let mut offset = u64::MAX;
    let mut addend = 7;
    RewriteKind::NoOp.apply(&mut section, &mut offset, &mut addend);
    assert_eq!(section, [1, 2, 3, 4]);
    assert_eq!((offset, addend), (u64::MAX, 7));
    assert!(RewriteKind::NoOp.can_apply(&[], u64::MAX));
    assert_eq!(RewriteKind::NoOp.next_modifier(), RelocationModifier::Normal);
}

fn info(
    kind: RelocationKind,
    size: RelocationSize,
    range: AllowedRange,
    alignment: u64,
    bias: u64,
) -> Option<RelocationKindInfo> {
    Some(RelocationKindInfo {
        kind,
        size,
        mask: None,
        range,
        alignment,
        bias: Bias::from_value(bias),
        thunkable: false,
        implicit_addend: false,
    })
}

#[test]
fn relocations_have_their_meaning() {
    let word = RelocationSize::ByteSize(4);
    let branch = RelocationSize::bit_mask_ppc64(0, 26, Ppc64Instruction::Branch24);
    let high = RelocationSize::bit_mask_ppc64(16, 32, Ppc64Instruction::D);
    let mixed = AllowedRange::new(-2147483648, 4294967296);
    let distances = AllowedRange::new(-33554432, 33554432);
    let all = AllowedRange::no_check();
    for (name, meaning) in [
        (Ppc64Relocation::R_PPC64_ADDR32, info(RelocationKind::Absolute, word, mixed, 1, 0)),
        (Ppc64Relocation::R_PPC64_REL24, info(RelocationKind::Relative, branch, distances, 4, 0)),
        (Ppc64Relocation::R_PPC64_TPREL16_HA, info(RelocationKind::TpOff, high, all, 1, 0x8000)),
        (Ppc64Relocation::R_PPC64_NONE, None),
        (Ppc64Relocation::R_PPC64_TOC16, None),
        (Ppc64Relocation::R_PPC64_GOT_PCREL34, None),
        (Ppc64Relocation::Other(9), None),
    ] {
        assert_eq!(relocation_type_from_raw(name), meaning, "{name:?}");
    }
}
